//! Runs the C driver over requests and holds its answers to those expected.

use crate::exchange::{expected, kind};
use crate::fault::{self, Fault};
use crate::shrink::request::Request;
use crate::shrink::{shrink, Bound};
use crate::tell;
use std::collections::BTreeMap;
use std::io::{BufReader, BufWriter, Read, Write};
use std::path::Path;
use std::process::{Command, Stdio};

/// Makes the same requests each time it is called.
pub type Source = Box<dyn Fn() -> Box<dyn Iterator<Item = Vec<u8>>> + Send + Sync>;

/// Gives `each` every request with the driver's answer, in order; an empty answer where there is none, and then no more.
fn ask(driver: &[String], source: Source, mut each: impl FnMut(Vec<u8>, Vec<u8>)) -> Result<(), String> {
    let (program, words) = driver.split_first().ok_or("no driver was named")?;
    let start = Command::new(program).args(words).stdin(Stdio::piped()).stdout(Stdio::piped()).spawn();
    let mut child = start.map_err(|e| format!("the driver did not start: {}", e))?;
    let to = BufWriter::with_capacity(1 << 16, child.stdin.take().expect("standard input is a pipe"));
    let mut from = BufReader::with_capacity(1 << 16, child.stdout.take().expect("standard output is a pipe"));
    let requests = source();
    let writer = std::thread::spawn(move || send(to, source()));
    for (number, request) in requests.enumerate() {
        let answer = receive(&mut from);
        let lost = answer.is_err();
        each(request, answer.unwrap_or_default());
        if lost {
            return Err(format!("the driver gave no answer to request {}", number));
        }
    }
    writer.join().expect("the writer ends").map_err(|e| format!("the driver did not read: {}", e))?;
    let ended = child.wait().map_err(|e| e.to_string())?;
    ended.success().then_some(()).ok_or(format!("the driver ended with {}", ended))
}

fn send(mut to: impl Write, requests: impl Iterator<Item = Vec<u8>>) -> std::io::Result<()> {
    for request in requests {
        to.write_all(&(request.len() as u32).to_be_bytes())?;
        to.write_all(&request)?;
    }
    to.flush()
}

fn receive(from: &mut impl Read) -> std::io::Result<Vec<u8>> {
    let mut length = [0; 4];
    from.read_exact(&mut length)?;
    let mut answer = vec![0; u32::from_be_bytes(length) as usize];
    from.read_exact(&mut answer)?;
    Ok(answer)
}

/// What a comparison met.
#[derive(Default)]
pub struct Report {
    pub requests: usize,
    pub different: usize,
    pub kinds: BTreeMap<String, usize>,
}

/// Compares every answer. The first request that is answered in another way is made smaller, printed and stored as a test.
pub fn compare(driver: &[String], source: Source, name: &str, store: Option<&Path>) -> Result<Report, String> {
    let mut report = Report::default();
    let mut first = None;
    let asked = ask(driver, source, |request, answer| {
        let want = expected(&request);
        *report.kinds.entry(kind(&request, &want)).or_default() += 1;
        if answer != want {
            report.different += 1;
            first.get_or_insert((report.requests, request));
        }
        report.requests += 1;
    });
    if let Some((number, request)) = first {
        tell(driver, &request, &format!("{}-{}", name, number), store);
    }
    asked.map(|()| report)
}

/// The most calls of the driver for making a request smaller, and the most requests in one.
const BOUND: Bound = Bound { calls: 300, cases: 200 };

fn tell(driver: &[String], request: &[u8], name: &str, store: Option<&Path>) {
    let mut ask = |all: &[Request]| first_different(driver, all.iter().map(Request::bytes).collect()).map(|(number, _)| number);
    let (least, calls) = shrink(Request::read(request), BOUND, &mut ask);
    let answer = first_different(driver, vec![least.bytes()]).map_or_else(Vec::new, |(_, answer)| answer);
    tell::request(name, &least.bytes(), &expected(&least.bytes()), &answer).print(calls, BOUND, store);
}

/// The first of some requests that is answered in another way, by its number, and that answer; an empty one where there was none.
fn first_different(driver: &[String], requests: Vec<Vec<u8>>) -> Option<(usize, Vec<u8>)> {
    let (mut first, mut number) = (None, 0);
    let source: Source = Box::new(move || Box::new(requests.clone().into_iter()));
    // a driver that gives no answer has given another one
    let _ = ask(driver, source, |request, answer| {
        if first.is_none() && answer != expected(&request) {
            first = Some((number, answer));
        }
        number += 1;
    });
    first
}

/// Answers requests as the driver is to.
pub fn serve(mut from: impl Read, to: impl Write) -> std::io::Result<()> {
    let mut requests = Vec::new();
    while let Ok(request) = receive(&mut from) {
        requests.push(request);
    }
    send(to, requests.iter().map(|request| expected(request)))
}

/// How many answers each fault makes different from the C functions'.
pub fn try_faults(driver: &[String], source: Source, faults: &[(Fault, &str)]) -> Result<Vec<usize>, String> {
    let mut different = vec![0; faults.len()];
    ask(driver, source, |request, answer| {
        for (count, &(fault, _)) in different.iter_mut().zip(faults) {
            *count += usize::from(fault::with(fault, || expected(&request)) != answer);
        }
    })?;
    Ok(different)
}
