//! What is printed of a case on which two programs differ, once it is made smaller: as texts that `./soad` reads where there are such
//! texts, else in hex; then what both answer.

use crate::bytes::hex;
use crate::exchange::words;
use crate::script::image_end;
use crate::shrink::recording::Recording;
use crate::shrink::request::Request;
use crate::shrink::script::{Piece, Script};
use crate::shrink::tally::Tally;
use crate::shrink::Bound;
use crate::table::check;
use crate::takes::Case;
use crate::{stored, text};
use std::path::Path;

/// A smaller case: its name, what it is, line by line, its bytes as a test, and the lines of both programs.
pub struct Told {
    pub name: String,
    pub size: String,
    pub case: Vec<String>,
    pub stored: Vec<u8>,
    pub got: Vec<String>,
    pub want: Vec<String>,
}

fn count(number: usize, what: &str) -> String {
    format!("{} {}{}", number, what, if number == 1 { "" } else { "s" })
}

fn entries(number: usize) -> String {
    format!("{} {}", number, if number == 1 { "entry" } else { "entries" })
}

/// A table in its text, or the bytes of an image that has none.
fn table_lines(image: &[u8]) -> Vec<String> {
    match check(image) {
        Ok(table) if table.image() == image => {
            let rows = text::table(&table);
            let none = if rows.is_empty() { vec!["# no rows".to_string()] } else { vec![] };
            [vec!["# table, for ./soad table to-image".to_string()], none, rows].concat()
        }
        _ => vec![format!("# table image in hex, {} bytes", image.len()), hex(image)],
    }
}

fn script_lines(script: &Script) -> Vec<String> {
    let piece = |piece: &Piece| match piece {
        Piece::Entry(entry) => text::entry(entry),
        Piece::Other(bytes) => {
            vec![format!("# then, in hex, {} bytes that are no entry", bytes.len()), format!("# {}", hex(bytes))]
        }
    };
    let front = vec!["# script, for ./soad script to-bytes".to_string()];
    front.into_iter().chain(script.entries.iter().flat_map(piece)).collect()
}

/// A script and what both programs print.
pub fn script(name: &str, input: &[u8], want: Vec<String>, got: Vec<String>) -> Told {
    let script = Script::read(input);
    let rows: usize = script.image.counts().iter().sum();
    let size = format!("{}, {}, {} bytes", entries(script.entries.len()), count(rows, "table row"), input.len());
    let case = [table_lines(&script.image.bytes()), script_lines(&script)].concat();
    Told { name: name.into(), size, case, stored: input.to_vec(), got, want }
}

/// A recording and what both programs print.
pub fn recording(name: &str, input: &[u8], want: Vec<String>, got: Vec<String>) -> Told {
    let (image, bytes) = input.split_at(image_end(input));
    let recording = Recording::read(input);
    let rows: usize = recording.image.counts().iter().sum();
    let size = format!("{}, {}, {} bytes", entries(recording.entries.len()), count(rows, "table row"), input.len());
    let front = vec![format!("# recording in hex, {}, for ./soad replay", count(bytes.len(), "byte")), text::bytes(bytes)];
    Told { name: name.into(), size, case: [table_lines(image), front].concat(), stored: input.to_vec(), got, want }
}

/// Parts of a tally and what both programs print.
pub fn tally(name: &str, tally: &Tally, want: Vec<String>, got: Vec<String>) -> Told {
    let input = tally.bytes();
    let (image, bytes) = input.split_at(image_end(&input));
    let (parts, number) = tally.size();
    let size = format!("{}, {}, {} bytes", count(parts, "part"), entries(number), input.len());
    let front = vec![format!("# parts in hex, {}, each behind its length", count(bytes.len(), "byte")), text::bytes(bytes)];
    Told { name: name.into(), size, case: [table_lines(image), front].concat(), stored: input.to_vec(), got, want }
}

/// A request and what the C function and the second program answer.
pub fn request(name: &str, request: &[u8], want: &[u8], got: &[u8]) -> Told {
    let read = Request::read(request);
    let image = read.image().map_or(vec![], |image| table_lines(&image.bytes()));
    let arguments = match &read {
        Request::TableCheck(_) => vec![],
        Request::Framing([id, room, fill], payload) => {
            vec![format!(
                "id 0x{:08x}, out buffer of {} bytes filled with {}, payload {}",
                id,
                room,
                fill,
                text::bytes(payload)
            )]
        }
        Request::Walk(_, [connection, switches, place], datagram) => {
            let datagram = text::bytes(datagram);
            vec![format!("connection {}, switches 0x{:08x}, place {}, datagram {}", connection, switches, place, datagram)]
        }
    };
    let stored = request[1..].to_vec();
    let (want, got) = (vec![words(request, want)], vec![words(request, got)]);
    Told { name: name.into(), size: format!("{} bytes", stored.len()), case: [image, arguments].concat(), stored, got, want }
}

/// A case of the program `test_takes` and what both programs print.
pub fn takes(name: &str, case: &Case, want: Vec<String>, got: Vec<String>) -> Told {
    let item = |item: &crate::takes::Item| {
        let line = format!("connection {}, switches 0x{:08x}", item.connection, item.switches);
        match item.segment {
            true => vec![format!("segment on {}: {}", line, text::bytes(&item.bytes))],
            false => [table_lines(&item.bytes), vec![format!("{} online", line)]].concat(),
        }
    };
    let stored = crate::takes::input(case);
    let segments = case.iter().filter(|item| item.segment).count();
    let size = format!("{}, {} bytes", count(segments, "segment"), stored.len());
    Told { name: name.into(), size, case: case.iter().flat_map(item).collect(), stored, got, want }
}

/// Both programs' lines: those that are the same once, the others one below the other.
fn side_by_side(want: &[String], got: &[String]) -> Vec<String> {
    let line = |of: &[String], at: usize| of.get(at).cloned().unwrap_or_else(|| "(no line)".into());
    let both = |at: usize| match (line(got, at), line(want, at)) {
        (one, other) if one == other => vec![format!("  {}", one)],
        (one, other) => vec![format!("< {}", one), format!("> {}", other)],
    };
    (0..want.len().max(got.len())).flat_map(both).collect()
}

impl Told {
    /// Prints the case, and stores it where a folder is named.
    pub fn print(&self, calls: usize, bound: Bound, store: Option<&Path>) {
        println!("different: {}", self.name);
        println!("  smallest found in {} of the program (at most {}): {}", count(calls, "call"), bound.calls, self.size);
        self.case.iter().for_each(|line| println!("    {}", line));
        println!("  both answers (< the program, > the second program):");
        side_by_side(&self.want, &self.got).iter().for_each(|line| println!("    {}", line));
        let note = [vec![format!("{}: {}", self.name, self.size)], self.case.clone()].concat().join("\n");
        stored::write(store, &self.name, &note, &self.stored);
    }
}

#[cfg(test)]
mod tests {
    use super::*;
    use crate::table::whole_image;

    #[test]
    fn lines_that_differ_stand_together() {
        let lines = |words: &str| words.split(' ').map(String::from).collect::<Vec<_>>();
        assert_eq!(side_by_side(&lines("a b c"), &lines("a d")), ["  a", "< d", "> b", "< (no line)", "> c"]);
    }

    #[test]
    fn a_script_is_told_in_words() {
        let tick = crate::script::write(&crate::event::Event::Ticks(3));
        let told = script("name", &[whole_image(), tick, vec![0]].concat(), vec![], vec![]);
        assert_eq!(told.size, "2 entries, 4 table rows, 99 bytes");
        assert_eq!(told.case[told.case.len() - 3..], ["tick 3", "# then, in hex, 1 bytes that are no entry", "# 00"]);
    }
}
