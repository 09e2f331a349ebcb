//! The answers of a script as bytes (docs/EVENTS.md, "The answer"), and what it leaves: what bench/answers.c is to print.

use crate::answer::spell;
use crate::bytes::hex;
use crate::lines::lines as run_lines;
use crate::script::{entry_end, image_end, write_start, RECORD};

/// Bytes of an entry before its body; of a start state's records; of them and the two drop counts.
const HEAD: usize = 8;
const RECORDS: usize = 16 * RECORD;
const STATE: usize = RECORDS + 8;

/// The image and the entries that are taken: no entry at the end that is refused or cut off.
pub fn taken(input: &[u8]) -> Vec<u8> {
    let mut end = image_end(input);
    let mut first = true;
    while let Some(next) = entry_end(input, end, first) {
        (end, first) = (next, false);
    }
    input[..end].to_vec()
}

/// FNV-1a of 32 bits.
fn digest(bytes: &[u8]) -> u32 {
    bytes.iter().fold(0x811C_9DC5, |value: u32, byte| (value ^ u32::from(*byte)).wrapping_mul(0x0100_0193))
}

/// The lines for an input whose entries are all taken.
pub fn lines(input: &[u8]) -> Vec<String> {
    let (mut told, mut left) = (Vec::new(), Vec::new());
    run_lines(input, |seen| {
        told.push(hex(&spell(seen.answer)));
        left = write_start(seen.after).split_off(HEAD);
    });
    if !left.is_empty() {
        told.extend(left[..RECORDS].chunks(RECORD).map(hex));
        told.push(hex(&left[RECORDS..STATE]));
        told.push(format!("memory {:08x}", digest(&left[STATE..])));
    }
    told
}
