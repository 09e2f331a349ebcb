//! Framing: payloads and out buffers on both sides of each edge.

use crate::exchange;
use crate::random::Random;

/// One request.
pub fn framing(random: &mut Random) -> Vec<u8> {
    let length = match random.below(8) {
        0 => random.between(1460, 1470),
        1 => random.below(4000),
        2 => random.below(1465),
        _ => random.below(24),
    };
    let room = match random.below(4) {
        0 => random.below(length + 40),
        1 => length + 8 + random.below(20),
        _ => (length + 8 + random.below(5)).saturating_sub(2),
    };
    let payload = random.bytes(length);
    exchange::framing(random.word() as u32, room, random.word() as u8, &payload)
}
