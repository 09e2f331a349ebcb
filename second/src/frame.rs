//! Section 6 of the rules, framing: "takes an id, a payload and an out buffer, checks 7 and then 9, and writes header and payload to the
//! buffer's front; the bytes after them stay."

use crate::bytes::Writer;
use crate::fault::{or, seeded, Fault};
use crate::header::HEADER;
use crate::table::LONGEST;

/// The bytes on the wire: header and payload.
pub fn spell(id: u32, payload: &[u8]) -> Vec<u8> {
    Writer::default().number(id, 4).number(payload.len() as u64, 4).bytes(payload).0
}

/// The answer number, and what it leaves in the out buffer.
pub fn frame(id: u32, payload: &[u8], out: &mut [u8]) -> u8 {
    let long = payload.len() > usize::from(LONGEST) + or(Fault::FrameOneMore, 0, 1);
    let length = HEADER + payload.len();
    let no_room = out.len() < or(Fault::RoomForPayloadOnly, length, payload.len())
        || (out.len() == length && seeded(Fault::ExactRoomShort));
    let checks = or(Fault::RoomBeforeLength, [(long, 7), (no_room, 9)], [(no_room, 9), (long, 7)]);
    if let Some(&(_, number)) = checks.iter().find(|(applies, _)| *applies) {
        if seeded(Fault::RefusedFrameWrites) {
            out.iter_mut().take(1).for_each(|byte| *byte = byte.wrapping_add(1));
        }
        return number;
    }
    let bytes = or(Fault::LengthWithHeader, spell(id, payload), spell(id, &[payload, &[0; 8]].concat()));
    let written = length.min(out.len());
    out[..written].copy_from_slice(&bytes[..written]);
    if seeded(Fault::RestCleared) {
        out[written..].fill(0);
    }
    0
}

#[cfg(test)]
mod tests {
    use super::*;
    use crate::bytes::hex;

    #[test]
    fn header_and_payload_stand_at_the_front() {
        let mut out = [0xEE; 11];
        assert_eq!(frame(0x101, &[0, 0xB4], &mut out), 0);
        assert_eq!(hex(&out), "000001010000000200b4ee");
        assert_eq!(frame(0x101, &[0; 4], &mut out), 9);
        assert_eq!(frame(0x101, &[0; 1465], &mut out), 7);
        assert_eq!(hex(&out), "000001010000000200b4ee");
    }
}
