//! Images: good ones, ones with a rule broken or two, and bytes that never were one.

use super::table::{sizes, table};
use crate::bytes::spell;
use crate::random::Random;
use crate::table::{layout, whole_image, FRONT, MOST_ROWS, ROW_BYTES, TCP, UDP};

/// An image that is being damaged, and where its bodies stood when it was good.
struct Draft {
    bytes: Vec<u8>,
    bodies: [(usize, usize); 4],
}

impl Draft {
    fn good(random: &mut Random) -> Self {
        let counts = sizes(random);
        Draft { bytes: table(random, counts).image(), bodies: layout(counts) }
    }

    /// Writes a number at a place, as far as the image reaches.
    fn put(&mut self, at: usize, width: usize, value: usize) {
        for (i, byte) in spell(value as u64, width).into_iter().enumerate() {
            if let Some(place) = self.bytes.get_mut(at + i) {
                *place = byte;
            }
        }
    }

    /// Where a field of a random row of a kind stands, often of the first or last row; nothing without rows.
    fn field(&self, random: &mut Random, kind: usize, field: usize) -> Option<usize> {
        let (start, rows) = self.bodies[kind];
        let row = random.edge(0, rows.checked_sub(1)?);
        Some(start + row * ROW_BYTES[kind] + field)
    }

    /// Gives a later row of a kind the connection and key of an earlier one.
    fn repeat(&mut self, random: &mut Random, kind: usize, key: std::ops::Range<usize>) -> Option<()> {
        let (start, rows) = self.bodies[kind];
        let later = random.edge(1, rows.checked_sub(1).filter(|&most| most > 0)?);
        let earlier = random.edge(0, later - 1);
        for field in std::iter::once(0).chain(key) {
            let byte = self.bytes.get(start + earlier * ROW_BYTES[kind] + field).copied()?;
            self.put(start + later * ROW_BYTES[kind] + field, 1, usize::from(byte));
        }
        Some(())
    }

    fn resize(&mut self, length: usize, random: &mut Random) {
        let more = length.saturating_sub(self.bytes.len());
        self.bytes.truncate(length);
        self.bytes.extend(random.bytes(more));
    }
}

/// Fields with values that break their rule: kind, place in the row, width, the values.
const WRONG_VALUES: &[(usize, usize, usize, &[usize])] = &[
    (0, 0, 1, &[0, 3, 255]),
    (0, 1, 1, &[1, 128, 255]),
    (1, 1, 1, &[2, 255]),
    (1, 8, 2, &[0, 7]),
    (1, 8, 2, &[1473, 65_535]),
    (2, 1, 1, &[2, 128, 255]),
    (2, 2, 2, &[1465, 65_535]),
    (2, 10, 1, &[1, 128]),
    (2, 11, 1, &[1, 128]),
    (3, 1, 1, &[2, 255]),
    (3, 2, 2, &[1465, 65_535]),
];

/// Other ways to break one rule. Each gives nothing where the image has no place for it.
type Damage = fn(&mut Draft, &mut Random) -> Option<()>;

const DAMAGES: &[Damage] = &[
    wrong_front,
    too_short,
    wrong_kind,
    wrong_count,
    wrong_offset,
    |draft, random| resize_by(draft, random, 1),
    |draft, random| resize_by(draft, random, -1),
    |draft, random| just_past(draft, random, 1),
    |draft, random| just_past(draft, random, 2),
    |draft, random| just_past(draft, random, 3),
    |draft, random| draft.repeat(random, 2, 4..8),
    |draft, random| draft.repeat(random, 3, 8..10),
    too_long_for_its_connection,
    |draft, random| mark(draft, random, UDP).map(|_| ()),
    marked_and_too_long,
    limit_on_tcp,
];

/// Breaks one rule: first those of WRONG_VALUES, then those of DAMAGES.
fn damage(draft: &mut Draft, random: &mut Random, which: usize) -> Option<()> {
    match WRONG_VALUES.get(which) {
        Some(&(kind, field, width, values)) => {
            let at = draft.field(random, kind, field)?;
            draft.put(at, width, *random.pick(values));
            Some(())
        }
        None => DAMAGES[which - WRONG_VALUES.len()](draft, random),
    }
}

const ALL_DAMAGES: usize = WRONG_VALUES.len() + DAMAGES.len();

fn wrong_front(draft: &mut Draft, random: &mut Random) -> Option<()> {
    let &(at, value) = random.pick(&[(0, 0), (0, 2), (0, 0x100), (0, 0x101), (2, 0), (2, 3), (2, 5), (2, 0x400), (2, 0x104)]);
    draft.put(at, 2, value);
    Some(())
}

fn too_short(draft: &mut Draft, random: &mut Random) -> Option<()> {
    draft.resize(random.edge(0, FRONT - 1), random);
    Some(())
}

fn wrong_kind(draft: &mut Draft, random: &mut Random) -> Option<()> {
    let kind = random.below(4);
    draft.put(4 + 8 * kind, 2, *random.pick(&[kind, kind + 2, 0, 5, kind + 0x101]));
    Some(())
}

fn wrong_count(draft: &mut Draft, random: &mut Random) -> Option<()> {
    let kind = random.below(4);
    let rows = draft.bodies[kind].1;
    draft.put(6 + 8 * kind, 2, *random.pick(&[MOST_ROWS[kind] + 1, rows + 1, rows + 256, 255, 65_535]));
    Some(())
}

fn wrong_offset(draft: &mut Draft, random: &mut Random) -> Option<()> {
    let kind = random.below(4);
    let offset = draft.bodies[kind].0;
    draft.put(8 + 8 * kind, 4, *random.pick(&[0, 4, offset - 1, offset + 1, offset + 16, offset + 65_536, 0xFFFF_FFFF]));
    Some(())
}

/// Some bytes more, or fewer but at least the front.
fn resize_by(draft: &mut Draft, random: &mut Random, sign: isize) -> Option<()> {
    let by = random.edge(1, 40) as isize * sign;
    let length = (draft.bytes.len() as isize + by).max(FRONT as isize) as usize;
    draft.resize(length, random);
    Some(())
}

/// A row that names the group, or connection, after the last.
fn just_past(draft: &mut Draft, random: &mut Random, kind: usize) -> Option<()> {
    let at = draft.field(random, kind, 0)?;
    draft.put(at, 1, draft.bodies[if kind == 1 { 0 } else { 1 }].1);
    Some(())
}

/// A destination whose longest payload and 8 more pass the send size by a little.
fn too_long_for_its_connection(draft: &mut Draft, random: &mut Random) -> Option<()> {
    let at = draft.field(random, 3, 0)?;
    let row = draft.bodies[1].0 + usize::from(*draft.bytes.get(at)?) * ROW_BYTES[1];
    let send_size = crate::bytes::number(&draft.bytes, row + 8, 2) as usize;
    draft.put(at + 2, 2, (send_size + random.edge(0, 8)).saturating_sub(7));
    Some(())
}

/// Marks a route, gives its connection's group a protocol, and the place of the row.
fn mark(draft: &mut Draft, random: &mut Random, protocol: u8) -> Option<usize> {
    let at = draft.field(random, 2, 0)?;
    let row = draft.bodies[1].0 + usize::from(*draft.bytes.get(at)?) * ROW_BYTES[1];
    let group = draft.bodies[0].0 + usize::from(*draft.bytes.get(row)?) * ROW_BYTES[0];
    draft.put(at + 1, 1, 1);
    draft.put(group, 1, protocol.into());
    Some(at)
}

/// A marked route whose longest payload is out of range, although it is not applied.
fn marked_and_too_long(draft: &mut Draft, random: &mut Random) -> Option<()> {
    let at = mark(draft, random, TCP)?;
    draft.put(at + 2, 2, *random.pick(&[1465, 65_535]));
    Some(())
}

/// An alive limit on a connection whose group is TCP.
fn limit_on_tcp(draft: &mut Draft, random: &mut Random) -> Option<()> {
    let at = draft.field(random, 1, 0)?;
    let group = draft.bodies[0].0 + usize::from(*draft.bytes.get(at)?) * ROW_BYTES[0];
    draft.put(group, 1, TCP.into());
    draft.put(at + 10, 2, *random.pick(&[1, 30, 255, 256, 32_768, 65_535]));
    Some(())
}

fn damaged(random: &mut Random, times: usize) -> Vec<u8> {
    let mut draft = Draft::good(random);
    for _ in 0..times {
        loop {
            let which = random.below(ALL_DAMAGES);
            if damage(&mut draft, random, which).is_some() {
                break;
            }
        }
    }
    draft.bytes
}

/// A table with one row more than its kind may have, else good.
fn one_row_more(random: &mut Random) -> Vec<u8> {
    let mut counts = MOST_ROWS.map(|most| random.edge(1, most));
    let kind = random.below(4);
    counts[kind] = MOST_ROWS[kind] + 1;
    table(random, counts).image()
}

/// Random bytes, sometimes behind a right front or right kinds.
fn noise(random: &mut Random) -> Vec<u8> {
    let length = random.below(200);
    let mut bytes = random.bytes(length);
    let right = random.below(FRONT + 1).min(bytes.len());
    bytes[..right].copy_from_slice(&whole_image()[..right]);
    bytes
}

/// A good image cut off, or with bytes behind it.
fn resized(random: &mut Random) -> Vec<u8> {
    let mut draft = Draft::good(random);
    let length = random.below(2 * draft.bytes.len());
    draft.resize(length, random);
    draft.bytes
}

/// Right kinds with wild counts, and the offsets that follow from them.
fn wild_counts(random: &mut Random) -> Vec<u8> {
    let counts = MOST_ROWS.map(|most| random.edge(0, most) + random.below(2) * random.edge(0, 65_000));
    let mut draft = Draft { bytes: table(random, [0; 4]).image(), bodies: layout(counts) };
    for kind in 0..4 {
        let (start, rows) = draft.bodies[kind];
        draft.put(6 + 8 * kind, 2, rows);
        draft.put(8 + 8 * kind, 4, start);
    }
    draft.resize(FRONT + random.below(400), random);
    draft.bytes
}

/// One image.
pub fn image(random: &mut Random) -> Vec<u8> {
    match random.below(100) {
        0..=24 => damaged(random, 0),
        25..=64 => damaged(random, 1),
        65..=82 => damaged(random, 2),
        83..=86 => damaged(random, 3),
        87..=90 => one_row_more(random),
        91..=94 => resized(random),
        95..=97 => wild_counts(random),
        _ => noise(random),
    }
}

/// Each single-byte change of the 86-byte image, and it cut off or extended at every length up to 2 x 86.
pub fn changes() -> impl Iterator<Item = Vec<u8>> {
    let whole = whole_image();
    let lengths = (0..=2 * whole.len()).map({
        let whole = whole.clone();
        move |length| whole.iter().copied().chain(std::iter::repeat(0)).take(length).collect()
    });
    lengths.chain(single_changes().map(move |(at, value)| {
        let mut image = whole.clone();
        image[at] = value;
        image
    }))
}

/// Places and values of the single-byte changes, in order.
pub fn single_changes() -> impl Iterator<Item = (usize, u8)> {
    let whole = whole_image();
    (0..whole.len()).flat_map(|at| (0..=255).map(move |value| (at, value))).filter(move |&(at, value)| whole[at] != value)
}

#[cfg(test)]
mod tests {
    use super::*;
    use crate::table::check;

    #[test]
    fn each_damage_breaks_a_rule() {
        for which in 0..ALL_DAMAGES {
            let random = &mut Random::new(which as u64);
            let mut met = 0;
            for _ in 0..500 {
                let mut draft = Draft::good(random);
                if damage(&mut draft, random, which).is_some() && check(&draft.bytes).is_err() {
                    met += 1;
                }
            }
            assert!(met >= 100, "damage {} was met {} times", which, met);
        }
    }

    #[test]
    fn there_are_86_x_255_single_changes() {
        assert_eq!(single_changes().count(), 86 * 255);
    }
}
