//! Recordings of random scripts with their answers: whole ones, damaged ones, a small one cut at every byte, and the limits from both sides.

use super::datagram::{few_routes, mixed_frames, MARKED};
use super::script::{answered, table_for_events, table_of_transfers, Events};
use super::silence::table_of_silences;
use crate::event::{run, Answer, Event};
use crate::random::Random;
use crate::recording::{read_body, write, Entry, EDITION, FRONT, MOST_BODY, ROW};
use crate::state::World;
use crate::table::{Destination, Remote, Table, TCP};

/// A recording in the making: what its front says, its entries, bytes behind the last body, and how many bytes it lacks at the end.
#[derive(Clone)]
struct Draft {
    image: Vec<u8>,
    edition: u16,
    count: u16,
    entries: Vec<Entry>,
    behind: Vec<u8>,
    lacks: usize,
}

impl Draft {
    fn of(table: &Table, stamp: u32, events: &[(Event, Answer)]) -> Self {
        let mut entries = Vec::new();
        let mut now = stamp;
        for (event, answer) in events {
            match event {
                Event::Ticks(ticks) => now = now.wrapping_add(*ticks),
                _ => entries.push(Entry::new(now, event, answer)),
            }
        }
        Draft { image: table.image(), edition: EDITION, count: entries.len() as u16, entries, behind: vec![], lacks: 0 }
    }

    fn input(&self) -> Vec<u8> {
        let mut recording = [write(self.edition, self.count, &self.entries), self.behind.clone()].concat();
        recording.truncate(recording.len().saturating_sub(self.lacks));
        [self.image.clone(), recording].concat()
    }
}

/// A first stamp: often shortly before the wrap.
fn first_stamp(random: &mut Random) -> u32 {
    match random.below(4) {
        0 => 0,
        1 => random.word() as u32,
        _ => u32::MAX - random.below(60) as u32,
    }
}

fn whole(random: &mut Random, events: usize) -> Draft {
    let kind = *random.pick(&[Events::Any, Events::Any, Events::Transfers, Events::Transfers, Events::Silences]);
    let (table, least) = match kind {
        Events::Any => (table_for_events(random), 0),
        Events::Transfers => (table_of_transfers(random), 20),
        Events::Silences => (table_of_silences(random), 20),
    };
    let events = answered(random, &table, events.max(least), kind);
    Draft::of(&table, first_stamp(random), &events)
}

/// Changes one byte of some bytes.
fn change(random: &mut Random, bytes: &mut [u8]) {
    if !bytes.is_empty() {
        let at = random.below(bytes.len());
        bytes[at] = match random.below(4) {
            0 => bytes[at].wrapping_add(1),
            1 => bytes[at].wrapping_sub(1),
            _ => *random.pick(&[0, 1, 2, 3, 4, 5, 6, 16, 20, 24, 255]),
        };
    }
}

/// Changes a byte of the answer, where one is soon found with which the body still fits.
fn change_answer(random: &mut Random, entry: &mut Entry) {
    for _ in 0..12 {
        let mut body = entry.body.clone();
        change(random, &mut body);
        if let (Some((old, _)), Some((new, _))) = (read_body(entry.number, &entry.body), read_body(entry.number, &body)) {
            if old == new {
                entry.body = body;
                return;
            }
        }
    }
}

/// Damages one field of an entry; the stamp before it is given.
fn damage_entry(random: &mut Random, entry: &mut Entry, before: u32) {
    match random.below(15) {
        0 => {
            let far = *random.pick(&[65_534, 65_535, 65_536, 65_537, 1 << 31, u32::MAX, u32::MAX - 1]);
            entry.stamp = before.wrapping_add(far);
        }
        1 => entry.number = *random.pick(&[0, 17, 18, 255, 256, 257, 65_535]),
        2 => entry.number = random.between(1, 16) as u16,
        3 => entry.zero = *random.pick(&[1, 256, 65_535]),
        4 => {
            entry.length = *random.pick(&[0, entry.length.wrapping_sub(1), entry.length.wrapping_add(1), 4096, 4097, u32::MAX])
        }
        5 => {
            entry.body.pop();
            entry.length = entry.body.len() as u32;
        }
        6 => {
            entry.body.push(random.word() as u8);
            entry.length = entry.body.len() as u32;
        }
        7 => {
            let front = entry.body.len().min(24);
            change(random, &mut entry.body[..front]);
        }
        8 => change(random, &mut entry.body),
        _ => change_answer(random, entry),
    }
}

fn damage(random: &mut Random, draft: &mut Draft) {
    let entries = draft.entries.len();
    match random.below(16) {
        0 => draft.edition = *random.pick(&[0, 2, 256, 257, 65_535]),
        1 => draft.count = *random.pick(&[0, draft.count.wrapping_sub(1), draft.count.wrapping_add(1), 4000, 4001, 65_535]),
        2 => {
            let bytes = *random.pick(&[1, 1, 40]);
            draft.behind = random.bytes(bytes);
        }
        3 => draft.lacks = 1,
        4 => draft.lacks = random.below(draft.input().len() - draft.image.len() + 1),
        5 if entries > 1 => draft.entries.swap(0, entries - 1),
        _ if entries > 0 => {
            let which = random.below(entries);
            let before = draft.entries[which.saturating_sub(1)].stamp;
            damage_entry(random, &mut draft.entries[which], before);
            if random.one_in(3) {
                // two fields of one entry: which is tested first
                damage_entry(random, &mut draft.entries[which], before);
            }
        }
        _ => draft.behind = vec![0],
    }
}

/// An image and a recording of some events; mostly damaged in one way or two.
pub fn recording(random: &mut Random, events: usize) -> Vec<u8> {
    let mut draft = whole(random, events);
    let damages = *random.pick(&[0, 0, 1, 1, 1, 2]);
    (0..damages).for_each(|_| damage(random, &mut draft));
    draft.input()
}

/// A recording of some events under a table, without the image; whole, or damaged in one way or two. In half of them both counts are cleared at the end.
pub fn under(random: &mut Random, table: &Table, events: usize, transfers: bool) -> Vec<u8> {
    let kind = if transfers { Events::Transfers } else { Events::Any };
    let mut events: Vec<Event> = answered(random, table, events, kind).into_iter().map(|(event, _)| event).collect();
    if random.one_in(2) {
        events.extend([Event::ReadAndClear(1), Event::ReadAndClear(2)]);
    }
    let mut draft = Draft::of(table, first_stamp(random), &run_all(table, events));
    let damages = *random.pick(&[0, 0, 0, 1, 1, 2]);
    (0..damages).for_each(|_| damage(random, &mut draft));
    // an answer that hands out or drops something
    let received: Vec<usize> = (0..draft.entries.len()).filter(|&which| matches!(draft.entries[which].number, 7 | 8)).collect();
    if random.one_in(3) && !received.is_empty() {
        let which = *random.pick(&received);
        change_answer(random, &mut draft.entries[which]);
    }
    draft.input().split_off(draft.image.len())
}

/// The small recording and that of transfers, each with its table's image; neither is damaged.
pub fn examples() -> [(Vec<u8>, Vec<u8>); 2] {
    [small(), transferred()].map(|draft| (draft.image.clone(), draft.input().split_off(draft.image.len())))
}

/// Events run one by one under a table, with their answers.
fn run_all(table: &Table, events: Vec<Event>) -> Vec<(Event, Answer)> {
    let mut world = World::new(&table.image());
    let answer = |event: Event| {
        let answer = run(&mut world, &event);
        (event, answer)
    };
    events.into_iter().map(answer).collect()
}

/// A few events of different kinds, with a header and a payload that are cut, and stamps across the wrap.
fn small() -> Draft {
    let mut table = few_routes(TCP);
    table.destinations =
        vec![Destination { connection: 0, trigger: true, longest: 2, id: 0x101, pdu: 9, timeout: 0, groups: 0 }];
    let frames = mixed_frames();
    let events = vec![
        Event::ReadCount(2),
        Event::Ticks(3),
        Event::Connected(0),
        Event::Transmit(9, vec![0, 0xB4]),
        Event::Segment(0, frames[..9].to_vec()),
        Event::Ticks(1),
        Event::Segment(0, frames[9..12].to_vec()),
        Event::TakeWaiting(0, 1472),
    ];
    Draft::of(&table, u32::MAX - 1, &run_all(&table, events))
}

/// The small recording cut at every byte, whole, and with bytes behind it.
pub fn cuts() -> Vec<Vec<u8>> {
    let whole = small();
    let long = whole.input().len() - whole.image.len();
    let cut = |lacks| Draft { lacks, ..whole.clone() }.input();
    let behind = |bytes: &[u8]| Draft { behind: bytes.to_vec(), ..whole.clone() }.input();
    (0..=long).map(cut).chain([behind(&[0]), behind(&[0; 30])]).collect()
}

/// Transfers of 4, 0, 9 and the most bytes: one ends by itself, one by a cancel, one by a loss.
fn transferred() -> Draft {
    let table = few_routes(TCP);
    let header = |length: u32| [MARKED.to_be_bytes(), length.to_be_bytes()].concat();
    let events = vec![
        Event::ReadCount(2),
        Event::Ticks(1),
        Event::Connected(0),
        Event::Segment(0, [header(4), vec![1]].concat()),
        Event::Segment(0, vec![]),
        Event::Segment(0, [vec![2, 3, 4], header(0), header(9), vec![1, 2]].concat()),
        Event::Cancel(0),
        Event::Segment(0, vec![3]),
        Event::Ticks(1),
        Event::Cancel(0),
        Event::Ticks(1),
        Event::Connected(0),
        Event::Segment(0, [header(u32::MAX), vec![1, 2]].concat()),
        Event::Lost(0),
        Event::ReadCount(2),
    ];
    Draft::of(&table, u32::MAX, &run_all(&table, events))
}

/// That recording as it is, with each of its bytes one higher, and with each kind of take, and every byte that looks like one, another.
pub fn transfers() -> Vec<Vec<u8>> {
    let whole = transferred();
    let (input, front) = (whole.input(), whole.image.len());
    let with = |at: usize, byte: u8| {
        let mut input = input.clone();
        input[at] = byte;
        input
    };
    let bodies = front + FRONT + ROW * whole.entries.len();
    let higher = (front..input.len()).map(|at| with(at, input[at].wrapping_add(1)));
    let kinds = (bodies..input.len()).filter(|&at| (3..=5).contains(&input[at]));
    let other = kinds.flat_map(|at| (0..=6).map(move |kind| (at, kind))).filter(|&(at, kind)| kind != input[at]);
    let other = other.map(|(at, kind)| with(at, kind));
    std::iter::once(input.clone()).chain(higher).chain(other).collect()
}

/// So many read counts, in one tick each.
fn counts(table: &Table, entries: usize) -> Draft {
    let one = run_all(table, vec![Event::ReadCount(1), Event::Ticks(1)]);
    Draft::of(table, u32::MAX - 5, &one.into_iter().cycle().take(2 * entries).collect::<Vec<_>>())
}

/// A read count, and one so many ticks later; the draft under a timer that runs.
fn apart(table: &Table, first: u32, distance: u32) -> Draft {
    let mut draft = counts(table, 2);
    draft.entries[0].stamp = first;
    draft.entries[1].stamp = first.wrapping_add(distance);
    draft
}

/// A transmit that is refused, whose body has so many bytes.
fn long_body(table: &Table, length: usize) -> Draft {
    // 7 bytes before the payload, 6 bytes of answer
    let events = vec![Event::ReadCount(1), Event::Ticks(1), Event::Transmit(9, vec![0xB4; length - 13]), Event::ReadCount(2)];
    Draft::of(table, 7, &run_all(table, events))
}

/// Each limit from both sides; what stands at the front; the order of tests where two faults meet.
pub fn limits() -> Vec<Vec<u8>> {
    let table = small_table();
    let raw = |bytes: &[u8]| [table.image(), bytes.to_vec()].concat();
    let mut all = vec![vec![], table.image()[..35].to_vec(), table.image()[..table.image().len() - 1].to_vec(), raw(&[])];
    for front in [&[0][..], &[1], &[0, 1], &[0, 2], &[0, 2, 0], &[0, 1, 0], &[0, 1, 0, 0], &[0, 1, 0, 0, 9], &[0, 1, 255, 255]]
    {
        all.push(raw(front));
    }
    all.extend([4000, 4001].map(|entries| counts(&table, entries).input()));
    all.push(Draft { lacks: 4001 * 8 + 1, ..counts(&table, 4001) }.input());
    all.extend([MOST_BODY, MOST_BODY + 1].map(|length| long_body(&table, length).input()));
    for first in [0, u32::MAX - 65_534, u32::MAX] {
        all.extend([65_535, 65_536].map(|distance| apart(&table, first, distance).input()));
    }
    all.push(apart(&table, 100, u32::MAX - 2).input());
    all.push(apart(&table, 0, 1 << 31).input());
    all.extend(pairs(&table).into_iter().map(|draft| draft.input()));
    all
}

fn small_table() -> Table {
    let mut table = few_routes(TCP);
    table.connections[0].remote = Remote { address: 0x0A00_0001, port: 30490 };
    table
}

/// Two entries, the second one with two faults of neighbouring tests, after some ticks.
fn pairs(table: &Table) -> Vec<Draft> {
    let with = |change: &dyn Fn(&mut Entry)| {
        let mut draft = apart(table, u32::MAX, 2);
        change(&mut draft.entries[1]);
        draft
    };
    let cut = |change: &dyn Fn(&mut Entry)| Draft { lacks: 1, ..with(change) };
    let empty = |entry: &mut Entry| (entry.length, entry.body) = (0, vec![]);
    vec![
        cut(&|entry| entry.stamp = 65_535),
        cut(&|entry| entry.number = 17),
        cut(&|entry| entry.zero = 1),
        cut(&|_| ()),
        Draft { lacks: 8, ..with(&|_| ()) },
        with(&|entry| (entry.stamp, entry.number) = (65_535, 0)),
        with(&|entry| (entry.number, entry.zero) = (17, 1)),
        with(&|entry| (entry.zero, entry.body[0]) = (1, 1)),
        with(&|entry| entry.number = 0),
        with(&|entry| entry.number = 65_535),
        with(&|entry| entry.number = 17),
        with(&|entry| (entry.number, entry.body, entry.length) = (16, vec![0, 0, 0, 3, 0, 0, 0, 0], 8)),
        with(&|entry| (entry.number, entry.body, entry.length) = (16, vec![0, 0, 0, 0], 4)),
        with(&|entry| (entry.number, entry.body, entry.length) = (16, vec![0, 0, 0, 0, 0], 5)),
        with(&empty),
        with(&|entry| entry.body[7] = 1),
        with(&|entry| entry.body[3] = 2),
        two_differences(table),
        Draft { edition: 2, ..with(&|_| ()) },
        Draft { behind: vec![1, 2, 3], ..with(&|entry| entry.body[7] = 1) },
    ]
}

/// Three entries; the second and the third have another answer.
fn two_differences(table: &Table) -> Draft {
    let mut draft = counts(table, 3);
    draft.entries[1..].iter_mut().for_each(|entry| entry.body[6] = 1);
    draft
}

#[cfg(test)]
mod tests {
    use super::*;
    use crate::bytes::{hex, unhex};
    use crate::replay::lines;

    fn last(input: &[u8]) -> String {
        lines(input).pop().unwrap_or_default()
    }

    #[test]
    fn what_is_recorded_replays_the_same() {
        let random = &mut Random::new(3);
        for _ in 0..60 {
            let draft = whole(random, 80);
            let printed = lines(&draft.input());
            assert_eq!(printed.last().map(String::as_str), Some("SAME"), "{:?}", printed);
            assert!(printed.contains(&format!("entries run: {} of {}", draft.entries.len(), draft.entries.len())));
        }
    }

    #[test]
    fn a_changed_answer_is_the_first_difference() {
        let random = &mut Random::new(4);
        for _ in 0..60 {
            let table = table_for_events(random);
            let mut events = answered(random, &table, 40, Events::Any);
            let which = random.below(events.len());
            if matches!(events[which].0, Event::Ticks(_)) || events[which].1 == Err((9, None)) {
                continue;
            }
            events[which].1 = Err((9, None));
            let entry = 1 + events[..which].iter().filter(|(event, _)| !matches!(event, Event::Ticks(_))).count();
            let printed = lines(&Draft::of(&table, first_stamp(random), &events).input());
            let at = printed.iter().position(|line| line.starts_with("first difference: ")).unwrap();
            assert!(printed[at].starts_with(&format!("first difference: entry {}, stamp ", entry)));
            assert_eq!(
                (&printed[at + 1][..], &printed[printed.len() - 1][..]),
                ("  recorded: 9 out buffer too short", "DIFFERS")
            );
        }
    }

    #[test]
    fn the_small_one_is_cut_at_every_byte() {
        let all = cuts();
        let words: Vec<String> = all.iter().map(|input| last(input)).collect();
        let long = all.len() - 3;
        assert_eq!(words[0], "SAME");
        assert!(words[1..=long].iter().all(|word| word == "CUT"));
        assert!(words[long + 1..].iter().all(|word| word == "SAME"));
    }

    #[test]
    fn transfers_are_recorded_and_their_damages_told() {
        let all = transfers();
        let whole = lines(&all[0]);
        assert_eq!(whole.last().map(String::as_str), Some("SAME"));
        let start = "entry 5, stamp 0, after 0 ticks: segment on connection 0, 21 bytes: 0 done; take 1 read 3 bytes: last piece of route 4, ";
        for line in [
            &format!("{}id 0x00000105, 3 bytes, from the segment at byte 0: 020304; take 2 read 8 bytes: start of a transfer on route 4, \
                      id 0x00000105, length 0 bytes, the end; take 3 read 8 bytes: start of a transfer on route 4, id 0x00000105, \
                      length 9 bytes; take 4 read 2 bytes: piece of route 4, id 0x00000105, 2 bytes, from the segment at byte 19: 0102", start),
            "entry 6, stamp 0, after 0 ticks: cancel connection 0: 0 done",
            "entry 7, stamp 0, after 0 ticks: segment on connection 0, 1 byte: 4 not online",
            "entry 8, stamp 1, after 1 tick: cancel connection 0: 3 not allowed",
            "entry 11, stamp 2, after 0 ticks: lost connection 0: 0 done; a transfer failed",
        ] {
            assert!(whole.iter().any(|other| other == line), "{}: {:?}", line, whole);
        }
        let words: Vec<String> = all[1..].iter().map(|input| last(input)).collect();
        let met = |word: &str| words.iter().filter(|other| *other == word).count();
        assert!(met("DIFFERS") > 100 && met("REFUSED") > 100, "{} and {}", met("DIFFERS"), met("REFUSED"));
    }

    #[test]
    fn limits_are_met_from_both_sides() {
        let all: Vec<String> =
            limits().iter().flat_map(|input| lines(input)).filter(|line| !line.starts_with("entry ")).collect();
        for line in [
            "entries run: 4000 of 4000",
            "over the limit: 4001 entries, 4000 entries are the most",
            "over the limit: entry 2: body of 4097 bytes, 4096 bytes are the most",
            "cut: the contents end after 48015 bytes, 4001 entries need 48016 bytes",
            "cut: the contents end after 4 bytes, 65535 entries need 786424 bytes",
            "cut: the contents end after 0 bytes, the front needs 4 bytes",
            "ticks run: 65535 ticks",
            "refused: entry 2: stamp 65536 is 65536 ticks after the one before, 65535 ticks are the most",
            "refused: entry 2: stamp 97 is 4294967293 ticks after the one before, 65535 ticks are the most",
            "refused: edition 2 is not 1",
            "refused: entry 2: unknown event number 65535",
            "refused: entry 2: body does not fit",
            "cut: entry 2: body of 8 bytes, 7 bytes are there",
            "refused 1 at byte 0",
        ] {
            assert!(all.iter().any(|other| other == line), "{}", line);
        }
    }

    /// The recording of docs/RECORDING.md, its bytes and its lines.
    #[test]
    fn the_page_shows_what_is_printed() {
        let page = include_str!("../../../docs/RECORDING.md");
        let shown: Vec<&str> = page.lines().filter_map(|line| line.strip_prefix("    ")).collect();
        let is_bytes = |line: &&str| line.as_bytes()[..2].iter().all(u8::is_ascii_digit) && line.as_bytes()[2] == b':';
        let digits: String = shown.iter().filter(|line| is_bytes(line)).map(|line| &line[3..]).collect();
        let recording = unhex(&digits).unwrap();
        assert_eq!((recording.len(), hex(&recording[..4])), (67, "00010003".into()));
        let table = include_bytes!("../../../examples/debarker.table");
        let lines = lines(&[&table[..], &recording].concat());
        assert_eq!(lines, shown.into_iter().filter(|line| !is_bytes(line)).collect::<Vec<_>>());
    }
}
