//! The panel recorder: sessions by hand from document 02's text, a recorder in the recorder's own way, over a buffer, which has
//! to agree, and wrong ones, which the comparison has to find.

#[macro_use]
mod faults;

use oracle::console::lines;
use oracle::log::{bytes_of, check, Write, MOST_ENTRIES};
use oracle::process::{Printed, Way};
use oracle::programs::{case, different, wanted, Case, Kind, Totals};
use oracle::random::Numbers;
use oracle::recorder::{parse, record, Limits, Recorder, Turn, PROGRAM};

fn write(due: u32) -> Write {
    Write { due, address: 0x404, byte: 0xF0 }
}

/// 01's own log, turned on the panel: the bytes are worked from 01's layout.
#[test]
fn a_session_by_hand() {
    let steps = [
        ("# 01's own log", ""),
        ("add 0 0 0x3f", ""),
        ("", ""),
        ("add 0x0 0x404 0xF0", ""),
        ("add 0 1040 0240", ""),
        ("finish 0", "line 6: refused 18 0\n"),
        ("Add 0 0 0", "line 7: unknown\n"),
        ("add 3 0x400 128", ""),
        ("add 2 0x400 128", "line 9: refused 17 0\n"),
        ("finish 3", "line 10: refused 18 0\n"),
        ("finish 0x4", ""),
        ("add 2 0 0", ""),
        ("what nobody reads", ""),
    ];
    let input = steps.map(|(line, _)| line).join("\n");
    let recorded = record(lines(input.as_bytes()), PROGRAM);
    assert_eq!(recorded.err.concat(), steps.map(|(_, said)| said).concat());
    let log = [
        [1, 0, 16, 0, 4, 0, 0, 0],
        [16, 0, 0, 0, 4, 0, 0, 0],
        [0, 0, 0, 0, 0x00, 0x00, 0x3F, 0],
        [0, 0, 0, 0, 0x04, 0x04, 0xF0, 0],
        [0, 0, 0, 0, 0x10, 0x04, 0xF0, 0],
        [3, 0, 0, 0, 0x00, 0x04, 0x80, 0],
    ];
    assert_eq!(recorded.out, log.concat());
    assert_eq!((recorded.length, recorded.lines, recorded.writes.len()), (Some(4), 11, 4));
}

#[test]
fn without_a_finish() {
    let none = |input: &str| {
        let recorded = record(lines(input.as_bytes()), PROGRAM);
        assert_eq!((recorded.out.len(), recorded.length), (0, None));
        recorded.err.concat()
    };
    assert_eq!(none(""), "no log was finished\n");
    assert_eq!(none("\n\n#\n"), "no log was finished\n");
    assert_eq!(none("add 4294967295 0 0\nfinish 4294967295"), "line 2: refused 18 0\nno log was finished\n");
    assert_eq!(none("\r"), "line 1: unknown\nno log was finished\n");
}

/// "Any length will do with no entries", and a rest without a newline is a line.
#[test]
fn without_entries() {
    for length in [0, 1, u32::MAX] {
        let recorded = record(lines(format!("finish {length}").as_bytes()), PROGRAM);
        assert_eq!(recorded.out, bytes_of(length, &[]));
        assert!(recorded.err.is_empty());
    }
}

/// The refusals in 02's order: 17 before 6 before 2, 18 before 6 before 2. A finish meets its 6 and 2 only with a record that
/// this buffer did not make.
#[test]
fn the_orders() {
    assert_eq!(Recorder::start(Limits { room: 15, most: 9 }).err(), Some((2, 0)));
    let limits = [(16, 9), (24, 1), (24, 9), (32, 1)];
    let [none, both, room, most] = limits.map(|(room, most)| Recorder::start(Limits { room, most }).unwrap());
    let mut answers = Vec::new();
    for mut recorder in [none, both, room, most] {
        answers.push([5, 4, 5].map(|due| recorder.add(write(due)).err().map_or(0, |why| why.0)));
    }
    assert_eq!(answers, [[2, 2, 2], [0, 17, 6], [0, 17, 2], [0, 17, 6]]);

    let given = |room, most, length| {
        let recorder = Recorder { limits: Limits { room, most }, writes: vec![write(5), write(7)] };
        recorder.finish(length).map_or_else(|why| why.0, |_| 0)
    };
    assert_eq!([given(32, 2, 7), given(31, 1, 7), given(0, 0, 0)], [18; 3]);
    assert_eq!([given(32, 1, 8), given(0, 1, u32::MAX)], [6; 2]);
    assert_eq!([given(31, 2, 8), given(15, 9, 8)], [2; 2]);
    assert_eq!([given(32, 2, 8), given(40, 2, u32::MAX)], [0; 2]);
}

/// "6 for entry 1,000,001"; a finish of as many is accepted.
#[test]
fn the_most_entries() {
    let limits = Limits { room: 8_000_024, ..PROGRAM };
    let mut recorder = Recorder::start(limits).unwrap();
    (0..MOST_ENTRIES).for_each(|due| recorder.add(write(due)).unwrap());
    assert_eq!(recorder.add(write(0)), Err((17, 0)));
    assert_eq!(recorder.add(write(MOST_ENTRIES)), Err((6, 0)));
    let log = recorder.finish(MOST_ENTRIES).unwrap();
    assert_eq!((log.len(), check(&log)), (8_000_016, Ok((MOST_ENTRIES, MOST_ENTRIES))));
}

/// "16 + 8 × 131,070 = 1,048,576": the program's buffer is met exactly.
#[test]
fn the_end_of_the_buffer() {
    let input = "add 9 0 0\n".repeat(131_071) + "add 8 0 0\nfinish 9\nfinish 10\n";
    let recorded = record(lines(input.as_bytes()), PROGRAM);
    let said = ["line 131071: refused 2 0\n", "line 131072: refused 17 0\n", "line 131073: refused 18 0\n"];
    assert_eq!(recorded.err, said);
    assert_eq!((recorded.out.len(), check(&recorded.out)), (1_048_576, Ok((131_070, 10))));
}

#[test]
fn lines_that_are_no_turn() {
    let add = |due, address, byte| Turn::Add(Write { due, address, byte });
    assert_eq!(parse(b"add 4294967295 65535 255"), add(u32::MAX, 0xFFFF, 0xFF));
    assert_eq!(parse(b"add 0xFFFFFFFF 0x0000fFfF 0x000000Ff"), add(u32::MAX, 0xFFFF, 0xFF));
    assert_eq!(parse(b"add 0000000001 0000065535 0000000009"), add(1, 0xFFFF, 9));
    assert_eq!(parse(b"finish 0xabcDEF09"), Turn::Finish(0xABCD_EF09));
    let skipped: [&[u8]; 4] = [b"", b"#", b"# add 1 2 3", b"#\xFF\0"];
    skipped.iter().for_each(|line| assert_eq!(parse(line), Turn::Skipped, "{line:?}"));
    let none = "add|add 1|add 1 2|add 1 2 |add 1 2 3 |add 1 2 3 4| add 1 2 3|add  1 2 3|add\t1 2 3|add 1 2 3\r|add 1 2 3#|ADD 1 2 3|\
        add 4294967296 2 3|add 00000000001 2 3|add 1 65536 3|add 1 0x10000 3|add 1 2 256|add 1 2 0x100|add 0x 2 3|add 0X1 2 3|\
        add 0x000000001 2 3|add 0x1g 2 3|add -1 2 3|add +1 2 3|add 0x+1 2 3|add 0x-1 2 3|add 1 ff 3| #|finish|finish |finish 1 2|\
        finish  1|finish 1 |finish 0x100000000|finish 0xG|Finish 1|start|finish\01| ";
    none.split('|').for_each(|line| assert_eq!(parse(line.as_bytes()), Turn::Unknown, "{line:?}"));
}

// How a recorder is wrong.
faults! {
    EqualIsEarlier,
    /// 17 is not given by one cycle
    OneEarlierIsTaken,
    /// the cycle 0 is earlier than nothing
    FirstIsLate,
    LengthMayBeTheLast,
    LengthNeedsEntries,
    SixOneLate,
    RoomOneLate,
    RoomOneSoon,
    RoomFirst,
    AddressBytesExchanged,
    AddressOfOneByte,
    LastEntryForgotten,
    CountForgotten,
    /// the whole buffer goes out
    BytesBehindTheLog,
    /// a refused add moves the last cycle
    RefusedMoves,
    RefusedIsTaken,
    /// a refused finish ends the program
    RefusedEnds,
    GoesOnAfterFinish,
    CommentsNotCounted,
    EmptyIsUnknown,
    UnknownEnds,
    RestIsNoLine,
    /// what does not fit 64 bytes is a line of its own
    LongIsTwoLines,
    UpperHexOnly,
    PrefixOfEitherCase,
    SilentWithoutFinish,
}

/// The faults that a script for the program's own limits can't show.
const BEYOND: &[Fault] = &[Fault::SixOneLate];

/// A recorder in its own way: a buffer that each call writes, how many entries it has, and the last due cycle.
struct Carried {
    fault: Fault,
    limits: Limits,
    buffer: Vec<u8>,
    entries: u32,
    last: u32,
}

impl Carried {
    fn new(fault: Fault, limits: Limits) -> Self {
        let last = u32::from(fault == Fault::FirstIsLate);
        Carried { fault, limits, buffer: vec![0xAA; limits.room], entries: 0, last }
    }

    fn is(&self, fault: Fault) -> bool {
        self.fault == fault
    }

    fn size(&self, entries: u32) -> usize {
        16 + 8 * entries as usize
    }

    fn add(&mut self, w: Write) -> u32 {
        let equal = self.is(Fault::EqualIsEarlier) && self.entries > 0 && w.due == self.last;
        let early = w.due.saturating_add(self.is(Fault::OneEarlierIsTaken).into()) < self.last || equal;
        let six = self.entries >= self.limits.most + u32::from(self.is(Fault::SixOneLate));
        let size = self.size(self.entries + 1 + u32::from(self.is(Fault::RoomOneSoon)));
        let full = size - 8 * usize::from(self.is(Fault::RoomOneLate)) > self.limits.room;
        let number = match (early, six, full) {
            (_, _, true) if self.is(Fault::RoomFirst) => 2,
            (true, _, _) => 17,
            (_, true, _) => 6,
            (_, _, true) => 2,
            _ => 0,
        };
        if number == 0 || self.is(Fault::RefusedIsTaken) && !full {
            self.put(w);
        }
        if number == 0 || self.is(Fault::RefusedMoves) {
            self.last = w.due;
        }
        number
    }

    fn put(&mut self, w: Write) {
        let mut address = w.address.to_le_bytes();
        if self.is(Fault::AddressBytesExchanged) {
            address.reverse();
        }
        if self.is(Fault::AddressOfOneByte) {
            address[1] = 0;
        }
        let at = self.size(self.entries);
        let entry = [&w.due.to_le_bytes()[..], &address, &[w.byte, 0]].concat();
        let room = self.buffer.len().saturating_sub(at).min(8);
        self.buffer[at..at + room].copy_from_slice(&entry[..room]);
        self.entries += 1;
    }

    fn finish(&mut self, length: u32) -> Result<Vec<u8>, u32> {
        let short = length < self.last || length == self.last && !self.is(Fault::LengthMayBeTheLast);
        let without = self.entries == 0 && !self.is(Fault::LengthNeedsEntries);
        if short && !without {
            return Err(18);
        }
        let forgotten = u32::from(self.is(Fault::LastEntryForgotten));
        let entries = self.entries.saturating_sub(forgotten);
        let count = if self.is(Fault::CountForgotten) { 0 } else { entries };
        let header = [0x10_0001, count, 16, length].map(u32::to_le_bytes).concat();
        self.buffer[..16].copy_from_slice(&header);
        let size = if self.is(Fault::BytesBehindTheLog) { self.limits.room } else { self.size(entries) };
        Ok(self.buffer[..size.min(self.buffer.len())].to_vec())
    }

    /// What a line is to this one.
    fn parse(&self, line: &[u8]) -> Turn {
        if line.is_empty() && self.is(Fault::EmptyIsUnknown) {
            return Turn::Unknown;
        }
        let text = String::from_utf8_lossy(line);
        if self.is(Fault::PrefixOfEitherCase) {
            return parse(text.replace("0X", "0x").as_bytes());
        }
        let hex = text.split("0x").skip(1).any(|word| word.contains(|c: char| ('a'..='f').contains(&c)));
        match parse(line) {
            Turn::Add(_) | Turn::Finish(_) if self.is(Fault::UpperHexOnly) && hex => Turn::Unknown,
            turn => turn,
        }
    }
}

fn lines_of(fault: Fault, script: &[u8]) -> Vec<&[u8]> {
    match fault {
        Fault::RestIsNoLine => lines(&script[..script.iter().rposition(|&byte| byte == b'\n').map_or(0, |at| at + 1)]),
        Fault::LongIsTwoLines => lines(script).into_iter().flat_map(|line| line.chunks(64)).collect(),
        _ => lines(script),
    }
}

fn printed(fault: Fault, script: &[u8], limits: Limits) -> Printed {
    let mut recorder = Carried::new(fault, limits);
    let (mut out, mut err, mut number) = (Vec::new(), String::new(), 0);
    for line in lines_of(fault, script) {
        let turn = recorder.parse(line);
        number += u32::from(turn != Turn::Skipped || fault != Fault::CommentsNotCounted);
        let refused = match turn {
            Turn::Add(w) => recorder.add(w),
            Turn::Finish(length) => match recorder.finish(length) {
                Ok(log) => {
                    out.extend(log);
                    if fault == Fault::GoesOnAfterFinish {
                        continue;
                    }
                    break;
                }
                Err(number) => number,
            },
            Turn::Skipped => continue,
            Turn::Unknown => {
                err += &format!("line {number}: unknown\n");
                if fault == Fault::UnknownEnds {
                    break;
                }
                continue;
            }
        };
        if refused > 0 {
            err += &format!("line {number}: refused {refused} 0\n");
        }
        if refused == 18 && fault == Fault::RefusedEnds {
            break;
        }
    }
    if out.is_empty() && fault != Fault::SilentWithoutFinish {
        err += "no log was finished\n";
    }
    Printed { out, err: err.into() }
}

/// The cases until the recorder differs within these limits, and what differs.
fn found(fault: Fault, limits: Limits, cases: usize) -> Option<(usize, String)> {
    let mut r = Numbers::new(1);
    (1..=cases).find_map(|number| {
        let case = case(Kind::Record, &mut r);
        let recorded = record(lines(&case.script), limits);
        let expected = Printed { out: recorded.out, err: recorded.err.concat().into() };
        Some((number, different(&case, &expected, &printed(fault, &case.script, limits))?))
    })
}

/// Small ones, so that tunes meet them, and that they meet each other.
const SMALL: [Limits; 3] =
    [Limits { room: 100, most: 30 }, Limits { room: 1_000, most: 10 }, Limits { room: 16 + 8 * 20, most: 20 }];

#[test]
fn a_recorder_in_its_own_way_agrees() {
    assert_eq!(found(Fault::None, PROGRAM, 600), None);
    SMALL.iter().for_each(|&limits| assert_eq!(found(Fault::None, limits, 200), None));
}

#[test]
fn wrong_recorders_are_found() {
    for &fault in FAULTS {
        let limits = if BEYOND.contains(&fault) { SMALL[1] } else { PROGRAM };
        let (number, what) = found(fault, limits, 500).unwrap_or_else(|| panic!("{fault:?} is not found"));
        println!("{fault:?}: case {number} {what}");
    }
}

/// The cases come to everything that they are for.
#[test]
fn what_the_cases_hold() {
    let (mut r, mut totals) = (Numbers::new(7), Totals::new(Kind::Record));
    let (mut full, mut silent, mut rests, mut open) = (0, 0, 0, 0);
    for _ in 0..600 {
        let case: Case = case(Kind::Record, &mut r);
        let wanted = wanted(&case);
        full += usize::from(wanted.printed.out.len() == PROGRAM.room);
        rests += usize::from(!case.script.ends_with(b"\n"));
        open += usize::from(case.way == Way::Open && wanted.accepted && case.script.ends_with(b"\n"));
        let heard = |text: &String| text.lines().skip(1).any(|line| !line.ends_with(" 0 0"));
        silent += usize::from(wanted.listing.as_ref().is_some_and(|text| !heard(text)));
        totals.add(&wanted);
    }
    println!("{totals}\n{full} fill the buffer, {silent} silent listings, {rests} rests, {open} open");
    for (answer, least) in [("refused 17", 1_000), ("refused 18", 400), ("refused 2", 10), ("unknown", 2_000)] {
        assert!(totals.answers[answer] >= least, "{answer} is hardly seen");
    }
    assert!(totals.listings > 350 && 2 * silent < totals.listings as usize && full > 0 && rests > 60 && open > 20);
    assert!(totals.refused > 50 && totals.refused < 200);
}
