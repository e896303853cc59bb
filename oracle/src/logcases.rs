//! Logs for the streams: random ones, damaged ones, and the stored sample. README.md has the table of what each part of
//! the sample covers.

use crate::log::{bytes_of, check, place, room, Write, MOST_ENTRIES};
use crate::logstream::{Maker, MOST_BYTES};
use crate::random::Numbers;

/// The most entries of a log in a stream: they fill its bytes exactly.
const MOST: u32 = 8_190;

/// The fields of the header: where each lies and how many bytes it has.
const EDITION: Field = (0, 2);
const LENGTH: Field = (2, 2);
const COUNT: Field = (4, 4);
const OFFSET: Field = (8, 4);
const CYCLES: Field = (12, 4);
const FIELDS: [Field; 5] = [EDITION, LENGTH, COUNT, OFFSET, CYCLES];

type Field = (usize, usize);

fn get(log: &[u8], (at, width): Field) -> u32 {
    (0..width).map(|i| (log[at + i] as u32) << (8 * i)).sum()
}

/// Numbers too large for the field are cut to it.
fn set(log: &mut [u8], (at, width): Field, value: u32) {
    log[at..at + width].copy_from_slice(&value.to_le_bytes()[..width]);
}

/// The due cycle of an entry, and the byte of it that has to be zero.
fn due(index: u32) -> Field {
    (place(index), 4)
}

fn last(index: u32) -> Field {
    (place(index) + 7, 1)
}

/// Values that a wrong reader of a field may take for its old one: its neighbours, the ends, its bytes reversed, and
/// what looks like it when only the low byte or the low half is read.
fn wrong_values(old: u32, width: usize) -> Vec<u32> {
    let most = if width == 2 { 0xFFFF } else { u32::MAX };
    let reversed = old.swap_bytes() >> (32 - 8 * width);
    let mut list = vec![0, 1, 2, old.wrapping_sub(1), old.wrapping_add(1), reversed, old | 0x100, old | 0x8000, most];
    if width == 4 {
        list.extend([old | 0x1_0000, old | 0x8000_0000, old.wrapping_add(0x2000_0000)]);
    }
    list.iter_mut().for_each(|v| *v &= most);
    list.retain(|&v| v != old);
    list.sort();
    list.dedup();
    list
}

// Random logs.

/// Cycles by name or by chance; at least 1, so that an entry can be due.
fn some_cycles(r: &mut Numbers, count: u32) -> u32 {
    match r.below(10) {
        0 => 1,
        1 => 2,
        2 => 1 + r.below(10),
        3 => 960,
        4 => count.max(1),
        5 => 20_000_000,
        6 => u32::MAX,
        7 => u32::MAX - r.below(300),
        8 => 0x8000_0000 - 2 + r.below(4),
        _ => 1 + r.below(u32::MAX),
    }
}

fn some_count(r: &mut Numbers) -> u32 {
    match r.below(12) {
        0 => 0,
        1 => 1,
        2 => 2,
        3..=8 => r.below(12),
        9 | 10 => r.below(60),
        _ => r.below(201),
    }
}

/// Dues below `cycles` that never fall: anywhere, in runs, all alike, near the start or near the end.
fn some_dues(r: &mut Numbers, count: u32, cycles: u32) -> Vec<u32> {
    let span = match r.below(6) {
        0 => 1,
        1 => 3,
        2 => count.max(1),
        _ => cycles,
    }
    .min(cycles);
    let start = r.pick(&[0, cycles - span]);
    let mut dues: Vec<u32> = (0..count).map(|_| start + r.below(span)).collect();
    // runs of equal dues, of which the first and the last of all are the ones that a wrong test would miss
    for i in 1..dues.len() {
        if r.one_in(3) {
            dues[i] = dues[i - 1];
        }
    }
    dues.sort();
    if count > 0 && r.one_in(3) {
        let run = 1 + r.below(count.min(4)) as usize;
        dues.iter_mut().rev().take(run).for_each(|d| *d = cycles - 1);
    }
    if count > 0 && r.one_in(3) {
        let run = 1 + r.below(count.min(4)) as usize;
        dues.iter_mut().take(run).for_each(|d| *d = 0);
        dues.sort();
    }
    dues
}

fn some_write(r: &mut Numbers, due: u32) -> Write {
    let address = match r.below(4) {
        0 => r.pick(&[0, 0xFF, 0x100, 0x400, 0x580, 0x7FFF, 0x8000, 0xFF00, 0xFFFF]),
        1 => 0x400 + r.below(0x181),
        _ => r.below(0x1_0000),
    };
    Write { due, address: address as u16, byte: r.byte() }
}

/// A log that 01 accepts.
pub fn accepted(r: &mut Numbers) -> Vec<u8> {
    let count = if r.one_in(400) { MOST } else { some_count(r) };
    // without entries any length will do, 0 too
    if count == 0 {
        let cycles = if r.one_in(3) { 0 } else { some_cycles(r, 0) };
        return bytes_of(cycles, &[]);
    }
    let cycles = some_cycles(r, count);
    let dues = some_dues(r, count, cycles);
    let writes: Vec<Write> = dues.iter().map(|&d| some_write(r, d)).collect();
    let log = bytes_of(cycles, &writes);
    assert_eq!(check(&log), Ok((count, cycles)));
    log
}

fn small(r: &mut Numbers) -> Vec<u8> {
    loop {
        let log = accepted(r);
        if log.len() <= 48 {
            return log;
        }
    }
}

/// An entry's index: the first, the last or any.
fn some_index(r: &mut Numbers, count: u32) -> u32 {
    match r.below(4) {
        0 => 0,
        1 => count - 1,
        _ => r.below(count),
    }
}

fn damage_field(log: &mut [u8], r: &mut Numbers, field: Field) {
    let old = get(log, field);
    let value = if r.one_in(4) { r.word() } else { r.pick(&wrong_values(old, field.1)) };
    set(log, field, value);
}

fn damage_count(log: &mut [u8], r: &mut Numbers) {
    let count = get(log, COUNT);
    let near = [count.wrapping_sub(1), count.wrapping_add(1), MOST_ENTRIES - 1, MOST_ENTRIES, MOST_ENTRIES + 1];
    set(log, COUNT, r.pick(&near));
}

fn damage_size(log: &mut Vec<u8>, r: &mut Numbers) {
    let size = log.len() as u32;
    let wanted = match r.below(8) {
        0 => size.saturating_sub(1),
        1 => size + 1,
        2 => size.saturating_sub(8),
        3 => size + 8,
        4 => size + 1 + r.below(20),
        5 => r.below(17),
        _ => r.below(size + 1),
    };
    let fill = r.pick(&[0, 0, 1, 255]) as u8;
    log.resize((wanted as usize).min(MOST_BYTES), fill);
}

/// L made smaller or larger than some due cycle, so that this entry is the first at fault or just is not.
fn damage_cycles(log: &mut [u8], r: &mut Numbers) {
    let count = room(log);
    if count > 0 {
        let d = get(log, due(some_index(r, count)));
        set(log, CYCLES, d.wrapping_add(r.below(3)).wrapping_sub(1));
    }
}

fn damage_entry(log: &mut [u8], r: &mut Numbers) {
    let count = room(log);
    if count == 0 {
        return;
    }
    let (index, cycles) = (some_index(r, count), get(log, CYCLES));
    match r.below(6) {
        0 => set(log, last(index), r.pick(&[1, 2, 0x80, 0xFF])),
        1 => set(log, last(index), r.below(256)),
        2 => set(log, due(index), cycles.wrapping_add(r.below(2))),
        3 => set(log, due(index), r.pick(&[u32::MAX, cycles | 0x8000_0000, cycles.wrapping_sub(1)])),
        _ => damage_order(log, r, index),
    }
}

/// A due cycle one below the one before it, or far below, or the dues before it raised over it.
fn damage_order(log: &mut [u8], r: &mut Numbers, index: u32) {
    if index == 0 {
        return;
    }
    let before = get(log, due(index - 1));
    match r.below(3) {
        0 => set(log, due(index), before.saturating_sub(1)),
        1 => set(log, due(index), before / 2),
        _ => set(log, due(index - 1), get(log, due(index)).saturating_add(1)),
    }
}

/// One more or one less entry, with the count to match: the size is right and the entries decide.
fn damage_both(log: &mut Vec<u8>, r: &mut Numbers) {
    let count = room(log);
    if count > 0 && r.one_in(2) {
        log.truncate(place(count - 1));
    } else if log.len() + 8 <= MOST_BYTES {
        log.extend_from_slice(&[r.pick(&[0, 0, 0xFF]) as u8; 8]);
    }
    let now = room(log);
    set(log, COUNT, now);
}

pub fn damage(log: &mut Vec<u8>, r: &mut Numbers) {
    if log.len() < 16 {
        return;
    }
    match r.below(12) {
        0 | 1 => {
            let field = FIELDS[r.below(5) as usize];
            damage_field(log, r, field);
        }
        2 => damage_count(log, r),
        3 => damage_size(log, r),
        4 => damage_cycles(log, r),
        5 => damage_both(log, r),
        6 => {
            let at = r.below(log.len() as u32) as usize;
            log[at] = r.byte();
        }
        _ => damage_entry(log, r),
    }
}

/// Bytes that are a log by chance only.
pub fn noise(r: &mut Numbers) -> Vec<u8> {
    let size = r.below(65);
    (0..size).map(|_| r.byte()).collect()
}

// Questions.

/// Indexes that a wrong reader answers: the ends of the log, and those whose place wraps in 32 bits.
fn ask_entries(m: &mut Maker, r: &mut Numbers, count: u32) {
    for index in [0, count.wrapping_sub(1), count, count.wrapping_add(1), u32::MAX] {
        m.entry(index);
    }
    m.entry(0x2000_0000 + r.below(count.min(MOST) + 1));
    for _ in 0..2 {
        m.entry(r.below(count.min(MOST) + 1));
    }
}

fn ask_dues(m: &mut Maker, cycles: u32, dues: &[u32]) {
    let mut list = vec![0, 1, cycles.wrapping_sub(1), cycles, u32::MAX];
    for &d in dues {
        list.extend([d, d.wrapping_add(1)]);
    }
    list.sort();
    list.dedup();
    list.iter().for_each(|&c| m.due(c));
}

/// The questions about a log; fewer where it is refused, since the answer is then the same.
fn ask(m: &mut Maker, r: &mut Numbers, log: &[u8]) {
    let known = room(log);
    match m.log(log) {
        Ok((count, cycles)) => {
            ask_entries(m, r, count);
            let some =
                if count <= 8 { (0..count).collect() } else { (0..6).map(|_| r.below(count)).collect::<Vec<_>>() };
            let dues: Vec<u32> = some.iter().map(|&i| get(log, due(i))).collect();
            ask_dues(m, cycles, &dues);
        }
        Err((_, carried)) => {
            m.entry(r.pick(&[0, carried, carried.wrapping_sub(1), known, known.wrapping_sub(1), u32::MAX]));
            m.due(r.pick(&[0, 1, 960, u32::MAX]));
        }
    }
}

/// Every truncation of a small log.
fn all_truncations(m: &mut Maker, r: &mut Numbers, log: &[u8]) {
    for size in 0..=log.len() {
        ask(m, r, &log[..size]);
    }
}

/// Every byte of a small log set to other values, one at a time.
fn all_bytes(m: &mut Maker, r: &mut Numbers, log: &[u8]) {
    for at in 0..log.len() {
        for value in byte_values(log[at]) {
            let mut broken = log.to_vec();
            broken[at] = value;
            ask(m, r, &broken);
        }
    }
}

fn byte_values(old: u8) -> Vec<u8> {
    let mut list = vec![0, 1, 255, old.wrapping_add(1), old.wrapping_sub(1)];
    list.retain(|&v| v != old);
    list.sort();
    list.dedup();
    list
}

/// One random case: a log with its questions; once in a while every truncation, or every byte, of a small one.
pub fn case(m: &mut Maker, r: &mut Numbers) {
    match r.below(120) {
        0 => {
            let log = small(r);
            all_truncations(m, r, &log);
        }
        1 => {
            let log = small(r);
            all_bytes(m, r, &log);
        }
        2 => {
            let log = noise(r);
            ask(m, r, &log);
        }
        3..=39 => {
            let log = accepted(r);
            ask(m, r, &log);
        }
        _ => {
            let mut log = accepted(r);
            // more than one fault shows which refusal comes first, and which entry is carried
            for _ in 0..r.pick(&[1, 1, 1, 2, 2, 3, 5]) {
                damage(&mut log, r);
            }
            ask(m, r, &log);
        }
    }
}

// The stored sample.

type Part = (&'static str, fn(&mut Maker));

pub const PARTS: [Part; 10] = [
    ("accepted", part_accepted),
    ("truncated", part_truncated),
    ("lengthened", part_lengthened),
    ("bytes", part_bytes),
    ("header", part_header),
    ("count", part_count),
    ("entries", part_entries),
    ("first fault", part_first_fault),
    ("order", part_order),
    ("random", part_random),
];

pub fn sample() -> Maker {
    let mut m = Maker::new();
    for (_, part) in PARTS {
        part(&mut m);
    }
    m.end();
    m
}

fn write(due: u32, address: u16, byte: u8) -> Write {
    Write { due, address, byte }
}

/// 01's own log of the listing.
fn listing() -> Vec<u8> {
    bytes_of(960, &[write(0, 0x000, 0x3F), write(0, 0x404, 0xF0), write(0, 0x410, 0xF0), write(0, 0x400, 0x80)])
}

/// Three entries, with other bytes in every place of a number.
fn three() -> Vec<u8> {
    let writes = [write(0x0000_0102, 0x0403, 0xA5), write(0x0304_0506, 0x0580, 0x00), write(0x0304_0506, 0xFFFE, 0xFF)];
    bytes_of(0x0708_090A, &writes)
}

/// Six entries with two runs of equal dues, and the last at L - 1.
fn six() -> Vec<u8> {
    let dues = [5, 5, 300, 70_000, 70_000, 99_999];
    let writes: Vec<Write> = dues.iter().zip(1u16..).map(|(&d, i)| write(d, 0x400 + 4 * i, 16 * i as u8)).collect();
    bytes_of(100_000, &writes)
}

/// Every question that tells two readers apart, about an accepted log.
fn ask_all(m: &mut Maker, log: &[u8]) {
    let (count, cycles) = m.log(log).expect("this part of the sample holds accepted logs");
    let mut indexes: Vec<u32> = (0..count.min(8)).collect();
    indexes.extend([count.saturating_sub(1), count, count + 1, MOST_ENTRIES, 0x2000_0000, u32::MAX]);
    indexes.sort();
    indexes.dedup();
    indexes.iter().for_each(|&i| m.entry(i));
    let dues: Vec<u32> = (0..count.min(8)).map(|i| get(log, due(i))).collect();
    ask_dues(m, cycles, &dues);
}

/// A log that may be refused, with one question of each kind.
fn ask_one(m: &mut Maker, log: &[u8], index: u32, cycle: u32) {
    let _ = m.log(log);
    m.entry(index);
    m.due(cycle);
}

/// The log with some fields set.
fn with(log: &[u8], fields: &[(Field, u32)]) -> Vec<u8> {
    let mut broken = log.to_vec();
    fields.iter().for_each(|&(field, value)| set(&mut broken, field, value));
    broken
}

fn part_accepted(m: &mut Maker) {
    for cycles in [0, 1, 960, u32::MAX] {
        ask_all(m, &bytes_of(cycles, &[]));
    }
    ask_all(m, &bytes_of(1, &[write(0, 0x580, 1)]));
    ask_all(m, &bytes_of(1, &[write(0, 0, 0); 3]));
    ask_all(m, &bytes_of(u32::MAX, &[write(0, 0xFFFF, 0xFF), write(u32::MAX - 1, 0x00FF, 0x7F)]));
    ask_all(m, &bytes_of(0x8000_0000, &[write(0x7FFF_FFFE, 0xFF00, 0x80), write(0x7FFF_FFFF, 0x8000, 0x01)]));
    ask_all(m, &listing());
    ask_all(m, &three());
    ask_all(m, &six());
    let steps: Vec<Write> = (0..40).map(|i| write(256 * i, (i * 1_000) as u16, i as u8)).collect();
    ask_all(m, &bytes_of(256 * 39 + 1, &steps));
}

fn part_truncated(m: &mut Maker) {
    let log = three();
    for size in 0..=log.len() {
        ask_one(m, &log[..size], 0, 0x103);
    }
}

fn part_lengthened(m: &mut Maker) {
    for (more, fill) in [(1, 0), (1, 0xFF), (7, 0), (8, 0), (8, 0xFF), (9, 0), (16, 0)] {
        let mut log = three();
        log.resize(log.len() + more, fill);
        ask_one(m, &log, 3, 0x103);
    }
}

fn part_bytes(m: &mut Maker) {
    let log = three();
    for at in 0..log.len() {
        for value in byte_values(log[at]) {
            let mut broken = log.clone();
            broken[at] = value;
            let _ = m.log(&broken);
            // the entry that the byte lies in; the first one for a byte of the header
            m.entry(at.saturating_sub(16) as u32 / 8);
        }
    }
}

fn part_header(m: &mut Maker) {
    for log in [bytes_of(960, &[]), listing()] {
        for field in FIELDS {
            for value in wrong_values(get(&log, field), field.1) {
                let _ = m.log(&with(&log, &[(field, value)]));
            }
        }
    }
    let log = six();
    // L at, one above and one below each due cycle
    for index in 0..6 {
        let d = get(&log, due(index));
        for cycles in [d - 1, d, d + 1] {
            ask_one(m, &with(&log, &[(CYCLES, cycles)]), index, d);
        }
    }
}

fn part_count(m: &mut Maker) {
    let six = six();
    for count in [0, 5, 7, 999_999, 1_000_000, 1_000_001, 0x1000_0000, 0x2000_0006, u32::MAX] {
        ask_one(m, &with(&six, &[(COUNT, count)]), 5, 70_000);
    }
    // size and count to match: then the entries decide
    ask_all(m, &with(&six[..place(5)], &[(COUNT, 5)]));
    for fill in [0, 0xFF] {
        let mut more = six.clone();
        more.resize(place(7), fill);
        ask_one(m, &with(&more, &[(COUNT, 7)]), 6, 70_000);
    }
    let none = bytes_of(0, &[]);
    ask_one(m, &with(&none, &[(COUNT, 1)]), 0, 0);
    ask_one(m, &bytes_of(0, &[write(0, 0, 0)]), 0, 0);
}

fn part_entries(m: &mut Maker) {
    let log = six();
    for index in [0, 1, 2, 3, 5] {
        for value in [1, 0x80, 0xFF] {
            ask_one(m, &with(&log, &[(last(index), value)]), index, 70_000);
        }
        for value in [99_999, 100_000, 100_001, 0x8000_0000, u32::MAX] {
            ask_one(m, &with(&log, &[(due(index), value)]), index + 1, 70_000);
        }
        if index > 0 {
            let before = get(&log, due(index - 1));
            for value in [0, before - 1, before, before + 1] {
                ask_one(m, &with(&log, &[(due(index), value)]), index, before);
            }
        }
    }
}

/// Two entries at fault, each in each of the ways: the first is carried, whichever way it is.
fn part_first_fault(m: &mut Maker) {
    let log = six();
    let ways: [fn(u32) -> (Field, u32); 4] =
        [|i| (last(i), 1), |i| (due(i), 100_000), |i| (due(i), u32::MAX), |i| (due(i), 4)];
    for (first, second) in [(1, 2), (2, 5), (4, 5)] {
        for one in ways {
            for two in ways {
                let _ = m.log(&with(&log, &[one(first), two(second)]));
            }
        }
    }
    // a due cycle above L and the fall after it: the entry above L is the one
    let _ = m.log(&with(&log, &[(due(0), u32::MAX)]));
    // all entries at fault, and all but the first
    let all: Vec<(Field, u32)> = (0..6).map(|i| (last(i), 1)).collect();
    let _ = m.log(&with(&log, &all));
    let _ = m.log(&with(&log, &all[1..]));
}

/// Every set of faults at once, in a log of two entries: refusal 4, 5 (two fields), 6, 7, 8, and short of 16 bytes.
fn part_order(m: &mut Maker) {
    let log = bytes_of(10, &[write(3, 0x400, 0x80), write(7, 0x580, 1)]);
    for set_of in 0..64u32 {
        let has = |n: u32| set_of >> n & 1 == 1;
        let mut fields = Vec::new();
        if has(0) {
            fields.push((EDITION, 2));
        }
        if has(1) {
            fields.push((LENGTH, 17));
        }
        if has(2) {
            fields.push((OFFSET, 24));
        }
        if has(3) {
            fields.push((COUNT, 1_000_001));
        }
        if has(5) {
            fields.push((last(1), 1));
        }
        let mut broken = with(&log, &fields);
        if has(4) {
            broken.push(0);
        }
        ask_one(m, &broken, 2, 7);
        if set_of % 8 == 7 {
            ask_one(m, &broken[..15], 2, 7);
        }
    }
}

fn part_random(m: &mut Maker) {
    let mut r = Numbers::new(4);
    for _ in 0..20 {
        let mut log = small(&mut r);
        if r.one_in(2) {
            damage(&mut log, &mut r);
        }
        ask(m, &mut r, &log);
    }
}
