//! Random logs for whole programs: such that make sound, damaged ones, and ones at the limit of size.

use crate::listing::OPENED;
use crate::log::{bytes_of, Write, ENTRY, HEADER};
use crate::logcases;
use crate::player::ROOM;
use crate::random::{setup, write, Numbers};
use crate::scenes::{probe, scenes};

/// The cycles of as many frames as a play has room for.
pub const FULL: u32 = 480 * ROOM as u32;

/// A log for a program that runs all of it: at most so many bytes are taken.
pub fn whole(r: &mut Numbers, most: usize) -> Vec<u8> {
    match r.below(60) {
        0 | 1 => at_limit(r, most),
        2 if r.one_in(2) => logcases::noise(r),
        2 => {
            let mut log = tune(r);
            log.truncate(r.below(18) as usize);
            log
        }
        3 | 4 => logcases::accepted(r),
        5 if r.one_in(8) => lengthy(r),
        5..=24 => {
            let mut log = tune(r);
            damaged(r, &mut log);
            log
        }
        _ => tune(r),
    }
}

/// A log for the console, which need not be run to its end.
pub fn opened(r: &mut Numbers) -> Vec<u8> {
    match r.below(200) {
        0 => lengthy(r),
        1..=20 => {
            let length = wide_length(r);
            long(r, length)
        }
        _ => whole(r, OPENED),
    }
}

/// Some cycles longer than the longest play.
fn lengthy(r: &mut Numbers) -> Vec<u8> {
    let length = FULL + 480 + r.below(700_000);
    long(r, length)
}

/// Entries at the start of a log that goes on for long.
fn long(r: &mut Numbers, length: u32) -> Vec<u8> {
    let writes = groups(r, 100_000, 20);
    bytes_of(length, &writes)
}

fn wide_length(r: &mut Numbers) -> u32 {
    match r.below(5) {
        0 => u32::MAX,
        1 => u32::MAX - r.below(1_000),
        2 => 0x8000_0000 - 2 + r.below(4),
        3 => FULL - 1_000 + r.below(2_000),
        _ => FULL + r.below(u32::MAX - FULL),
    }
}

fn damaged(r: &mut Numbers, log: &mut Vec<u8>) {
    for _ in 0..r.pick(&[1, 1, 1, 2, 3]) {
        logcases::damage(log, r);
    }
}

/// A log that makes sound, or one that asks what becomes of its writes.
pub fn tune(r: &mut Numbers) -> Vec<u8> {
    if r.below(5) < 2 {
        let (length, writes) = scenes(r);
        return bytes_of(length, &writes);
    }
    let length = length(r);
    if length == 0 {
        return bytes_of(0, &[]);
    }
    let count = match r.below(12) {
        0 => 0,
        1 => 100 + r.below(300),
        _ => 1 + r.below(12),
    };
    let writes = groups(r, length, count);
    bytes_of(length, &writes)
}

fn length(r: &mut Numbers) -> u32 {
    match r.below(18) {
        0 => r.below(4),
        1..=4 => r.pick(&[479, 480, 481, 959, 960, 961, 1_000]),
        5 => r.pick(&[19_201, 76_805, 153_609, 307_219]) + r.below(1_000),
        6 => 300_000 + r.below(1_200_000),
        // whole and nearly whole numbers of 1,024 frames
        7 => 480 * 1_024 * (1 + r.below(3)) - 1 + r.below(3),
        _ => {
            let most = 200_000 >> r.below(6);
            1 + r.below(most)
        }
    }
}

/// Groups of writes, each due at one cycle below the length: channels set up and started, or any writes, of which many are
/// held or have no register.
fn groups(r: &mut Numbers, length: u32, count: u32) -> Vec<Write> {
    let mut list = Vec::new();
    let mut due = 0;
    for number in 0..count {
        due = match r.below(8) {
            _ if number == 0 => r.below(length.min(500)),
            0 => 0,
            1 => length - 1,
            2 | 3 => due,
            4 => (480 * r.below(length / 480 + 1) + r.below(3)).saturating_sub(1).min(length - 1),
            _ => r.below(length),
        };
        let group = match r.below(7) {
            0..=3 if number == 0 => prelude(r),
            0 => prelude(r),
            1 | 2 => (0..1 + r.below(6)).map(|_| write(r)).collect(),
            3 => setup(r),
            4 => (0..1 + r.below(6)).map(|_| probe(r)).collect(),
            _ => start(r),
        };
        list.extend(due_at(due, group));
    }
    list.sort_by_key(|w| w.due);
    list
}

fn due_at(due: u32, group: Vec<(u32, u8)>) -> impl Iterator<Item = Write> {
    group.into_iter().map(move |(address, byte)| Write { due, address: address as u16, byte })
}

/// All stopped, waves filled, sometimes the modulation table too, and some channels started.
fn prelude(r: &mut Numbers) -> Vec<(u32, u8)> {
    let mut list = vec![(0x580, 1)];
    for wave in 0..r.pick(&[1, 2, 5]) {
        list.extend((0..32).map(|i| (0x80 * wave + 4 * i, r.byte())));
    }
    if r.one_in(3) {
        list.extend((0..32).map(|i| (0x280 + 4 * i, r.byte())));
    }
    for _ in 0..1 + r.below(6) {
        list.extend(start(r));
    }
    list
}

/// A channel set up and started, the others left as they are.
fn start(r: &mut Numbers) -> Vec<(u32, u8)> {
    setup(r).into_iter().filter(|(address, _)| *address >= 0x400 && *address != 0x580).collect()
}

/// At least so many writes that make sound.
pub fn many(r: &mut Numbers, length: u32, entries: usize) -> Vec<Write> {
    let mut writes = groups(r, length, (entries as u32 - 1) / 20);
    while writes.len() < entries {
        writes.extend(due_at(length - 1, setup(r)));
    }
    writes
}

/// At the limit of size, a byte or an entry above it, a byte below it or far above; half of them with another fault, that
/// the size must come before.
fn at_limit(r: &mut Numbers, most: usize) -> Vec<u8> {
    let entries = (most - HEADER) / ENTRY;
    let length = 1 + r.below(200_000);
    let mut writes = many(r, length, entries + 1);
    let way = r.pick(&[0, 1, 1, 2, 3, 4, 5]);
    writes.truncate(if way == 0 { entries + 1 } else { entries });
    let mut log = bytes_of(length, &writes);
    match way {
        1 => log.push(0),
        2 => log.truncate(most - 1),
        3 => log.resize(most + 1 + r.below(100_000) as usize, 0),
        _ => {}
    }
    if way < 5 && r.one_in(2) {
        log[r.pick(&[0, 2, 6, 8, 23]) as usize] ^= 0x80;
    }
    log
}
