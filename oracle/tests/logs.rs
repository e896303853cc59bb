//! The register log read once more, in another way: the bytes are taken apart into a record first, and each rule of
//! document 01 is a line of a list. Held against `log` on random and damaged logs.

use oracle::log::{self, bytes_of, Refused, Write};
use oracle::logcases;
use oracle::logstream::{op, replay, Maker, Op, MOST_BYTES};
use oracle::random::Numbers;
use oracle::reader::Reader;

/// Everything that the bytes say, in 64 bits, with no rule applied. A field that the bytes end before is `None`.
struct Decoded {
    size: u64,
    edition: Option<u64>,
    header_length: Option<u64>,
    count: Option<u64>,
    entry_offset: Option<u64>,
    cycles: Option<u64>,
    entries: Vec<Decode>,
}

struct Decode {
    due: u64,
    address: u64,
    byte: u64,
    zero: u64,
}

fn decode(bytes: &[u8]) -> Decoded {
    let field = |at: usize, width: usize| bytes.get(at..at + width).map(number);
    let entries = bytes.get(16..).unwrap_or(&[]).chunks_exact(8).map(decode_entry).collect();
    Decoded {
        size: bytes.len() as u64,
        edition: field(0, 2),
        header_length: field(2, 2),
        count: field(4, 4),
        entry_offset: field(8, 4),
        cycles: field(12, 4),
        entries,
    }
}

fn decode_entry(bytes: &[u8]) -> Decode {
    Decode { due: number(&bytes[..4]), address: number(&bytes[4..6]), byte: bytes[6].into(), zero: bytes[7].into() }
}

/// Little-endian: the last byte weighs most.
fn number(bytes: &[u8]) -> u64 {
    bytes.iter().rev().fold(0, |sum, &b| 256 * sum + b as u64)
}

/// Which of the refusals 3 to 8 apply, each looked at by itself; 01's order is the order of their numbers.
fn rules(d: &Decoded) -> Vec<(u32, bool)> {
    let count = d.count.unwrap_or(0);
    vec![
        (3, d.cycles.is_none()),
        (4, d.edition != Some(1)),
        (5, d.header_length != Some(16) || d.entry_offset != Some(16)),
        (6, count > 1_000_000),
        (7, d.size != 16 + 8 * count),
        (8, first_at_fault(d).is_some()),
    ]
}

/// The least of: the first index with a byte that is not zero, the first not below L, the first that falls.
fn first_at_fault(d: &Decoded) -> Option<u32> {
    let cycles = d.cycles.unwrap_or(0);
    let marked = d.entries.iter().position(|e| e.zero != 0);
    let late = d.entries.iter().position(|e| e.due >= cycles);
    let falls = d.entries.windows(2).position(|w| w[1].due < w[0].due).map(|i| i + 1);
    [marked, late, falls].into_iter().flatten().min().map(|i| i as u32)
}

fn check(d: &Decoded) -> Result<(u32, u32), Refused> {
    match rules(d).iter().find(|rule| rule.1) {
        Some(&(8, _)) => Err((8, first_at_fault(d).unwrap())),
        Some(&(number, _)) => Err((number, 0)),
        None => Ok((d.count.unwrap() as u32, d.cycles.unwrap() as u32)),
    }
}

fn entry(d: &Decoded, index: u32) -> Result<Option<Write>, Refused> {
    check(d)?;
    let write = |e: &Decode| Write { due: e.due as u32, address: e.address as u16, byte: e.byte as u8 };
    Ok(d.entries.get(index as usize).map(write))
}

/// The dues of an accepted log are in order, so this searches where the other counts.
fn due_before(d: &Decoded, cycle: u32) -> Result<u32, Refused> {
    check(d)?;
    Ok(d.entries.partition_point(|e| e.due < cycle as u64) as u32)
}

/// How often each refusal was seen, 0 for accepted.
#[derive(Default)]
struct Seen([u64; 9]);

/// Holds the two readings together on every op of a stream.
fn hold(stream: &[u8], seen: &mut Seen) {
    let mut reader = Reader::new(stream);
    let (mut bytes, mut decoded) = (Vec::new(), decode(&[]));
    loop {
        match op(&mut reader).unwrap() {
            Op::Log { bytes: next, answer } => {
                bytes = next;
                decoded = decode(&bytes);
                let found = check(&decoded);
                assert_eq!(log::check(&bytes), found, "{bytes:?}");
                assert_eq!(answer, found.map_or_else(|(n, i)| [n, i, 0, 0], |(c, l)| [0, 0, c, l]));
                seen.0[answer[0] as usize] += 1;
            }
            Op::Entry { index, answer } => {
                let found = entry(&decoded, index);
                assert_eq!(log::entry(&bytes, index), found, "{bytes:?} {index}");
                let numbers = match found {
                    Ok(Some(w)) => [0, w.due, w.address as u32, w.byte as u32],
                    Ok(None) => [1, 0, 0, 0],
                    Err((n, i)) => [2, n, i, 0],
                };
                assert_eq!(answer, numbers);
            }
            Op::Due { cycle, answer } => {
                let found = due_before(&decoded, cycle);
                assert_eq!(log::due_before(&bytes, cycle), found, "{bytes:?} {cycle}");
                assert_eq!(answer, found.map_or_else(|(n, i)| [2, n, i], |n| [0, n, 0]));
            }
            Op::End => return,
        }
    }
}

#[test]
fn random_and_damaged_logs() {
    let mut seen = Seen::default();
    for seed in 0..20 {
        let (mut maker, mut numbers) = (Maker::new(), Numbers::new(seed));
        for _ in 0..1_000 {
            logcases::case(&mut maker, &mut numbers);
        }
        maker.end();
        hold(&maker.bytes, &mut seen);
    }
    println!("accepted {}, refused 3 to 8: {:?}", seen.0[0], &seen.0[3..]);
    assert!([0, 3, 4, 5, 6, 7, 8].iter().all(|&n| seen.0[n] > 500), "a refusal is hardly seen: {:?}", seen.0);
}

#[test]
fn the_sample() {
    let (maker, mut seen) = (logcases::sample(), Seen::default());
    hold(&maker.bytes, &mut seen);
    assert!([0, 3, 4, 5, 6, 7, 8].iter().all(|&n| seen.0[n] >= 10), "a refusal is hardly seen: {:?}", seen.0);
    assert!(maker.bytes.len() < 60_000);
    assert_eq!(replay(&maker.bytes), Ok(maker.totals));
}

/// A stream with another answer in it must not pass: each number of each op in turn is one too large.
#[test]
fn a_changed_answer_is_found() {
    let mut maker = Maker::new();
    let writes = [Write { due: 3, address: 0x404, byte: 0xF0 }, Write { due: 5, address: 0x400, byte: 0x80 }];
    let log = bytes_of(6, &writes);
    maker.log(&log).unwrap();
    let answer = 1 + 4 + log.len();
    let entry = maker.bytes.len();
    maker.entry(1);
    let due = maker.bytes.len();
    maker.due(5);
    maker.end();
    assert_eq!(replay(&maker.bytes), Ok(maker.totals));
    let places =
        [answer, answer + 4, answer + 8, answer + 12, entry + 5, entry + 9, entry + 13, entry + 17, due + 5, due + 9];
    for at in places {
        let mut changed = maker.bytes.clone();
        changed[at] += 1;
        assert!(replay(&changed).is_err(), "byte {at}");
    }
    let cut = &maker.bytes[..maker.bytes.len() - 1];
    assert_eq!(replay(cut), Err("the stream ends before its E".to_string()));
}

/// The limit of the count, with the size to match: too large for a stream, so only here.
#[test]
fn a_million_entries() {
    let log = |count: u32| {
        let writes: Vec<Write> = (0..count).map(|i| Write { due: i / 3, address: i as u16, byte: i as u8 }).collect();
        bytes_of(count, &writes)
    };
    for (count, wanted) in [(999_999, Ok(999_999)), (1_000_000, Ok(1_000_000)), (1_000_001, Err((6, 0)))] {
        let bytes = log(count);
        assert_eq!(log::check(&bytes), wanted.map(|n| (n, n)));
        assert_eq!(check(&decode(&bytes)), wanted.map(|n| (n, n)));
    }
    let bytes = log(1_000_000);
    assert_eq!(log::due_before(&bytes, 333_333), Ok(999_999));
    assert_eq!(log::entry(&bytes, 999_999), Ok(Some(Write { due: 333_333, address: 16_959, byte: 63 })));
    assert_eq!(log::entry(&bytes, 1_000_000), Ok(None));
    assert!(MOST_BYTES < bytes.len());
}

/// 01's own log of the listing, byte for byte.
#[test]
fn the_log_of_the_listing() {
    let bytes = [
        1, 0, 16, 0, 4, 0, 0, 0, 16, 0, 0, 0, 0xC0, 3, 0, 0, // edition, header length, count, entry offset, L 960
        0, 0, 0, 0, 0x00, 0x00, 0x3F, 0, 0, 0, 0, 0, 0x04, 0x04, 0xF0, 0, // 0x000 and 0x404
        0, 0, 0, 0, 0x10, 0x04, 0xF0, 0, 0, 0, 0, 0, 0x00, 0x04, 0x80, 0, // 0x410 and 0x400
    ];
    assert_eq!(log::check(&bytes), Ok((4, 960)));
    assert_eq!(log::entry(&bytes, 1), Ok(Some(Write { due: 0, address: 0x404, byte: 0xF0 })));
    assert_eq!(log::entry(&bytes, 4), Ok(None));
    assert_eq!(log::due_before(&bytes, 0), Ok(0));
    assert_eq!(log::due_before(&bytes, 1), Ok(4));
}
