//! The stream of logs that a replaying program reads: made here with the answers in it, read here, and replayed here to
//! test the format.

use crate::log::{check, due_before, entry, Refused};
use crate::reader::Reader;

/// The most bytes of a log in a stream: what a replaying program has room for.
pub const MOST_BYTES: usize = 65_536;

/// What a call answers, as the numbers of its op. The bytes are in README.md.
type Checked = [u32; 4];
type Entry = [u32; 4];
type Counted = [u32; 3];

#[derive(Clone, Debug, PartialEq)]
pub enum Op {
    Log { bytes: Vec<u8>, answer: Checked },
    Entry { index: u32, answer: Entry },
    Due { cycle: u32, answer: Counted },
    End,
}

/// What a stream holds. Each log, each entry asked for and each number asked for is a check.
#[derive(Clone, Copy, Debug, Default, PartialEq)]
pub struct Totals {
    pub logs: u64,
    pub checks: u64,
}

impl std::fmt::Display for Totals {
    fn fmt(&self, f: &mut std::fmt::Formatter) -> std::fmt::Result {
        write!(f, "{} logs {} checks", self.logs, self.checks)
    }
}

fn checked(log: &[u8]) -> Checked {
    match check(log) {
        Ok((count, cycles)) => [0, 0, count, cycles],
        Err((number, carried)) => [number, carried, 0, 0],
    }
}

fn entry_at(log: &[u8], index: u32) -> Entry {
    match entry(log, index) {
        Ok(Some(w)) => [0, w.due, w.address as u32, w.byte as u32],
        Ok(None) => [1, 0, 0, 0],
        Err((number, carried)) => [2, number, carried, 0],
    }
}

fn counted(log: &[u8], cycle: u32) -> Counted {
    match due_before(log, cycle) {
        Ok(number) => [0, number, 0],
        Err((number, carried)) => [2, number, carried],
    }
}

/// Makes a stream: gives each log and each question about it to `log` and writes it down with the answer.
pub struct Maker {
    log: Vec<u8>,
    pub bytes: Vec<u8>,
    pub totals: Totals,
}

impl Maker {
    pub fn new() -> Self {
        Maker { log: Vec::new(), bytes: Vec::new(), totals: Totals::default() }
    }

    /// A log that the questions after it are about.
    pub fn log(&mut self, log: &[u8]) -> Result<(u32, u32), Refused> {
        assert!(log.len() <= MOST_BYTES);
        self.log = log.to_vec();
        self.bytes.push(b'G');
        self.put(&[log.len() as u32]);
        self.bytes.extend_from_slice(log);
        self.put(&checked(log));
        self.totals.logs += 1;
        self.totals.checks += 1;
        check(log)
    }

    pub fn entry(&mut self, index: u32) {
        self.bytes.push(b'I');
        self.put(&[index]);
        self.put(&entry_at(&self.log, index));
        self.totals.checks += 1;
    }

    pub fn due(&mut self, cycle: u32) {
        self.bytes.push(b'D');
        self.put(&[cycle]);
        self.put(&counted(&self.log, cycle));
        self.totals.checks += 1;
    }

    pub fn end(&mut self) {
        self.bytes.push(b'E');
    }

    fn put(&mut self, numbers: &[u32]) {
        numbers.iter().for_each(|n| self.bytes.extend_from_slice(&n.to_le_bytes()));
    }
}

/// The next op of a stream.
pub fn op(reader: &mut Reader) -> Result<Op, String> {
    Ok(match reader.array::<1>()?[0] {
        b'G' => {
            let size = reader.number()? as usize;
            if size > MOST_BYTES {
                return Err(format!("a log of {size} bytes is too long for a stream"));
            }
            Op::Log { bytes: reader.take(size)?.to_vec(), answer: reader.numbers()? }
        }
        b'I' => Op::Entry { index: reader.number()?, answer: reader.numbers()? },
        b'D' => Op::Due { cycle: reader.number()?, answer: reader.numbers()? },
        b'E' => Op::End,
        other => return Err(format!("unknown op {other}")),
    })
}

/// The totals when everything agrees, else what differs first.
pub fn replay(bytes: &[u8]) -> Result<Totals, String> {
    let mut reader = Reader::new(bytes);
    let mut log = Vec::new();
    let mut totals = Totals::default();
    for number in 0u64.. {
        match op(&mut reader)? {
            Op::Log { bytes, answer } => {
                log = bytes;
                totals.logs += 1;
                totals.checks += 1;
                compare(number, "G".to_string(), &checked(&log), &answer)?;
            }
            Op::Entry { index, answer } => {
                totals.checks += 1;
                compare(number, format!("I {index}"), &entry_at(&log, index), &answer)?;
            }
            Op::Due { cycle, answer } => {
                totals.checks += 1;
                compare(number, format!("D {cycle}"), &counted(&log, cycle), &answer)?;
            }
            Op::End => break,
        }
    }
    Ok(totals)
}

fn compare(number: u64, what: String, found: &[u32], wanted: &[u32]) -> Result<(), String> {
    if found == wanted {
        return Ok(());
    }
    Err(format!("op {number}: {what} answers {found:?}, the stream says {wanted:?}"))
}
