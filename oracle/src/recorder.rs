//! The panel recorder as document 02 (i) has it, and the lines of its program: a second reading of the text. A recorder is
//! the list of the writes that it took; what it finishes are the bytes of 01's log with them.

use crate::console::decimal;
use crate::listing::refused;
use crate::log::{bytes_of, place, Refused, Write, MOST_ENTRIES};

/// What bounds a recorder: the bytes of its buffer, and the most entries of a log.
#[derive(Clone, Copy, Debug)]
pub struct Limits {
    pub room: usize,
    pub most: u32,
}

/// Those of the program.
pub const PROGRAM: Limits = Limits { room: 1_048_576, most: MOST_ENTRIES };

pub struct Recorder {
    pub limits: Limits,
    pub writes: Vec<Write>,
}

impl Recorder {
    /// "2 for a buffer under 16 bytes"
    pub fn start(limits: Limits) -> Result<Recorder, Refused> {
        first(&[(limits.room < place(0), 2)])?;
        Ok(Recorder { limits, writes: Vec::new() })
    }

    pub fn last(&self) -> Option<u32> {
        self.writes.last().map(|w| w.due)
    }

    /// "17 for a cycle earlier than the last, then 6 for entry 1,000,001, then 2 for no room"
    pub fn add(&mut self, w: Write) -> Result<(), Refused> {
        let earlier = self.last().is_some_and(|last| w.due < last);
        let count = self.writes.len() as u32 + 1;
        first(&[(earlier, 17), (count > self.limits.most, 6), (place(count) > self.limits.room, 2)])?;
        self.writes.push(w);
        Ok(())
    }

    /// "18 for a length not above the last due cycle (any length will do with no entries), then 6 for a record of more than
    /// 1,000,000 entries, then 2 if the buffer can't hold the log"
    pub fn finish(&self, length: u32) -> Result<Vec<u8>, Refused> {
        let short = self.last().is_some_and(|last| length <= last);
        let count = self.writes.len() as u32;
        first(&[(short, 18), (count > self.limits.most, 6), (place(count) > self.limits.room, 2)])?;
        Ok(bytes_of(length, &self.writes))
    }
}

/// The first of the faults that is there.
fn first(faults: &[(bool, u32)]) -> Result<(), Refused> {
    faults.iter().find(|(there, _)| *there).map_or(Ok(()), |(_, number)| Err((*number, 0)))
}

/// What a line asks for.
#[derive(Clone, Copy, Debug, PartialEq)]
pub enum Turn {
    Add(Write),
    Finish(u32),
    Skipped,
    Unknown,
}

/// "One space between words"; "empty lines and lines that begin with # are skipped; anything else is unknown"
pub fn parse(line: &[u8]) -> Turn {
    if line.is_empty() || line[0] == b'#' {
        return Turn::Skipped;
    }
    let words: Vec<&[u8]> = line.split(|&byte| byte == b' ').collect();
    let turn = match words[..] {
        [b"add", cycle, address, byte] => add(cycle, address, byte),
        [b"finish", length] => number(length).map(Turn::Finish),
        _ => None,
    };
    turn.unwrap_or(Turn::Unknown)
}

/// "ADDRESS at most 65,535, BYTE at most 255"
fn add(cycle: &[u8], address: &[u8], byte: &[u8]) -> Option<Turn> {
    let (due, address, byte) = (number(cycle)?, number(address)?, number(byte)?);
    Some(Turn::Add(Write { due, address: address.try_into().ok()?, byte: byte.try_into().ok()? }))
}

/// Decimal, "or 0x and 1 to 8 hex digits of either case"
pub fn number(word: &[u8]) -> Option<u32> {
    let Some(digits) = word.strip_prefix(b"0x") else { return decimal(word) };
    if !(1..=8).contains(&digits.len()) {
        return None;
    }
    digits.iter().try_fold(0, |sum, &digit| Some(16 * sum + (digit as char).to_digit(16)?))
}

/// A whole run of the program: what it prints, the writes that it took, the length that it finished with, and how many lines
/// it read. The lines of standard error have their newlines.
pub struct Recorded {
    pub out: Vec<u8>,
    pub err: Vec<String>,
    pub writes: Vec<Write>,
    pub length: Option<u32>,
    pub lines: usize,
}

/// "Both are passed over. At the first accepted finish the log's bytes go to standard output and the program ends."
pub fn record<L: AsRef<[u8]>>(lines: impl IntoIterator<Item = L>, limits: Limits) -> Recorded {
    let mut recorder = Recorder::start(limits).expect("a buffer of 16 bytes");
    let (mut err, mut number) = (Vec::new(), 0);
    for line in lines {
        number += 1;
        let said = match parse(line.as_ref()) {
            Turn::Add(w) => recorder.add(w).err().map(refused),
            Turn::Finish(length) => match recorder.finish(length) {
                Ok(out) => {
                    return Recorded { out, err, writes: recorder.writes, length: Some(length), lines: number };
                }
                Err(why) => Some(refused(why)),
            },
            Turn::Skipped => None,
            Turn::Unknown => Some("unknown\n".to_string()),
        };
        err.extend(said.map(|said| format!("line {number}: {said}")));
    }
    err.push("no log was finished\n".to_string());
    Recorded { out: Vec::new(), err, writes: recorder.writes, length: None, lines: number }
}
