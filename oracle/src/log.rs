//! The register log as document 01 has it ("Register log", refusals 3 to 8), read from its text alone. The given Rust
//! has no log, so this is a second reading of the document and not a copy of another program.

pub const HEADER: usize = 16;
pub const ENTRY: usize = 8;
pub const MOST_ENTRIES: u32 = 1_000_000;

/// A refusal's number in 01's table, and the value that comes with it: 0 where none does.
pub type Refused = (u32, u32);

/// One entry: a byte for a register, and the cycle that it is due at.
#[derive(Clone, Copy, Debug, PartialEq)]
pub struct Write {
    pub due: u32,
    pub address: u16,
    pub byte: u8,
}

/// The number of entries and the length L in cycles, or what 01 refuses first.
pub fn check(log: &[u8]) -> Result<(u32, u32), Refused> {
    if log.len() < HEADER {
        return Err((3, 0));
    }
    if half(log, 0) != 1 {
        return Err((4, 0));
    }
    if half(log, 2) != 16 || word(log, 8) != 16 {
        return Err((5, 0));
    }
    let (count, cycles) = (word(log, 4), word(log, 12));
    if count > MOST_ENTRIES {
        return Err((6, 0));
    }
    if log.len() != HEADER + ENTRY * count as usize {
        return Err((7, 0));
    }
    match (0..count).find(|&index| at_fault(log, index, cycles)) {
        Some(index) => Err((8, index)),
        None => Ok((count, cycles)),
    }
}

/// Only for an index below the count of a log whose size is right.
fn at_fault(log: &[u8], index: u32, cycles: u32) -> bool {
    let due = due_of(log, index);
    let falls = index > 0 && due < due_of(log, index - 1);
    log[place(index) + 7] != 0 || due >= cycles || falls
}

/// The entry at an index; none where the log has ended.
pub fn entry(log: &[u8], index: u32) -> Result<Option<Write>, Refused> {
    let (count, _) = check(log)?;
    if index >= count {
        return Ok(None);
    }
    Ok(Some(write_at(log, index)))
}

/// All entries of an accepted log, in file order.
pub fn writes(log: &[u8]) -> Vec<Write> {
    (0..room(log)).map(|index| write_at(log, index)).collect()
}

/// The whole entries that the bytes have room for, whatever the header says.
pub fn room(log: &[u8]) -> u32 {
    (log.len().saturating_sub(HEADER) / ENTRY) as u32
}

fn write_at(log: &[u8], index: u32) -> Write {
    let at = place(index);
    Write { due: word(log, at), address: half(log, at + 4), byte: log[at + 6] }
}

/// How many entries are due before the cycle. They are counted one by one: that they are in order is not used.
pub fn due_before(log: &[u8], cycle: u32) -> Result<u32, Refused> {
    let (count, _) = check(log)?;
    Ok((0..count).filter(|&index| due_of(log, index) < cycle).count() as u32)
}

/// The bytes of a log with these writes, whether 01 accepts them or not.
pub fn bytes_of(cycles: u32, writes: &[Write]) -> Vec<u8> {
    let mut log = Vec::new();
    log.extend_from_slice(&1u16.to_le_bytes());
    log.extend_from_slice(&16u16.to_le_bytes());
    log.extend_from_slice(&(writes.len() as u32).to_le_bytes());
    log.extend_from_slice(&16u32.to_le_bytes());
    log.extend_from_slice(&cycles.to_le_bytes());
    for w in writes {
        log.extend_from_slice(&w.due.to_le_bytes());
        log.extend_from_slice(&w.address.to_le_bytes());
        log.extend_from_slice(&[w.byte, 0]);
    }
    log
}

/// Where an entry begins.
pub fn place(index: u32) -> usize {
    HEADER + ENTRY * index as usize
}

fn due_of(log: &[u8], index: u32) -> u32 {
    word(log, place(index))
}

fn half(bytes: &[u8], at: usize) -> u16 {
    u16::from_le_bytes([bytes[at], bytes[at + 1]])
}

fn word(bytes: &[u8], at: usize) -> u32 {
    u32::from_le_bytes([bytes[at], bytes[at + 1], bytes[at + 2], bytes[at + 3]])
}
