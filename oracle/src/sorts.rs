//! Was the write heard? A second reading of document 02 (iii): the sort of a write to the given Rust's unit, and how many there
//! are of each. What plays is asked of the unit and never worked out from the writes: a channel may have stopped by itself.

use crate::state::{read, NOISE, SWEPT};
use crate::vsu::core::VSU;

/// "one of: taken, held off by playing, no such register"
#[derive(Clone, Copy, Debug, PartialEq)]
pub enum Sort {
    Taken,
    Held,
    Absent,
}

/// The sort of a write to the unit as it stands. The byte has no say in it.
pub fn sort(unit: &VSU, address: u32) -> Sort {
    match address {
        // 01: "Dropped while any channel plays."
        0x000..=0x27F => held_if(playing(unit).contains(&true)),
        // 01: "Dropped while channel 5 (index 4) plays."
        0x280..=0x2FF => held_if(playing(unit)[SWEPT]),
        0x400..=0x57F if has((address as usize - 0x400) / 0x40, address % 0x20) => Sort::Taken,
        // "0x580 is always taken."
        0x580 => Sort::Taken,
        // "An address outside the mapped ranges, or a channel offset that this channel hasn't got"
        _ => Sort::Absent,
    }
}

fn held_if(plays: bool) -> Sort {
    if plays {
        Sort::Held
    } else {
        Sort::Taken
    }
}

pub fn playing(unit: &VSU) -> [bool; 6] {
    read(unit).channels.map(|channel| channel.play == 1)
}

/// "0x18 on noise, 0x1C except on channel 5, an offset not listed"
fn has(channel: usize, offset: u32) -> bool {
    match offset {
        0x00 | 0x04 | 0x08 | 0x0C | 0x10 | 0x14 => true,
        0x18 => channel != NOISE,
        0x1C => channel == SWEPT,
        _ => false,
    }
}

/// How many writes there are of each sort.
#[derive(Clone, Copy, Debug, Default, PartialEq)]
pub struct Counts {
    pub taken: u32,
    pub held: u32,
    pub none: u32,
}

impl FromIterator<Sort> for Counts {
    fn from_iter<I: IntoIterator<Item = Sort>>(sorts: I) -> Self {
        let mut counts = Counts::default();
        for sort in sorts {
            match sort {
                Sort::Taken => counts.taken += 1,
                Sort::Held => counts.held += 1,
                Sort::Absent => counts.none += 1,
            }
        }
        counts
    }
}

impl std::fmt::Display for Counts {
    fn fmt(&self, f: &mut std::fmt::Formatter) -> std::fmt::Result {
        write!(f, "taken {} held {} none {}", self.taken, self.held, self.none)
    }
}
