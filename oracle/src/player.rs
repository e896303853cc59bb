//! The player as document 01 has it ("Player" and the table of refusals), by its demand alone: the state at a cycle is that
//! of one unbroken run from power-on, so this player is no more than a cycle, the marks' cycles, the mark memory and, by 02 (v),
//! the present mutes.

use crate::image::{image_of, LENGTH};
use crate::imagecheck;
use crate::listing::{check_sized, OPENED};
use crate::log::{check, due_before, writes, Refused};
use crate::run::Run;
use crate::sorts::{Counts, Sort};
use crate::state::{in_range, State};
use crate::vsu::traits::AudioFrame;

/// What the frame buffer holds, in frames.
pub const ROOM: u64 = 32_768;

pub const MARKS: usize = 16;
pub const SLOT: usize = 8 + LENGTH;

#[derive(Clone, Copy, Debug, PartialEq)]
pub enum Call {
    Play(u32),
    Seek(u32),
    Set(u32),
    SetFree,
    Clear(u32),
    GoTo(u32),
    Mute(u32),
}

/// What a call that was not refused did.
#[derive(Debug, PartialEq)]
pub enum Done {
    /// 02 (iii): "with the number of each sort in its span"
    Played(Vec<AudioFrame>, Counts),
    Sought,
    Set(usize),
    Cleared,
    Went,
    Muted(u32),
}

pub struct Player {
    log: Vec<u8>,
    /// the log's L
    length: u32,
    run: Run,
    pub cycle: u32,
    /// the cycle of each mark that is set
    pub marks: [Option<u32>; MARKS],
    pub memory: Vec<u8>,
    pub mutes: u32,
}

impl Player {
    /// "Opening gives power-on, cycle 0, no marks." With the number of entries and L.
    pub fn open(log: &[u8]) -> Result<(Player, u32, u32), Refused> {
        let (count, length) = check_sized(log, OPENED)?;
        let player = Player {
            log: log.to_vec(),
            length,
            run: Run::new(writes(log)),
            cycle: 0,
            marks: [None; MARKS],
            memory: vec![0; MARKS * SLOT],
            mutes: 0,
        };
        Ok((player, count, length))
    }

    pub fn applied(&mut self) -> u32 {
        self.run.at(self.cycle).0
    }

    /// "covers all but these bits": the run's, with the present mutes.
    fn unit(&mut self) -> State {
        State { mutes: self.mutes, ..self.run.at(self.cycle).1 }
    }

    pub fn image(&mut self) -> [u8; LENGTH] {
        image_of(&self.unit())
    }

    /// The due cycles before this one of the entries that were not taken.
    pub fn unheard(&mut self, before: u32) -> Vec<u32> {
        let entries = self.run.judged(0, before).into_iter();
        entries.filter(|(_, _, sort)| *sort != Sort::Taken).map(|(_, w, _)| w.due).collect()
    }

    /// "which is the lowest free (16 if none)"
    pub fn free(&self) -> usize {
        self.marks.iter().position(Option::is_none).unwrap_or(MARKS)
    }

    /// The cycles that 01 has the player run: "from the present cycle, or from power-on when the target is earlier".
    pub fn cost(&self, call: Call) -> u32 {
        match call {
            Call::Play(n) => n,
            Call::Seek(to) if to < self.cycle => to,
            Call::Seek(to) => to - self.cycle,
            _ => 0,
        }
    }

    pub fn call(&mut self, call: Call) -> Result<Done, Refused> {
        if let Some(why) = self.refused(call) {
            return Err(why);
        }
        Ok(match call {
            Call::Play(n) => {
                let (from, to) = (self.cycle, self.cycle + n);
                let (frames, counts) = (self.run.frames(from, to, self.mutes), self.run.counts(from, to));
                self.cycle += n;
                Done::Played(frames.into_iter().map(|(_, frame)| frame).collect(), counts)
            }
            Call::Seek(to) => {
                self.cycle = to;
                Done::Sought
            }
            Call::Set(slot) => self.set(slot as usize),
            Call::SetFree => self.set(self.free()),
            Call::Clear(slot) => {
                self.marks[slot as usize] = None;
                Done::Cleared
            }
            Call::GoTo(slot) => {
                // "kept by seek and go-to-mark": the slot's mutes are not taken
                self.cycle = self.marks[slot as usize].expect("a mark that is not set is refused");
                Done::Went
            }
            Call::Mute(bits) => {
                self.mutes = bits;
                Done::Muted(bits)
            }
        })
    }

    /// "slot k at 428 × k is u32 cycle, u32 applied, image"
    fn set(&mut self, slot: usize) -> Done {
        let (applied, image) = (self.applied(), self.image());
        let bytes = [&self.cycle.to_le_bytes()[..], &applied.to_le_bytes(), &image].concat();
        self.memory[SLOT * slot..SLOT * (slot + 1)].copy_from_slice(&bytes);
        self.marks[slot] = Some(self.cycle);
        Done::Set(slot)
    }

    /// What 01 refuses first. Each looks only at what the call is lent; from an opening on, with nobody else writing the
    /// memory, only those of `mark`, `beyond`, `room` and a mute call are ever given.
    pub fn refused(&mut self, call: Call) -> Option<Refused> {
        let order =
            [Self::log, Self::state, Self::place, Self::memory, Self::mark, Self::slot, Self::beyond, Self::room];
        order.iter().find_map(|refusal| refusal(self, call))
    }

    /// 3 to 8: "clear only the record", and so a mute call
    fn log(&mut self, call: Call) -> Option<Refused> {
        lent_log(call).then(|| check(&self.log).err()).flatten()
    }

    /// "1 for a record or a mute call with bits above 63"
    fn state(&mut self, call: Call) -> Option<Refused> {
        let above = matches!(call, Call::Mute(64..));
        (above || !in_range(&self.unit())).then_some((1, 0))
    }

    fn place(&mut self, call: Call) -> Option<Refused> {
        let applied = self.applied();
        (lent_log(call) && self.misplaced(self.cycle, applied)).then_some((13, 0))
    }

    /// "cycle above L, or applied isn't the number of entries due before it"
    fn misplaced(&self, cycle: u32, applied: u32) -> bool {
        cycle > self.length || due_before(&self.log, cycle) != Ok(applied)
    }

    fn memory(&mut self, call: Call) -> Option<Refused> {
        let lent = matches!(call, Call::Set(_) | Call::SetFree | Call::GoTo(_));
        (lent && self.memory.len() < MARKS * SLOT).then_some((2, 0))
    }

    fn mark(&mut self, call: Call) -> Option<Refused> {
        match call {
            Call::Set(slot) | Call::Clear(slot) | Call::GoTo(slot) if slot > 15 => Some((14, 0)),
            Call::Clear(slot) | Call::GoTo(slot) if self.marks[slot as usize].is_none() => Some((15, 0)),
            Call::SetFree if self.marks.iter().all(Option::is_some) => Some((16, 0)),
            _ => None,
        }
    }

    /// "then the slot's 10, 11 (offset in its image), 13"
    fn slot(&mut self, call: Call) -> Option<Refused> {
        let Call::GoTo(slot) = call else { return None };
        let slot = &self.memory[SLOT * slot as usize..][..SLOT];
        let number = |at: usize| u32::from_le_bytes(slot[at..at + 4].try_into().unwrap());
        let misplaced = self.misplaced(number(0), number(4));
        imagecheck::check(&slot[8..]).err().or(misplaced.then_some((13, 0)))
    }

    fn beyond(&mut self, call: Call) -> Option<Refused> {
        let end = match call {
            Call::Play(n) => self.cycle as u64 + n as u64,
            Call::Seek(to) => to as u64,
            _ => return None,
        };
        (end > self.length as u64).then_some((12, 0))
    }

    /// "Frames due = (output counter + n)/480, cut."
    fn room(&mut self, call: Call) -> Option<Refused> {
        let Call::Play(n) = call else { return None };
        let due = (self.run.at(self.cycle).1.output as u64 + n as u64) / 480;
        (due > ROOM).then_some((2, 0))
    }
}

fn lent_log(call: Call) -> bool {
    !matches!(call, Call::Clear(_) | Call::Mute(_))
}
