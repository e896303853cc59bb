//! One unbroken run of a log from power-on, on the given Rust: what document 01 means by the state at a cycle and by the
//! frames of a span, 02 (iii) by the sort of an entry and 02 (vi) by the stems. All are asked for by their cycles alone, the frames
//! with the present mutes, so nothing that a player did before can be heard in them. The run itself is unmuted.

use crate::digest::Frames;
use crate::log::Write;
use crate::sorts::{playing, sort, Counts, Sort};
use crate::state::{read, State};
use crate::unit::copy;
use crate::vsu::core::VSU;
use crate::vsu::traits::AudioFrame;

/// The run is kept at every so many cycles, to be gone on from there.
const EVERY: u32 = 8_192;

/// The mutes with which one channel alone is heard, 0 to 5.
const ALONE: [u32; 6] = [63 - 1, 63 - 2, 63 - 4, 63 - 8, 63 - 16, 63 - 32];

pub struct Run {
    writes: Vec<Write>,
    /// as far as the run was asked for
    last: Point,
    /// the run at 0, EVERY, 2 × EVERY and so on
    kept: Vec<Point>,
    /// each frame with nothing muted, and the cycle that made it
    frames: Vec<(u32, AudioFrame)>,
    /// of the writes that the run came to, each in the unit as it found it
    sorts: Vec<Sort>,
    /// what `at` answered last, and for which cycle
    asked: (u32, u32, State),
}

/// What one cycle makes: the frame with nothing muted, the frame with each channel heard alone, and which channels play then.
#[derive(Clone, Debug, PartialEq)]
pub struct Stems {
    pub made: u32,
    pub mix: AudioFrame,
    pub stems: [AudioFrame; 6],
    pub plays: [bool; 6],
}

/// The unit after so many cycles, and how many writes it was given.
struct Point {
    unit: VSU,
    cycle: u32,
    applied: usize,
}

impl Run {
    /// The writes of an accepted log, so their due cycles never fall.
    pub fn new(writes: Vec<Write>) -> Self {
        let start = || Point { unit: VSU::new(), cycle: 0, applied: 0 };
        let (frames, sorts) = (Vec::new(), Vec::new());
        Run { writes, last: start(), kept: vec![start()], frames, sorts, asked: (0, 0, read(&VSU::new())) }
    }

    /// How many entries have been applied at a cycle, and the state there.
    pub fn at(&mut self, cycle: u32) -> (u32, State) {
        if self.asked.0 != cycle {
            self.reach(cycle);
            let mut point = self.kept_before(cycle);
            point.run_to(cycle, &self.writes);
            self.asked = (cycle, point.applied as u32, read(&point.unit));
        }
        (self.asked.1, self.asked.2.clone())
    }

    fn kept_before(&self, cycle: u32) -> Point {
        self.kept[(cycle / EVERY) as usize].muted(0)
    }

    /// The frames that the cycles `from + 1` to `to` make with these mutes, each with its cycle.
    pub fn frames(&mut self, from: u32, to: u32, mutes: u32) -> Vec<(u32, AudioFrame)> {
        self.reach(to);
        let frames: Vec<_> = self.frames.iter().filter(|(made, _)| from < *made && *made <= to).copied().collect();
        if mutes == 0 {
            return frames;
        }
        self.made_again(&frames, |point| point.frame(mutes))
    }

    /// The same frames with nothing muted, each with its six stems. One pass makes them all.
    pub fn stems(&mut self, from: u32, to: u32) -> Vec<Stems> {
        let mixes = self.frames(from, to, 0);
        let stems = self.made_again(&mixes, |point| (ALONE.map(|mutes| point.frame(mutes)), point.play_next()));
        let both = mixes.into_iter().zip(stems);
        both.map(|((made, mix), (_, (stems, plays)))| Stems { made, mix, stems, plays }).collect()
    }

    /// Goes to the cycle that made each of the frames, after the writes due there: they may be of volumes.
    fn made_again<T>(&self, frames: &[(u32, AudioFrame)], make: impl Fn(&Point) -> T) -> Vec<(u32, T)> {
        let Some((first, _)) = frames.first() else { return Vec::new() };
        let (mut point, mut list) = (self.kept_before(first - 1), Vec::new());
        for (made, _) in frames {
            point.run_to(*made - 1, &self.writes);
            point.write_due(&self.writes, |_, _| {});
            list.push((*made, make(&point)));
        }
        list
    }

    /// The entries due at `from` up to but not at `to`, each with its index and its sort.
    pub fn judged(&mut self, from: u32, to: u32) -> Vec<(usize, Write, Sort)> {
        self.reach(to);
        let entries = self.writes.iter().zip(&self.sorts).enumerate();
        let due = entries.filter(|(_, (w, _))| from <= w.due && w.due < to);
        due.map(|(index, (w, sort))| (index, *w, *sort)).collect()
    }

    /// How many of those there are of each sort.
    pub fn counts(&mut self, from: u32, to: u32) -> Counts {
        self.judged(from, to).into_iter().map(|(_, _, sort)| sort).collect()
    }

    fn reach(&mut self, cycle: u32) {
        while self.last.cycle < cycle {
            let judge = |unit: &VSU, w: Write| self.sorts.push(sort(unit, w.address.into()));
            let made = self.last.step(&self.writes, judge);
            self.frames.extend(made.map(|frame| (self.last.cycle, frame)));
            if self.last.cycle % EVERY == 0 {
                self.kept.push(self.last.muted(0));
            }
        }
    }
}

impl Point {
    /// One cycle. "One due at T goes in before cycle T + 1 runs": at cycle T, what is due there is written first. Each write is
    /// shown before it is made, with the unit as the writes before it left it.
    fn step(&mut self, writes: &[Write], show: impl FnMut(&VSU, Write)) -> Option<AudioFrame> {
        self.write_due(writes, show);
        self.run_cycle()
    }

    fn write_due(&mut self, writes: &[Write], mut show: impl FnMut(&VSU, Write)) {
        while let Some(w) = writes.get(self.applied).filter(|w| w.due == self.cycle) {
            show(&self.unit, *w);
            self.unit.set_u8(w.address as usize, w.byte);
            self.applied += 1;
        }
    }

    fn run_cycle(&mut self) -> Option<AudioFrame> {
        let mut made = Frames::default();
        self.unit.step(1, &mut made);
        self.cycle += 1;
        made.0.pop()
    }

    fn run_to(&mut self, cycle: u32, writes: &[Write]) {
        while self.cycle < cycle {
            self.step(writes, |_, _| {});
        }
    }

    /// The frame that the next cycle makes, run on a copy that is muted for that cycle alone.
    fn frame(&self, mutes: u32) -> AudioFrame {
        self.muted(mutes).run_cycle().expect("the cycle that made a frame makes one again")
    }

    /// What plays when the next cycle makes a frame: a channel may stop in that very cycle.
    fn play_next(&self) -> [bool; 6] {
        let mut next = self.muted(0);
        next.run_cycle();
        playing(&next.unit)
    }

    /// A copy.
    fn muted(&self, mutes: u32) -> Point {
        Point { unit: copy(&self.unit, mutes), cycle: self.cycle, applied: self.applied }
    }
}
