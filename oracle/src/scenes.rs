//! Random logs that ask what becomes of a write: few channels play, and around every start and stop, in the same cycle and in
//! those next to it, waves, the modulation table and registers that are not there are written. The Rust goes along, so that it
//! is known when a channel stops by itself.

use crate::digest::Frames;
use crate::log::Write;
use crate::random::Numbers;
use crate::state::{read, NOISE, SWEPT};
use crate::vsu::core::VSU;

struct Scenes<'a> {
    r: &'a mut Numbers,
    /// the channels that are started
    voices: Vec<u32>,
    list: Vec<Write>,
    /// where the last of them was made
    unit: VSU,
    cycle: u32,
}

/// How a channel that was started comes to its end.
#[derive(Clone, Copy, PartialEq)]
enum End {
    Written,
    AutoStop,
    Sweep,
}

/// The length of such a log and its writes.
pub fn scenes(r: &mut Numbers) -> (u32, Vec<Write>) {
    let voices = voices(r);
    let mut at = r.below(500);
    let mut scenes = Scenes { r, voices, list: Vec::new(), unit: VSU::new(), cycle: 0 };
    // the bank of every channel: a wave that is wrongly taken or held is heard too
    let wave = (0..32).map(|i| (4 * i, scenes.r.byte())).collect();
    scenes.add(at, wave);
    for _ in 0..1 + scenes.r.below(6) {
        at = scenes.scene(at);
    }
    (scenes.cycle + scenes.r.pick(&[1, 1, 2, 480, 1_000]), scenes.list)
}

/// Channel 5 alone, noise alone, another alone, or several.
fn voices(r: &mut Numbers) -> Vec<u32> {
    match r.below(6) {
        0 | 1 => vec![SWEPT as u32],
        2 => vec![NOISE as u32],
        3 => vec![r.below(4)],
        4 => vec![SWEPT as u32, r.pick(&[0, 1, 2, 3, 5])],
        _ => (0..6).collect(),
    }
}

impl Scenes<'_> {
    /// A channel is started, and stops by itself or is stopped in one of the ways there are; answers when the next may begin.
    fn scene(&mut self, at: u32) -> u32 {
        let voice = self.r.pick(&self.voices);
        let base = 0x400 + 0x40 * voice + self.r.pick(&[0, 0, 0x20]);
        let end = match self.r.below(3) {
            0 => End::AutoStop,
            1 if voice == SWEPT as u32 => End::Sweep,
            _ => End::Written,
        };
        let setup = self.setup(base, voice == SWEPT as u32, end);
        self.add(at, setup);
        let flags = if end == End::AutoStop { 0xA0 } else { 0x80 };
        let start = (base, flags | self.r.below(0x20) as u8);
        self.around(at, vec![start]);
        if end == End::Written {
            let to = at + self.r.pick(&[0, 0, 1, 2, 480, 5_000]);
            let stop = self.stop(base);
            self.around(to, stop);
            return to + self.r.below(3);
        }
        let to = at + self.left(voice as usize, end);
        let table = if voice == SWEPT as u32 { self.r.pick(&[0, 0x280]) } else { 0 };
        for near in [to - 1, to, to + 1] {
            let write = (table + self.r.below(0x80), self.r.byte());
            self.around(near, vec![write]);
        }
        to + 2 + self.r.below(500)
    }

    fn setup(&mut self, base: u32, swept: bool, end: End) -> Vec<(u32, u8)> {
        let r = &mut self.r;
        let mut list = vec![(base + 0x04, r.byte() | 0x11), (base + 0x08, r.byte()), (base + 0x10, r.byte() | 0x80)];
        if end == End::Sweep {
            // from 1792 on and with a shift of at most 2, so that the first sweep is past 2047
            let sweep = r.pick(&[0x10, 0x10, 0x20]) | 8 | r.below(3);
            list.extend([(base + 0x0C, 7), (base + 0x14, 0x40), (base + 0x1C, sweep as u8)]);
        } else if swept {
            list.push((base + 0x14, 0));
        }
        list
    }

    /// The cycles until a channel that was just started stops by itself. Live ticks and the sweep's interval counter go on over
    /// a new start.
    fn left(&self, voice: usize, end: End) -> u32 {
        let state = read(&self.unit);
        match end {
            End::Sweep => 19_201 * state.sweep.interval.saturating_sub(state.sweep.interval_counter).max(1),
            _ => 76_805 - state.channels[voice].live_tick,
        }
    }

    /// By its own register, by the stop register, not at all: by a stop register with bit 0 clear, a new start, nothing.
    fn stop(&mut self, base: u32) -> Vec<(u32, u8)> {
        let byte = self.r.byte();
        match self.r.below(8) {
            0 | 1 => vec![(base, byte & 0x7F)],
            2 | 3 => vec![(0x580, byte | 1)],
            4 => vec![(0x580, byte & 0xFE)],
            5 => vec![(base, byte | 0x80)],
            6 => vec![(base, byte & 0x7F), (base, 0x80), (0x580, 1)],
            _ => Vec::new(),
        }
    }

    /// The writes, each with others before and after it in the same cycle.
    fn around(&mut self, at: u32, writes: Vec<(u32, u8)>) {
        self.probes(at);
        for write in writes {
            self.add(at, vec![write]);
            self.probes(at);
        }
    }

    fn probes(&mut self, at: u32) {
        let probes = (0..self.r.below(4)).map(|_| probe(self.r)).collect();
        self.add(at, probes);
    }

    fn add(&mut self, due: u32, writes: Vec<(u32, u8)>) {
        self.unit.step((due - self.cycle) as usize, &mut Frames::default());
        self.cycle = due;
        for (address, byte) in writes {
            self.unit.set_u8(address as usize, byte);
            self.list.push(Write { due, address: address as u16, byte });
        }
    }
}

/// A write that starts and stops nothing by itself: to a wave, to the modulation table, to a register that is not there or to
/// one that is.
pub fn probe(r: &mut Numbers) -> (u32, u8) {
    let byte = r.byte();
    let address = match r.below(12) {
        0..=2 => r.below(0x280),
        3 => r.pick(&[0x000, 0x001, 0x07F, 0x080, 0x27C, 0x27F]),
        4..=6 => 0x280 + r.below(0x80),
        7 => r.pick(&[0x280, 0x281, 0x2FC, 0x2FF]),
        8..=10 => absent(r),
        _ => 0x400 + 0x40 * r.below(6) + r.pick(&[0, 0x20]) + 4 * (1 + r.below(7)),
    };
    (address, byte)
}

fn absent(r: &mut Numbers) -> u32 {
    let mirror = r.pick(&[0, 0, 0x20]);
    match r.below(9) {
        0 => 0x558 + mirror,
        1 | 2 => 0x41C + 0x40 * r.pick(&[0, 1, 2, 3, 5]) + mirror,
        3 | 4 => 0x400 + 0x40 * r.below(6) + mirror + 4 * r.below(8) + 1 + r.below(3),
        5 => 0x300 + r.below(0x100),
        6 => 0x581 + r.below(0x7F),
        7 => r.pick(&[0x300, 0x3FC, 0x3FF, 0x57F, 0x581, 0x584, 0x5A0, 0x5C0, 0x600, 0x7FF, 0x800, 0xFFFF]),
        // a mapped address with a high bit set is not mapped
        _ => r.below(0x600) | 1 << (11 + r.below(5)),
    }
}
