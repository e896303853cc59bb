//! The given Rust's unit with the mutes of document 02 (v) beside it: the Rust has none. "A muted voice adds nothing to a frame,
//! and all else moves as if unmuted": a frame is one of the Rust's own, of a copy of the whole unit whose muted channels have the
//! volumes 0, which runs no more than the cycle that makes it. The unit itself runs on unmuted.

use crate::constants::SOUND_SAMPLE_RATE_CYCLE_COUNT;
use crate::digest::Dropped;
use crate::fields::{Fields, Part};
use crate::image::{image_of, LENGTH};
use crate::state::{read, write, State};
use crate::vsu::core::VSU;
use crate::vsu::traits::{AudioFrame, Sink};

pub struct Unit {
    pub rust: VSU,
    pub mutes: u32,
}

impl Unit {
    /// Power-on.
    pub fn new() -> Self {
        Unit { rust: VSU::new(), mutes: 0 }
    }

    pub fn of(state: &State) -> Self {
        Unit { rust: write(state), mutes: state.mutes }
    }

    pub fn state(&self) -> State {
        State { mutes: self.mutes, ..read(&self.rust) }
    }

    pub fn image(&self) -> [u8; LENGTH] {
        image_of(&self.state())
    }

    pub fn write(&mut self, address: u32, byte: u8) {
        self.rust.set_u8(address as usize, byte);
    }

    /// Runs so many cycles.
    pub fn step(&mut self, n: u32, sink: &mut dyn Sink<AudioFrame>) {
        if self.mutes == 0 {
            return self.rust.step(n as usize, sink);
        }
        let (mut left, mut next) = (n as usize, SOUND_SAMPLE_RATE_CYCLE_COUNT - read(&self.rust).output as usize);
        while left >= next {
            self.silent(next - 1);
            copy(&self.rust, self.mutes).step(1, sink);
            self.silent(1);
            (left, next) = (left - next, SOUND_SAMPLE_RATE_CYCLE_COUNT);
        }
        self.silent(left);
    }

    /// Runs so many cycles, the frames not looked at: mutes change nothing else.
    pub fn silent(&mut self, n: usize) {
        self.rust.step(n, &mut Dropped);
    }
}

/// Every field of the Rust's unit, those that no image holds too, but for the volumes of the muted channels. Volumes are used for
/// nothing but the mix.
pub fn copy(unit: &VSU, mutes: u32) -> VSU {
    let mut values = Vec::new();
    unit.dump(&mut Vec::new(), &mut |path, value| values.push(if is_volume(path, mutes) { 0 } else { value }));
    let (mut unit, mut values) = (VSU::new(), values.into_iter());
    unit.load(&mut Vec::new(), &mut |_| values.next());
    unit
}

/// Of one of these channels.
fn is_volume(path: &[Part], mutes: u32) -> bool {
    use Part::*;
    match path {
        [Name("channels"), Index(k), _, Name("channel"), Name("left_volume" | "right_volume")] => mutes >> k & 1 == 1,
        _ => false,
    }
}
