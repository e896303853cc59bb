//! A log rendered on the given Rust in the plainest and fastest way, to be timed: the unit goes from one due cycle to the next in one
//! step. `listing` has the same bytes from a run that goes cycle by cycle.

use crate::digest::Frames;
use crate::listing::{check_sized, wav_of, OPENED};
use crate::log::{writes, Refused};
use crate::vsu::core::VSU;

/// The WAV of a log with nothing muted.
pub fn render(log: &[u8]) -> Result<Vec<u8>, Refused> {
    let (_, cycles) = check_sized(log, OPENED)?;
    let (mut unit, mut frames, mut now) = (VSU::new(), Frames::default(), 0);
    for w in writes(log) {
        unit.step((w.due - now) as usize, &mut frames);
        now = w.due;
        unit.set_u8(w.address as usize, w.byte);
    }
    unit.step((cycles - now) as usize, &mut frames);
    Ok(wav_of(frames.0.into_iter()))
}
