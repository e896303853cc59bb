//! One number for an image, and one for a list of frames.

use crate::vsu::traits::{AudioFrame, Sink};

const MODULUS: u64 = 1_000_000_007;

pub fn fold(sum: u32, value: u32) -> u32 {
    ((sum as u64 * 31 + value as u64) % MODULUS) as u32
}

/// The sum of a whole image.
pub fn sum_of(image: &[u8]) -> u32 {
    image.iter().fold(0, |sum, &byte| fold(sum, byte as u32))
}

/// A sink that counts frames and folds them, left side first.
#[derive(Clone, Copy, Debug, Default, PartialEq)]
pub struct FrameSum {
    pub frames: u32,
    pub sum: u32,
}

impl Sink<AudioFrame> for FrameSum {
    fn append(&mut self, (left, right): AudioFrame) {
        self.frames += 1;
        self.sum = fold(self.sum, left as u16 as u32);
        self.sum = fold(self.sum, right as u16 as u32);
    }
}

/// A sink that drops the frames.
pub struct Dropped;

impl Sink<AudioFrame> for Dropped {
    fn append(&mut self, _: AudioFrame) {}
}

/// A sink that keeps the frames.
#[derive(Default)]
pub struct Frames(pub Vec<AudioFrame>);

impl Sink<AudioFrame> for Frames {
    fn append(&mut self, frame: AudioFrame) {
        self.0.push(frame);
    }
}
