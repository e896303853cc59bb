//! Random logs for the stem bouncer, in which several voices sound at once. Each stem loses what its side has above a multiple of 8,
//! here its rest; the mix loses what the sum has above one. They are 160 apart where six rests, 7 at most, come to 40 or more: with
//! any voices that is one side in ten thousand. So voices and samples are drawn several times, and those with the largest rests kept.

use crate::log::{bytes_of, Write};
use crate::random::Numbers;
use crate::scenes::probe;
use crate::state::NOISE;

#[derive(Clone, Copy)]
struct Voice {
    level: u32,
    left: u32,
    right: u32,
}

impl Voice {
    /// With a level and volumes from the least to 15.
    fn any(r: &mut Numbers, least: u32) -> Self {
        let mut number = || least + r.below(16 - least);
        Voice { level: number(), left: number(), right: number() }
    }

    /// What both sides have above a multiple of 8. 01: "a = level × volume / 8, cut, plus 1 if both are above 0; a × sample / 2,
    /// cut."
    fn rests(&self, sample: u32) -> u32 {
        let a = |volume| self.level * volume / 8 + u32::from(self.level > 0 && volume > 0);
        [self.left, self.right].map(|volume| a(volume) * sample / 2 % 8).iter().sum()
    }

    fn most(&self, channel: usize) -> u32 {
        if channel == NOISE {
            return self.rests(63);
        }
        (0..64).map(|sample| self.rests(sample)).max().unwrap_or(0)
    }
}

/// Up to sixty frames, some up to six hundred.
pub fn chord(r: &mut Numbers) -> Vec<u8> {
    let most = if r.one_in(8) { 600 } else { 60 };
    let length = 480 * (1 + r.below(most)) + r.below(480);
    let mut list = begin(r, length);
    for _ in 0..r.below(16) {
        let due = match r.below(3) {
            // next to the cycle that makes a frame
            0 => (480 * r.below(length / 480 + 1) + r.below(3)).saturating_sub(1).min(length - 1),
            _ => r.below(length),
        };
        let (address, byte) = change(r);
        list.push((due, address, byte));
    }
    let mut writes: Vec<Write> =
        list.into_iter().map(|(due, address, byte)| Write { due, address: address as u16, byte }).collect();
    writes.sort_by_key(|w| w.due);
    bytes_of(length, &writes)
}

/// Each wave channel has a wave of its own; the voices begin at once or one after the other. In one of three all are loud.
fn begin(r: &mut Numbers, length: u32) -> Vec<(u32, u32, u8)> {
    let (draws, least) = (r.pick(&[1, 2, 8, 32, 32]), r.pick(&[0, 0, 12]));
    let voices = [0, 1, 2, 3, 4, 5].map(|k| best(r, draws, |r| Voice::any(r, least), |voice| voice.most(k)));
    let mut list = Vec::new();
    for (bank, voice) in (0..).zip(&voices[..NOISE]) {
        for i in 0..32 {
            let sample = best(r, draws, |r| 4 * least + r.below(64 - 4 * least), |sample| voice.rests(*sample));
            list.push((0, 0x80 * bank + 4 * i, sample as u8));
        }
    }
    let (mut due, gap) = (r.below(length.min(500)), r.pick(&[0, 0, 480, 1_000]));
    let all = !r.one_in(4);
    for (k, voice) in voices.iter().enumerate() {
        if all || r.one_in(2) {
            list.extend(start(r, k, voice).into_iter().map(|(address, byte)| (due, address, byte)));
            due = (due + gap).min(length - 1);
        }
    }
    list
}

/// The noise is quick, to be on and off in a few frames.
fn start(r: &mut Numbers, channel: usize, voice: &Voice) -> Vec<(u32, u8)> {
    let base = 0x400 + 0x40 * channel as u32;
    let frequency = match r.below(3) {
        _ if channel == NOISE => 2_000 + r.below(48),
        0 => 2_047 - r.below(64),
        _ => r.below(2_048),
    };
    let auto_stop = if r.one_in(4) { 0x20 } else { 0 };
    vec![
        (base + 0x04, (16 * voice.left + voice.right) as u8),
        (base + 0x08, frequency as u8),
        (base + 0x0C, (frequency >> 8) as u8),
        (base + 0x10, (16 * voice.level + r.below(16)) as u8),
        (base + 0x14, r.byte() & 0x73),
        (base + 0x18, channel as u8),
        (base, 0x80 | auto_stop | r.below(0x20) as u8),
    ]
}

/// A voice becomes another, stops or starts; or a write that is held or has no register.
fn change(r: &mut Numbers) -> (u32, u8) {
    let (base, byte) = (0x400 + 0x40 * r.below(6) + r.pick(&[0, 0, 0x20]), r.byte());
    match r.below(12) {
        0..=2 => (base + 0x04, byte),
        3 => (base + 0x08, byte),
        4 => (base + 0x10, byte),
        5 => (base + 0x18, byte % 8),
        6 | 7 => (base, byte & 0x7F),
        8 => (base, byte | 0x80),
        9 => (r.below(0x300), byte),
        10 if r.one_in(4) => (0x580, 1),
        _ => probe(r),
    }
}

/// The best of so many draws.
fn best<T>(r: &mut Numbers, draws: u32, draw: impl Fn(&mut Numbers) -> T, worth: impl Fn(&T) -> u32) -> T {
    (0..draws).map(|_| draw(r)).max_by_key(worth).expect("one draw at least")
}
