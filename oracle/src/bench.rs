//! The work that is timed: the same writes and the same fold as the timed Rattle program has.

use crate::digest::{Dropped, FrameSum};
use crate::vsu::core::VSU;

pub fn writes() -> Vec<(u32, u8)> {
    let mut list = Vec::new();
    for a in 0..160u32 {
        list.push((4 * a, (a * 7 % 64) as u8));
    }
    for a in 0..32u32 {
        list.push((0x280 + 4 * a, (a * 37 % 256) as u8));
    }
    for c in 0..6u32 {
        let base = 0x400 + 0x40 * c;
        list.push((base + 0x04, (0xF7 - c) as u8));
        list.push((base + 0x08, ((0x40 * c + 0x21) % 256) as u8));
        list.push((base + 0x0C, if c < 5 { 0x06 } else { 0x07 }));
        list.push((base + 0x10, (0x90 + c) as u8));
        list.push((base + 0x14, [0x03, 0x03, 0x03, 0x03, 0x73, 0x23][c as usize]));
        list.push((base + 0x18, (c % 5) as u8));
        list.push((base + 0x1C, if c == 4 { 0x19 } else { 0x00 }));
        list.push((base, 0x9F)); // play, no auto-stop, interval 31
    }
    list
}

/// The frequency of every channel at its largest, 2047.
pub fn highest_writes() -> Vec<(u32, u8)> {
    (0..6).map(|c| 0x400 + 0x40 * c).flat_map(|base| [(base + 0x08, 0xFF), (base + 0x0C, 0x07)]).collect()
}

/// Noise at its fastest.
pub fn noise_writes() -> Vec<(u32, u8)> {
    vec![(0x548, 0xFF), (0x54C, 0x07)]
}

/// All six stopped.
pub fn quiet_writes() -> Vec<(u32, u8)> {
    vec![(0x580, 0x01)]
}

/// The shortest interval of every envelope, down from 9 and with the loop, so that each level changes at every tick. Channel 5 goes by the
/// table, looped, at every period of the fast clock as it is. Nothing can be due more often, and nothing stops a channel.
pub fn ticks_writes() -> Vec<(u32, u8)> {
    (0..6).map(|c| (0x410 + 0x40 * c, 0x90)).collect()
}

pub fn bench(cycles: usize) -> u32 {
    after(&[], cycles)
}

/// How a seek runs: nothing is heard on the way, and what comes after it shows where it came to.
pub fn advance(cycles: usize) -> u32 {
    let mut unit = started();
    unit.step(cycles, &mut Dropped);
    sum(&mut unit, 48_000)
}

/// The sample of every wave changes every four cycles.
pub fn highest(cycles: usize) -> u32 {
    after(&highest_writes(), cycles)
}

pub fn noise(cycles: usize) -> u32 {
    after(&noise_writes(), cycles)
}

/// Every frame of this is 0 on both sides, and so is the sum.
pub fn quiet(cycles: usize) -> u32 {
    after(&quiet_writes(), cycles)
}

pub fn ticks(cycles: usize) -> u32 {
    after(&ticks_writes(), cycles)
}

/// The timed run with these writes behind its own.
fn after(list: &[(u32, u8)], cycles: usize) -> u32 {
    let mut unit = started();
    write(&mut unit, list);
    sum(&mut unit, cycles)
}

fn started() -> VSU {
    let mut unit = VSU::new();
    write(&mut unit, &writes());
    unit
}

fn write(unit: &mut VSU, list: &[(u32, u8)]) {
    list.iter().for_each(|(address, byte)| unit.set_u8(*address as usize, *byte));
}

fn sum(unit: &mut VSU, cycles: usize) -> u32 {
    let mut sink = FrameSum::default();
    unit.step(cycles, &mut sink);
    sink.sum
}
