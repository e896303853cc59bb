//! The state image of document 01, 420 bytes, written from its text; of the edition that 02 (v) has, and read in both.

use crate::imagecheck::check;
use crate::log::Refused;
use crate::state::{in_range, power_on, read, State};
use crate::unit::Unit;
use crate::vsu::core::VSU;

pub const LENGTH: usize = 420;
const WAVES: usize = 16;
const MODULATION: usize = 176;
const CHANNELS: usize = 208;
const CHANNEL_LENGTH: usize = 32;
const SWEEP: usize = 400;
const OUTPUT: usize = 416;
/// Where an image has its edition, and edition 2 the mutes.
pub const EDITION: usize = 0;
pub const MUTES: usize = 418;

/// Of the Rust's unit with nothing muted.
pub fn image(unit: &VSU) -> [u8; LENGTH] {
    image_of(&read(unit))
}

/// Stops the program when the image is not one of a state in range.
pub fn from_image(bytes: &[u8; LENGTH]) -> Unit {
    Unit::of(&state_of(bytes).expect("the image is not one of a state in range"))
}

pub fn image_of(state: &State) -> [u8; LENGTH] {
    let mut b = [0; LENGTH];
    put16(&mut b, EDITION, 2);
    put16(&mut b, 2, 16); // header length
    put32(&mut b, 4, 420); // total
    put16(&mut b, 8, 5); // waves
    put16(&mut b, 10, 6); // channels
    put16(&mut b, 12, CHANNELS as u32);
    put16(&mut b, 14, SWEEP as u32);
    for (i, v) in state.waves.iter().enumerate() {
        b[WAVES + i] = byte(*v);
    }
    for (i, v) in state.modulation.iter().enumerate() {
        b[MODULATION + i] = byte(*v);
    }
    for (i, c) in state.channels.iter().enumerate() {
        let at = CHANNELS + CHANNEL_LENGTH * i;
        b[at] = flags([c.auto_stop, c.play, c.up, c.envelope_on, c.envelope_loop]);
        b[at + 1] = byte(c.live_interval);
        b[at + 2] = byte(c.live_counter);
        b[at + 3] = byte(c.left);
        b[at + 4] = byte(c.right);
        b[at + 5] = byte(c.level);
        b[at + 6] = byte(c.envelope_interval);
        b[at + 7] = byte(c.reload);
        b[at + 8] = byte(c.envelope_step);
        b[at + 9] = byte(c.bank);
        b[at + 10] = byte(c.position);
        put16(&mut b, at + 12, c.frequency);
        put16(&mut b, at + 14, c.frequency_counter);
        put32(&mut b, at + 16, c.live_tick);
        put32(&mut b, at + 20, c.tick);
        put32(&mut b, at + 24, c.envelope_tick);
        put16(&mut b, at + 28, c.shift);
    }
    let s = &state.sweep;
    b[SWEEP] = flags([s.enable, s.loops, s.modulate, s.slow, s.up]);
    b[SWEEP + 1] = byte(s.interval);
    b[SWEEP + 2] = byte(s.shift);
    b[SWEEP + 3] = byte(s.interval_counter);
    put32(&mut b, SWEEP + 4, s.step_counter);
    b[SWEEP + 8] = byte(s.index);
    put16(&mut b, SWEEP + 10, s.last);
    put16(&mut b, SWEEP + 12, s.current);
    put16(&mut b, SWEEP + 14, s.next);
    put16(&mut b, OUTPUT, state.output);
    b[MUTES] = byte(state.mutes);
    b
}

/// The image that edition 1 has of the same state, where nothing is muted.
pub fn first_edition(mut image: [u8; LENGTH]) -> [u8; LENGTH] {
    image[EDITION] = 1;
    image[MUTES] = 0;
    image
}

/// How an image that is accepted is written back: "edition 1 .. always writes back as edition 2", edition 2 as it is.
pub fn written_back(bytes: &[u8]) -> Vec<u8> {
    let mut image = bytes.to_vec();
    image[EDITION] = 2;
    image
}

/// The state that an image of either edition holds; none when the image breaks a rule.
pub fn state_of(b: &[u8; LENGTH]) -> Option<State> {
    let state = taken_apart(b);
    // header, zero bytes and unused flags: an image is right when it is the image of the state read from it
    let image = image_of(&state);
    (in_range(&state) && [image, first_edition(image)].contains(b)).then_some(state)
}

/// The state that the bytes hold, or power-on and 01's refusal. What is accepted is left to `imagecheck` alone, so that a
/// stream's answers test that reading.
pub fn read_image(bytes: &[u8]) -> (State, Result<(), Refused>) {
    match check(bytes) {
        Ok(()) => (taken_apart(bytes.try_into().expect("an image of another length was accepted")), Ok(())),
        Err(why) => (power_on(), Err(why)),
    }
}

/// The numbers in an image, with no rule applied.
fn taken_apart(b: &[u8; LENGTH]) -> State {
    let mut state = power_on();
    for (i, v) in state.waves.iter_mut().enumerate() {
        *v = b[WAVES + i] as u32;
    }
    for (i, v) in state.modulation.iter_mut().enumerate() {
        *v = b[MODULATION + i] as u32;
    }
    for (i, c) in state.channels.iter_mut().enumerate() {
        let at = CHANNELS + CHANNEL_LENGTH * i;
        [c.auto_stop, c.play, c.up, c.envelope_on, c.envelope_loop] = unflags(b[at]);
        c.live_interval = b[at + 1] as u32;
        c.live_counter = b[at + 2] as u32;
        c.left = b[at + 3] as u32;
        c.right = b[at + 4] as u32;
        c.level = b[at + 5] as u32;
        c.envelope_interval = b[at + 6] as u32;
        c.reload = b[at + 7] as u32;
        c.envelope_step = b[at + 8] as u32;
        c.bank = b[at + 9] as u32;
        c.position = b[at + 10] as u32;
        c.frequency = get16(b, at + 12);
        c.frequency_counter = get16(b, at + 14);
        c.live_tick = get32(b, at + 16);
        c.tick = get32(b, at + 20);
        c.envelope_tick = get32(b, at + 24);
        c.shift = get16(b, at + 28);
    }
    let s = &mut state.sweep;
    [s.enable, s.loops, s.modulate, s.slow, s.up] = unflags(b[SWEEP]);
    s.interval = b[SWEEP + 1] as u32;
    s.shift = b[SWEEP + 2] as u32;
    s.interval_counter = b[SWEEP + 3] as u32;
    s.step_counter = get32(b, SWEEP + 4);
    s.index = b[SWEEP + 8] as u32;
    s.last = get16(b, SWEEP + 10);
    s.current = get16(b, SWEEP + 12);
    s.next = get16(b, SWEEP + 14);
    state.output = get16(b, OUTPUT);
    // "edition 1 is still read, as nothing muted"
    state.mutes = if get16(b, EDITION) == 1 { 0 } else { b[MUTES] as u32 };
    state
}

fn byte(v: u32) -> u8 {
    u8::try_from(v).expect("a field of one byte")
}

fn put16(b: &mut [u8], at: usize, v: u32) {
    b[at..at + 2].copy_from_slice(&u16::try_from(v).expect("a field of two bytes").to_le_bytes());
}

fn put32(b: &mut [u8], at: usize, v: u32) {
    b[at..at + 4].copy_from_slice(&v.to_le_bytes());
}

fn get16(b: &[u8], at: usize) -> u32 {
    u16::from_le_bytes([b[at], b[at + 1]]) as u32
}

fn get32(b: &[u8], at: usize) -> u32 {
    u32::from_le_bytes([b[at], b[at + 1], b[at + 2], b[at + 3]])
}

/// Flags count from bit 0.
fn flags(list: [u32; 5]) -> u8 {
    list.iter().enumerate().map(|(i, v)| byte(*v) << i).sum()
}

fn unflags(b: u8) -> [u32; 5] {
    [0, 1, 2, 3, 4].map(|i| (b >> i & 1) as u32)
}
