//! Document 01's rules and 02 (v)'s mutes written down once more, from their text alone, and held against the Rust.

use oracle::digest::{fold, sum_of, FrameSum};
use oracle::image::{image_of, state_of};
use oracle::random::{case, Numbers};
use oracle::reader::Reader;
use oracle::sample::sample;
use oracle::state::{power_on, State, NOISE, SWEPT, TAPS};
use oracle::stream::{op, Maker, Op};

/// "Register writes"
fn write(s: &mut State, address: u32, byte: u32) {
    match address {
        0x000..=0x27F => {
            if s.channels.iter().all(|c| c.play == 0) {
                s.waves[(address / 0x80 * 32 + address / 4 % 32) as usize] = byte % 64;
            }
        }
        0x280..=0x2FF => {
            if s.channels[SWEPT].play == 0 {
                s.modulation[((address - 0x280) / 4) as usize] = byte;
            }
        }
        0x580 => {
            if byte % 2 == 1 {
                s.channels.iter_mut().for_each(|c| c.play = 0);
            }
        }
        0x400..=0x57F => write_channel(s, ((address - 0x400) / 0x40) as usize, address % 0x20, byte),
        _ => {}
    }
}

fn bit(byte: u32, n: u32) -> u32 {
    byte >> n & 1
}

fn write_channel(s: &mut State, index: usize, offset: u32, byte: u32) {
    let c = &mut s.channels[index];
    match offset {
        0x00 => {
            c.live_interval = byte % 32;
            c.auto_stop = bit(byte, 5);
            c.play = bit(byte, 7);
            c.live_counter = c.live_interval;
            c.frequency_counter = 0;
            c.envelope_step = 0;
            c.position = 0;
            c.shift = 0;
            if index == SWEPT {
                s.sweep.step_counter = 0;
                s.sweep.index = 0;
            }
        }
        0x04 => (c.left, c.right) = (byte / 16, byte % 16),
        0x08 => {
            c.frequency = c.frequency / 256 * 256 + byte;
            if index == SWEPT {
                s.sweep.last = s.sweep.last / 256 * 256 + byte;
                s.sweep.next = s.sweep.next / 256 * 256 + byte;
            }
        }
        0x0C => {
            c.frequency = c.frequency % 256 + byte % 8 * 256;
            if index == SWEPT {
                s.sweep.last = s.sweep.last % 256 + byte % 8 * 256;
                s.sweep.next = s.sweep.next % 256 + byte % 8 * 256;
            }
        }
        0x10 => {
            c.envelope_interval = byte % 8;
            c.up = bit(byte, 3);
            c.reload = byte / 16;
            c.level = c.reload;
        }
        0x14 => {
            c.envelope_on = bit(byte, 0);
            c.envelope_loop = bit(byte, 1);
            if index == SWEPT {
                s.sweep.modulate = bit(byte, 4);
                s.sweep.loops = bit(byte, 5);
                s.sweep.enable = bit(byte, 6);
            }
            if index == NOISE {
                c.bank = TAPS[(byte / 16 % 8) as usize];
            }
        }
        0x18 if index != NOISE => c.bank = byte % 8,
        0x1C if index == SWEPT => {
            s.sweep.shift = byte % 8;
            s.sweep.up = bit(byte, 3);
            s.sweep.interval = byte / 16 % 8;
            s.sweep.slow = bit(byte, 7);
        }
        _ => {}
    }
}

/// "One cycle, in this order"; the frame if one is made
fn cycle(s: &mut State) -> Option<(i32, i32)> {
    for c in &mut s.channels {
        if c.play == 1 && c.auto_stop == 1 {
            c.live_tick += 1;
            if c.live_tick == 76_805 {
                c.live_tick = 0;
                c.live_counter += 1;
                if c.live_counter >= c.live_interval + 1 {
                    c.play = 0;
                    c.live_counter = 0;
                }
            }
        }
    }
    for (i, c) in s.channels.iter_mut().enumerate() {
        c.tick += 1;
        if c.tick == if i == NOISE { 40 } else { 4 } {
            c.tick = 0;
            c.frequency_counter += 1;
            let frequency = if i == SWEPT { s.sweep.current } else { c.frequency };
            if c.frequency_counter > 2047 - frequency {
                c.frequency_counter = 0;
                if i == NOISE {
                    let new = 1 - (bit(c.shift, 7) ^ bit(c.shift, c.bank));
                    c.shift = 2 * c.shift % 32768 + new;
                    c.position = new;
                } else {
                    c.position = (c.position + 1) % 32;
                }
            }
        }
    }
    for c in &mut s.channels {
        c.envelope_tick += 1;
        if c.envelope_tick == 307_219 {
            c.envelope_tick = 0;
            if c.envelope_on == 1 {
                c.envelope_step += 1;
                if c.envelope_step >= c.envelope_interval + 1 {
                    c.envelope_step = 0;
                    if c.up == 1 && c.level < 15 {
                        c.level += 1;
                    } else if c.up == 0 && c.level > 0 {
                        c.level -= 1;
                    } else if c.envelope_loop == 1 {
                        c.level = c.reload;
                    }
                }
            }
        }
    }
    sweep(s);
    s.output += 1;
    if s.output < 480 {
        return None;
    }
    s.output = 0;
    Some(frame(s))
}

fn sweep(s: &mut State) {
    let w = &mut s.sweep;
    w.step_counter += 1;
    if w.step_counter < if w.slow == 1 { 153_609 } else { 19_201 } {
        return;
    }
    w.step_counter = 0;
    w.interval_counter += 1;
    if w.interval_counter < w.interval {
        return;
    }
    w.interval_counter = 0;
    w.current = w.next;
    if s.channels[SWEPT].play == 0 || w.enable == 0 || w.interval == 0 {
        return;
    }
    if w.modulate == 1 {
        let entry = s.modulation[w.index as usize] as u8 as i8 as i32;
        w.next = (w.last as i32 + entry).rem_euclid(2048) as u32;
        if w.index == 31 && w.loops == 0 {
            w.enable = 0;
        } else {
            w.index = (w.index + 1) % 32;
        }
    } else {
        let part = w.current / 2u32.pow(w.shift);
        if w.up == 0 {
            w.next = w.current - part;
        } else if w.current + part > 2047 {
            s.channels[SWEPT].play = 0;
        } else {
            w.next = w.current + part;
        }
    }
}

fn frame(s: &State) -> (i32, i32) {
    let mut sums = [0, 0];
    // "a muted voice adds nothing to a frame"
    for (i, c) in s.channels.iter().enumerate().filter(|(k, c)| c.play == 1 && bit(s.mutes, *k as u32) == 0) {
        let sample = match i {
            NOISE => 63 * c.position,
            _ if c.bank > 4 => 0,
            _ => s.waves[(32 * c.bank + c.position) as usize],
        };
        for (sum, volume) in sums.iter_mut().zip([c.left, c.right]) {
            let a = c.level * volume / 8 + u32::from(c.level > 0 && volume > 0);
            *sum += a * sample / 2;
        }
    }
    let [left, right] = sums.map(|sum| (sum / 8 * 8 * 4) as i32);
    (left, right)
}

/// Replays a stream, which holds the Rust's answers, on the rules above.
fn replay(bytes: &[u8]) {
    let mut reader = Reader::new(bytes);
    let mut s = power_on();
    for number in 0.. {
        match op(&mut reader).unwrap() {
            Op::Power => s = power_on(),
            Op::Load(image) => s = state_of(&image).unwrap(),
            Op::Write { address, byte } => write(&mut s, address, byte as u32),
            Op::Mute { bits } => s.mutes = bits.into(),
            Op::Run { n, made, .. } => assert_eq!(run(&mut s, n), made, "op {number}"),
            Op::Silent { n, .. } => {
                run(&mut s, n);
            }
            Op::State { sum } => assert_eq!(sum_of(&image_of(&s)), sum, "op {number}: {s:?}"),
            Op::Image(image) => assert_eq!(image_of(&s), *image, "op {number}: {s:?}"),
            // tests/images.rs holds these
            Op::Byte { .. } | Op::Bytes { .. } => {}
            Op::End => return,
        }
    }
}

fn run(s: &mut State, n: u32) -> FrameSum {
    let mut made = FrameSum::default();
    for _ in 0..n {
        if let Some((left, right)) = cycle(s) {
            made.frames += 1;
            made.sum = fold(fold(made.sum, left.rem_euclid(65_536) as u32), right.rem_euclid(65_536) as u32);
        }
    }
    made
}

#[test]
fn sample_agrees() {
    replay(&sample().bytes);
}

#[test]
fn random_cases_agree() {
    for seed in 1..=20 {
        let mut maker = Maker::new();
        let mut numbers = Numbers::new(seed);
        for _ in 0..100 {
            case(&mut maker, &mut numbers, 50_000);
        }
        maker.end();
        replay(&maker.bytes);
    }
}

#[test]
fn long_cases_agree() {
    for seed in 100..=104 {
        let mut maker = Maker::new();
        let mut numbers = Numbers::new(seed);
        for _ in 0..10 {
            case(&mut maker, &mut numbers, 1_900_000);
        }
        maker.end();
        replay(&maker.bytes);
    }
}
