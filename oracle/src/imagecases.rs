//! Damaged images for the streams: random ones, and those of the stored sample. README.md has the table of what each part
//! of the sample covers.

use crate::image::{first_edition, image_of, EDITION, LENGTH, MUTES};
use crate::imagecheck::check;
use crate::random::{muted_state, state, Numbers};
use crate::state::{power_on, State, NOISE};
use crate::stream::{Maker, MOST_BYTES};

/// The noise's tap and output, and the byte of its shift that the output is compared with.
const TAP: usize = 377;
const OUTPUT: usize = 378;
const SHIFT: usize = 396;

const LENGTHS: [usize; 6] = [0, 1, 16, 419, 421, 840];

/// 1 and 2 are known. Both bytes of the number count.
const EDITIONS: [u16; 10] = [0, 1, 2, 3, 256, 257, 258, 513, 0x8001, 0xFFFF];

/// Every field at its largest value: one more in any byte is too much wherever that byte does not wrap.
pub fn largest() -> State {
    let mut s = power_on();
    s.waves = [63; 160];
    s.modulation = [255; 32];
    for (i, c) in s.channels.iter_mut().enumerate() {
        (c.auto_stop, c.play, c.up, c.envelope_on, c.envelope_loop) = (1, 1, 1, 1, 1);
        (c.live_interval, c.live_counter) = (31, 31);
        (c.left, c.right, c.level, c.reload) = (15, 15, 15, 15);
        (c.envelope_interval, c.envelope_step) = (7, 7);
        (c.frequency, c.frequency_counter) = (2047, 2047);
        (c.live_tick, c.envelope_tick) = (76_804, 307_218);
        (c.bank, c.position, c.tick, c.shift) = if i == NOISE { (14, 1, 39, 32_767) } else { (7, 31, 3, 0) };
    }
    let w = &mut s.sweep;
    (w.enable, w.loops, w.modulate, w.slow, w.up) = (1, 1, 1, 1, 1);
    (w.interval, w.shift, w.interval_counter) = (7, 7, 6);
    (w.step_counter, w.index) = (153_608, 31);
    (w.last, w.current, w.next) = (2047, 2047, 2047);
    s.output = 479;
    s.mutes = 63;
    s
}

fn with(image: &[u8], bytes: &[(usize, u8)]) -> Vec<u8> {
    let mut broken = image.to_vec();
    bytes.iter().for_each(|&(at, value)| broken[at] = value);
    broken
}

/// The largest value that is accepted at a place when the other bytes stay, and the one above it: a field's largest and
/// one more, where its other bytes are those of its largest.
fn limits(image: &[u8; LENGTH], at: usize) -> Vec<u8> {
    let mut tried = *image;
    let accepted = (0..=255).rev().find(|&value| {
        tried[at] = value;
        check(&tried).is_ok()
    });
    let largest = accepted.expect("the byte that is there is accepted");
    [Some(largest), largest.checked_add(1)].into_iter().flatten().collect()
}

/// Without the byte that is there already.
fn others(own: u8, mut list: Vec<u8>) -> Vec<u8> {
    list.retain(|&v| v != own);
    list.sort();
    list.dedup();
    list
}

/// Bytes of other lengths: the image cut, or lengthened by zeros, by ones or by itself.
fn lengths(m: &mut Maker, image: &[u8; LENGTH], fill: Option<u8>, list: &[usize]) {
    for &length in list {
        let mut bytes = image.to_vec();
        match fill {
            Some(byte) => bytes.resize(length, byte),
            None => bytes = image.iter().copied().cycle().take(length).collect(),
        }
        m.bytes(&bytes);
    }
}

// Random images.

/// One random case: each byte of an image set to many values, then bytes damaged together, the editions and other lengths.
pub fn case(m: &mut Maker, r: &mut Numbers) {
    let base = match r.below(8) {
        0 | 1 => power_on(),
        2 => largest(),
        _ => muted_state(r),
    };
    if base == power_on() {
        m.power();
    } else {
        m.load(&base);
    }
    m.image();
    let image = m.present_image();
    for at in 0..LENGTH {
        for value in values(r, &image, at) {
            m.byte(at, value);
        }
    }
    for image in [image, first_edition(image)] {
        some_together(m, r, &image);
    }
    some_editions(m, r, &image);
    some_noise(m, r, &image);
    some_lengths(m, r, &image);
    // nothing that was read is the present state
    m.image();
}

fn values(r: &mut Numbers, image: &[u8; LENGTH], at: usize) -> Vec<u8> {
    let own = image[at];
    let mut list = vec![0, 1, 7, 31, 32, 63, 64, 127, 128, 255, own.wrapping_add(1), own.wrapping_sub(1)];
    list.extend(limits(image, at));
    list.extend([r.byte(), own ^ 1 << r.below(8)]);
    if at == TAP {
        list.extend(0..16);
    }
    others(own, list)
}

/// A place: mostly of a field that not every byte fits.
fn place(r: &mut Numbers) -> usize {
    match r.below(8) {
        0 => r.below(LENGTH as u32) as usize,
        1 => 16 + r.below(160) as usize,
        2 => r.pick(&[TAP as u32, OUTPUT as u32, SHIFT as u32, SHIFT as u32 + 1]) as usize,
        _ => 208 + r.below(212) as usize,
    }
}

/// Two bytes or more at once: only the lowest fault is carried, and 10 comes before 11.
fn some_together(m: &mut Maker, r: &mut Numbers, image: &[u8; LENGTH]) {
    for _ in 0..30 {
        let mut list = Vec::new();
        for _ in 0..r.pick(&[2, 2, 2, 3, 8]) {
            let at = place(r);
            let above = limits(image, at).last().copied().unwrap_or(255);
            let value = [above, above, 255, r.byte()][r.below(4) as usize];
            list.push((at, value));
        }
        if r.one_in(10) {
            list.push((r.below(16) as usize, r.byte()));
        }
        m.bytes(&with(image, &list));
    }
}

/// The bytes that the editions have apart and the edition's own, of edition 1, which the present image is not; then each number of
/// an edition over what the other one has.
fn some_editions(m: &mut Maker, r: &mut Numbers, image: &[u8; LENGTH]) {
    let first = first_edition(*image);
    m.bytes(&first);
    for at in [EDITION, EDITION + 1, MUTES, MUTES + 1] {
        for value in [0, 1, 2, 3, 63, 64, 127, 128, 255, r.byte()] {
            m.bytes(&with(&first, &[(at, value)]));
        }
    }
    for edition in EDITIONS {
        let [low, high] = edition.to_le_bytes();
        let numbered = [(EDITION, low), (EDITION + 1, high)];
        let mutes = [(MUTES, [0, 1, 63, 64, r.byte()][r.below(5) as usize]), (MUTES + 1, u8::from(r.one_in(4)))];
        m.bytes(&with(&first, &numbered));
        m.bytes(&with(image, &[numbered, mutes].concat()));
    }
}

/// Output and shift changed together: accepted where the output stays the lowest bit.
fn some_noise(m: &mut Maker, r: &mut Numbers, image: &[u8; LENGTH]) {
    for output in [0, 1] {
        for shift in [image[SHIFT] ^ 1, r.byte()] {
            m.bytes(&with(image, &[(OUTPUT, output), (SHIFT, shift)]));
        }
    }
    // the bit above the register is not the output's, and the output's bits above the lowest count
    m.bytes(&with(image, &[(OUTPUT, image[SHIFT] & 1), (SHIFT + 1, 0x80 | r.byte())]));
    m.bytes(&with(image, &[(OUTPUT, r.byte()), (SHIFT, r.byte()), (SHIFT + 1, r.byte())]));
}

fn some_lengths(m: &mut Maker, r: &mut Numbers, image: &[u8; LENGTH]) {
    let fill = [None, Some(0), Some(255)][r.below(3) as usize];
    lengths(m, image, fill, &LENGTHS);
    lengths(m, image, fill, &[LENGTH, r.below(LENGTH as u32) as usize, r.below(MOST_BYTES as u32 + 1) as usize]);
    // 9 comes first, whatever else is wrong
    let broken = with(image, &[(r.below(16) as usize, r.byte()), (place(r), 255)]);
    m.bytes(&broken[..r.below(LENGTH as u32) as usize]);
    let first = first_edition(*image);
    lengths(m, &first, fill, &[LENGTH - 1, LENGTH + 1, r.below(MOST_BYTES as u32 + 1) as usize]);
    let noise: Vec<u8> = (0..LENGTH).map(|_| r.byte()).collect();
    m.bytes(&noise);
    m.bytes(&[&image[..16], &noise[16..]].concat());
}

// The stored sample.

/// Some state in range that is neither power-on nor at the ends, three voices muted.
fn any_state() -> State {
    State { mutes: 0b01_0110, ..state(&mut Numbers::new(6)) }
}

/// Each byte of three images set to one more, to 255, to the largest that is accepted there and to one more than that.
pub fn part_bytes(m: &mut Maker) {
    for base in [power_on(), largest(), any_state()] {
        m.load(&base);
        m.image();
        let image = m.present_image();
        for at in 0..LENGTH {
            let mut list = limits(&image, at);
            list.extend([image[at].wrapping_add(1), 255]);
            for value in others(image[at], list) {
                m.byte(at, value);
            }
        }
        m.state();
    }
}

/// Taps by every small number and with higher bits; output and shift apart and together.
pub fn part_noise(m: &mut Maker) {
    m.load(&any_state());
    m.state();
    (0..32).for_each(|tap| m.byte(TAP, tap));
    for tap in [4, 6, 8, 9, 10, 11, 13, 14] {
        m.byte(TAP, 0x20 | tap);
        m.byte(TAP, 0x80 | tap);
    }
    for shift in [0x00, 0x01, 0x7FFF, 0x7FFE] {
        let mut s = any_state();
        (s.channels[NOISE].shift, s.channels[NOISE].position) = (shift, shift % 2);
        m.load(&s);
        m.state();
        for output in [0, 1, 2, 3, 254, 255] {
            m.byte(OUTPUT, output);
        }
        for low in [0x00, 0x01, 0x02, 0x03, 0xFE, 0xFF] {
            m.byte(SHIFT, low);
        }
        // the output's fault is the lower one
        for high in [0x7F, 0x80, 0xFF] {
            m.byte(SHIFT + 1, high);
        }
        let (image, low) = (image_of(&s), shift as u8);
        m.bytes(&with(&image, &[(OUTPUT, low & 1 ^ 1), (SHIFT, low ^ 1)]));
        m.bytes(&with(&image, &[(OUTPUT, low & 1 ^ 1), (SHIFT + 1, 0x80)]));
    }
}

/// Two bytes at once, in fields far apart and next to each other: the lower fault is carried.
pub fn part_pairs(m: &mut Maker) {
    m.load(&any_state());
    m.state();
    let image = m.present_image();
    let pairs = [
        (16, 175),
        (16, 419),
        (207, 208), // a modulation entry is never at fault
        (208, 209),
        (219, 400),
        (221, 222), // the upper byte of a number and the one after it
        (238, 240),
        (367, 368),
        (377, 378),
        (378, 397),
        (387, 388),
        (399, 400),
        (403, 407),
        (409, 411),
        (417, 418),
        (0, 419),
        (15, 16),
    ];
    for (one, two) in pairs {
        m.bytes(&with(&image, &[(one, 255), (two, 255)]));
    }
    let all: Vec<(usize, u8)> = (16..LENGTH).map(|at| (at, 255)).collect();
    m.bytes(&with(&image, &all));
    m.bytes(&with(&image, &all[192..]));
}

/// Both editions: their numbers, bytes 418 and 419, each with what the other has there, and faults that both know.
pub fn part_editions(m: &mut Maker) {
    // edition 2, and edition 1 with bits at 418
    m.load(&any_state());
    m.image();
    for value in [0, 1, 2, 32, 63, 64, 65, 127, 128, 192, 255] {
        m.byte(MUTES, value);
        m.byte(MUTES + 1, value);
    }
    for bits in [1, 8, 32, 63] {
        m.mute(bits);
        m.byte(EDITION, 1);
    }
    // edition 1: nothing is muted, and it is written back as edition 2
    for state in [largest(), any_state()] {
        m.load_first_edition(&state);
        m.image();
        for value in [0, 1, 3, 4, 17, 18, 128, 129, 130, 255] {
            m.byte(EDITION, value);
        }
        for value in [1, 2, 128, 255] {
            m.byte(EDITION + 1, value);
        }
    }
    let first = first_edition(m.present_image());
    for (low, high) in [(0, 1), (1, 1), (1, 2), (1, 128), (255, 255)] {
        m.bytes(&with(&first, &[(EDITION, low), (EDITION + 1, high)]));
    }
    for (bits, zero) in [(64, 0), (255, 0), (0, 1), (0, 255), (1, 1)] {
        m.bytes(&with(&first, &[(MUTES, bits), (MUTES + 1, zero)]));
    }
    // the lower fault of two, a header's, and other lengths
    for (at, value) in [(16, 64), (222, 8), (378, 2), (409, 1), (417, 2)] {
        m.bytes(&with(&first, &[(at, value), (MUTES, 1)]));
    }
    m.bytes(&with(&first, &[(15, 0), (MUTES, 1)]));
    lengths(m, &first, Some(0), &[LENGTH - 1, LENGTH + 1]);
    m.state();
}

/// Other lengths, alone and with a header or a field at fault: 9 comes before 10, and 10 before 11.
pub fn part_lengths(m: &mut Maker) {
    m.power();
    let image = m.present_image();
    lengths(m, &image, None, &LENGTHS);
    lengths(m, &image, Some(0), &[MOST_BYTES, 418, 15, LENGTH]);
    lengths(m, &with(&image, &[(0, 3), (16, 64)]).try_into().unwrap(), Some(0), &[0, 16, 17, 419, 421, LENGTH]);
    m.image();
}
