//! Random states in range and random cases, the same ones for the same seed everywhere.

use crate::imagecases;
use crate::state::{power_on, Channel, State, Sweep, NOISE, SWEPT, TAPS};
use crate::stream::{Maker, MOST};

/// The most cycles of a random case unless the command line says otherwise.
pub const MAX_CYCLES: u32 = 100_000;

/// One case in so many is one of damaged images, which has some 5,200 checks where another has some 75.
const IMAGE_CASES: u32 = 50;

/// splitmix64.
pub struct Numbers(u64);

impl Numbers {
    pub fn new(seed: u64) -> Self {
        Numbers(seed)
    }

    fn next(&mut self) -> u64 {
        self.0 = self.0.wrapping_add(0x9E37_79B9_7F4A_7C15);
        let mut z = self.0;
        z = (z ^ (z >> 30)).wrapping_mul(0xBF58_476D_1CE4_E5B9);
        z = (z ^ (z >> 27)).wrapping_mul(0x94D0_49BB_1331_11EB);
        z ^ (z >> 31)
    }

    /// 0..n - 1
    pub fn below(&mut self, n: u32) -> u32 {
        ((self.next() >> 32) * n as u64 >> 32) as u32
    }

    /// any number of 32 bits
    pub fn word(&mut self) -> u32 {
        (self.next() >> 32) as u32
    }

    /// true once in n
    pub fn one_in(&mut self, n: u32) -> bool {
        self.below(n) == 0
    }

    fn flag(&mut self) -> u32 {
        self.below(2)
    }

    pub fn pick(&mut self, list: &[u32]) -> u32 {
        list[self.below(list.len() as u32) as usize]
    }

    /// 0..=max, with the ends more often
    fn edge(&mut self, max: u32) -> u32 {
        match self.below(4) {
            0 => 0,
            1 => max,
            2 => max - self.below(max.min(2) + 1),
            _ => self.below(max + 1),
        }
    }

    /// next to `centre` or anywhere, 0..=max
    fn near(&mut self, centre: u32, max: u32) -> u32 {
        if self.one_in(3) {
            self.edge(max)
        } else {
            (centre + self.below(3)).saturating_sub(1).min(max)
        }
    }

    /// A counter of cycles, 0..=max: at its limit, a few cycles or some frames before it, or anywhere.
    fn counter(&mut self, max: u32) -> u32 {
        match self.below(8) {
            0 => 0,
            1 => self.below(max + 1),
            2 | 3 => max,
            4 => max - self.below(3.min(max) + 1),
            5 => max - self.below(60.min(max) + 1),
            _ => max - self.below(2_000.min(max) + 1),
        }
    }

    fn frequency(&mut self) -> u32 {
        match self.below(6) {
            0 => 0,
            1 => 2047,
            2 => 2047 - self.below(8),
            3 => 2047 - self.below(256),
            _ => self.below(2048),
        }
    }

    pub fn byte(&mut self) -> u8 {
        match self.below(8) {
            0 => 0x00,
            1 => 0xFF,
            2 => 1u8 << self.below(8),
            3 => 0x80 | self.below(128) as u8,
            _ => self.below(256) as u8,
        }
    }
}

/// A random state in range, with counters at or next to their limits and nothing muted.
pub fn state(r: &mut Numbers) -> State {
    let mut state = power_on();
    let loud = r.flag() == 1;
    for v in &mut state.waves {
        *v = if loud { 63 - r.below(8) } else { r.edge(63) };
    }
    for v in &mut state.modulation {
        *v = if r.one_in(2) { r.pick(&[0x80, 0xFF, 0x7F, 0x00, 0x01, 0x81]) } else { r.below(256) };
    }
    for c in 0..6 {
        state.channels[c] = channel(r, c);
    }
    // wave and modulation writes are only taken when nothing plays, so let that come up
    if r.one_in(6) {
        state.channels.iter_mut().for_each(|c| c.play = 0);
    }
    state.sweep = sweep(r);
    if r.one_in(3) {
        about_to_sweep(&mut state, r);
    }
    state.output = if r.one_in(3) { r.below(480) } else { r.counter(479) };
    state
}

/// Such a state with any mutes.
pub fn muted_state(r: &mut Numbers) -> State {
    State { mutes: mutes(r), ..state(r) }
}

/// Mutes: none, one, all, all but one, any.
pub fn mutes(r: &mut Numbers) -> u32 {
    match r.below(8) {
        0 | 1 => 0,
        2 | 3 => 1 << r.below(6),
        4 => 63,
        5 => 63 ^ 1 << r.below(6),
        _ => r.below(64),
    }
}

fn channel(r: &mut Numbers, index: usize) -> Channel {
    let noise = index == NOISE;
    let live_interval = r.edge(31);
    let envelope_interval = r.edge(7);
    let frequency = r.frequency();
    let shift = if !noise {
        0
    } else {
        match r.below(4) {
            0 => r.pick(&[0, 0x7FFF, 0x7FFE, 0x80, 0x7F]),
            _ => r.below(0x8000),
        }
    };
    let position = if noise { shift % 2 } else { r.edge(31) };
    Channel {
        auto_stop: r.flag(),
        play: u32::from(!r.one_in(4)),
        up: r.flag(),
        envelope_on: u32::from(!r.one_in(4)),
        envelope_loop: r.flag(),
        live_interval,
        live_counter: r.near(live_interval, 31),
        left: r.edge(15),
        right: r.edge(15),
        level: r.edge(15),
        envelope_interval,
        reload: r.edge(15),
        envelope_step: r.near(envelope_interval, 7),
        bank: if noise { r.pick(&TAPS) } else { r.below(8) },
        position,
        frequency,
        // half of the time at or next to where the sample moves on
        frequency_counter: if r.flag() == 1 { r.near(2047 - frequency, 2047) } else { r.below(2048) },
        live_tick: r.counter(76_804),
        tick: if noise { r.counter(39) } else { r.below(4) },
        envelope_tick: r.counter(307_218),
        shift,
    }
}

fn sweep(r: &mut Numbers) -> Sweep {
    let slow = r.flag();
    let interval = r.edge(7);
    let shift = if r.one_in(3) { r.below(2) } else { r.below(8) };
    let step_counter = match (r.below(8), slow) {
        (0, _) => 0,
        (1, _) => r.counter(153_608),
        // the fast clock past its period: the slow one was switched off
        (2, 0) => 19_201 + r.below(153_609 - 19_201),
        (_, 0) => r.counter(19_200),
        (_, _) => r.counter(153_608),
    };
    // the largest frequency that an upward sweep by this shift can leave below 2048, or one next to it
    let largest = (0..2048).filter(|f| f + (f >> shift) <= 2047).max().unwrap_or(0);
    let next = if r.flag() == 1 { r.near(largest, 2047) } else { r.frequency() };
    Sweep {
        enable: u32::from(!r.one_in(4)),
        loops: r.flag(),
        modulate: r.flag(),
        slow,
        up: r.flag(),
        interval,
        shift,
        interval_counter: r.near(interval.saturating_sub(1), 6),
        step_counter,
        index: match r.below(3) {
            0 => 30 + r.below(2),
            _ => r.below(32),
        },
        last: r.frequency(),
        current: r.frequency(),
        next,
    }
}

/// Channel 5 plays and its sweep or modulation acts within three cycles: all that must hold together for it is rare.
fn about_to_sweep(state: &mut State, r: &mut Numbers) {
    state.channels[SWEPT].play = 1;
    let s = &mut state.sweep;
    s.enable = 1;
    s.interval = s.interval.max(1);
    s.interval_counter = s.interval - 1;
    s.step_counter = if s.slow == 1 { 153_608 } else { 19_200 } - r.below(3);
}

/// One random case: a start, then writes, mutes and runs, each with the image or its sum after it; or damaged images.
pub fn case(maker: &mut Maker, r: &mut Numbers, max_cycles: u32) {
    if r.one_in(IMAGE_CASES) {
        return imagecases::case(maker, r);
    }
    start(maker, r);
    // most cases are short, so that many are made for the time; some go to the bound
    let mut left = max_cycles >> r.below(8);
    for _ in 0..4 + r.below(12) {
        if r.one_in(3) {
            for (address, byte) in setup(r) {
                maker.write(address, byte);
            }
        } else {
            for _ in 0..r.below(6) {
                let (address, byte) = write(r);
                maker.write(address, byte);
            }
        }
        if r.one_in(3) {
            let bits = mutes(r);
            maker.mute(bits);
        }
        left -= run(maker, r, left);
    }
}

/// Power-on or a random state in range, by either edition, and its image.
pub fn start(maker: &mut Maker, r: &mut Numbers) {
    match r.below(10) {
        0 | 1 => maker.power(),
        2 => maker.load_first_edition(&state(r)),
        3..=5 => maker.load(&state(r)),
        _ => maker.load(&muted_state(r)),
    }
    maker.image();
}

/// A write, mostly to something that is mapped.
pub fn write(r: &mut Numbers) -> (u32, u8) {
    let mut byte = r.byte();
    let address = match r.below(20) {
        0 => r.below(0x280),
        1 => 0x80 * r.below(5) + r.pick(&[0x00, 0x03, 0x04, 0x7C, 0x7F]),
        2 | 3 => 0x280 + r.below(0x80),
        4..=14 => return register(r, byte),
        15 | 16 => 0x400 + r.below(0x180),
        17 => {
            byte = if r.one_in(3) { byte } else { byte & 0xFE };
            0x580
        }
        18 => match r.below(3) {
            0 => 0x300 + 4 * r.below(0x40),
            1 => 0x581 + r.below(0x7F),
            _ => r.pick(&[0x27F, 0x280, 0x2FF, 0x300, 0x3FF, 0x57F, 0x581, 0x584, 0x5A0, 0x5C0, 0x600, 0x7FF]),
        },
        _ => match r.below(3) {
            // a mapped address with high bits set is not mapped
            0 => r.below(0x600) | 1 << (12 + r.below(20)),
            1 => r.below(0x2000),
            _ => r.pick(&[0xFFFF, 0x1_0000, 0x1_0400, 0x1000_0400, 0xFFFF_FFFF, 0x8000_0580, 0xFFFF_F580]),
        },
    };
    (address, byte)
}

/// A write to a register of a channel, channel 5 and its sweep more often than the others.
fn register(r: &mut Numbers, byte: u8) -> (u32, u8) {
    let channel = if r.one_in(3) { SWEPT as u32 } else { r.below(6) };
    let offset = if channel == SWEPT as u32 && r.one_in(3) { 0x1C } else { 4 * r.below(8) };
    let mirror = if r.one_in(4) { 0x20 } else { 0 };
    let byte = match offset {
        0x00 if !r.one_in(3) => byte | 0x80,
        0x0C if r.flag() == 1 => 7,
        0x1C if r.flag() == 1 => byte & 0x7F,
        _ => byte,
    };
    (0x400 + 0x40 * channel + mirror + offset, byte)
}

/// The writes that set up and start a channel as a tune would do it, so that cases from power-on make sound.
pub fn setup(r: &mut Numbers) -> Vec<(u32, u8)> {
    let channel = r.below(6);
    let base = 0x400 + 0x40 * channel;
    let mut list = Vec::new();
    if r.flag() == 1 {
        list.push((0x580, 1));
        for _ in 0..r.below(12) {
            let byte = r.byte();
            list.push((4 * r.below(0xC0), byte));
        }
    }
    let frequency = r.frequency();
    list.push((base + 0x04, r.byte() | 0x11));
    list.push((base + 0x08, frequency as u8));
    list.push((base + 0x0C, (frequency >> 8) as u8));
    list.push((base + 0x10, r.byte()));
    list.push((base + 0x14, r.byte() | 1));
    list.push((base + 0x18, r.byte() & 0x83));
    if channel == SWEPT as u32 {
        list.push((base + 0x1C, r.byte() & 0x9F));
        list.push((base + 0x14, r.byte() | 0x40));
    }
    list.push((base, r.byte() | 0x80));
    list
}

/// One run or two, at most `left` cycles; answers how many.
fn run(maker: &mut Maker, r: &mut Numbers, left: u32) -> u32 {
    let present = maker.present();
    let wanted = match r.below(16) {
        0..=3 => 1 + r.below(3),
        4 | 5 => r.below(100),
        6 => r.below(2_000),
        7..=9 => 480 - present.output,
        10..=13 => to_event(&present, r),
        14 => r.below(20_000),
        _ => r.below(left + 1),
    };
    let n = wanted.min(left).min(MOST);
    if r.flag() == 1 && n > 1 {
        // stop one cycle short, look, and go over the edge
        go(maker, r, n - 1);
        go(maker, r, 1);
    } else {
        go(maker, r, n);
    }
    n
}

fn go(maker: &mut Maker, r: &mut Numbers, n: u32) {
    if r.one_in(10) {
        maker.silent(n);
    } else {
        maker.run(n);
    }
    maker.image();
}

/// The cycles until one of the counters comes to its end.
fn to_event(s: &State, r: &mut Numbers) -> u32 {
    let index = r.below(6) as usize;
    let c = &s.channels[index];
    let period = if s.sweep.slow == 1 { 153_609 } else { 19_201 };
    match r.below(5) {
        0 => 76_805 - c.live_tick,
        1 => 307_219 - c.envelope_tick,
        2 | 3 => period.max(s.sweep.step_counter + 1) - s.sweep.step_counter,
        _ => {
            let (tick, frequency) = match index {
                NOISE => (40, c.frequency),
                SWEPT => (4, s.sweep.current),
                _ => (4, c.frequency),
            };
            let ticks = (2048 - frequency).saturating_sub(c.frequency_counter).max(1);
            tick * ticks - c.tick
        }
    }
}
