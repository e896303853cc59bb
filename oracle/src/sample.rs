//! The stored sample: a small stream that goes to every rule of document 01 once or more. README.md has the table of
//! what each part covers; `oracle sample` prints the size of each part.

use crate::imagecases;
use crate::quicksample;
use crate::random::{self, Numbers};
use crate::state::{power_on, State, NOISE, SWEPT};
use crate::stream::Maker;

pub type Part = (&'static str, fn(&mut Maker));

pub const PARTS: [Part; 34] = [
    ("frames", frames),
    ("registers", registers),
    ("waves", waves),
    ("dropped", dropped),
    ("outside", outside),
    ("stop", stop),
    ("auto-stop", auto_stop),
    ("envelopes", envelopes),
    ("sweeps", sweeps),
    ("sweep limits", sweep_limits),
    ("modulation", modulation),
    ("clocks", clocks),
    ("taps", taps),
    ("banks", banks),
    ("frequencies", frequencies),
    ("mixing", mixing),
    ("mutes", mutes),
    ("long runs", long_runs),
    ("random states", random_states),
    ("image bytes", imagecases::part_bytes),
    ("image noise", imagecases::part_noise),
    ("image pairs", imagecases::part_pairs),
    ("image editions", imagecases::part_editions),
    ("image lengths", imagecases::part_lengths),
    ("both: sweep stops", quicksample::sweep_stops),
    ("both: clock switched", quicksample::clock_switched),
    ("both: auto-stop", quicksample::auto_stop),
    ("both: modulation", quicksample::modulation),
    ("both: highest", quicksample::highest),
    ("both: taps", quicksample::taps),
    ("both: nothing plays", quicksample::nothing_plays),
    ("both: envelopes", quicksample::envelopes),
    ("both: pitches", quicksample::pitches),
    ("both: spans", quicksample::spans),
];

/// The last part of the stored sample. The Rust needs some minutes for it, so that it is left out wherever the sample is gone over
/// more than once.
pub const LONG: Part = ("quick: long span", quicksample::long_span);

/// All of the stored sample but its long span.
pub fn sample() -> Maker {
    let mut m = Maker::new();
    for (_, part) in PARTS {
        part(&mut m);
    }
    m.end();
    m
}

/// The first address of a channel's registers.
pub(crate) fn base(channel: usize) -> u32 {
    0x400 + 0x40 * channel as u32
}

fn run(m: &mut Maker, n: u32) {
    m.run(n);
    m.state();
}

/// The last cycle by itself: nothing may happen one cycle early.
fn run_to_edge(m: &mut Maker, n: u32) {
    run(m, n - 1);
    run(m, 1);
}

/// Sets a channel's frequency by its two registers.
fn write_frequency(m: &mut Maker, channel: usize, frequency: u32) {
    m.write(base(channel) + 0x08, frequency as u8);
    m.write(base(channel) + 0x0C, (frequency >> 8) as u8);
}

/// A state in which all six channels play and nearly every number is its own.
pub(crate) fn busy() -> State {
    let mut s = power_on();
    for (i, v) in s.waves.iter_mut().enumerate() {
        *v = (i as u32 * 7 + 3) % 64;
    }
    for (i, v) in s.modulation.iter_mut().enumerate() {
        *v = (i as u32 * 37 + 11) % 256;
    }
    for (i, c) in s.channels.iter_mut().enumerate() {
        let k = i as u32;
        c.play = 1;
        c.up = k % 2;
        c.envelope_on = 1;
        c.envelope_loop = k / 2 % 2;
        c.live_interval = 5 + k;
        c.live_counter = 2 + k;
        c.left = 15 - k;
        c.right = 9 + k;
        c.level = 10 + k % 5;
        c.envelope_interval = 1 + k;
        c.reload = 3 + k;
        c.envelope_step = k / 2;
        c.bank = k % 5;
        c.position = 2 * k + 1;
        c.frequency = 2040 + k;
        c.frequency_counter = k;
        c.live_tick = 1_000 * k + 7;
        c.tick = k % 4;
        c.envelope_tick = 2_000 * k + 9;
    }
    let noise = &mut s.channels[NOISE];
    noise.bank = 10;
    noise.shift = 0x2D5B;
    noise.position = 1;
    s.sweep.enable = 1;
    s.sweep.loops = 1;
    s.sweep.interval = 3;
    s.sweep.shift = 2;
    s.sweep.interval_counter = 1;
    s.sweep.step_counter = 5_000;
    s.sweep.index = 17;
    s.sweep.last = 700;
    s.sweep.current = 2_044;
    s.sweep.next = 2_042;
    s.output = 123;
    s
}

/// Only channel 5 plays, its sweep is one cycle before its next step, and each period of the fast clock is a step.
pub(crate) fn about_to_sweep() -> State {
    let mut s = busy();
    s.channels.iter_mut().for_each(|c| c.play = 0);
    s.channels[SWEPT].play = 1;
    s.sweep.interval = 1;
    s.sweep.interval_counter = 0;
    s.sweep.step_counter = 19_200;
    s
}

fn frames(m: &mut Maker) {
    m.power();
    m.image();
    run_to_edge(m, 480);
    run(m, 480);
    m.load(&busy());
    m.image();
    run(m, 0);
    run_to_edge(m, 357);
    run(m, 9_600);
}

fn registers(m: &mut Maker) {
    let mut number = 0u32;
    let mut any = || {
        number += 1;
        (number * 89 + 57) as u8
    };
    for channel in 0..6 {
        m.load(&busy());
        for offset in 0..0x40 {
            let address = base(channel) + offset;
            if offset % 4 != 0 {
                m.write(address, 0xFF);
                m.write(address, any());
                continue;
            }
            m.write(address, any());
            m.write(address, 0xFF);
            if offset < 0x20 {
                // each bit by itself
                for bit in 0..8 {
                    m.write(address, 1 << bit);
                }
            }
            // so that what a write sets back is not zero already at the next one
            run(m, 45);
        }
        run(m, 960);
    }
}

fn waves(m: &mut Maker) {
    m.power();
    for i in 0..160u32 {
        // the two low bits of an address do not count
        m.write(4 * i + i % 4, (i * 73 + 190) as u8);
    }
    for i in 0..32u32 {
        m.write(0x280 + 4 * i + i % 4, (i * 29 + 120) as u8);
    }
    for address in [0x000, 0x07F, 0x080, 0x0FF, 0x100, 0x17F, 0x180, 0x1FF, 0x200, 0x27F, 0x280, 0x2FF] {
        for byte in [0xFF, 0x40, 0x80] {
            m.write(address, byte);
        }
    }
    // heard
    for channel in 0..5 {
        m.write(base(channel) + 0x04, 0x5F);
        write_frequency(m, channel, 0x7F8);
        m.write(base(channel) + 0x10, 0xD0);
        m.write(base(channel) + 0x18, channel as u8);
        m.write(base(channel), 0x80);
        run(m, 4_800);
    }
}

fn dropped(m: &mut Maker) {
    // a wave write is dropped while any one channel plays, a modulation write only while channel 5 does
    for playing in 0..6 {
        m.power();
        m.write(base(playing), 0x80);
        for address in [0x004, 0x084, 0x104, 0x184, 0x204, 0x27C, 0x280, 0x2FF] {
            m.write(address, 0x2D);
        }
        m.write(base(playing), 0x00);
        for address in [0x004, 0x27C, 0x280, 0x2FF] {
            m.write(address, 0x96);
        }
    }
    m.load(&busy());
    for address in [0x000, 0x0A4, 0x27F, 0x280, 0x2A4, 0x2FC] {
        m.write(address, 0x15);
    }
}

fn outside(m: &mut Maker) {
    #[rustfmt::skip]
    let addresses = [
        0x300, 0x301, 0x380, 0x3E0, 0x3F4, 0x3FF, 0x581, 0x582, 0x584, 0x58C, 0x590, 0x594, 0x598, 0x59C, 0x5A0,
        0x5C0, 0x600, 0x780, 0x800, 0xC00, 0xFFF, 0x1000, 0x1400, 0xFFFF, 0x1_0000, 0x1_0280, 0x1_0400, 0x1_0580,
        0x0100_0500, 0x1000_0400, 0x8000_0000, 0x8000_0580, 0xFFFF_FC00, 0xFFFF_FFFF,
    ];
    let mut still = busy();
    still.channels.iter_mut().for_each(|c| c.play = 0);
    for state in [busy(), still] {
        m.load(&state);
        for address in addresses {
            m.write(address, 0x9F);
            m.write(address, 0x01);
            m.write(address, 0xFF);
        }
        run(m, 500);
    }
}

fn stop(m: &mut Maker) {
    for byte in [0x01, 0xFF, 0x81] {
        m.load(&busy());
        for nothing in [0x00, 0xFE, 0x80] {
            m.write(0x580, nothing);
        }
        m.write(0x580, byte);
        run(m, 1_000);
        // with nothing playing, waves are open again
        m.write(0x010, 0x2A);
        m.write(0x290, 0x2A);
        m.write(base(2), 0x80);
        run(m, 1_000);
    }
}

fn auto_stop(m: &mut Maker) {
    // every interval stops at its first tick
    m.power();
    for (channel, byte) in [0xBF, 0xA0, 0xA5, 0xBE, 0xB0, 0xA1].into_iter().enumerate() {
        m.write(base(channel) + 0x04, 0xFF);
        m.write(base(channel) + 0x10, 0xF0);
        m.write(base(channel), byte);
    }
    run_to_edge(m, 76_805);

    // the tick counter goes on over a new start, and stands while auto-stop is off or nothing plays
    m.power();
    m.write(base(0), 0xA3);
    m.write(base(5), 0xA3);
    run(m, 40_000);
    m.write(base(0), 0xA9);
    m.write(base(5), 0x83);
    run_to_edge(m, 36_805);
    m.write(base(5), 0x23);
    run(m, 300);
    m.write(base(5), 0xA0);
    run_to_edge(m, 36_805);

    // a counter below its interval waits
    let mut s = busy();
    let below = [(0, 0), (1, 0), (3, 1), (31, 29), (31, 31), (2, 0)];
    for (c, (interval, counter)) in s.channels.iter_mut().zip(below) {
        c.auto_stop = 1;
        c.live_tick = 76_804;
        c.live_interval = interval;
        c.live_counter = counter;
    }
    m.load(&s);
    run(m, 1);
    run_to_edge(m, 76_805);
    run_to_edge(m, 76_805);

    // a counter above its interval stops at once; without auto-stop or play nothing counts
    let above = [(3, 31), (0, 1), (30, 31), (7, 7), (31, 31), (0, 0)];
    for (c, (interval, counter)) in s.channels.iter_mut().zip(above) {
        c.live_interval = interval;
        c.live_counter = counter;
    }
    s.channels[3].auto_stop = 0;
    s.channels[4].auto_stop = 0;
    s.channels[5].play = 0;
    m.load(&s);
    run(m, 1);
    run(m, 600);
}

fn envelopes(m: &mut Maker) {
    // every flag with every level that matters, at the tick and with the step at its end
    let mut cases = Vec::new();
    for bits in 0..8 {
        for level in [0, 1, 14, 15] {
            cases.push((bits & 1, bits >> 1 & 1, bits >> 2 & 1, level));
        }
    }
    cases.extend([(1, 1, 1, 7), (1, 0, 1, 7), (1, 1, 0, 8), (0, 0, 0, 8)]);
    for group in cases.chunks(6) {
        let mut s = busy();
        for (c, (on, up, loops, level)) in s.channels.iter_mut().zip(group) {
            (c.envelope_on, c.up, c.envelope_loop, c.level) = (*on, *up, *loops, *level);
            c.envelope_tick = 307_218;
            c.envelope_step = c.envelope_interval;
            c.reload = 9;
        }
        m.load(&s);
        run(m, 1);
        run(m, 500);
    }
    // steps below, at and above the interval
    let mut s = busy();
    let steps = [(0, 0), (0, 7), (3, 2), (3, 3), (7, 6), (7, 7)];
    for (c, (interval, step)) in s.channels.iter_mut().zip(steps) {
        c.envelope_tick = 307_218;
        c.envelope_interval = interval;
        c.envelope_step = step;
    }
    m.load(&s);
    run(m, 1);
    run_to_edge(m, 307_219);
    // a channel that does not play keeps its envelope going
    for (c, (interval, _)) in s.channels.iter_mut().zip(steps) {
        c.envelope_tick = 307_210 + interval;
        c.play = 0;
    }
    m.load(&s);
    run(m, 5);
    run(m, 5);
}

fn sweeps(m: &mut Maker) {
    m.power();
    m.write(0x504, 0xFF);
    m.write(0x510, 0xF0);
    write_frequency(m, SWEPT, 2047);
    m.write(0x500, 0x80);
    // disabled: the written frequency comes in after one period, and nothing more
    m.write(0x51C, 0x19);
    run_to_edge(m, 19_201);
    // enabled with interval 0: the same
    m.write(0x514, 0x40);
    m.write(0x51C, 0x09);
    write_frequency(m, SWEPT, 2000);
    run(m, 19_201);
    for shift in 0..8 {
        write_frequency(m, SWEPT, 2047 - shift as u32);
        m.write(0x51C, 0x10 | shift);
        run(m, 19_201);
    }
    for shift in 0..8 {
        write_frequency(m, SWEPT, 1023 - shift as u32);
        m.write(0x51C, 0x18 | shift);
        run(m, 19_201);
    }
    // upward until it stops: 1023 + 1023, then past the end
    write_frequency(m, SWEPT, 1023);
    m.write(0x51C, 0x18);
    run(m, 19_201);
    run(m, 19_201);
    run(m, 500);
}

fn sweep_limits(m: &mut Maker) {
    for shift in 0..8u32 {
        let largest = (0..2048).filter(|f| f + (f >> shift) <= 2047).max().unwrap_or(0);
        let mut s = about_to_sweep();
        s.sweep.up = 1;
        s.sweep.shift = shift;
        s.sweep.next = largest;
        m.load(&s);
        run(m, 1);
        write_frequency(m, SWEPT, largest + 1);
        // overflow: the channel stops, the next frequency stays
        run_to_edge(m, 19_201);
    }
    // what would overflow, but disabled, with interval 0, or not playing
    for case in 0..3 {
        let mut s = about_to_sweep();
        s.sweep.up = 1;
        s.sweep.shift = 0;
        s.sweep.next = 2047;
        match case {
            0 => s.sweep.enable = 0,
            1 => s.sweep.interval = 0,
            _ => s.channels[SWEPT].play = 0,
        }
        m.load(&s);
        run(m, 1);
        run(m, 500);
    }
    // down to nothing
    let mut s = about_to_sweep();
    s.sweep.shift = 0;
    s.sweep.next = 1;
    m.load(&s);
    run(m, 1);
    run(m, 19_201);
}

fn modulation(m: &mut Maker) {
    let mut s = about_to_sweep();
    s.sweep.modulate = 1;
    s.sweep.loops = 0;
    s.sweep.index = 0;
    s.sweep.last = 100;
    for (i, byte) in [0x80, 0xFF, 0x7F, 0x00, 0x01, 0x81].into_iter().enumerate() {
        s.modulation[i] = byte;
    }
    m.load(&s);
    run(m, 1);
    for _ in 0..3 {
        run(m, 19_201);
    }
    // a new frequency in between: entries are added to it, and a start goes back to entry 0
    write_frequency(m, SWEPT, 2047);
    run(m, 19_201);
    m.write(0x500, 0x80);
    write_frequency(m, SWEPT, 0);
    run_to_edge(m, 19_201);
    run(m, 19_201);
    run(m, 19_201);
    // dropped while channel 5 plays
    m.write(0x28C, 0x40);

    // past entry 31, with and without loop
    for loops in [0, 1] {
        s.sweep.loops = loops;
        s.sweep.index = 30;
        s.sweep.last = 2047;
        s.modulation[30] = 0x7F;
        s.modulation[31] = 0xFF;
        m.load(&s);
        run(m, 1);
        run_to_edge(m, 19_201);
        run(m, 19_201);
        // enabled again at 31
        m.write(0x514, 0x50);
        run(m, 19_201);
    }
    // stopped, disabled or with interval 0 the table stands
    for case in 0..3 {
        s.sweep.index = 31;
        match case {
            0 => s.sweep.enable = 0,
            1 => (s.sweep.enable, s.sweep.interval) = (1, 0),
            _ => (s.sweep.interval, s.channels[SWEPT].play) = (1, 0),
        }
        m.load(&s);
        run(m, 1);
    }
}

fn clocks(m: &mut Maker) {
    // slow switched to fast past its period, by a write
    let mut s = about_to_sweep();
    s.sweep.slow = 1;
    s.sweep.step_counter = 100_000;
    m.load(&s);
    run(m, 1);
    m.write(0x51C, 0x12);
    run(m, 1);
    run(m, 1);
    // the slow clock's own end
    s.sweep.step_counter = 153_607;
    m.load(&s);
    run(m, 1);
    run(m, 1);
    // fast, past its period by any amount
    s.sweep.slow = 0;
    for counter in [19_200, 19_201, 19_202, 153_608] {
        s.sweep.step_counter = counter;
        m.load(&s);
        run(m, 1);
    }
    // fast switched to slow at the edge, and back
    s.sweep.step_counter = 19_199;
    m.load(&s);
    m.write(0x51C, 0x92);
    run(m, 5);
    m.write(0x53C, 0x12);
    run(m, 1);
    // interval counters at, below and above the interval
    for (interval, counter) in [(7, 6), (7, 5), (2, 6), (0, 0), (0, 6), (1, 0)] {
        let mut s = about_to_sweep();
        s.sweep.interval = interval;
        s.sweep.interval_counter = counter;
        m.load(&s);
        run(m, 1);
    }
    // three periods to a step; a start sets the step counter back and not the interval counter
    let mut s = about_to_sweep();
    s.sweep.interval = 3;
    m.load(&s);
    run(m, 1);
    run(m, 9_000);
    m.write(0x500, 0x80);
    run_to_edge(m, 19_201);
    run_to_edge(m, 19_201);
}

fn taps(m: &mut Maker) {
    m.power();
    m.write(0x544, 0xF7);
    m.write(0x550, 0xF0);
    write_frequency(m, NOISE, 2047);
    for tap in 0..8u8 {
        m.write(0x554, tap << 4);
        m.write(0x540, 0x80);
        run(m, 8 * 40);
        run(m, 40);
        run(m, 55 * 40);
        run(m, 200 * 40);
    }
    // from another shift, changing taps on the way, one clock in 80 cycles
    m.load(&busy());
    write_frequency(m, NOISE, 2046);
    for tap in 0..8u8 {
        m.write(0x554, tap << 4);
        run_to_edge(m, 60 * 80);
    }
    // all ones stay all ones
    for tap in [14, 6] {
        let mut s = busy();
        let noise = &mut s.channels[NOISE];
        noise.shift = 0x7FFF;
        noise.bank = tap;
        noise.frequency = 2047;
        m.load(&s);
        run(m, 1_000);
    }
}

fn banks(m: &mut Maker) {
    m.load(&busy());
    for bank in 0..8u8 {
        for channel in 0..5u8 {
            m.write(base(channel as usize) + 0x18, (bank + channel) % 8 | bank << 3);
        }
        run(m, 960);
    }
    // one bank at a time on one channel
    m.write(0x580, 1);
    m.write(base(1), 0x80);
    for bank in 0..8 {
        m.write(base(1) + 0x38, bank);
        run(m, 480);
    }
}

fn frequencies(m: &mut Maker) {
    m.power();
    run_to_edge(m, 8_192);
    // frequency 2047: a sample every 4 cycles, round past 31
    for channel in 0..6 {
        write_frequency(m, channel, 2047);
    }
    run_to_edge(m, 4);
    run(m, 33 * 4);
    // counters at their end, and above where the frequency now ends
    let mut s = busy();
    let counters = [(0, 2047), (2047, 2000), (2047, 0), (1024, 1022), (1024, 1023), (1024, 1024)];
    for (i, (c, (frequency, counter))) in s.channels.iter_mut().zip(counters).enumerate() {
        c.tick = if i == NOISE { 38 } else { 2 };
        c.frequency = frequency;
        c.frequency_counter = counter;
        if i != NOISE {
            c.position = 31;
        }
    }
    // channel 5 goes by its current frequency, not by the written one
    s.sweep.current = 1024;
    m.load(&s);
    run(m, 1);
    run(m, 1);
    run(m, 4);
    run(m, 40);
    // a write to channel 5's frequency is heard only after its period
    m.load(&busy());
    m.write(0x51C, 0x00);
    write_frequency(m, SWEPT, 2047);
    run_to_edge(m, 19_201 - 5_000);
    run(m, 960);
}

/// As loud as it gets, and one cycle before a frame: six voices at 913 that stay as they are.
fn loud() -> State {
    let mut s = busy();
    s.waves = [63; 160];
    for c in &mut s.channels {
        (c.left, c.right, c.level) = (15, 15, 15);
        c.envelope_on = 0;
        c.frequency = 0;
    }
    s.channels[NOISE].bank = 14;
    s.channels[NOISE].shift = 0x7FFF;
    s.channels[NOISE].position = 1;
    s.output = 479;
    s
}

fn mixing(m: &mut Maker) {
    m.load(&loud());
    run(m, 1);
    for channel in 0..6 {
        m.write(base(channel), 0x00);
        run(m, 480);
    }
    // one voice: level and volume from nothing to full on the two sides
    m.write(base(0), 0x80);
    for level in [0, 1, 2, 7, 8, 14, 15] {
        m.write(base(0) + 0x10, level << 4);
        for volumes in [0x01, 0x1F, 0x87, 0xE8] {
            m.write(base(0) + 0x04, volumes);
            run(m, 480);
        }
    }
    // level 1, volume 1: sums of 7 and 8, and what is cut only after adding
    m.write(0x580, 1);
    for (address, byte) in [(0x000, 14), (0x080, 16), (0x100, 15), (0x180, 1), (0x200, 63)] {
        m.write(address, byte);
    }
    for channel in 0..5 {
        m.write(base(channel) + 0x04, 0x11);
        m.write(base(channel) + 0x10, 0x10);
        m.write(base(channel) + 0x18, channel as u8);
        write_frequency(m, channel, 0);
    }
    for channel in 0..5 {
        m.write(base(channel), 0x80);
        run(m, 480);
    }
    // many sums in a row
    m.load(&busy());
    run(m, 24_000);
}

/// A state in which the next cycle moves whatever can move: tick counters, envelopes, samples, auto-stop, the sweep past its end
/// and a frame.
fn about_to_move() -> State {
    let mut s = busy();
    for (i, c) in s.channels.iter_mut().enumerate() {
        (c.live_tick, c.envelope_tick) = (76_804, 307_218);
        c.auto_stop = u32::from(i != SWEPT);
        c.live_counter = c.live_interval - i as u32 % 2;
        c.envelope_step = c.envelope_interval;
        c.tick = if i == NOISE { 39 } else { 3 };
        c.frequency_counter = 2047 - c.frequency;
    }
    (s.sweep.interval_counter, s.sweep.step_counter) = (2, 19_200);
    (s.sweep.up, s.sweep.shift, s.sweep.next) = (1, 0, 1_024);
    s.output = 479;
    s
}

fn mutes(m: &mut Maker) {
    // six loud voices, then such as can be told apart: none, each alone, all but one, all
    let mut apart = loud();
    for (i, c) in apart.channels.iter_mut().enumerate() {
        (c.left, c.right) = (15 - i as u32, 10 + i as u32);
    }
    for state in [loud(), apart] {
        m.load(&state);
        run(m, 1);
        for bits in [1, 2, 4, 8, 16, 32, 63, 62, 61, 59, 55, 47, 31, 0, 42] {
            m.mute(bits);
            run(m, 480);
        }
    }
    // the frame goes by the mutes that are there when it is made
    m.mute(63);
    run(m, 479);
    m.mute(5);
    run(m, 1);
    // power-on has none
    m.power();
    run(m, 480);

    // all else moves as if unmuted
    for mutes in [0, 63, 0b10_0001, 0b01_1110] {
        m.load(&State { mutes, ..about_to_move() });
        run(m, 1);
        m.image();
        run(m, 19_201);
    }
    // a muted voice plays: what it holds off stays held off, and what is written to it is heard when it is not muted any more
    m.load(&State { mutes: 63, ..busy() });
    m.write(0x004, 0x2A);
    m.write(0x284, 0x2A);
    m.write(base(SWEPT), 0x00);
    m.write(0x284, 0x2A);
    m.write(base(1) + 0x04, 0xFF);
    m.write(base(1) + 0x10, 0xF0);
    run(m, 480);
    m.mute(0b11_1101);
    run(m, 960);
    m.write(0x580, 1);
    m.write(0x004, 0x2A);
    m.write(base(2), 0x80);
    run(m, 480);
    // many sums in a row
    m.load(&State { mutes: 0b10_0101, ..busy() });
    run(m, 9_600);
    m.mute(0b01_0000);
    m.silent(4_700);
    m.state();
    run(m, 9_600);
}

fn long_runs(m: &mut Maker) {
    // a tune's worth of writes from power-on, then far enough for every interval counter to work
    m.power();
    for i in 0..160u32 {
        m.write(4 * i, (i * 7 % 64) as u8);
    }
    for i in 0..32u32 {
        m.write(0x280 + 4 * i, (i * 37 % 256) as u8);
    }
    for c in 0..6u32 {
        let at = base(c as usize);
        m.write(at + 0x04, (0xF7 - c) as u8);
        write_frequency(m, c as usize, 0x621 + 0x40 * c);
        m.write(at + 0x10, [0x10, 0xE9, 0xF8, 0x01, 0x90, 0x71][c as usize]);
        m.write(at + 0x14, [0x03, 0x03, 0x01, 0x03, 0x73, 0x23][c as usize]);
        m.write(at + 0x18, (c % 5) as u8);
        m.write(at, 0x9F);
    }
    m.write(0x51C, 0x29);
    run(m, 400_000);
    m.write(0x51C, 0xA1);
    m.write(0x440, 0xA7);
    run(m, 400_000);
    m.write(0x514, 0x43);
    m.write(0x51C, 0x16);
    m.write(0x450, 0x80);
    m.silent(100_000);
    m.state();
    run(m, 500_000);
    m.image();
}

fn random_states(m: &mut Maker) {
    let mut r = Numbers::new(5);
    for _ in 0..12 {
        m.load(&random::muted_state(&mut r));
        m.image();
        let (address, byte) = random::write(&mut r);
        m.write(address, byte);
        // the next cycle, and on to one past the next frame
        for n in [1, 480] {
            m.run(n);
            m.image();
        }
    }
}
