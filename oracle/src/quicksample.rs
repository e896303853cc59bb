//! The stored sample's cases for document 02 (vii): "for every state in range, every cycle count and every buffer, both answer the
//! same". Each case is run twice from the same state, by the cycle engine and then by the quick one, with the frames and the state
//! looked at after every span. The last part is a span that only the quick engine runs.

use crate::bench;
use crate::random::{self, Numbers};
use crate::sample::{about_to_sweep, base, busy};
use crate::state::{power_on, State, NOISE, SWEPT, TAPS};
use crate::stream::{Engine, Maker};

/// One of the two runs of a case.
struct Pass<'a> {
    maker: &'a mut Maker,
    by: Engine,
}

impl Pass<'_> {
    fn run(&mut self, n: u32) {
        self.maker.run_by(self.by, n);
        self.maker.state();
    }

    fn silent(&mut self, n: u32) {
        self.maker.silent_by(self.by, n);
        self.maker.state();
    }

    fn write(&mut self, address: u32, byte: u8) {
        self.maker.write(address, byte);
    }
}

fn twice(maker: &mut Maker, state: &State, case: impl Fn(&mut Pass)) {
    for by in Engine::BOTH {
        maker.load(state);
        case(&mut Pass { maker, by });
    }
}

fn still(mut state: State) -> State {
    state.channels.iter_mut().for_each(|c| c.play = 0);
    state
}

/// Channel 5's sweep goes past 2047 in the last of so many cycles. Its live tick counts until then.
fn about_to_stop(state: State, cycles: u32) -> State {
    let mut s = state;
    s.channels[SWEPT].auto_stop = 1;
    (s.sweep.up, s.sweep.shift, s.sweep.next) = (1, 0, 2_047);
    (s.sweep.interval, s.sweep.interval_counter) = (1, 0);
    s.sweep.step_counter = 19_201 - cycles;
    s
}

/// "The case of a sweep that stops a channel inside a span"
pub fn sweep_stops(m: &mut Maker) {
    // in the first cycle, on the way, in the cycle of a frame, in the last cycle and just after it
    for cycles in [1, 701, 837, 2_000, 2_001] {
        twice(m, &about_to_stop(about_to_sweep(), cycles), |p| {
            p.run(2_000);
            p.run(1);
            p.run(600);
        });
    }
    twice(m, &about_to_stop(busy(), 700), |p| {
        p.silent(2_000);
        p.run(20_000);
    });
    // 1,000, then 1,500, then past the end: two steps in one span, and two more that only take the next frequency
    let mut s = about_to_stop(about_to_sweep(), 19_201);
    (s.sweep.shift, s.sweep.next) = (1, 1_000);
    twice(m, &s, |p| p.run(80_000));
    // by the slow clock
    let mut s = about_to_stop(busy(), 1);
    (s.sweep.slow, s.sweep.step_counter) = (1, 153_000);
    twice(m, &s, |p| p.run(1_000));
    // auto-stop comes first in the same cycle: the sweep only takes the next frequency
    let mut s = about_to_stop(busy(), 701);
    (s.sweep.shift, s.sweep.next) = (1, 1_000);
    (s.channels[SWEPT].live_tick, s.channels[SWEPT].live_counter) = (76_805 - 701, 31);
    twice(m, &s, |p| {
        p.run(700);
        p.run(1);
        p.run(20_000);
    });
}

/// "a slow clock switched to fast past its period"
pub fn clock_switched(m: &mut Maker) {
    let mut s = busy();
    s.sweep.slow = 1;
    (s.sweep.interval, s.sweep.interval_counter) = (1, 0);
    s.sweep.step_counter = 100_000;
    for n in [1, 2, 500, 20_000] {
        twice(m, &s, |p| {
            p.run(10);
            p.write(0x51C, 0x12);
            p.run(n);
            p.silent(19_201);
        });
    }
    // and back, and once more
    twice(m, &s, |p| {
        p.write(0x51C, 0x19);
        p.run(19_202);
        p.write(0x51C, 0x99);
        p.run(30_000);
        p.write(0x53C, 0x19);
        p.run(480);
    });
    s.sweep.slow = 0;
    for counter in [19_199, 19_200, 19_201, 153_608] {
        s.sweep.step_counter = counter;
        twice(m, &s, |p| {
            p.run(1);
            p.run(960);
        });
    }
}

/// Auto-stop inside a span.
pub fn auto_stop(m: &mut Maker) {
    // in the first cycle, in the cycle of a frame, a counter that waits, in the cycle before the last, in it and after it
    let mut s = busy();
    let ends = [(1, 0, 0), (357, 3, 3), (1_000, 3, 1), (1_999, 31, 31), (2_000, 7, 9), (2_001, 0, 0)];
    for (c, (cycles, interval, counter)) in s.channels.iter_mut().zip(ends) {
        c.auto_stop = 1;
        (c.live_tick, c.live_interval, c.live_counter) = (76_805 - cycles, interval, counter);
    }
    twice(m, &s, |p| {
        p.run(2_000);
        p.run(1);
        p.silent(600);
    });
    // without auto-stop, or stopped, no live tick counts
    (s.channels[0].auto_stop, s.channels[1].play) = (0, 0);
    (s.channels[2].auto_stop, s.channels[2].play) = (0, 0);
    twice(m, &s, |p| {
        p.silent(3_000);
        p.run(480);
    });
    // started by a write, next to the end of the tick
    for n in [76_804, 76_805, 76_806] {
        twice(m, &still(busy()), |p| {
            (0..6u8).for_each(|c| p.write(base(c.into()), 0xA0 | 5 * c));
            // from live ticks 7, 1,007 and so on
            p.run(n - 7);
            p.run(500);
        });
    }
    // three ticks in one span
    let mut s = power_on();
    (s.channels[1].play, s.channels[1].auto_stop, s.channels[1].live_interval) = (1, 1, 2);
    twice(m, &s, |p| p.run(231_000));
}

/// Modulation past entry 31, with the table's loop and without.
pub fn modulation(m: &mut Maker) {
    for loops in [0, 1] {
        let mut s = about_to_sweep();
        (s.sweep.modulate, s.sweep.loops, s.sweep.index, s.sweep.last) = (1, loops, 30, 2_047);
        (s.modulation[30], s.modulation[31], s.modulation[0]) = (0x7F, 0xFF, 0x80);
        twice(m, &s, |p| {
            p.run(60_000);
            // enabled again at 31
            p.write(0x514, 0x50);
            p.silent(20_000);
            p.run(480);
        });
        s.sweep.interval = 2;
        twice(m, &s, |p| p.silent(100_000));
    }
}

/// Every frequency 2047: each sample after 4 cycles, each bit of the noise after 40.
pub fn highest(m: &mut Maker) {
    let mut s = busy();
    s.sweep.enable = 0;
    (s.sweep.last, s.sweep.current, s.sweep.next) = (2_047, 2_047, 2_047);
    for above in [false, true] {
        for (c, counter) in s.channels.iter_mut().zip([0, 1, 7, 2_000, 2_046, 2_047]) {
            (c.frequency, c.frequency_counter) = (2_047, if above { counter } else { 0 });
        }
        twice(m, &s, |p| {
            [0, 1, 3, 4, 5, 33 * 4, 39, 40, 41].into_iter().for_each(|n| p.run(n));
            p.run(9_600);
            p.silent(20_001);
        });
    }
}

/// Noise at its fastest with each of the eight taps.
pub fn taps(m: &mut Maker) {
    for tap in TAPS {
        let mut s = busy();
        let noise = &mut s.channels[NOISE];
        (noise.bank, noise.frequency, noise.frequency_counter) = (tap, 2_047, 0);
        (noise.shift, noise.position) = (0, 0);
        twice(m, &s, |p| {
            p.run(8 * 40);
            p.run(40);
            p.silent(200 * 40);
            p.run(4_800);
        });
    }
}

/// Nothing playing at all: envelopes, samples and the sweep's clock go on.
pub fn nothing_plays(m: &mut Maker) {
    twice(m, &power_on(), |p| {
        p.run(0);
        p.run(480);
        p.run(100_000);
        p.silent(310_000);
    });
    let mut s = still(busy());
    for _ in 0..2 {
        twice(m, &s, |p| {
            p.silent(310_000);
            p.run(9_600);
        });
        s.channels.iter_mut().for_each(|c| c.envelope_on = 0);
    }
}

/// Envelopes at their ends, both ways, looping or not, on and off.
pub fn envelopes(m: &mut Maker) {
    let mut s = busy();
    let ends = [(1, 0, 0), (357, 15, 0), (700, 15, 15), (1_999, 0, 7), (2_000, 1, 3), (2_001, 14, 9)];
    for (c, (cycles, level, reload)) in s.channels.iter_mut().zip(ends) {
        (c.envelope_tick, c.level, c.reload) = (307_219 - cycles, level, reload);
        c.envelope_step = c.envelope_interval;
    }
    for on in [1, 0] {
        s.channels.iter_mut().for_each(|c| c.envelope_on = on);
        s.channels[3].envelope_on = 1;
        twice(m, &s, |p| {
            p.run(2_000);
            p.run(1);
            p.silent(307_219);
            p.run(480);
        });
    }
}

/// Samples that change before, at and after the end of a span, with counters below, at and above their ends.
pub fn pitches(m: &mut Maker) {
    let mut s = busy();
    let counters = [(0, 2_047), (2_047, 2_000), (0, 0), (1_024, 1_022), (1_024, 1_023), (1_024, 1_024)];
    for (c, (frequency, counter)) in s.channels.iter_mut().zip(counters) {
        (c.frequency, c.frequency_counter, c.tick) = (frequency, counter, 2);
    }
    // channel 5 goes by its current frequency
    (s.sweep.current, s.sweep.next) = (1_022, 2_040);
    twice(m, &s, |p| {
        [1, 1, 4, 40, 4_095, 1, 8_191, 1, 1].into_iter().for_each(|n| p.run(n));
        p.silent(8_193);
    });
}

/// Spans next to one frame from random states, each of them first in some.
pub fn spans(m: &mut Maker) {
    let mut r = Numbers::new(7);
    for turn in 0..10 {
        let s = random::muted_state(&mut r);
        let mut list = [0, 1, 479, 480, 481];
        list.rotate_left(turn % 5);
        twice(m, &s, |p| {
            list.into_iter().for_each(|n| p.run(n));
            p.maker.image();
        });
    }
}

/// All six voices for as many cycles as a call can take. By the cycle engine this would go on for long.
pub fn long_span(m: &mut Maker) {
    m.power();
    bench::writes().into_iter().for_each(|(address, byte)| m.write(address, byte));
    m.silent_by(Engine::Quick, u32::MAX);
    m.image();
    m.run_by(Engine::Quick, 48_000);
    m.image();
}
