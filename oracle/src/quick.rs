//! Random cases for document 02 (vii)'s quick engine: random states and random writes, run by it alone, in spans from no cycle to a
//! hundred million. It "works out how far it is to the next frame, or change of anything but tick, sweep step, frequency and output
//! counters", so most spans end next to such a change or go over many. Samples it goes over by division, so long spans end next to one.

use crate::random::{self, Numbers};
use crate::state::{State, NOISE, SWEPT, TAPS};
use crate::stream::{Engine, Maker, MOST_FRAMES};

/// The most cycles of one span unless the command line says otherwise.
pub const MAX_CYCLES: u32 = 100_000_000;

/// A long span has at least the most cycles halved so often.
const HALVES: u32 = 6;

const FRAME: u32 = 480;
const LIVE: u32 = 76_805;
const ENVELOPE: u32 = 307_219;
const FAST: u32 = 19_201;
const SLOW: u32 = 153_609;

/// What a case begins with. Then comes what all have.
#[derive(Clone, Copy, Debug, PartialEq)]
pub enum Family {
    SweepStops,
    ClockSwitched,
    AutoStop,
    /// modulation past entry 31: the table's loop
    Modulation(u32),
    /// every frequency 2047
    Highest,
    /// noise at its fastest
    Taps,
    NothingPlays,
    Envelopes,
    /// long spans over many samples
    ManySamples,
    Any,
}

/// The families by weight, one case after the other: any twenty in a row have all of them.
const ORDER: [Family; 20] = [
    Family::SweepStops,
    Family::Any,
    Family::ClockSwitched,
    Family::Envelopes,
    Family::AutoStop,
    Family::ManySamples,
    Family::Modulation(0),
    Family::Taps,
    Family::NothingPlays,
    Family::Any,
    Family::Modulation(1),
    Family::Highest,
    Family::SweepStops,
    Family::Any,
    Family::AutoStop,
    Family::ManySamples,
    Family::ClockSwitched,
    Family::Any,
    Family::SweepStops,
    Family::Any,
];

pub fn family(number: u64) -> Family {
    ORDER[(number % ORDER.len() as u64) as usize]
}

/// Case number so and so of a stream, no span of it longer than `max` cycles.
pub fn case(maker: &mut Maker, r: &mut Numbers, number: u64, max: u32) {
    let mut case = Case { maker, r, max };
    match family(number) {
        Family::SweepStops => (0..6).for_each(|turn| case.sweep_stops(turn % 2)),
        Family::ClockSwitched => (0..4).for_each(|_| case.clock_switched()),
        Family::AutoStop => (0..4).for_each(|turn| case.auto_stop(turn % 2 == 1)),
        Family::Modulation(loops) => (0..4).for_each(|_| case.modulation(loops)),
        Family::Highest => case.highest(),
        Family::Taps => case.taps(),
        Family::NothingPlays => case.nothing_plays(),
        Family::Envelopes => case.envelopes(),
        Family::ManySamples => TAPS.into_iter().for_each(|tap| case.many_samples(tap)),
        Family::Any => (0..8).for_each(|_| case.any()),
    }
    case.steps();
    case.long();
}

/// The first address of a channel's registers.
fn base(channel: usize) -> u32 {
    0x400 + 0x40 * channel as u32
}

fn period(s: &State) -> u32 {
    if s.sweep.slow == 1 {
        SLOW
    } else {
        FAST
    }
}

/// The cycles up to and with the end of the sweep's present period.
fn to_period(s: &State) -> u32 {
    period(s).saturating_sub(s.sweep.step_counter).max(1)
}

/// The cycles up to and with the one in which the sweep takes its next frequency.
fn to_sweep(s: &State) -> u32 {
    let more = s.sweep.interval.saturating_sub(s.sweep.interval_counter + 1);
    to_period(s) + more * period(s)
}

/// The cycles of a channel's tick, and the ticks from one of its samples to the next.
fn pitch(s: &State, index: usize) -> (u32, u32) {
    let frequency = s.channels[index].frequency;
    match index {
        NOISE => (40, 2048 - frequency),
        SWEPT => (4, 2048 - s.sweep.current),
        _ => (4, 2048 - frequency),
    }
}

/// The cycles up to and with the next sample of a channel.
fn to_sample(s: &State, index: usize) -> u32 {
    let (c, (cycles, ticks)) = (&s.channels[index], pitch(s, index));
    cycles * ticks.saturating_sub(c.frequency_counter).max(1) - c.tick
}

/// The cycles up to and with the last sample of a channel within so many, where its frequency stays; all where there is none.
fn to_last_sample(s: &State, index: usize, n: u32) -> u32 {
    let (cycles, ticks) = pitch(s, index);
    n.checked_sub(to_sample(s, index)).map_or(n, |more| n - more % (cycles * ticks))
}

/// Whether channel 5 keeps its frequency.
fn keeps_frequency(s: &State) -> bool {
    let w = &s.sweep;
    w.current == w.next && (w.enable == 0 || w.interval == 0 || s.channels[SWEPT].play == 0)
}

/// A long span: any number from the most cycles down to those halved so often, each size as often.
pub fn long_span(r: &mut Numbers, most: u32, halves: u32) -> u32 {
    let n = most >> r.below(halves);
    n - r.below(n / 2 + 1)
}

/// Of a long span all, or, half of the time, up to the last sample of a channel, to one cycle before it or to one after it.
pub fn next_to_sample(s: &State, r: &mut Numbers, n: u32) -> u32 {
    let mut list = vec![0, 1, 2, 3, NOISE as u32];
    if keeps_frequency(s) {
        list.push(SWEPT as u32);
    }
    let at = to_last_sample(s, r.pick(&list) as usize, n.saturating_sub(1));
    match r.below(6) {
        0 => at.saturating_sub(1),
        1 => at,
        2 => (at + 1).min(n),
        _ => n,
    }
}

/// What a span over many samples begins with: frequencies at their ends or next to them, counters below and above theirs, noise at its
/// fastest. On the way nothing else is due, or what a random state has, or as much as can be.
pub fn sampling(s: &mut State, r: &mut Numbers, tap: u32) {
    let kind = r.below(4);
    let frequency = |r: &mut Numbers, drawn: u32| match kind {
        0 => 2_047,
        1 => 2_047 - r.below(8),
        2 => 0,
        _ => drawn,
    };
    let above = r.one_in(2);
    for c in &mut s.channels {
        c.frequency = frequency(r, c.frequency);
        c.frequency_counter = if above { r.below(2_048) } else { c.frequency_counter };
    }
    let w = &mut s.sweep;
    (w.last, w.current) = (frequency(r, w.last), frequency(r, w.current));
    w.next = if r.one_in(2) { w.current } else { frequency(r, w.next) };
    let noise = &mut s.channels[NOISE];
    (noise.bank, noise.frequency) = (tap, 2_047);
    match r.below(3) {
        0 => nothing_due(s, r),
        1 => all_due(s),
        _ => {}
    }
}

/// No level changes, no channel stops, and the sweep's steps do no more than take the next frequency.
fn nothing_due(s: &mut State, r: &mut Numbers) {
    s.channels.iter_mut().for_each(|c| (c.auto_stop, c.envelope_on) = (0, 0));
    if r.one_in(2) {
        s.sweep.enable = 0;
    } else {
        s.sweep.interval = 0;
    }
}

/// All play to the end, and levels and channel 5's frequency go on changing.
fn all_due(s: &mut State) {
    for c in &mut s.channels {
        (c.play, c.auto_stop) = (1, 0);
        (c.envelope_on, c.envelope_loop) = (1, 1);
    }
    let w = &mut s.sweep;
    (w.enable, w.modulate, w.loops) = (1, 1, 1);
    w.interval = w.interval.max(1);
}

/// All six voices started without auto-stop.
pub fn starts(r: &mut Numbers) -> Vec<(u32, u8)> {
    let auto_stop = 0x20;
    (0..6).map(|c| (base(c), 0x80 | r.byte() & !auto_stop)).collect()
}

/// The cycles up to and with the next change of some part, each sort of part as often where it can change.
fn to_change(s: &State, r: &mut Numbers) -> u32 {
    let live = s.channels.iter().filter(|c| c.play == 1 && c.auto_stop == 1).map(|c| LIVE - c.live_tick);
    let envelopes = s.channels.iter().filter(|c| c.envelope_on == 1).map(|c| ENVELOPE - c.envelope_tick);
    let list: Vec<u32> = match r.below(6) {
        0 => live.collect(),
        1 => envelopes.collect(),
        2 => vec![to_period(s)],
        3 => vec![to_sweep(s)],
        4 => (0..6).map(|index| to_sample(s, index)).collect(),
        _ => Vec::new(),
    };
    match list.is_empty() {
        true => FRAME - s.output,
        false => r.pick(&list),
    }
}

struct Case<'a> {
    maker: &'a mut Maker,
    r: &'a mut Numbers,
    max: u32,
}

impl Case<'_> {
    /// A random state, changed to what the family is for.
    fn start(&mut self, change: impl FnOnce(&mut State, &mut Numbers)) {
        let mut state = random::muted_state(self.r);
        change(&mut state, self.r);
        self.maker.load(&state);
        self.maker.image();
    }

    /// One span with frames or without, and the whole state after it.
    fn span(&mut self, n: u32) {
        let n = n.min(self.max);
        let frames = (self.maker.present().output as u64 + n as u64) / FRAME as u64;
        if frames <= MOST_FRAMES.into() && self.r.one_in(2) {
            self.maker.run_by(Engine::Quick, n);
        } else {
            self.maker.silent_by(Engine::Quick, n);
        }
        self.look();
    }

    fn look(&mut self) {
        if self.r.one_in(4) {
            self.maker.image();
        } else {
            self.maker.state();
        }
    }

    /// One cycle before so many, just so many, one after.
    fn span_next_to(&mut self, n: u32) {
        let n = (n + self.r.below(3)).saturating_sub(1);
        self.span(n);
    }

    fn span_to_change(&mut self) {
        let n = to_change(&self.maker.present(), self.r);
        self.span_next_to(n);
    }

    fn span_to_frame(&mut self) {
        let n = self.r.pick(&[0, 1, 479, 480, 481]);
        self.span(n);
    }

    /// Any of up to so many cycles.
    fn span_below(&mut self, most: u32) {
        let n = self.r.below(most + 1);
        self.span(n);
    }

    fn writes(&mut self) {
        if self.r.one_in(3) {
            self.write_all(random::setup);
        } else {
            (0..self.r.below(5)).for_each(|_| self.write_all(|r| vec![random::write(r)]));
        }
        if self.r.one_in(4) {
            let bits = random::mutes(self.r);
            self.maker.mute(bits);
        }
    }

    fn write_all(&mut self, list: impl FnOnce(&mut Numbers) -> Vec<(u32, u8)>) {
        let list = list(self.r);
        list.into_iter().for_each(|(address, byte)| self.maker.write(address, byte));
    }

    fn any(&mut self) {
        self.start(|_, _| {});
        for _ in 0..2 {
            if self.r.one_in(2) {
                self.span_to_frame();
            } else {
                self.span_to_change();
            }
        }
    }

    /// What a log does: writes, then a span.
    fn steps(&mut self) {
        for _ in 0..6 + self.r.below(6) {
            self.writes();
            match self.r.below(8) {
                0 | 1 => self.span_to_frame(),
                2..=4 => self.span_to_change(),
                5 => self.span_below(100),
                6 => self.span_below(5_000),
                _ => self.span_below(60_000),
            }
        }
    }

    /// A long span, half of the time with all six voices in it to its end, and at times a long play after it.
    fn long(&mut self) {
        if self.r.one_in(2) {
            self.write_all(starts);
        }
        self.jump(1);
        if self.r.one_in(3) {
            for _ in 0..2 + self.r.below(4) {
                self.play();
            }
            self.span_to_change();
        }
        self.maker.image();
    }

    /// A long span of up to so large a part of the longest.
    fn jump(&mut self, part: u32) {
        let n = self.long_span(part);
        self.maker.silent_by(Engine::Quick, n);
        self.look();
    }

    fn long_span(&mut self, part: u32) -> u32 {
        let n = long_span(self.r, self.max / part, HALVES);
        next_to_sample(&self.maker.present(), self.r, n)
    }

    /// As many frames as there is room for, or fewer.
    fn play(&mut self) {
        let frames = MOST_FRAMES - self.r.pick(&[0, 1, 2, 2_048, 3_000]);
        let (output, over) = (self.maker.present().output, self.r.pick(&[0, 1, 479]));
        let n = (FRAME * frames + over - output).min(self.max);
        self.maker.run_by(Engine::Quick, n);
        self.look();
    }

    fn sweep_stops(&mut self, auto_stop: u32) {
        self.start(|s, r| {
            let (c, w) = (&mut s.channels[SWEPT], &mut s.sweep);
            // the live tick counts until the sweep stops the channel
            (c.play, c.auto_stop, c.live_tick) = (1, auto_stop, r.below(1_000));
            (w.enable, w.modulate, w.up) = (1, 0, 1);
            (w.slow, w.interval) = (u32::from(r.one_in(6)), 1 + r.below(3));
            (w.shift, w.next) = (r.below(3), 2_047 - r.below(900));
        });
        let n = to_sweep(&self.maker.present());
        if self.r.one_in(3) {
            self.span_next_to(n);
        } else {
            let more = self.r.below(2_000);
            self.span(n + more);
        }
        // the next steps too
        let n = to_sweep(&self.maker.present());
        let more = self.r.below(2_000);
        self.span(n + more);
        self.span_to_frame();
    }

    fn clock_switched(&mut self) {
        self.start(|s, r| {
            s.sweep.slow = 1;
            s.sweep.step_counter = FAST + r.below(130_000);
        });
        self.span_below(1_000);
        for slow in [0x00, 0x80, 0x00] {
            self.write_all(|r| vec![(base(SWEPT) + r.pick(&[0x1C, 0x3C]), r.byte() & 0x7F | slow)]);
            match self.r.below(4) {
                0 => self.span_next_to(1),
                1 => self.span_below(3_000),
                2 => self.span_below(60_000),
                _ => self.span_to_change(),
            }
        }
    }

    /// With `both`, channel 5's sweep is due in the very cycle of its stop.
    fn auto_stop(&mut self, both: bool) {
        self.start(|s, r| {
            for c in &mut s.channels {
                (c.play, c.auto_stop) = (1, u32::from(!r.one_in(5)));
                c.live_tick = LIVE - 1 - r.below(3_000);
            }
            if both {
                let (end, c, w) = (period(s), &mut s.channels[SWEPT], &mut s.sweep);
                (c.auto_stop, c.live_counter) = (1, c.live_interval);
                (w.enable, w.interval, w.up, w.next) = (1, w.interval.max(1), 0, 2_047 - r.below(1_000));
                w.interval_counter = w.interval - 1;
                w.step_counter = end - (LIVE - c.live_tick);
            }
        });
        if self.r.one_in(3) {
            self.span_to_change();
        }
        let n = 2_000 + self.r.below(3_000);
        self.span(n);
        self.write_all(|r| (0..6).filter(|_| r.one_in(2)).map(|c| (base(c), 0xA0 + 3 * c as u8)).collect());
        self.span_to_change();
        self.span_below(100_000);
    }

    fn modulation(&mut self, loops: u32) {
        self.start(|s, r| {
            let (c, w) = (&mut s.channels[SWEPT], &mut s.sweep);
            (c.play, c.auto_stop) = (1, 0);
            (w.enable, w.modulate, w.loops) = (1, 1, loops);
            (w.interval, w.interval_counter) = (1 + r.below(2), 0);
            (w.slow, w.index) = (u32::from(r.one_in(6)), 28 + r.below(4));
        });
        let s = self.maker.present();
        let more = self.r.below(20_000);
        self.span((33 - s.sweep.index) * s.sweep.interval * period(&s) + more);
        // enabled again at 31
        self.write_all(|r| vec![(base(SWEPT) + 0x14, 0x50 | r.byte() & 0x2F)]);
        let n = to_sweep(&self.maker.present());
        self.span_next_to(n);
        self.span_below(60_000);
    }

    fn highest(&mut self) {
        self.start(|s, _| {
            s.channels.iter_mut().for_each(|c| c.frequency = 2_047);
            // what is written to channel 5 stays
            s.sweep.enable = 0;
            (s.sweep.last, s.sweep.current, s.sweep.next) = (2_047, 2_047, 2_047);
        });
        for n in [1, 4, 5, 40] {
            self.span_next_to(n);
        }
        self.span_to_frame();
        self.span_below(100);
        self.span_below(50_000);
        self.jump(8);
    }

    fn taps(&mut self) {
        self.start(|s, r| {
            let c = &mut s.channels[NOISE];
            (c.play, c.auto_stop, c.frequency) = (1, 0, 2_047);
            c.frequency_counter = if r.one_in(2) { 0 } else { c.frequency_counter };
        });
        for tap in 0..8 {
            self.write_all(|r| vec![(base(NOISE) + 0x14, tap << 4 | r.byte() & 0x8F)]);
            if self.r.one_in(3) {
                self.maker.write(base(NOISE), 0x80);
            }
            let n = 2_000 + self.r.below(4_000);
            self.span(n);
            self.span_below(41);
        }
        self.jump(8);
    }

    fn nothing_plays(&mut self) {
        self.start(|s, _| s.channels.iter_mut().for_each(|c| c.play = 0));
        self.span_to_frame();
        self.span_to_change();
        self.span_below(5_000);
        self.jump(2);
        self.span_to_change();
    }

    fn many_samples(&mut self, tap: u32) {
        self.start(|s, r| sampling(s, r, tap));
        let n = self.long_span(2);
        self.span(n);
        self.span_to_change();
    }

    /// Every interval, up and down, with the loop and without, on six channels at a time: the longest twice in a span. With the
    /// loop from levels that come to their end at once.
    fn envelopes(&mut self) {
        self.start(|_, _| {});
        for first in (0..36).step_by(6) {
            for c in 0..6 {
                let (kind, rest) = (first + c as u8, self.r.byte() & 0xF0);
                let (interval_and_up, loops) = (kind % 16, kind / 16 % 2);
                let level = match (loops, interval_and_up / 8) {
                    (0, _) => self.r.pick(&[0, 1, 2, 8, 13, 14, 15]),
                    (_, 0) => self.r.pick(&[0, 1, 1]),
                    _ => self.r.pick(&[15, 14, 14]),
                };
                self.maker.write(base(c) + 0x10, (level as u8) << 4 | interval_and_up);
                self.maker.write(base(c) + 0x14, rest | loops << 1 | 1);
            }
            self.span_to_change();
            let ticks = 16 + self.r.below(8);
            let more = self.r.below(1_000);
            self.span(ENVELOPE * ticks + more);
        }
    }
}
