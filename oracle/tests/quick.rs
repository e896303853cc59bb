//! The quick engine: one over the oracle's plain state, which leaps, wrong ones, which the cases have to find, and what the cases and
//! the stored sample hold. Besides, what is timed.

#[macro_use]
mod faults;

use oracle::bench;
use oracle::digest::{fold, sum_of, FrameSum};
use oracle::image::{image_of, state_of};
use oracle::listing::{mutes_of, wav};
use oracle::long;
use oracle::programs;
use oracle::quick::{case, family, Family};
use oracle::random::Numbers;
use oracle::reader::Reader;
use oracle::render::render;
use oracle::replay::replay;
use oracle::sample::sample;
use oracle::state::{in_range, power_on, State, NOISE, SWEPT, TAPS};
use oracle::stream::{op, Engine, Maker, Op};
use oracle::unit::Unit;
use std::collections::BTreeSet;

const LIVE: u32 = 76_805;
const ENVELOPE: u32 = 307_219;
const FRAME: u32 = 480;

// How a quick engine is wrong.
faults! {
    /// a leap goes one cycle too far
    PastFrame,
    PastEnvelope,
    PastSweep,
    PastLive,
    /// which makes the next clock find it
    PastSample,
    /// or one too few
    FrameOf479,
    /// the ticks of a leap that make the frequency counter go up are lost
    CarryLost,
    /// the tick is 0 after a leap
    RemainderLost,
    /// the frequency counter goes on at the next sample
    CounterKept,
    /// a counter above its end waits until it has gone round
    CounterWraps,
    /// a sample is due when the counter comes to its end, not when it exceeds it
    SampleEarly,
    LiveWithoutAutoStop,
    LiveWhileStopped,
    /// a stop leaves the live counter
    LiveCounterKept,
    /// a tick below the interval stops too
    LiveIgnoresInterval,
    EnvelopeOffStands,
    /// the tick of an envelope that is off runs over its end
    EnvelopeOffUnbounded,
    EnvelopeStandsWhileStopped,
    SampleStandsWhileStopped,
    SampleStandsWhileMuted,
    EnvelopeLoopLost,
    /// past its period the distance wraps, so that the sweep is never due
    SweepWraps,
    /// the sweep is due at its period alone
    SweepAtPeriodAlone,
    SlowClockLost,
    SweepStopLost,
    /// or stops the channel, but its live tick still counts to the end of the span
    SweepStopUnseen,
    /// an overflow takes 2047 as the next frequency
    SweepClamped,
    IntervalCounterKept,
    /// modulation goes on past entry 31 without loop
    IndexGoesRound,
    /// or stays at 31 and is not switched off
    EnableKept,
    /// with loop it ends at 31
    LoopLost,
    /// "Sweep before the frequency step"
    SweepFirst,
    /// the sweep does not see that auto-stop stopped its channel in this cycle
    SweepBeforeLive,
    WrittenFrequency,
    /// as a wave has it
    NoisePeriodOfFour,
    NoiseByTapFourteen,
    PositionUnbounded,
    FrameTooFew,
    /// the frame of a span that ends at it is left to the next span
    LastFrameLost,
    /// a frame is of the state before its cycle
    FrameEarly,
    MutesUnheard,
    /// of two changes in one cycle the sweep's waits for the next
    OneChangeACycle,
    /// no cycle is one cycle
    NoneIsOne,
    /// the cycles after the last change of a span are not run
    RestLost,
    /// the last leap goes on to the change that it was for
    PastTheEnd,
    /// over many samples at once: the first comes after a whole length
    FirstSampleWhole,
    /// or is not counted
    FirstSampleLost,
    /// the others come one clock early
    SamplesEarly,
    /// the frequency counter is 0 behind the last
    SamplesRestLost,
    OneSampleALeap,
    OneBitALeap,
    /// the frequency is that of the end of the leap
    SamplesAfterSweep,
    /// they are counted once too often
    SamplesTooMany,
    /// or that in the leap's last cycle is, or is not counted
    LastSampleTwice,
    LastSampleLost,
    /// what is left behind the last is of a length less one
    SamplesRestShort,
    /// or has one clock more
    SamplesRestLong,
    /// the sweep's period is no end of a leap
    SweepLeaptOver,
    /// or is none while the sweep does no more than take the next frequency, which it then never takes
    SweepOffLeaptOver,
    /// over many frames at once: the output counter goes on and on
    OutputUnbounded,
}

/// The faults of an engine that goes over many samples at once, and where frames are not looked at over many of them.
const OVER: [Fault; 15] = [
    Fault::FirstSampleWhole,
    Fault::FirstSampleLost,
    Fault::SamplesEarly,
    Fault::SamplesRestLost,
    Fault::OneSampleALeap,
    Fault::OneBitALeap,
    Fault::SamplesAfterSweep,
    Fault::SamplesTooMany,
    Fault::LastSampleTwice,
    Fault::LastSampleLost,
    Fault::SamplesRestShort,
    Fault::SamplesRestLong,
    Fault::SweepLeaptOver,
    Fault::SweepOffLeaptOver,
    Fault::OutputUnbounded,
];

/// What an engine met, each with the cycle of its span.
#[derive(Clone, Copy, Debug, PartialEq)]
enum Event {
    SweepStop,
    AutoStop,
    /// index 31 to 0
    IndexRound,
    /// index 31 without loop
    IndexEnd,
    Level {
        interval: u32,
        up: u32,
    },
    Reload {
        interval: u32,
        up: u32,
    },
}

/// The engine: it moves to the next change at once. Samples change more often than all else, so it may go over many of them; frames are
/// in the way of that only where they are heard.
struct Quick {
    fault: Fault,
    over: bool,
    heard: bool,
    s: State,
    made: FrameSum,
    now: u32,
    events: Vec<(u32, Event)>,
    /// the sweep stopped its channel, and the live tick goes on
    unseen: bool,
}

impl Quick {
    fn new(fault: Fault, over: bool, heard: bool, s: State) -> Self {
        Quick { fault, over, heard, s, made: FrameSum::default(), now: 0, events: Vec::new(), unseen: false }
    }

    fn is(&self, fault: Fault) -> bool {
        self.fault == fault
    }

    /// Whether a leap goes over frames.
    fn over_frames(&self) -> bool {
        self.over && !self.heard
    }

    fn met(&mut self, event: Event) {
        self.events.push((self.now, event));
    }

    fn run(mut self, n: u32) -> Self {
        let mut left = if self.is(Fault::NoneIsOne) { n.max(1) } else { n };
        while left > 0 {
            let to = self.free().saturating_add(1);
            if to > left && self.is(Fault::RestLost) {
                break;
            }
            let step = if self.is(Fault::PastTheEnd) { to } else { to.min(left) };
            self.now += step.min(left);
            self.forward(step);
            left = left.saturating_sub(step);
        }
        let ends_at_frame = self.s.output == 0 && self.made.frames > 0;
        let lost = self.is(Fault::FrameTooFew) || self.is(Fault::LastFrameLost) && ends_at_frame;
        self.made.frames -= u32::from(lost && self.made.frames > 0);
        self
    }

    fn frame_cycles(&self) -> u32 {
        if self.is(Fault::FrameOf479) {
            479
        } else {
            FRAME
        }
    }

    fn clock(&self, index: usize) -> u32 {
        if index == NOISE && !self.is(Fault::NoisePeriodOfFour) {
            40
        } else {
            4
        }
    }

    fn frequency(&self, index: usize) -> u32 {
        if index == SWEPT && !self.is(Fault::WrittenFrequency) {
            self.s.sweep.current
        } else {
            self.s.channels[index].frequency
        }
    }

    fn period(&self) -> u32 {
        if self.s.sweep.slow == 1 && !self.is(Fault::SlowClockLost) {
            153_609
        } else {
            19_201
        }
    }

    /// The cycles in which nothing changes but counters.
    fn free(&self) -> u32 {
        let mut free = match self.over_frames() {
            true => u32::MAX,
            false => (self.frame_cycles() - 1).saturating_sub(self.s.output) + u32::from(self.is(Fault::PastFrame)),
        };
        for index in 0..6 {
            free = free.min(self.live_free(index)).min(self.envelope_free(index));
            if !self.over {
                free = free.min(self.sample_free(index));
            }
        }
        free.min(self.sweep_free())
    }

    fn live_counts(&self, index: usize) -> bool {
        let c = &self.s.channels[index];
        let plays = c.play == 1 || self.is(Fault::LiveWhileStopped) || self.unseen && index == SWEPT;
        plays && (c.auto_stop == 1 || self.is(Fault::LiveWithoutAutoStop))
    }

    fn live_free(&self, index: usize) -> u32 {
        if !self.live_counts(index) {
            return u32::MAX;
        }
        LIVE - 1 - self.s.channels[index].live_tick + u32::from(self.is(Fault::PastLive))
    }

    fn envelope_free(&self, index: usize) -> u32 {
        let c = &self.s.channels[index];
        if c.envelope_on == 0 {
            return u32::MAX;
        }
        ENVELOPE - 1 - c.envelope_tick + u32::from(self.is(Fault::PastEnvelope))
    }

    fn sweep_free(&self) -> u32 {
        let (last, step) = (self.period() - 1, self.s.sweep.step_counter);
        let free = match self.fault {
            Fault::SweepWraps | Fault::SweepAtPeriodAlone => last.wrapping_sub(step),
            Fault::SweepLeaptOver => u32::MAX,
            Fault::SweepOffLeaptOver if self.sweep_off() => u32::MAX,
            _ => last.saturating_sub(step),
        };
        free.saturating_add(u32::from(self.is(Fault::PastSweep)))
    }

    fn sweep_off(&self) -> bool {
        let w = &self.s.sweep;
        self.s.channels[SWEPT].play == 0 || w.enable == 0 || w.interval == 0
    }

    fn sample_free(&self, index: usize) -> u32 {
        let c = &self.s.channels[index];
        let (clock, end) = (self.clock(index), 2047 - self.frequency(index));
        let more = match self.fault {
            Fault::CounterWraps => (end + 2048 - c.frequency_counter) % 2048,
            _ => end.saturating_sub(c.frequency_counter),
        };
        clock - 1 - c.tick % clock + clock * more + u32::from(self.is(Fault::PastSample))
    }

    /// So many cycles, of which none but the last changes anything but counters.
    fn forward(&mut self, n: u32) {
        let before = self.is(Fault::FrameEarly).then(|| self.s.clone());
        let mut plays = self.s.channels[SWEPT].play;
        (0..6).for_each(|index| self.live(index, n));
        if !self.is(Fault::SweepBeforeLive) {
            plays = self.s.channels[SWEPT].play;
        }
        let sweep_first = self.is(Fault::SweepFirst) || self.is(Fault::SamplesAfterSweep);
        if sweep_first {
            self.sweep(n, plays);
        }
        (0..6).for_each(|index| if self.over { self.samples(index, n) } else { self.sample(index, n) });
        (0..6).for_each(|index| self.envelope(index, n));
        if !sweep_first {
            self.sweep(n, plays);
        }
        self.output(n, before);
    }

    fn live(&mut self, index: usize, n: u32) {
        if !self.live_counts(index) {
            return;
        }
        let (kept, any) = (self.is(Fault::LiveCounterKept), self.is(Fault::LiveIgnoresInterval));
        let c = &mut self.s.channels[index];
        c.live_tick += n;
        if c.live_tick < LIVE {
            return;
        }
        c.live_tick = 0;
        c.live_counter += 1;
        if c.live_counter > c.live_interval || any {
            c.play = 0;
            c.live_counter = if kept { c.live_counter % 32 } else { 0 };
            self.met(Event::AutoStop);
        }
    }

    fn sample(&mut self, index: usize, n: u32) {
        let (clock, end) = (self.clock(index), 2047 - self.frequency(index));
        let c = &self.s.channels[index];
        let muted = self.s.mutes >> index & 1 == 1;
        if self.is(Fault::SampleStandsWhileStopped) && c.play == 0 || self.is(Fault::SampleStandsWhileMuted) && muted {
            return;
        }
        let (clocks, rest) = ((c.tick + n) / clock, (c.tick + n) % clock);
        let carry = if self.is(Fault::CarryLost) && clocks > 1 { 1 } else { clocks };
        let early = u32::from(self.is(Fault::SampleEarly) && clocks > 0);
        let (kept, lost) = (self.is(Fault::CounterKept), self.is(Fault::RemainderLost) && clocks > 0);
        let due = clocks > 0 && (rest == 0 || !self.is(Fault::PastSample));
        let c = &mut self.s.channels[index];
        c.tick = if lost { 0 } else { rest };
        c.frequency_counter += carry;
        if due && c.frequency_counter + early > end {
            c.frequency_counter = if kept { c.frequency_counter % 2048 } else { 0 };
            self.next_sample(index);
        }
    }

    /// Over as many samples as there are.
    fn samples(&mut self, index: usize, n: u32) {
        let (clock, length) = (self.clock(index), 2048 - self.frequency(index));
        let fault = self.fault;
        let c = &mut self.s.channels[index];
        let clocks = (c.tick + n) / clock;
        c.tick = (c.tick + n) % clock;
        let first = match fault {
            Fault::FirstSampleWhole => length,
            _ => length.saturating_sub(c.frequency_counter).max(1),
        };
        if clocks < first {
            c.frequency_counter += clocks;
            return;
        }
        let (left, shorter) = (clocks - first, (length - 1).max(1));
        let every = if fault == Fault::SamplesEarly { shorter } else { length };
        let (more, rest) = (left / every, left % every);
        c.frequency_counter = match fault {
            Fault::SamplesRestLost => 0,
            Fault::SamplesRestShort => left % shorter,
            Fault::SamplesRestLong => rest + 1,
            _ => rest,
        };
        let at_end = rest == 0 && c.tick == 0;
        let times = match fault {
            Fault::FirstSampleLost => more,
            Fault::SamplesTooMany => more + 2,
            Fault::LastSampleTwice if at_end => more + 2,
            Fault::LastSampleLost if at_end => more,
            Fault::OneSampleALeap if index != NOISE => 1,
            Fault::OneBitALeap if index == NOISE => 1,
            _ => more + 1,
        };
        (0..times).for_each(|_| self.next_sample(index));
    }

    fn next_sample(&mut self, index: usize) {
        let (unbounded, one_tap) = (self.is(Fault::PositionUnbounded), self.is(Fault::NoiseByTapFourteen));
        let c = &mut self.s.channels[index];
        if index != NOISE {
            c.position = if unbounded { c.position + 1 } else { (c.position + 1) % 32 };
            return;
        }
        let tap = if one_tap { 14 } else { c.bank };
        let new = 1 ^ (c.shift >> 7 ^ c.shift >> tap) & 1;
        (c.shift, c.position) = (c.shift << 1 & 0x7FFF | new, new);
    }

    fn envelope(&mut self, index: usize, n: u32) {
        let fault = self.fault;
        let c = &mut self.s.channels[index];
        if fault == Fault::EnvelopeStandsWhileStopped && c.play == 0 {
            return;
        }
        if c.envelope_on == 0 {
            c.envelope_tick = match fault {
                Fault::EnvelopeOffStands => c.envelope_tick,
                Fault::EnvelopeOffUnbounded => c.envelope_tick.saturating_add(n),
                _ => (c.envelope_tick + n) % ENVELOPE,
            };
            return;
        }
        c.envelope_tick += n;
        if c.envelope_tick >= ENVELOPE {
            c.envelope_tick = 0;
            self.envelope_step(index);
        }
    }

    fn envelope_step(&mut self, index: usize) {
        let loops = !self.is(Fault::EnvelopeLoopLost);
        let c = &mut self.s.channels[index];
        c.envelope_step += 1;
        if c.envelope_step <= c.envelope_interval {
            return;
        }
        c.envelope_step = 0;
        let (interval, up) = (c.envelope_interval, c.up);
        match (up, c.level) {
            (1, 0..=14) => c.level += 1,
            (0, 1..) => c.level -= 1,
            _ if c.envelope_loop == 1 && loops => {
                c.level = c.reload;
                return self.met(Event::Reload { interval, up });
            }
            _ => return,
        }
        self.met(Event::Level { interval, up });
    }

    fn sweep(&mut self, n: u32, plays: u32) {
        let period = self.period();
        let waits = self.is(Fault::OneChangeACycle) && self.s.output + n >= FRAME;
        let at_alone = self.is(Fault::SweepAtPeriodAlone);
        let goes_round = self.is(Fault::SweepOffLeaptOver) && self.sweep_off();
        let w = &mut self.s.sweep;
        w.step_counter = w.step_counter.saturating_add(n);
        if goes_round {
            w.step_counter %= period;
            return;
        }
        if w.step_counter < period || waits || at_alone && w.step_counter > period {
            return;
        }
        w.step_counter = 0;
        w.interval_counter += 1;
        if w.interval_counter < w.interval {
            return;
        }
        w.interval_counter = if self.fault == Fault::IntervalCounterKept { w.interval_counter % 7 } else { 0 };
        w.current = w.next;
        if plays == 0 || w.enable == 0 || w.interval == 0 {
            return;
        }
        if w.modulate == 1 {
            self.modulate();
        } else {
            self.slide();
        }
    }

    fn modulate(&mut self) {
        let fault = self.fault;
        let w = &mut self.s.sweep;
        let entry = self.s.modulation[w.index as usize] as u8 as i8 as i32;
        w.next = (w.last as i32 + entry).rem_euclid(2048) as u32;
        let loops = (w.loops == 1 || fault == Fault::IndexGoesRound) && fault != Fault::LoopLost;
        if w.index < 31 {
            w.index += 1;
        } else if loops {
            w.index = 0;
            self.met(Event::IndexRound);
        } else {
            w.enable = u32::from(fault == Fault::EnableKept);
            self.met(Event::IndexEnd);
        }
    }

    fn slide(&mut self) {
        let w = &mut self.s.sweep;
        let part = w.current >> w.shift;
        if w.up == 0 {
            w.next = w.current - part;
        } else if w.current + part <= 2047 {
            w.next = w.current + part;
        } else {
            match self.fault {
                Fault::SweepStopLost => return,
                Fault::SweepClamped => w.next = 2047,
                Fault::SweepStopUnseen => self.unseen = true,
                _ => {}
            }
            self.s.channels[SWEPT].play = 0;
            self.met(Event::SweepStop);
        }
    }

    fn output(&mut self, n: u32, before: Option<State>) {
        self.s.output += n;
        if self.over_frames() {
            self.s.output = if self.is(Fault::OutputUnbounded) { self.s.output } else { self.s.output % FRAME };
            return;
        }
        if self.s.output < self.frame_cycles() {
            return;
        }
        self.s.output = 0;
        let [left, right] = self.frame(before.as_ref().unwrap_or(&self.s));
        self.made.frames += 1;
        self.made.sum = fold(fold(self.made.sum, left), right);
    }

    fn frame(&self, s: &State) -> [u32; 2] {
        let muted = |k: usize| s.mutes >> k & 1 == 1 && !self.is(Fault::MutesUnheard);
        let heard = |k: &usize| s.channels[*k].play == 1 && !muted(*k);
        let side = |volume: fn(&State, usize) -> u32| {
            let sum: u32 = (0..6).filter(heard).map(|k| voice(s, k, volume(s, k))).sum();
            sum / 8 * 32
        };
        [side(|s, k| s.channels[k].left), side(|s, k| s.channels[k].right)]
    }
}

/// "a = level × volume / 8, cut, plus 1 if both are above 0; a × sample / 2, cut"
fn voice(s: &State, k: usize, volume: u32) -> u32 {
    let c = &s.channels[k];
    let sample = match c.bank {
        _ if k == NOISE => 63 * c.position,
        bank @ 0..=4 => s.waves.get((32 * bank + c.position) as usize).copied().unwrap_or(0),
        _ => 0,
    };
    (c.level * volume / 8 + u32::from(c.level > 0 && volume > 0)) * sample / 2
}

/// One span of a stream: the Rust's states at both ends, and the frames where they are looked at.
struct Span {
    number: usize,
    by: Engine,
    before: State,
    n: u32,
    made: Option<FrameSum>,
    after: State,
    /// just before it a write switched the slow clock to the fast one, past its period
    switched: bool,
}

/// All spans of a stream, run on the Rust.
fn spans(bytes: &[u8]) -> Vec<Span> {
    let (mut reader, mut unit, mut list) = (Reader::new(bytes), Unit::new(), Vec::new());
    let mut switched = false;
    for number in 0.. {
        let before = unit.state();
        let (by, n, made) = match op(&mut reader).unwrap() {
            Op::Run { by, n, made } => (by, n, Some(made)),
            Op::Silent { by, n } => (by, n, None),
            Op::Write { address, byte } => {
                unit.write(address, byte);
                let now = unit.state().sweep;
                switched = before.sweep.slow == 1 && now.slow == 0 && now.step_counter > 19_201;
                continue;
            }
            Op::End => break,
            other => {
                prepare(&mut unit, &other);
                continue;
            }
        };
        unit.silent(n as usize);
        list.push(Span { number, by, before, n, made, after: unit.state(), switched });
        switched = false;
    }
    list
}

/// An op before a span, or what is looked at after it.
fn prepare(unit: &mut Unit, op: &Op) {
    match op {
        Op::Power => *unit = Unit::new(),
        Op::Load(image) => *unit = Unit::of(&state_of(image).unwrap()),
        Op::Mute { bits } => unit.mutes = (*bits).into(),
        Op::Image(image) => assert_eq!(unit.image(), **image),
        _ => {}
    }
}

/// What an engine does otherwise than the Rust on a span.
fn different(fault: Fault, over: bool, span: &Span) -> Option<String> {
    let got = Quick::new(fault, over, span.made.is_some(), span.before.clone()).run(span.n);
    match span.made {
        Some(made) if made != got.made => Some(format!("op {} {:?} not {made:?}", span.number, got.made)),
        _ if got.s != span.after => Some(format!("op {} state after {} cycles", span.number, span.n)),
        _ => None,
    }
}

fn stream(seed: u64, cases: u64, max: u32) -> Vec<u8> {
    let (mut maker, mut numbers) = (Maker::new(), Numbers::new(seed));
    (0..cases).for_each(|number| case(&mut maker, &mut numbers, number, max));
    maker.end();
    maker.bytes
}

fn agrees(bytes: &[u8]) {
    for span in spans(bytes) {
        for over in [false, true] {
            assert_eq!(different(Fault::None, over, &span), None);
        }
    }
}

#[test]
fn the_engine_that_leaps_agrees() {
    agrees(&stream(1, 20, 1_000_000));
    agrees(&stream(2, 20, 300_000));
    agrees(&sample().bytes);
}

/// By the spans of the quick engine alone.
fn not_found(bytes: &[u8]) -> Vec<Fault> {
    let mut left = FAULTS.to_vec();
    for span in spans(bytes).iter().filter(|span| span.by == Engine::Quick) {
        left.retain(|&fault| {
            let Some(what) = different(fault, OVER.contains(&fault), span) else { return true };
            println!("{fault:?}: {what}");
            false
        });
    }
    left
}

#[test]
fn wrong_engines_are_found() {
    assert_eq!(not_found(&stream(1, 20, 500_000)), []);
}

#[test]
fn wrong_engines_are_found_by_the_sample() {
    assert_eq!(not_found(&sample().bytes), []);
}

/// The parts that change, by the cycles before each of their changes.
fn distances(quick: &Quick) -> [Vec<u32>; 5] {
    let channels = |free: fn(&Quick, usize) -> u32| (0..6).map(|index| free(quick, index)).collect();
    let parts = [Quick::live_free, Quick::envelope_free, Quick::sample_free].map(channels);
    let [live, envelopes, samples] = parts;
    [live, envelopes, samples, vec![quick.sweep_free()], vec![FRAME - 1 - quick.s.output]]
}

/// How often a stream meets what its families are for.
#[derive(Debug, Default)]
struct Met {
    /// of these the cycle is not the last of its span
    sweep_stops: usize,
    auto_stops: usize,
    index_rounds: usize,
    index_ends: usize,
    switched: usize,
    /// spans that end one cycle before a change, at it and one after it: live ticks, envelopes, samples, sweep and frame
    next_to: [[usize; 3]; 5],
    /// of the spans of 0, 1, 479, 480 and 481 cycles
    frame_spans: [usize; 5],
    taps: BTreeSet<u32>,
    highest: usize,
    still: usize,
    levels: BTreeSet<(u32, u32)>,
    reloads: BTreeSet<(u32, u32)>,
    with_frames: usize,
    without: usize,
    muted: usize,
    /// of long spans: those that begin with every frequency at 2047 or next to it, with counters past their ends, with frequency 0
    high: usize,
    past: usize,
    low: usize,
    /// noise at its fastest
    long_taps: BTreeSet<u32>,
    /// and those that end one cycle before a sample, at it and one after it
    ends: [usize; 3],
}

/// From so many cycles on a span is long. Most channels then go over many samples.
const LONG: u32 = 10_000;

/// Whether a span ends one cycle before a sample of a channel, at it and one after it, where its frequency stayed.
fn ends(span: &Span, index: usize) -> [bool; 3] {
    let (c, clock) = (&span.after.channels[index], if index == NOISE { 40 } else { 4 });
    let (counter, tick) = (c.frequency_counter, c.tick);
    let before = counter + c.frequency >= 2047 && tick == clock - 1;
    [before, (counter, tick) == (0, 0), (counter, tick) == (0, 1)]
}

impl Met {
    fn of(bytes: &[u8]) -> Self {
        let mut met = Met::default();
        spans(bytes).iter().filter(|span| span.by == Engine::Quick).for_each(|span| met.add(span));
        met
    }

    fn add(&mut self, span: &Span) {
        let (s, n) = (&span.before, span.n);
        let start = Quick::new(Fault::None, true, span.made.is_some(), s.clone());
        for (times, list) in self.next_to.iter_mut().zip(distances(&start)) {
            for (i, time) in times.iter_mut().enumerate() {
                *time += usize::from(list.iter().any(|free| free.checked_add(i as u32) == Some(n)));
            }
        }
        for (times, cycles) in self.frame_spans.iter_mut().zip([0, 1, 479, 480, 481]) {
            *times += usize::from(n == cycles);
        }
        let noise = &s.channels[NOISE];
        if noise.play == 1 && noise.frequency == 2047 && n >= 2_000 {
            self.taps.insert(noise.bank);
        }
        let all_highest = (0..6).all(|index| start.frequency(index) == 2047);
        self.highest += usize::from(all_highest && n > 480);
        self.still += usize::from(s.channels.iter().all(|c| c.play == 0) && n > 480);
        self.switched += usize::from(span.switched && n > 0);
        self.muted += usize::from(s.mutes > 0 && span.made.is_some_and(|made| made.frames > 0));
        (self.with_frames, self.without) = match span.made {
            Some(_) => (self.with_frames + 1, self.without),
            None => (self.with_frames, self.without + 1),
        };
        if n >= LONG {
            self.add_long(span, &start);
        }
        start.run(n).events.into_iter().for_each(|(cycle, event)| self.add_event(event, cycle < n));
    }

    fn add_long(&mut self, span: &Span, start: &Quick) {
        let s = &span.before;
        let counters = |index: usize| s.channels[index].frequency_counter;
        self.high += usize::from((0..6).all(|index| start.frequency(index) >= 2040));
        self.past += usize::from((0..6).any(|index| counters(index) > 2048 - start.frequency(index)));
        self.low += usize::from((0..6).any(|index| start.frequency(index) == 0));
        if s.channels[NOISE].frequency == 2047 {
            self.long_taps.insert(s.channels[NOISE].bank);
        }
        for index in (0..6).filter(|&index| index != SWEPT) {
            for (times, is) in self.ends.iter_mut().zip(ends(span, index)) {
                *times += usize::from(is);
            }
        }
    }

    fn add_event(&mut self, event: Event, inside: bool) {
        match event {
            Event::SweepStop => self.sweep_stops += usize::from(inside),
            Event::AutoStop => self.auto_stops += usize::from(inside),
            Event::IndexRound => self.index_rounds += usize::from(inside),
            Event::IndexEnd => self.index_ends += usize::from(inside),
            Event::Level { interval, up } => drop(self.levels.insert((interval, up))),
            Event::Reload { interval, up } => drop(self.reloads.insert((interval, up))),
        }
    }
}

#[test]
fn what_the_cases_hold() {
    let mut long_taps = BTreeSet::new();
    for seed in 1..=3 {
        let met = Met::of(&stream(seed, 20, 400_000));
        println!("{met:?}");
        assert!(met.sweep_stops > 5 && met.auto_stops > 20, "{met:?}");
        assert!(met.index_rounds > 1 && met.index_ends > 1 && met.switched > 5, "{met:?}");
        assert!(met.next_to.concat().iter().all(|&times| times > 2), "{met:?}");
        assert!(met.frame_spans.iter().all(|&times| times > 5), "{met:?}");
        assert_eq!(met.taps, TAPS.into(), "{met:?}");
        assert!(met.highest > 1 && met.still > 2 && met.muted > 10, "{met:?}");
        assert!(met.with_frames > 50 && met.without > 50, "{met:?}");
        assert!(met.high > 2 && met.past > 10 && met.low > 5, "{met:?}");
        assert!(met.ends.iter().all(|&times| times > 5), "{met:?}");
        long_taps.extend(met.long_taps);
    }
    assert_eq!(long_taps, TAPS.into());
}

#[test]
fn every_envelope_moves() {
    let number = (0..).find(|&number| family(number) == Family::Envelopes).unwrap();
    let (mut maker, mut numbers) = (Maker::new(), Numbers::new(1));
    case(&mut maker, &mut numbers, number, 8_000_000);
    maker.end();
    let met = Met::of(&maker.bytes);
    let all: BTreeSet<(u32, u32)> = (0..8).flat_map(|interval| [(interval, 0), (interval, 1)]).collect();
    assert_eq!(met.levels, all);
    assert_eq!(met.reloads, all);
}

/// What the cycle engine runs in these parts the quick one runs from the same states.
#[test]
fn the_sample_runs_both_engines() {
    let list = spans(&sample().bytes);
    let by = |engine| list.iter().filter(move |span| span.by == engine).collect::<Vec<&Span>>();
    let (cycle, quick) = (by(Engine::Cycle), by(Engine::Quick));
    let same = |(a, b): (&&Span, &&Span)| (&a.before, a.n, a.made) == (&b.before, b.n, b.made);
    assert!(quick.iter().zip(&cycle[cycle.len() - quick.len()..]).all(same));
    let met = Met::of(&sample().bytes);
    println!("{} spans, {met:?}", quick.len());
    assert!(met.sweep_stops > 3 && met.auto_stops > 3 && met.index_rounds > 1 && met.index_ends > 1);
    assert!(met.switched > 5 && met.highest > 1 && met.still > 5 && met.taps == TAPS.into());
    assert!(met.frame_spans.iter().all(|&times| times >= 10));
}

fn stored() -> Vec<u8> {
    std::fs::read(concat!(env!("CARGO_MANIFEST_DIR"), "/../crates/replay/stdin")).unwrap()
}

/// The part of the stored sample that `sample` leaves out.
fn stored_long_span() -> Vec<u8> {
    let (stored, made) = (stored(), sample().bytes);
    let (end, before) = made.split_last().unwrap();
    assert_eq!(*end, b'E');
    stored.strip_prefix(before).expect("the stored sample is another one").to_vec()
}

#[test]
fn the_stored_sample_is_this_one() {
    let bytes = stored_long_span();
    let (mut reader, mut writes, mut spans) = (Reader::new(&bytes), Vec::new(), Vec::new());
    loop {
        match op(&mut reader).unwrap() {
            Op::Write { address, byte } => writes.push((address, byte)),
            Op::Silent { by, n } | Op::Run { by, n, .. } => spans.push((by, n)),
            Op::End => break,
            _ => {}
        }
    }
    assert_eq!(writes, bench::writes());
    assert_eq!(spans, [(Engine::Quick, 4_294_967_295), (Engine::Quick, 48_000)]);
}

/// By the Rust and by the engine that leaps.
#[test]
#[ignore = "the Rust runs 4,295,015,295 cycles, which takes some minutes"]
fn the_long_span_agrees() {
    agrees(&stored_long_span());
}

/// What a replaying program says that runs by the Rust.
fn said_by_rust(bytes: &[u8]) -> Result<String, String> {
    Ok(replay(bytes).map_or_else(|why| format!("differs {why}"), |totals| format!("agreed {totals}")))
}

/// What one says whose quick engine is wrong. A state out of range has no image.
fn said_by_wrong(fault: Fault, bytes: &[u8]) -> Result<String, String> {
    let (mut reader, mut s) = (Reader::new(bytes), power_on());
    for number in 0.. {
        let (what, expected, got) = match op(&mut reader)? {
            Op::Silent { by: Engine::Quick, n } => {
                s = Quick::new(fault, true, false, s).run(n).s;
                continue;
            }
            Op::Run { by: Engine::Quick, n, made } => {
                let ran = Quick::new(fault, true, true, s).run(n);
                s = ran.s;
                ("R sum", made.sum, ran.made.sum)
            }
            Op::State { .. } if !in_range(&s) => ("image refused", 0, 1),
            Op::State { sum } => ("S sum", sum, sum_of(&image_of(&s))),
            Op::End => break,
            other => {
                s = by_rust(&s, &other);
                continue;
            }
        };
        if expected != got {
            return Ok(format!("differs case 1 op {number} {what} expected {expected} got {got}\n"));
        }
    }
    Ok("agreed".to_string())
}

/// The state after an op of the cycle engine, or one that runs none.
fn by_rust(s: &State, op: &Op) -> State {
    let mut unit = Unit::of(s);
    match op {
        Op::Run { n, .. } | Op::Silent { n, .. } => unit.silent(*n as usize),
        Op::Write { address, byte } => unit.write(*address, *byte),
        other => prepare(&mut unit, other),
    }
    unit.state()
}

/// A stream's answers are the quick engine's, and its letters the cycle engine's.
#[test]
fn long_spans_agree() {
    let (bytes, totals) = long::stream(1, 24, 300_000, &said_by_rust).unwrap();
    assert_eq!(replay(&bytes), Ok(totals));
    assert_eq!(long::stream(1, 24, 300_000, &|bytes| said_by_wrong(Fault::None, bytes)), Ok((bytes.clone(), totals)));
    let list = spans(&bytes);
    assert!(list.iter().all(|span| span.by == Engine::Cycle));
    assert!(list.iter().filter(|span| span.n > 100_000).count() > 3);
}

/// What the quick engine answers is no answer of the Rust's, or it has none.
#[test]
fn wrong_engines_are_found_by_long_spans() {
    let found = |fault: &Fault| match long::stream(1, 24, 300_000, &|bytes| said_by_wrong(*fault, bytes)) {
        Ok((bytes, _)) => replay(&bytes).is_err(),
        Err(_) => true,
    };
    assert!(OVER.iter().all(found));
}

/// A program that says nothing, ends early or differs before it comes to the question has no answer.
#[test]
fn a_question_has_an_answer() {
    for said in ["", "agreed 1 cases 2 checks 3 cycles", "differs case 1 op 2 S sum expected 7 got 8", "S sum got 8"] {
        let made = long::stream(1, 1, 1_000, &|_| Ok(said.to_string()));
        assert!(made.is_err_and(|why| why.ends_with(said)), "{said}");
    }
    assert_eq!(long::stream(1, 1, 1_000, &|_| Err("gone".to_string())), Err("case 1: gone".to_string()));
}

#[test]
fn a_rendered_log_is_its_wav() {
    let mut r = Numbers::new(1);
    let (mut rendered, mut refused) = (0, 0);
    for number in 0..60 {
        let log = programs::case(programs::Kind::Wav, &mut r).log;
        if mutes_of(&log).1.len() != log.len() {
            continue;
        }
        assert_eq!(render(&log), wav(&log), "case {number}");
        (rendered, refused) = if render(&log).is_ok() { (rendered + 1, refused) } else { (rendered, refused + 1) };
    }
    assert!(rendered > 10 && refused > 3, "{rendered} rendered, {refused} refused");
}

#[test]
fn what_is_timed() {
    let mut unit = Unit::new();
    bench::writes().into_iter().for_each(|(address, byte)| unit.write(address, byte));
    let sum = |unit: &mut Unit, n| {
        let mut made = FrameSum::default();
        unit.step(n, &mut made);
        made.sum
    };
    let with = |writes: Vec<(u32, u8)>| {
        let mut unit = Unit::of(&unit.state());
        writes.into_iter().for_each(|(address, byte)| unit.write(address, byte));
        unit
    };
    let mut highest = with(bench::highest_writes());
    assert!(highest.state().channels.iter().all(|c| c.frequency == 2047));
    assert_eq!(bench::highest(50_000), sum(&mut highest, 50_000));
    let mut noise = with(bench::noise_writes());
    assert_eq!(noise.state().channels.map(|c| c.frequency == 2047), [false, false, false, false, false, true]);
    assert_eq!(bench::noise(50_000), sum(&mut noise, 50_000));
    let mut quiet = with(bench::quiet_writes());
    assert!(quiet.state().channels.iter().all(|c| c.play == 0));
    assert_eq!((bench::quiet(50_000), sum(&mut quiet, 50_000)), (0, 0));
    assert_eq!(bench::ticks(50_000), sum(&mut with(bench::ticks_writes()), 50_000));
    every_tick_changes(with(bench::ticks_writes()));
    assert_eq!(bench::advance(0), bench::bench(48_000));
    unit.step(100_000, &mut FrameSum::default());
    assert_eq!(bench::advance(100_000), sum(&mut unit, 48_000));
    assert_ne!(bench::advance(100_000), bench::advance(0));
}

/// Each level at each tick of its envelope, and at each period of the fast clock the entry that channel 5 goes by; all six play on.
fn every_tick_changes(mut unit: Unit) {
    let (mut levels, mut entries) = (0, 0);
    let mut before = unit.state();
    for cycle in 1..=3_500_000u32 {
        unit.silent(1);
        if cycle % ENVELOPE != 0 && cycle % 19_201 != 0 {
            continue;
        }
        let now = unit.state();
        assert!(now.channels.iter().all(|c| c.play == 1));
        if cycle % ENVELOPE == 0 {
            assert!(now.channels.iter().zip(&before.channels).all(|(now, before)| now.level != before.level));
            levels += 1;
        }
        if cycle % 19_201 == 0 {
            assert_eq!(now.sweep.index, (before.sweep.index + 1) % 32);
            entries += 1;
        }
        before = now;
    }
    assert_eq!((levels, entries), (11, 182));
}
