//! Document 01's figures and counts, run on the Rust; and the oracle's own parts.

use oracle::constants::*;
use oracle::digest::{sum_of, Frames};
use oracle::image::{first_edition, from_image, image, image_of, state_of, written_back, LENGTH};
use oracle::quick;
use oracle::random::{case, muted_state, mutes, state, write as any_write, Numbers};
use oracle::reader::Reader;
use oracle::replay::replay;
use oracle::sample::sample;
use oracle::state::{in_range, power_on, read, write, State, NOISE, SWEPT};
use oracle::stream::{op, Engine, Maker, Op};
use oracle::unit::Unit;
use oracle::vsu::channel::Channel;
use oracle::VSU;

fn step(unit: &mut VSU, n: usize) -> Vec<(i16, i16)> {
    let mut frames = Frames::default();
    unit.step(n, &mut frames);
    frames.0
}

fn after(s: &State, n: usize) -> State {
    let mut unit = write(s);
    step(&mut unit, n);
    read(&unit)
}

#[test]
fn cycle_counts() {
    assert_eq!(CLOCK_SPEED, 20_000_000);
    assert_eq!(SOUND_LIVE_INTERVAL_CYCLE_COUNT, 76_805);
    assert_eq!(WAVE_CHANNEL_BASE_FREQUENCY_CYCLE_COUNT, 4);
    assert_eq!(NOISE_CHANNEL_BASE_FREQUENCY_CYCLE_COUNT, 40);
    assert_eq!(ENVELOPE_CYCLE_COUNT, 307_219);
    assert_eq!(SWEEP_SLOW_CYCLE_COUNT, 153_609);
    assert_eq!(SWEEP_FAST_CYCLE_COUNT, 19_201);
    assert_eq!(SOUND_SAMPLE_RATE_CYCLE_COUNT, 480);
}

/// A state whose next cycle makes a frame: the first `voices` wave channels play, all samples alike.
fn about_to_sound(voices: usize, level: u32, volume: u32, sample: u32) -> State {
    let mut s = power_on();
    s.waves = [sample; 160];
    for c in s.channels.iter_mut().take(voices) {
        c.play = 1;
        (c.level, c.left, c.right) = (level, volume, volume);
    }
    s.channels[NOISE].shift = 1;
    s.channels[NOISE].position = 1;
    s.output = 479;
    s
}

fn sound(s: &State) -> (i16, i16) {
    step(&mut write(s), 1)[0]
}

#[test]
fn p1_p2_p3_mixing() {
    let mut voice = Channel::new();
    (voice.envelope_level, voice.left_volume, voice.right_volume) = (15, 15, 15);
    assert_eq!(voice.sample(63), (913, 913));
    (voice.envelope_level, voice.left_volume, voice.right_volume) = (1, 1, 1);
    assert_eq!(voice.sample(63), (31, 31));
    // one voice at 913, cut to a multiple of 8 and times 4; six of them
    assert_eq!(sound(&about_to_sound(1, 15, 15, 63)), (3648, 3648));
    assert_eq!(sound(&about_to_sound(6, 15, 15, 63)), (21_888, 21_888));
    // 31 is cut to 24; two such voices make 62, which is cut to 56 after adding
    assert_eq!(sound(&about_to_sound(1, 1, 1, 63)), (96, 96));
    assert_eq!(sound(&about_to_sound(2, 1, 1, 63)), (224, 224));
    // sums of 7 and 8
    assert_eq!(sound(&about_to_sound(1, 1, 1, 14)), (0, 0));
    assert_eq!(sound(&about_to_sound(1, 1, 1, 16)), (32, 32));
}

fn muted(s: &State, mutes: u32) -> (i16, i16) {
    let mut frames = Frames::default();
    Unit::of(&State { mutes, ..s.clone() }).step(1, &mut frames);
    frames.0[0]
}

/// By hand: one voice at 913, six with volumes that tell them apart, and sums of 7 and 8 of which a voice goes.
#[test]
fn mutes_by_hand() {
    let six = about_to_sound(6, 15, 15, 63);
    assert_eq!(muted(&six, 0), (21_888, 21_888));
    (0..6).for_each(|k| assert_eq!(muted(&six, 63 ^ 1 << k), (3648, 3648)));
    assert_eq!(muted(&six, 63), (0, 0));
    let mut apart = six.clone();
    for (k, c) in apart.channels.iter_mut().enumerate() {
        (c.left, c.right) = (if k == 2 { 1 } else { 0 }, if k == 5 { 15 } else { 0 });
    }
    // level 15, volume 1: 2 × 63 / 2 = 63, cut to 56
    assert_eq!(muted(&apart, 0), (224, 3648));
    assert_eq!(muted(&apart, 0b00_0100), (0, 3648));
    assert_eq!(muted(&apart, 0b10_0000), (224, 0));
    assert_eq!(muted(&apart, 0b01_1011), (224, 3648));
    // 31 of 62, which are cut after adding
    assert_eq!(muted(&about_to_sound(2, 1, 1, 63), 0b10), (96, 96));
}

/// Runs of any length, with writes and mutes between them: but for the bits, the states are those of the Rust alone.
#[test]
fn mutes_change_nothing_but_frames() {
    let mut numbers = Numbers::new(9);
    let (mut heard, mut hushed) = (0, 0);
    for _ in 0..300 {
        let start = muted_state(&mut numbers);
        let (mut unit, mut alone) = (Unit::of(&start), write(&start));
        for _ in 0..10 {
            let (address, byte) = any_write(&mut numbers);
            unit.write(address, byte);
            alone.set_u8(address as usize, byte);
            if numbers.one_in(2) {
                unit.mutes = mutes(&mut numbers);
            }
            let n = numbers.pick(&[0, 1, 479, 480, 481, 2_000]) + numbers.below(3);
            let mut frames = Frames::default();
            unit.step(n, &mut frames);
            let unmuted = step(&mut alone, n as usize);
            assert_eq!(unit.state(), State { mutes: unit.mutes, ..read(&alone) });
            assert_eq!(frames.0.len(), unmuted.len());
            if unit.mutes == 0 {
                assert_eq!(frames.0, unmuted);
            }
            for ((left, right), all) in frames.0.into_iter().zip(unmuted) {
                assert!(left <= all.0 && right <= all.1);
                (heard, hushed) = if (left, right) == all { (heard + 1, hushed) } else { (heard, hushed + 1) };
            }
        }
    }
    assert!(heard > 500 && hushed > 500, "{heard} frames as they were, {hushed} less loud");
}

fn noise(shift: u32, tap: u32, clocks: usize) -> u32 {
    let mut s = power_on();
    let c = &mut s.channels[NOISE];
    c.frequency = 2047;
    (c.shift, c.position, c.bank) = (shift, shift % 2, tap);
    after(&s, 40 * clocks).channels[NOISE].shift
}

#[test]
fn p4_p5_p6_noise() {
    assert_eq!(noise(0, 14, 8), 0xFF);
    assert_eq!(noise(0, 14, 9), 0x1FE);
    assert_eq!(noise(0, 6, 8), 0xFE);
    for tap in [14, 10, 13, 4, 8, 6, 9, 11] {
        assert_eq!(noise(0x7FFF, tap, 100), 0x7FFF);
    }
}

fn about_to_sweep() -> State {
    let mut s = power_on();
    s.channels[SWEPT].play = 1;
    s.sweep.enable = 1;
    s.sweep.interval = 1;
    s.sweep.step_counter = 19_200;
    s
}

#[test]
fn p7_sweep() {
    let mut s = about_to_sweep();
    s.sweep.up = 1;
    s.sweep.shift = 1;
    s.sweep.next = 1365;
    let t = after(&s, 1);
    assert_eq!((t.channels[SWEPT].play, t.sweep.current, t.sweep.next), (1, 1365, 2047));
    s.sweep.next = 1366;
    let t = after(&s, 1);
    assert_eq!((t.channels[SWEPT].play, t.sweep.current, t.sweep.next), (0, 1366, 1366));
}

#[test]
fn p8_p9_p10_modulation() {
    let mut s = about_to_sweep();
    s.sweep.modulate = 1;
    s.sweep.last = 100;
    s.modulation[0] = 0x80;
    assert_eq!(after(&s, 1).sweep.next, 2020);
    s.sweep.last = 0;
    s.modulation[0] = 0xFF;
    assert_eq!(after(&s, 1).sweep.next, 2047);
    s.sweep.index = 31;
    let t = after(&s, 1);
    assert_eq!((t.sweep.enable, t.sweep.index), (0, 31));
    s.sweep.loops = 1;
    let t = after(&s, 1);
    assert_eq!((t.sweep.enable, t.sweep.index), (1, 0));
}

#[test]
fn run_by_program() {
    let mut unit = VSU::new();
    assert_eq!(step(&mut unit, 479).len(), 0);
    assert_eq!(step(&mut unit, 1).len(), 1);

    // frequency 0 moves after 8,192 cycles
    let position = |n| after(&power_on(), n).channels[0].position;
    assert_eq!((position(8_191), position(8_192)), (0, 1));

    for byte in [0xBF, 0xA0] {
        let mut unit = VSU::new();
        unit.set_u8(0x400, byte);
        step(&mut unit, 76_804);
        assert_eq!(read(&unit).channels[0].play, 1);
        step(&mut unit, 1);
        assert_eq!(read(&unit).channels[0].play, 0);
    }

    // channel 5's written frequency acts after 19,201 cycles
    let mut unit = VSU::new();
    unit.set_u8(0x508, 0x55);
    unit.set_u8(0x50C, 0x07);
    step(&mut unit, 19_200);
    assert_eq!(read(&unit).sweep.current, 0);
    step(&mut unit, 1);
    assert_eq!(read(&unit).sweep.current, 0x755);

    // the listing's own log
    let mut unit = VSU::new();
    for (address, byte) in [(0x000, 0x3F), (0x404, 0xF0), (0x410, 0xF0), (0x400, 0x80)] {
        unit.set_u8(address, byte);
    }
    assert_eq!(step(&mut unit, 960), [(3648, 0), (3648, 0)]);
}

#[test]
fn power_on_state() {
    assert_eq!(read(&VSU::new()), power_on());
    let bytes = image(&VSU::new());
    assert_eq!(bytes[..16], [2, 0, 16, 0, 0xA4, 1, 0, 0, 5, 0, 6, 0, 208, 0, 0x90, 1]);
    // all zero but the noise channel's tap
    for (i, byte) in bytes.iter().enumerate().skip(16) {
        assert_eq!(*byte, if i == 208 + 5 * 32 + 9 { 14 } else { 0 }, "offset {i}");
    }
}

#[test]
fn image_round_trip() {
    let mut numbers = Numbers::new(1);
    for _ in 0..2_000 {
        let s = muted_state(&mut numbers);
        assert!(in_range(&s));
        let bytes = image_of(&s);
        assert_eq!(state_of(&bytes), Some(s.clone()));
        let unit = from_image(&bytes);
        assert_eq!(unit.state(), s);
        assert_eq!(unit.image(), bytes);
        assert_eq!(written_back(&bytes), bytes);
        // edition 1: all but the mutes, and edition 2 again
        let unit = from_image(&first_edition(bytes));
        assert_eq!(unit.state(), State { mutes: 0, ..s });
        assert_eq!(unit.image()[..], written_back(&first_edition(bytes)));
    }
}

#[test]
fn a_wrong_image_is_refused() {
    let bytes = image_of(&state(&mut Numbers::new(2)));
    // header, zero bytes, unused flags, the noise output against its shift, and mutes that are none
    for at in (0..16).chain([219, 238, 239, 409, 419]) {
        let mut wrong = bytes;
        wrong[at] ^= 1;
        assert_eq!(state_of(&wrong), None, "offset {at}");
    }
    for (at, bits) in [(208, 0x20), (400, 0x80), (378, 1), (396, 1), (418, 0x40), (418, 0x80)] {
        let mut wrong = bytes;
        wrong[at] ^= bits;
        assert_eq!(state_of(&wrong), None, "offset {at}");
    }
}

/// Any one bit changed in an image of a state in range is another state, and changes the image's sum. The noise output
/// and the shift's lowest bit change together.
#[test]
fn sum_sees_every_field() {
    let mut numbers = Numbers::new(3);
    let mut seen = [false; LENGTH];
    for _ in 0..50 {
        let start = state(&mut numbers);
        let bytes = image_of(&start);
        for at in 16..LENGTH {
            for bit in 0..8 {
                let mut other = bytes;
                other[at] ^= 1 << bit;
                if at == 378 {
                    other[396] ^= 1 << bit;
                }
                if let Some(s) = state_of(&other) {
                    assert_ne!(s, start, "offset {at} bit {bit}");
                    assert_ne!(sum_of(&other), sum_of(&bytes), "offset {at} bit {bit}");
                    seen[at] = true;
                }
            }
        }
    }
    let unseen: Vec<usize> = (16..LENGTH).filter(|at| !seen[*at]).collect();
    // only bytes that are zero in every image may be left
    for at in unseen {
        let in_channel = (208..400).contains(&at).then(|| (at - 208) % 32);
        let zero = match in_channel {
            Some(11 | 30 | 31) => true,
            Some(19 | 21 | 22 | 23 | 27) => true, // upper bytes of numbers below 2^24 or 2^8
            Some(28 | 29) => at < 368,
            Some(_) => false,
            None => matches!(at, 407 | 409 | 419),
        };
        assert!(zero, "offset {at} was never changed");
    }
}

/// A stream with one op of each kind that holds an answer: with any number of an answer changed it must not pass.
#[test]
fn replay_finds_a_wrong_answer() {
    let mut maker = Maker::new();
    let mut places = Vec::new();
    maker.load(&state(&mut Numbers::new(4)));
    maker.mute(0b00_0110);
    let mut answers = |maker: &Maker, back: &[usize]| places.extend(back.iter().map(|b| maker.bytes.len() - b));
    answers(&maker, &[6, 4, 1]);
    maker.image();
    answers(&maker, &[420, 404, 42, 2, 1]);
    maker.write(0x404, 0x5A);
    answers(&maker, &[4, 1]);
    for by in Engine::BOTH {
        maker.run_by(by, 2_000);
        answers(&maker, &[8, 4, 1]);
        maker.silent_by(by, 2_000);
        // the cycles are no answer, but other cycles leave another state
        answers(&maker, &[4]);
        maker.state();
        answers(&maker, &[4, 1]);
    }
    maker.byte(16, 64);
    answers(&maker, &[3, 2, 1]);
    maker.byte(16, 63);
    answers(&maker, &[3, 2, 1]);
    maker.bytes(&[1; 3]);
    answers(&maker, &[3, 2, 1]);
    maker.end();
    assert_eq!(replay(&maker.bytes), Ok(maker.totals));
    for at in places {
        let mut wrong = maker.bytes.clone();
        wrong[at] ^= 1;
        assert!(replay(&wrong).is_err(), "byte {at}");
    }
    for end in 0..maker.bytes.len() {
        assert!(replay(&maker.bytes[..end]).is_err(), "cut at {end}");
    }
}

#[test]
fn replay_names_what_differs() {
    let said = |bytes: &[u8]| replay(bytes).unwrap_err();
    let mut wrong = image_of(&power_on());
    wrong[377] = 10;
    assert_eq!(said(&[b"PI", &wrong[..], b"E"].concat()), "case 1 op 1 I image offset 377 expected 10 got 14");
    wrong[377] = 7;
    assert_eq!(said(&[b"L", &wrong[..]].concat()), "case 0 op 0 L refused expected 0 got 11");
    assert_eq!(said(b"PPB\x79\x01\x07\x0B\x78\x01E"), "case 2 op 2 B carried expected 376 got 377");
    assert_eq!(said(b"PB\x79\x01\x07\x00\x00\x00E"), "case 1 op 1 B number expected 0 got 11");
    assert_eq!(said(b"PB\xA4\x01\x00\x00\x00\x00E"), "case 1 op 1 B is past the end");
    assert_eq!(said(b"PD\x01\x04E"), "case 1 op 1 D is too long");
    assert_eq!(said(b"PS\x00\x00\x00"), "case 1 op 1 the stream ends before its E");
    assert_eq!(said(b"PX"), "case 1 op 1 is no op");
    assert_eq!(said(b"PM\x40E"), "case 1 op 1 M is above 63");
    // by either engine
    for letter in ["R", "Q"] {
        let one = |frames| [b"P", letter.as_bytes(), &[0xE0, 1, 0, 0, frames, 0, 0, 0, 7, 0, 0, 0], b"E"].concat();
        assert_eq!(said(&one(2)), "case 1 op 1 R frames expected 2 got 1");
        assert_eq!(said(&one(1)), "case 1 op 1 R sum expected 7 got 0");
    }
    assert_eq!(said(b"PQ\x00\x00\x00\x00\x00\x00\x00\x00"), "case 1 op 1 the stream ends before its E");
    assert_eq!(said(b"PJ\x00\x00\x00"), "case 1 op 1 the stream ends before its E");
    // edition 1 is written back as edition 2, so that its own image is another one
    let first = first_edition(image_of(&power_on()));
    assert_eq!(said(&[b"PI", &first[..], b"E"].concat()), "case 1 op 1 I image offset 0 expected 1 got 2");
}

/// Which op may come after which: the sum after each write and mute, the sum or the image after each run, and in random cases
/// the image at the start and after each run.
fn looked_at(bytes: &[u8], random: bool) {
    let mut reader = Reader::new(bytes);
    let mut before = Op::End;
    for number in 0.. {
        let next = op(&mut reader).unwrap();
        let (sum, image) = (matches!(next, Op::State { .. }), matches!(next, Op::Image(_)));
        let fine = match before {
            Op::Write { .. } | Op::Mute { .. } => sum,
            Op::Run { .. } | Op::Silent { .. } if !random => sum || image,
            Op::Run { .. } | Op::Silent { .. } => image,
            Op::Power | Op::Load(_) => image || !random,
            _ => true,
        };
        assert!(fine, "op {number}: {next:?} after {before:?}");
        if next == Op::End {
            return;
        }
        before = next;
    }
}

#[test]
fn every_write_and_run_is_looked_at() {
    looked_at(&sample().bytes, false);
    for seed in 0..3 {
        let (mut maker, mut numbers) = (Maker::new(), Numbers::new(seed));
        (0..200).for_each(|_| case(&mut maker, &mut numbers, 5_000));
        maker.end();
        looked_at(&maker.bytes, true);
        let (mut maker, mut numbers) = (Maker::new(), Numbers::new(seed));
        (0..20).for_each(|number| quick::case(&mut maker, &mut numbers, number, 5_000));
        maker.end();
        looked_at(&maker.bytes, false);
    }
}

fn cycles_by(bytes: &[u8], engine: Engine) -> u64 {
    let (mut reader, mut cycles) = (Reader::new(bytes), 0);
    loop {
        match op(&mut reader).unwrap() {
            Op::Run { by, n, .. } | Op::Silent { by, n } if by == engine => cycles += n as u64,
            Op::End => return cycles,
            _ => {}
        }
    }
}

#[test]
fn sample_is_small() {
    let made = sample();
    assert_eq!(replay(&made.bytes), Ok(made.totals));
    assert!(made.bytes.len() < 210_000);
    // what the cycle engine has to run, which is the slower one
    assert!(cycles_by(&made.bytes, Engine::Cycle) < 6_500_000);
    assert!(made.totals.cycles < 9_500_000);
}
