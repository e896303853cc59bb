//! A whole state of the unit as plain numbers, read out of the Rust and put back into it. The Rust has no mutes: none are read out
//! of it, and none are put into it. `unit` keeps them beside it.

use crate::fields::{Fields, Part};
use crate::vsu::core::VSU;

pub const TAPS: [u32; 8] = [14, 10, 13, 4, 8, 6, 9, 11];

/// The channel with the sweep, and the noise channel, by index.
pub const SWEPT: usize = 4;
pub const NOISE: usize = 5;

#[derive(Clone, Debug, Default, PartialEq)]
pub struct Channel {
    pub auto_stop: u32,
    pub play: u32,
    pub up: u32,
    pub envelope_on: u32,
    pub envelope_loop: u32,
    pub live_interval: u32,
    pub live_counter: u32,
    pub left: u32,
    pub right: u32,
    pub level: u32,
    pub envelope_interval: u32,
    pub reload: u32,
    pub envelope_step: u32,
    /// the bank of a wave channel, the tap of the noise channel
    pub bank: u32,
    /// the position of a wave channel, the output of the noise channel
    pub position: u32,
    pub frequency: u32,
    pub frequency_counter: u32,
    pub live_tick: u32,
    pub tick: u32,
    pub envelope_tick: u32,
    /// zero for a wave channel
    pub shift: u32,
}

#[derive(Clone, Debug, Default, PartialEq)]
pub struct Sweep {
    pub enable: u32,
    pub loops: u32,
    pub modulate: u32,
    pub slow: u32,
    pub up: u32,
    pub interval: u32,
    pub shift: u32,
    pub interval_counter: u32,
    pub step_counter: u32,
    pub index: u32,
    pub last: u32,
    pub current: u32,
    pub next: u32,
}

#[derive(Clone, Debug, PartialEq)]
pub struct State {
    pub waves: [u32; 160],
    /// as bytes, 0..255
    pub modulation: [u32; 32],
    pub channels: [Channel; 6],
    pub sweep: Sweep,
    pub output: u32,
    /// document 02 (v): "six mute bits, bit k for channel k"
    pub mutes: u32,
}

/// Power-on by document 01: all zero and off, tap 14. Nothing is muted.
pub fn power_on() -> State {
    let mut state = State {
        waves: [0; 160],
        modulation: [0; 32],
        channels: Default::default(),
        sweep: Sweep::default(),
        output: 0,
        mutes: 0,
    };
    state.channels[NOISE].bank = 14;
    state
}

pub fn read(unit: &VSU) -> State {
    let mut state = power_on();
    unit.dump(&mut Vec::new(), &mut |path, value| {
        if let Some(place) = place(&mut state, path) {
            // the modulation entries are the only signed ones, and are kept as bytes
            *place = if value < 0 { (value & 0xFF) as u32 } else { value as u32 };
        }
    });
    state
}

pub fn write(state: &State) -> VSU {
    let mut state = state.clone();
    let mut unit = VSU::new();
    unit.load(&mut Vec::new(), &mut |path| {
        let value = *place(&mut state, path)?;
        let signed = matches!(path, [Part::Name("modulation"), ..]);
        Some(if signed { value as u8 as i8 as i64 } else { value as i64 })
    });
    unit
}

/// The place of one of the Rust's fields; none for the two that document 01 leaves out. A path that is not known
/// here stops the program, so that a field added to the Rust cannot go unseen.
fn place<'a>(state: &'a mut State, path: &[Part]) -> Option<&'a mut u32> {
    use Part::*;
    Some(match path {
        [Name("waveforms"), Index(w), Name("ram"), Index(i)] => &mut state.waves[32 * w + i],
        [Name("modulation"), Index(i)] => &mut state.modulation[*i],
        [Name("channels"), Index(c), Variant(_), Name("channel"), Name(field)] => {
            channel_place(&mut state.channels[*c], field)
        }
        [Name("channels"), Index(SWEPT), Variant("PCMCh5"), Name("sweep_mod"), Name(field)] => {
            sweep_place(&mut state.sweep, field)
        }
        [Name("channels"), Index(0..=3), Variant("PCM"), Name("channel_index")] => return None,
        [Name("channels"), Index(NOISE), Variant("Noise"), Name("frequency_counter")] => return None,
        [Name("channels"), Index(c), Variant("PCM" | "PCMCh5"), Name("waveform_bank_index")] => {
            &mut state.channels[*c].bank
        }
        [Name("channels"), Index(c), Variant("PCM" | "PCMCh5"), Name("current_sample_index")] => {
            &mut state.channels[*c].position
        }
        [Name("channels"), Index(NOISE), Variant("Noise"), Name("tap_bit")] => &mut state.channels[NOISE].bank,
        [Name("channels"), Index(NOISE), Variant("Noise"), Name("output")] => &mut state.channels[NOISE].position,
        [Name("channels"), Index(NOISE), Variant("Noise"), Name("shift")] => &mut state.channels[NOISE].shift,
        [Name("sample_output_counter")] => &mut state.output,
        other => panic!("a field of the Rust that is not known here: {other:?}"),
    })
}

fn channel_place<'a>(c: &'a mut Channel, field: &str) -> &'a mut u32 {
    match field {
        "live_interval" => &mut c.live_interval,
        "live_interval_counter" => &mut c.live_counter,
        "live_interval_tick_counter" => &mut c.live_tick,
        "auto_deactivate" => &mut c.auto_stop,
        "enable_playback" => &mut c.play,
        "left_volume" => &mut c.left,
        "right_volume" => &mut c.right,
        "envelope_level" => &mut c.level,
        "sampling_frequency" => &mut c.frequency,
        "sampling_frequency_counter" => &mut c.frequency_counter,
        "sampling_frequency_tick_counter" => &mut c.tick,
        "envelope_interval" => &mut c.envelope_interval,
        "envelope_direction" => &mut c.up,
        "envelope_reload_value" => &mut c.reload,
        "enable_envelope_modification" => &mut c.envelope_on,
        "loop_envelope" => &mut c.envelope_loop,
        "envelope_tick_counter" => &mut c.envelope_tick,
        "envelope_step_counter" => &mut c.envelope_step,
        other => panic!("a field of the Rust's Channel that is not known here: {other}"),
    }
}

fn sweep_place<'a>(s: &'a mut Sweep, field: &str) -> &'a mut u32 {
    match field {
        "enable" => &mut s.enable,
        "loop_modulation" => &mut s.loops,
        "should_modulate" => &mut s.modulate,
        "should_use_slow_clock" => &mut s.slow,
        "modification_interval" => &mut s.interval,
        "sweep_direction" => &mut s.up,
        "sweep_shift" => &mut s.shift,
        "step_counter" => &mut s.step_counter,
        "interval_counter" => &mut s.interval_counter,
        "modulation_index" => &mut s.index,
        "last_written_frequency" => &mut s.last,
        "current_frequency" => &mut s.current,
        "next_frequency" => &mut s.next,
        other => panic!("a field of the Rust's SweepModulate that is not known here: {other}"),
    }
}

/// Every number of a state with a name to print.
pub fn named(state: &State) -> Vec<(String, u32)> {
    let mut list = Vec::new();
    for (i, v) in state.waves.iter().enumerate() {
        list.push((format!("wave{}[{}]", i / 32, i % 32), *v));
    }
    for (i, v) in state.modulation.iter().enumerate() {
        list.push((format!("modulation[{i}]"), *v));
    }
    for (i, c) in state.channels.iter().enumerate() {
        let bank = if i == NOISE { "tap" } else { "bank" };
        let position = if i == NOISE { "output" } else { "position" };
        for (name, v) in [
            ("auto_stop", c.auto_stop),
            ("play", c.play),
            ("up", c.up),
            ("envelope_on", c.envelope_on),
            ("envelope_loop", c.envelope_loop),
            ("live_interval", c.live_interval),
            ("live_counter", c.live_counter),
            ("left", c.left),
            ("right", c.right),
            ("level", c.level),
            ("envelope_interval", c.envelope_interval),
            ("reload", c.reload),
            ("envelope_step", c.envelope_step),
            (bank, c.bank),
            (position, c.position),
            ("frequency", c.frequency),
            ("frequency_counter", c.frequency_counter),
            ("live_tick", c.live_tick),
            ("tick", c.tick),
            ("envelope_tick", c.envelope_tick),
            ("shift", c.shift),
        ] {
            list.push((format!("ch{i}.{name}"), v));
        }
    }
    let s = &state.sweep;
    for (name, v) in [
        ("enable", s.enable),
        ("loop", s.loops),
        ("modulate", s.modulate),
        ("slow", s.slow),
        ("up", s.up),
        ("interval", s.interval),
        ("shift", s.shift),
        ("interval_counter", s.interval_counter),
        ("step_counter", s.step_counter),
        ("index", s.index),
        ("last", s.last),
        ("current", s.current),
        ("next", s.next),
    ] {
        list.push((format!("sweep.{name}"), v));
    }
    list.push(("output".to_string(), state.output));
    list.push(("mutes".to_string(), state.mutes));
    list
}

/// Document 01, "Range rules of a state", and 02 (v) for the mutes.
pub fn in_range(state: &State) -> bool {
    let flag = |v: u32| v <= 1;
    let channels = state.channels.iter().enumerate().all(|(i, c)| {
        let noise = i == NOISE;
        flag(c.auto_stop)
            && flag(c.play)
            && flag(c.up)
            && flag(c.envelope_on)
            && flag(c.envelope_loop)
            && c.live_interval <= 31
            && c.live_counter <= 31
            && c.live_tick <= 76_804
            && c.left <= 15
            && c.right <= 15
            && c.level <= 15
            && c.reload <= 15
            && c.frequency <= 2047
            && c.frequency_counter <= 2047
            && c.tick <= if noise { 39 } else { 3 }
            && c.envelope_interval <= 7
            && c.envelope_step <= 7
            && c.envelope_tick <= 307_218
            && if noise {
                TAPS.contains(&c.bank) && c.shift <= 32_767 && c.position == c.shift % 2
            } else {
                c.bank <= 7 && c.position <= 31 && c.shift == 0
            }
    });
    let s = &state.sweep;
    let sweep = [s.enable, s.loops, s.modulate, s.slow, s.up].into_iter().all(flag)
        && s.interval <= 7
        && s.shift <= 7
        && s.interval_counter <= 6
        && s.step_counter <= 153_608
        && s.index <= 31
        && s.last <= 2047
        && s.current <= 2047
        && s.next <= 2047;
    channels
        && sweep
        && state.output <= 479
        && state.mutes <= 63
        && state.waves.iter().all(|v| *v <= 63)
        && state.modulation.iter().all(|v| *v <= 255)
}
