//! The replaying program's work, done on the Rust's own unit: it tests the streams and the script. It says what differs in
//! the words of `crates/replay`.

use crate::digest::{sum_of, FrameSum};
use crate::image::{image_of, read_image, written_back};
use crate::log::Refused;
use crate::reader::Reader;
use crate::state::power_on;
use crate::stream::{op, Op, Totals};
use crate::unit::Unit;

/// The totals when everything agrees, else what differs first.
pub fn replay(bytes: &[u8]) -> Result<Totals, String> {
    let mut reader = Reader::new(bytes);
    let mut unit = Unit::new();
    let mut totals = Totals::default();
    for number in 0u64.. {
        let answer = op(&mut reader).and_then(|op| step(op, &mut unit, &mut totals));
        match answer {
            Ok(true) => {}
            Ok(false) => break,
            Err(text) => return Err(format!("case {} op {number} {text}", totals.cases)),
        }
    }
    Ok(totals)
}

/// Does one op; tells whether the stream goes on.
fn step(op: Op, unit: &mut Unit, totals: &mut Totals) -> Result<bool, String> {
    match op {
        Op::Power => {
            *unit = Unit::new();
            totals.cases += 1;
        }
        Op::Load(bytes) => {
            let (state, answer) = read_image(&*bytes);
            same("L refused", 0, answer.map_or_else(|why| why.0, |_| 0))?;
            *unit = Unit::of(&state);
            totals.cases += 1;
        }
        Op::Write { address, byte } => unit.write(address, byte),
        Op::Mute { bits } => unit.mutes = bits.into(),
        // the messages name one letter for both engines
        Op::Run { n, made, .. } => {
            let mut sink = FrameSum::default();
            unit.step(n, &mut sink);
            same("R frames", made.frames, sink.frames)?;
            same("R sum", made.sum, sink.sum)?;
            totals.checks += 1;
            totals.cycles += n as u64;
        }
        Op::Silent { n, .. } => {
            unit.silent(n as usize);
            totals.cycles += n as u64;
        }
        Op::State { sum } => {
            same("S sum", sum, sum_of(&unit.image()))?;
            totals.checks += 1;
        }
        Op::Image(bytes) => {
            same_bytes("I image", &*bytes, &unit.image())?;
            totals.checks += 1;
        }
        Op::Byte { at, value, answer } => {
            let mut bytes = unit.image();
            bytes[at as usize] = value;
            read("B", &bytes, answer)?;
            totals.checks += 1;
        }
        Op::Bytes { bytes, answer } => {
            read("D", &bytes, answer)?;
            totals.checks += 1;
        }
        Op::End => return Ok(false),
    }
    Ok(true)
}

/// An accepted image comes out again as it went in, but for its edition; with a refused one comes the power-on state.
fn read(what: &str, bytes: &[u8], wanted: Refused) -> Result<(), String> {
    let (state, answer) = read_image(bytes);
    let (number, carried) = answer.map_or_else(|why| why, |_| (0, 0));
    same(&format!("{what} number"), wanted.0, number)?;
    same(&format!("{what} carried"), wanted.1, carried)?;
    match answer {
        Ok(()) => same_bytes(&format!("{what} again"), &written_back(bytes), &image_of(&state)),
        Err(_) => same_bytes(&format!("{what} handed back"), &image_of(&power_on()), &image_of(&state)),
    }
}

fn same(what: &str, expected: u32, got: u32) -> Result<(), String> {
    if expected == got {
        return Ok(());
    }
    Err(format!("{what} expected {expected} got {got}"))
}

fn same_bytes(what: &str, expected: &[u8], got: &[u8]) -> Result<(), String> {
    match (0..expected.len()).find(|&at| expected[at] != got[at]) {
        Some(at) => Err(format!("{what} offset {at} expected {} got {}", expected[at], got[at])),
        None => Ok(()),
    }
}
