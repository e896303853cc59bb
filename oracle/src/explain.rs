//! Prints a stream to read, with what each op does to the Rust's unit.

use crate::digest::{sum_of, Frames};
use crate::image::state_of;
use crate::log::Refused;
use crate::reader::Reader;
use crate::state::{named, State};
use crate::stream::{answer, op, Op};
use crate::unit::Unit;

/// One line for each op, with the fields that it changed; after op number `all`, every field and frame.
pub fn explain(bytes: &[u8], all: Option<u64>, print: &mut dyn FnMut(String)) -> Result<(), String> {
    let mut reader = Reader::new(bytes);
    let mut unit = Unit::new();
    for number in 0u64.. {
        let before = unit.state();
        let mut frames = Frames::default();
        let mut loaded = false;
        let line = match op(&mut reader)? {
            Op::Power => {
                unit = Unit::new();
                loaded = true;
                "P".to_string()
            }
            Op::Load(image) => {
                unit = Unit::of(&state_of(&image).ok_or(format!("op {number}: the image is not in range"))?);
                loaded = true;
                format!("L edition {}", image[0])
            }
            Op::Write { address, byte } => {
                unit.write(address, byte);
                format!("W {address:#x} <- {byte:#04x}")
            }
            Op::Mute { bits } => {
                unit.mutes = bits.into();
                format!("M {bits:#08b}")
            }
            Op::Run { by, n, made } => {
                unit.step(n, &mut frames);
                format!("{} {n}: {} frames, sum {}", by.run(), made.frames, made.sum)
            }
            Op::Silent { by, n } => {
                unit.step(n, &mut frames);
                format!("{} {n}", by.silent())
            }
            Op::State { sum } => format!("S {sum}{}", wrong(sum_of(&unit.image()) != sum)),
            Op::Image(bytes) => format!("I{}", wrong(unit.image() != *bytes)),
            Op::Byte { at, value, answer: wanted } => {
                let mut bytes = unit.image();
                bytes[at as usize] = value;
                format!("B {at} <- {value}: {}{}", said(wanted), wrong(answer(&bytes) != wanted))
            }
            Op::Bytes { bytes, answer: wanted } => {
                format!("D {} bytes: {}{}", bytes.len(), said(wanted), wrong(answer(&bytes) != wanted))
            }
            Op::End => {
                print(format!("{number} E"));
                return Ok(());
            }
        };
        let after = unit.state();
        print(format!("{number} {line}{}", if loaded { String::new() } else { changes(&before, &after) }));
        if all == Some(number) {
            named(&after).iter().for_each(|(name, v)| print(format!("    {name} {v}")));
            frames.0.iter().enumerate().for_each(|(i, (l, r))| print(format!("    frame {i} {l} {r}")));
        }
    }
    Ok(())
}

fn wrong(is: bool) -> &'static str {
    if is {
        " WRONG"
    } else {
        ""
    }
}

fn said((number, carried): Refused) -> String {
    match number {
        0 => "accepted".to_string(),
        _ => format!("refused {number} {carried}"),
    }
}

fn changes(before: &State, after: &State) -> String {
    let mut text = String::new();
    for ((name, old), (_, new)) in named(before).iter().zip(named(after)) {
        if *old != new {
            text += &format!("; {name} {old}->{new}");
        }
    }
    text
}
