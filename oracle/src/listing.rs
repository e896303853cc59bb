//! What the programs over a whole log print: document 01's listing with 02 (iii)'s counts, the same frames as a WAV, with 02 (v)'s
//! mutes where its input begins with them, and the entries that were not taken.

use crate::console::decimal;
use crate::log::{check, writes, Refused, Write};
use crate::run::Run;
use crate::sorts::{Counts, Sort};
use crate::vsu::traits::AudioFrame;

/// The most bytes of a log that the lister takes, and that the other programs take.
pub const LISTED: usize = 65_536;
pub const OPENED: usize = 1_048_576;

/// The size comes before the log's own refusals: a log that is too long was not read to its end.
pub fn check_sized(log: &[u8], most: usize) -> Result<(u32, u32), Refused> {
    if log.len() > most {
        return Err((2, 0));
    }
    check(log)
}

pub fn refused((number, carried): Refused) -> String {
    format!("refused {number} {carried}\n")
}

/// The listing, or the line of its refusal.
pub fn listing(log: &[u8]) -> String {
    match check_sized(log, LISTED) {
        Ok((_, cycles)) => listing_of(writes(log), cycles),
        Err(why) => refused(why),
    }
}

/// The listing of a log with these writes and this length.
pub fn listing_of(writes: Vec<Write>, cycles: u32) -> String {
    let (count, mut run) = (writes.len(), Run::new(writes));
    let (frames, Counts { held, none, .. }) = (run.frames(0, cycles, 0), run.counts(0, cycles));
    let mut text = format!("log 1 entries {count} cycles {cycles} frames {} held {held} none {none}\n", frames.len());
    for (number, (made, (left, right))) in (1..).zip(frames) {
        text += &format!("{number} {made} {left} {right}\n");
    }
    text
}

/// The mutes of a first line `mute B` and the log behind it; none and all of it where there is no such line.
pub fn mutes_of(input: &[u8]) -> (u32, &[u8]) {
    let end = input.iter().position(|&byte| byte == b'\n');
    let line = end.and_then(|end| decimal(input[..end].strip_prefix(b"mute ")?).zip(Some(&input[end + 1..])));
    line.unwrap_or((0, input))
}

/// The mutes, the log and its L; 1 for the mutes comes before all that is wrong with the log.
pub fn check_wav(input: &[u8]) -> Result<(u32, &[u8], u32), Refused> {
    let (mutes, log) = mutes_of(input);
    if mutes > 63 {
        return Err((1, 0));
    }
    let (_, cycles) = check_sized(log, OPENED)?;
    Ok((mutes, log, cycles))
}

/// A 16-bit stereo WAV of the frames as they are.
pub fn wav(input: &[u8]) -> Result<Vec<u8>, Refused> {
    let (mutes, log, cycles) = check_wav(input)?;
    let frames = Run::new(writes(log)).frames(0, cycles, mutes);
    Ok(wav_of(frames.into_iter().map(|(_, frame)| frame)))
}

pub fn wav_of(frames: impl ExactSizeIterator<Item = AudioFrame>) -> Vec<u8> {
    let size = 4 * frames.len() as u32;
    let mut bytes = Vec::new();
    bytes.extend(b"RIFF");
    bytes.extend((36 + size).to_le_bytes());
    bytes.extend(b"WAVEfmt ");
    bytes.extend(16u32.to_le_bytes());
    bytes.extend([1u16, 2].map(u16::to_le_bytes).concat()); // PCM, two channels
    bytes.extend([41_667u32, 166_668].map(u32::to_le_bytes).concat()); // frames and bytes of a second
    bytes.extend([4u16, 16].map(u16::to_le_bytes).concat()); // bytes of a frame, bits of a side
    bytes.extend(b"data");
    bytes.extend(size.to_le_bytes());
    for (left, right) in frames {
        bytes.extend([left, right].map(i16::to_le_bytes).concat());
    }
    bytes
}

/// A line for each entry that was not taken, then how many there are of each sort; or the line of the refusal.
pub fn heard(log: &[u8]) -> String {
    match check_sized(log, OPENED) {
        Ok((_, cycles)) => heard_of(Run::new(writes(log)), cycles),
        Err(why) => refused(why),
    }
}

fn heard_of(mut run: Run, cycles: u32) -> String {
    let mut text = String::new();
    for (index, w, sort) in run.judged(0, cycles) {
        let word = match sort {
            Sort::Taken => continue,
            Sort::Held => "held",
            Sort::Absent => "none",
        };
        text += &format!("{index} {} 0x{:04x} {} {word}\n", w.due, w.address, w.byte);
    }
    text + &format!("{}\n", run.counts(0, cycles))
}
