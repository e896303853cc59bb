//! The stem bouncer of document 02 (vi): the mix of a log and its six stems, frame by frame, a second reading of the text; and what
//! has to be true of every line of such a listing, which is asked without the oracle's own stems.

use crate::listing::{check_sized, refused, LISTED};
use crate::log::{writes, Refused};
use crate::run::{Run, Stems};

/// The number of entries, L, and every frame of an accepted log.
pub struct Bounced {
    pub entries: u32,
    pub cycles: u32,
    pub frames: Vec<Stems>,
}

pub fn bounce(log: &[u8]) -> Result<Bounced, Refused> {
    let (entries, cycles) = check_sized(log, LISTED)?;
    Ok(Bounced { entries, cycles, frames: Run::new(writes(log)).stems(0, cycles) })
}

/// The listing, or the line of its refusal.
pub fn stems(log: &[u8]) -> String {
    bounce(log).map_or_else(refused, |bounced| listing_of(&bounced))
}

pub fn listing_of(Bounced { entries, cycles, frames }: &Bounced) -> String {
    let mut text = format!("stems 1 entries {entries} cycles {cycles} frames {}\n", frames.len());
    for (number, frame) in (1..).zip(frames) {
        let mut line = format!("{number} {}", frame.made);
        for (left, right) in [&[frame.mix], &frame.stems[..]].concat() {
            line += &format!(" {left} {right}");
        }
        text += &(line + "\n");
    }
    text
}

/// What the lines of a program came to.
#[derive(Clone, Copy, Debug, Default, PartialEq)]
pub struct Seen {
    /// how often mix less the sum of stems is 0, 32, 64, 96, 128 and 160, each side by itself
    pub remainders: [u64; 6],
    /// the stems of channels that do not play
    pub silent: u64,
    /// the frames in which one channel alone plays
    pub alone: u64,
}

/// Reads a program's lines of these frames, of which the cycles and what plays are used alone. Or says what can't be.
pub fn seen(frames: &[Stems], out: &[u8]) -> Result<Seen, String> {
    let text = String::from_utf8_lossy(out);
    let lines: Vec<&str> = text.lines().skip(1).collect();
    if lines.len() != frames.len() {
        return Err(format!("{} lines for {} frames", lines.len(), frames.len()));
    }
    let mut seen = Seen::default();
    for (number, (line, frame)) in (1..).zip(lines.iter().zip(frames)) {
        seen.add(line, frame).map_err(|what| format!("frame {number}: {what}"))?;
    }
    Ok(seen)
}

impl Seen {
    fn add(&mut self, line: &str, frame: &Stems) -> Result<(), String> {
        let (made, mix, stems) = parse(line).ok_or("not 16 numbers")?;
        if made != frame.made.into() {
            return Err(format!("its cycle is {made}"));
        }
        for (side, name) in [(0, "left"), (1, "right")] {
            let rest = mix[side] - stems.iter().map(|stem| stem[side]).sum::<i64>();
            self.add_remainder(rest).ok_or(format!("{name} mix less the sum of stems is {rest}"))?;
        }
        let (playing, silent): (Vec<usize>, Vec<usize>) = (0..6).partition(|&k| frame.plays[k]);
        if let Some(k) = silent.iter().find(|&&k| stems[k] != [0, 0]) {
            return Err(format!("channel {k} does not play and is heard"));
        }
        if playing.len() == 1 && stems[playing[0]] != mix {
            return Err(format!("channel {} plays alone and is not the mix", playing[0]));
        }
        self.silent += silent.len() as u64;
        self.alone += u64::from(playing.len() == 1);
        Ok(())
    }

    /// 02 (vi): "a multiple of 32 from 0 to 160"
    fn add_remainder(&mut self, rest: i64) -> Option<()> {
        let step = (0..6).find(|&step| rest == 32 * step)?;
        self.remainders[step as usize] += 1;
        Some(())
    }

    pub fn join(&mut self, other: Seen) {
        (0..6).for_each(|step| self.remainders[step] += other.remainders[step]);
        self.silent += other.silent;
        self.alone += other.alone;
    }
}

impl std::fmt::Display for Seen {
    fn fmt(&self, f: &mut std::fmt::Formatter) -> std::fmt::Result {
        write!(f, "remainders")?;
        for (step, times) in self.remainders.iter().enumerate() {
            write!(f, " {}: {times}", 32 * step)?;
        }
        write!(f, " silent {} alone {}", self.silent, self.alone)
    }
}

/// The cycle of a line, its mix and its stems, left and right.
fn parse(line: &str) -> Option<(i64, [i64; 2], [[i64; 2]; 6])> {
    let numbers: Option<Vec<i64>> = line.split(' ').map(|word| word.parse::<i32>().ok().map(i64::from)).collect();
    let numbers: [i64; 16] = numbers?.try_into().ok()?;
    let pair = |i: usize| [numbers[2 + 2 * i], numbers[3 + 2 * i]];
    Some((numbers[1], pair(0), [1, 2, 3, 4, 5, 6].map(pair)))
}
