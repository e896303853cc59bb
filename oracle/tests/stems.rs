//! The stem bouncer: a listing by hand, two readings in other ways, wrong ones, which the comparison has to find, and what its cases
//! and its stored log hold.

#[macro_use]
mod faults;

use oracle::digest::Frames;
use oracle::listing::{check_sized, listing_of, refused, LISTED, OPENED};
use oracle::log::{bytes_of, writes, Write};
use oracle::process::Printed;
use oracle::programs::{case, different, unbalanced, wanted, Case, Kind, Totals};
use oracle::random::Numbers;
use oracle::run::Stems;
use oracle::state::{read, State, NOISE};
use oracle::stems::{bounce, seen, stems};
use oracle::stemslog::stored;
use oracle::VSU;

/// Of a frame: left and right of the mix, and of each stem.
type Line = [[i32; 2]; 7];

/// Channel 0 has level 15, volumes 15 and 3, so a = 29 and 6, and the sample 59: 855 and 177, which is 8 × 106 + 7 and 8 × 22 + 1.
/// Channel 1 has level 12, volumes 8 and 0, so a = 13 and 0, and the sample 43: 279 and 0, which is 8 × 34 + 7. Together they are
/// 1134 = 8 × 141 + 6 and 177. From cycle 960 on channel 0 does not play.
fn two_voices() -> Vec<u8> {
    let entries = [
        (0, 0x000, 59),
        (0, 0x080, 43),
        (0, 0x404, 0xF3),
        (0, 0x410, 0xF0),
        (0, 0x400, 0x80),
        (5, 0x444, 0x80),
        (5, 0x450, 0xC0),
        (5, 0x458, 0x01),
        (480, 0x440, 0x80),
        (959, 0x460, 0x80),
        (960, 0x400, 0x00),
    ];
    bytes_of(1_500, &entries.map(|(due, address, byte)| Write { due, address, byte }))
}

#[test]
fn two_voices_by_hand() {
    // the mix 4 × 8 × 141 is 32 above 4 × 8 × (106 + 34)
    let lines = "stems 1 entries 11 cycles 1500 frames 3
1 480 3392 704 3392 704 0 0 0 0 0 0 0 0 0 0
2 960 4512 704 3392 704 1088 0 0 0 0 0 0 0 0 0
3 1440 1088 0 0 0 1088 0 0 0 0 0 0 0 0 0
";
    assert_eq!(stems(&two_voices()), lines);
    let frames = bounce(&two_voices()).unwrap_or_else(|why| panic!("{why:?}")).frames;
    let seen = seen(&frames, lines.as_bytes()).unwrap();
    assert_eq!(seen.to_string(), "remainders 0: 5 32: 1 64: 0 96: 0 128: 0 160: 0 silent 14 alone 2");
}

#[test]
fn refusals_and_empty_logs() {
    assert_eq!(stems(&two_voices()[..15]), "refused 3 0\n");
    assert_eq!(stems(&two_voices()[..103]), "refused 7 0\n");
    assert_eq!(stems(&bytes_of(960, &[Write { due: 960, address: 0x400, byte: 0 }])), "refused 8 0\n");
    assert_eq!(stems(&vec![0; LISTED]), "refused 4 0\n");
    assert_eq!(stems(&vec![0; LISTED + 1]), "refused 2 0\n");
    assert_eq!(stems(&bytes_of(0, &[])), "stems 1 entries 0 cycles 0 frames 0\n");
    assert_eq!(stems(&bytes_of(479, &[])), "stems 1 entries 0 cycles 479 frames 0\n");
    let silence = format!("stems 1 entries 0 cycles 480 frames 1\n1 480{}\n", " 0".repeat(14));
    assert_eq!(stems(&bytes_of(480, &[])), silence);
}

/// What a line can't be, whatever the oracle has for it.
#[test]
fn lines_that_cannot_be() {
    let frames = bounce(&two_voices()).unwrap_or_else(|why| panic!("{why:?}")).frames;
    let text = stems(&two_voices());
    for (old, new, what) in [
        ("4512 704", "4448 704", "frame 2: left mix less the sum of stems is -32"),
        ("4512 704", "4672 704", "frame 2: left mix less the sum of stems is 192"),
        ("4512 704", "4513 704", "frame 2: left mix less the sum of stems is 33"),
        ("4512 704", "4512 672", "frame 2: right mix less the sum of stems is -32"),
        ("4512 704 3392 704", "4512 704 3392 728", "frame 2: right mix less the sum of stems is -24"),
        ("1 480 3392 704", "1 480 3424 704", "frame 1: channel 0 plays alone and is not the mix"),
        ("1088 0 0 0 1088", "1088 0 32 0 1056", "frame 3: channel 0 does not play and is heard"),
        ("2 960 ", "2 961 ", "frame 2: its cycle is 961"),
        ("2 960 ", "2 ", "frame 2: not 16 numbers"),
        ("2 960 ", "2 960  ", "frame 2: not 16 numbers"),
        ("3 1440 1088 0 0 0 1088 0 0 0 0 0 0 0 0 0\n", "", "2 lines for 3 frames"),
    ] {
        assert!(text.contains(old));
        assert_eq!(seen(&frames, text.replacen(old, new, 1).as_bytes()), Err(what.to_string()));
    }
}

/// Whether a write is to a channel's register of this offset.
fn is_to(w: &Write, channel: usize, offset: u16) -> bool {
    channel_of(w) == Some(channel) && w.address % 0x20 == offset
}

fn channel_of(w: &Write) -> Option<usize> {
    (0x400..0x580).contains(&w.address).then(|| (w.address as usize - 0x400) / 0x40)
}

/// The frames of a log in the plain listing.
fn listed(writes: Vec<Write>, cycles: u32) -> Vec<[i32; 2]> {
    let text = listing_of(writes, cycles);
    let numbers = |line: &str| line.split(' ').map(|word| word.parse().unwrap()).collect::<Vec<i32>>();
    text.lines().skip(1).map(|line| numbers(line)[2..].try_into().unwrap()).collect()
}

/// The listing of the log in which every other channel's volumes are written as 0, which changes nothing but the frames.
fn stem_by_log(log: &[u8], cycles: u32, channel: usize) -> Vec<[i32; 2]> {
    let others = |w: &Write| (0..6).any(|k| k != channel && is_to(w, k, 0x04));
    listed(writes(log).into_iter().map(|w| Write { byte: if others(&w) { 0 } else { w.byte }, ..w }).collect(), cycles)
}

/// The first reading in another way: seven plain listings.
fn by_logs(log: &[u8], cycles: u32) -> Vec<Line> {
    let mix = listed(writes(log), cycles);
    let stems = [0, 1, 2, 3, 4, 5].map(|k| stem_by_log(log, cycles, k));
    (0..mix.len())
        .map(|i| [mix[i], stems[0][i], stems[1][i], stems[2][i], stems[3][i], stems[4][i], stems[5][i]])
        .collect()
}

// How a bouncer is wrong.
faults! {
    /// bit k mutes channel k + 1
    MutesTheNext,
    MutesTheOneBefore,
    /// a stem has the next channel too
    TwoInOne,
    /// the stem of the noise has the mix
    NoiseUnmuted,
    Reversed,
    MixLast,
    /// or each voice cut before adding, which is the same
    MixIsTheSum,
    MixWithoutNoise,
    MixUncut,
    StemsUncut,
    /// half of 15 is 8
    StemsRounded,
    StemsSwapped,
    /// in the stem of channel 5 alone
    SwappedInOne,
    /// all lefts, then all rights
    SidesApart,
    /// left is told twice
    LeftOnly,
    /// the stems are those of the cycle before
    EarlyStems,
    /// or of the cycle after it
    LateStems,
    EarlyMix,
    AllEarly,
    /// a channel that does not play is heard in its stem
    StoppedHeard,
    /// a stem begins with the unit as the last one left it
    CarriedOn,
    /// a stem is made of its channel's writes and of those to no channel: waves are held no more
    OwnWritesOnly,
    /// the other channels are never started
    OthersNeverPlay,
    /// the other channels' volumes are 0 until they are written
    MutedOnce,
    FrameTooFew,
    FrameTooMany,
    NumbersFromZero,
    /// the cycle before the one that makes it
    CyclesBefore,
    EntriesByChannel,
    FramesOfAllSeven,
    /// or with what is left over
    FramesRoundedUp,
    NamedLog,
    /// logs up to 1,048,576 bytes
    TakesMore,
    /// the log is read before its size is
    SizeLast,
    RefusedOnStandardError,
    FiveStems,
}

/// The second reading in another way, and what a fault makes of it: each side by 01's formula, from the state that the cycle leaves.
struct Bouncer {
    fault: Fault,
    writes: Vec<Write>,
    cycles: u32,
}

impl Bouncer {
    /// The states after the cycles 480, 960 and so on, or so many cycles before or after them.
    fn states(&self, unit: &mut VSU, off: i32) -> Vec<State> {
        let (mut list, mut due) = (Vec::new(), self.writes.iter().peekable());
        for cycle in 0..self.cycles + off.max(0) as u32 {
            while let Some(w) = due.next_if(|w| w.due == cycle) {
                unit.set_u8(w.address.into(), w.byte);
            }
            unit.step(1, &mut Frames::default());
            let now = cycle as i32 + 1 - off;
            if now > 0 && now % 480 == 0 && now as u32 <= self.cycles {
                list.push(read(unit));
            }
        }
        list
    }

    /// "a = level × volume / 8, cut, plus 1 if both are above 0; a × sample / 2, cut. The sample is 0 for banks 5 to 7; noise gives
    /// 63 or 0."
    fn sides(&self, state: &State, k: usize, stem: bool) -> [i32; 2] {
        let c = &state.channels[k];
        if c.play == 0 && !(stem && self.fault == Fault::StoppedHeard) {
            return [0, 0];
        }
        let sample = match c.bank {
            _ if k == NOISE => 63 * c.position,
            bank @ 0..=4 => state.waves[(32 * bank + c.position) as usize],
            _ => 0,
        };
        let up = u32::from(stem && self.fault == Fault::StemsRounded);
        let a = |volume| c.level * volume / 8 + u32::from(c.level > 0 && volume > 0);
        [c.left, c.right].map(|volume| ((a(volume) * sample + up) / 2) as i32)
    }

    /// "Add the playing voices, cut to a multiple of 8, times 4."
    fn frame(&self, state: &State, heard: &[usize], stem: bool) -> [i32; 2] {
        let cut = !matches!((self.fault, stem), (Fault::StemsUncut, true) | (Fault::MixUncut, false));
        [0, 1].map(|side| {
            let sum: i32 = heard.iter().map(|&k| self.sides(state, k, stem)[side]).sum();
            4 * if cut { sum / 8 * 8 } else { sum }
        })
    }

    fn heard(&self, k: usize) -> Vec<usize> {
        match self.fault {
            Fault::MutesTheNext => (k + 1..6).take(1).collect(),
            Fault::MutesTheOneBefore => (0..k).rev().take(1).collect(),
            Fault::TwoInOne => (k..6).take(2).collect(),
            Fault::NoiseUnmuted if k == NOISE => (0..6).collect(),
            Fault::Reversed => vec![5 - k],
            Fault::FiveStems if k == NOISE => Vec::new(),
            _ => vec![k],
        }
    }

    /// The frames of a stem by a log of its own, where a fault has one.
    fn stem_of_its_own(&self, k: usize) -> Option<Vec<[i32; 2]>> {
        let own = |w: &Write| channel_of(w).is_none_or(|other| other == k);
        let list = self.writes.iter().copied();
        let list: Vec<Write> = match self.fault {
            Fault::OwnWritesOnly => list.filter(own).collect(),
            Fault::OthersNeverPlay => {
                let starts = |w: &Write| !own(w) && w.address % 0x20 == 0;
                list.map(|w| Write { byte: if starts(&w) { w.byte & 0x7F } else { w.byte }, ..w }).collect()
            }
            Fault::MutedOnce => list.collect(),
            _ => return None,
        };
        Some(listed(list, self.cycles))
    }

    /// By how many cycles the mix and the stems come too late.
    fn off(&self) -> (i32, i32) {
        match self.fault {
            Fault::EarlyMix => (-1, 0),
            Fault::EarlyStems => (0, -1),
            Fault::AllEarly => (-1, -1),
            Fault::LateStems => (0, 1),
            _ => (0, 0),
        }
    }

    fn lines(&self) -> Vec<Line> {
        let (mix, stem) = self.off();
        let mut unit = VSU::new();
        let mixes = self.states(&mut unit, mix);
        let stems = if stem == mix { mixes.clone() } else { self.states(&mut VSU::new(), stem) };
        let all: Vec<usize> = (0..if self.fault == Fault::MixWithoutNoise { 5 } else { 6 }).collect();
        let mut lines: Vec<Line> = mixes
            .iter()
            .map(|state| [self.frame(state, &all, false), [0; 2], [0; 2], [0; 2], [0; 2], [0; 2], [0; 2]])
            .collect();
        for k in 0..6 {
            let again = (self.fault == Fault::CarriedOn).then(|| self.states(&mut unit, 0));
            let states = again.as_ref().unwrap_or(&stems).iter();
            let own = self.stem_of_its_own(k);
            let stem = own.unwrap_or_else(|| states.map(|state| self.frame(state, &self.heard(k), true)).collect());
            lines.iter_mut().zip(stem).for_each(|(line, frame)| line[k + 1] = frame);
        }
        lines.into_iter().map(|line| self.spoilt(line)).collect()
    }

    fn spoilt(&self, mut line: Line) -> Line {
        match self.fault {
            Fault::MixLast => line.rotate_left(1),
            Fault::MixIsTheSum => line[0] = [0, 1].map(|side| line[1..].iter().map(|stem| stem[side]).sum()),
            Fault::StemsSwapped => line[1..].iter_mut().for_each(|stem| stem.reverse()),
            Fault::SwappedInOne => line[5].reverse(),
            Fault::LeftOnly => line.iter_mut().for_each(|pair| pair[1] = pair[0]),
            Fault::SidesApart => {
                let sides: Vec<i32> = [0, 1].into_iter().flat_map(|side| line.map(|pair| pair[side])).collect();
                line = [0, 1, 2, 3, 4, 5, 6].map(|i| [sides[2 * i], sides[2 * i + 1]]);
            }
            _ => {}
        }
        line
    }

    fn header(&self) -> String {
        let by_channel = self.writes.iter().filter(|w| channel_of(w).is_some()).count();
        let entries = if self.fault == Fault::EntriesByChannel { by_channel } else { self.writes.len() };
        let frames = match self.fault {
            Fault::FramesOfAllSeven => 7 * (self.cycles / 480),
            Fault::FramesRoundedUp => self.cycles.div_ceil(480),
            _ => self.cycles / 480,
        };
        let name = if self.fault == Fault::NamedLog { "log" } else { "stems" };
        format!("{name} 1 entries {entries} cycles {} frames {frames}\n", self.cycles)
    }

    fn text(&self) -> String {
        let mut lines = self.lines();
        match self.fault {
            Fault::FrameTooFew => drop(lines.pop()),
            Fault::FrameTooMany => lines.extend(lines.last().copied()),
            _ => {}
        }
        let columns = if self.fault == Fault::FiveStems { 12 } else { 14 };
        let (first, before) =
            (usize::from(self.fault != Fault::NumbersFromZero), usize::from(self.fault == Fault::CyclesBefore));
        let mut text = self.header();
        for (i, line) in lines.iter().enumerate() {
            let sides: Vec<String> = line.concat()[..columns].iter().map(i32::to_string).collect();
            text += &format!("{} {} {}\n", i + first, 480 * (i + 1) - before, sides.join(" "));
        }
        text
    }
}

fn printed(fault: Fault, case: &Case) -> Printed {
    let most = if fault == Fault::TakesMore { OPENED } else { LISTED };
    let size_last = fault == Fault::SizeLast && case.log.len() > LISTED;
    match check_sized(&case.log, if size_last { OPENED } else { most }) {
        Ok(_) if size_last => Printed { out: refused((2, 0)).into(), err: Vec::new() },
        Ok((_, cycles)) => {
            Printed { out: Bouncer { fault, writes: writes(&case.log), cycles }.text().into(), err: Vec::new() }
        }
        Err(why) if fault == Fault::RefusedOnStandardError => Printed { out: Vec::new(), err: refused(why).into() },
        Err(why) => Printed { out: refused(why).into(), err: Vec::new() },
    }
}

#[test]
fn seven_plain_listings_agree() {
    let mut r = Numbers::new(2);
    for number in 0..50 {
        let case = case(Kind::Stems, &mut r);
        let Ok((_, cycles)) = check_sized(&case.log, LISTED) else { continue };
        let Ok(bounced) = bounce(&case.log) else { panic!("case {number} is refused") };
        let lines = bounced.frames.iter().map(line_of).collect::<Vec<Line>>();
        assert!(lines == by_logs(&case.log, cycles), "case {number}");
    }
}

fn line_of(frame: &Stems) -> Line {
    let [a, b, c, d, e, f] = frame.stems;
    [frame.mix, a, b, c, d, e, f].map(|(left, right)| [left.into(), right.into()])
}

#[test]
fn stems_by_the_formula_agree() {
    let mut r = Numbers::new(3);
    for number in 1..=80 {
        let case = case(Kind::Stems, &mut r);
        assert_eq!(different(&case, &wanted(&case).printed, &printed(Fault::None, &case)), None, "case {number}");
    }
}

/// Most of them are told by some line alone, without the oracle's own.
#[test]
fn wrong_bouncers_are_found() {
    let (mut r, mut left, mut by_line) = (Numbers::new(1), FAULTS.to_vec(), 0);
    for number in 1..=100 {
        let case = case(Kind::Stems, &mut r);
        let wanted = wanted(&case);
        left.retain(|&fault| {
            let got = printed(fault, &case);
            let Some(what) = different(&case, &wanted.printed, &got) else { return true };
            let alone = unbalanced(&wanted, &got);
            by_line += usize::from(alone.is_some());
            println!("{fault:?}: case {number} {what}\nby its lines alone: {alone:?}");
            false
        });
    }
    assert_eq!(left, [], "not found");
    println!("{} found, {by_line} by a line alone", FAULTS.len());
    assert!(by_line > 20);
}

/// The cases come to everything that they are for.
#[test]
fn what_the_cases_hold() {
    let (mut r, mut totals, mut sides) = (Numbers::new(7), Totals::new(Kind::Stems), [[0; 6]; 2]);
    for _ in 0..200 {
        let wanted = wanted(&case(Kind::Stems, &mut r));
        for line in wanted.frames.iter().flatten().map(line_of) {
            for side in [0, 1] {
                let rest = line[0][side] - line[1..].iter().map(|stem| stem[side]).sum::<i32>();
                sides[side][rest as usize / 32] += 1;
            }
        }
        totals.add(&wanted);
    }
    println!("{totals}\n{sides:?}");
    assert!(sides.concat().iter().all(|&times| times > 50), "a remainder is hardly seen");
    assert!(totals.seen.silent > 10_000 && totals.seen.alone > 2_000);
    assert!(totals.answers["log refused 2"] > 0 && totals.answers["log refused 8"] > 5);
    assert!(totals.refused > 20 && 2 * totals.refused < totals.cases);
}

/// The stored log shows every remainder, a voice alone, one that stopped, the noise on and off, and writes that are held.
#[test]
fn what_the_stored_log_holds() {
    let frames = bounce(&stored()).unwrap_or_else(|why| panic!("{why:?}")).frames;
    let seen = seen(&frames, stems(&stored()).as_bytes()).unwrap();
    assert!(seen.remainders.iter().all(|&times| times > 0) && seen.alone > 1, "{seen}");
    let left = |i: usize| line_of(&frames[i])[0][0] - line_of(&frames[i])[1..].iter().map(|stem| stem[0]).sum::<i32>();
    assert_eq!([0, 1, 2, 3, 4, 5].map(left), [0, 32, 64, 96, 128, 160]);
    assert!(frames[7].plays[2] && !frames[8].plays[2]);
    assert!(frames[8].stems[NOISE] != (0, 0) && frames[9].stems[NOISE] == (0, 0) && frames[9].plays[NOISE]);
    let text = listing_of(writes(&stored()), 7_700);
    assert!(text.starts_with("log 1 entries 117 cycles 7700 frames 16 held 2 none 1\n"), "{text}");
}
