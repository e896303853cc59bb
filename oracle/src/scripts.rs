//! Random input for the console: calls of every kind, and lines that are none. The oracle's own player goes along, so that
//! targets lie around where the player stands. And the line before the log of a WAV.

use crate::console::{parse, Line};
use crate::listing::OPENED;
use crate::log::writes;
use crate::player::Player;
use crate::random::{mutes, Numbers};
use crate::tunes::FULL;

/// The most cycles that the calls of one script have a player run; more where one play has to fill the frame buffer.
const CYCLES: u64 = 2_500_000;
const LONG_CYCLES: u64 = 40_000_000;

/// Where plays are cut after what became of an entry, the run goes no further than this.
const JUDGED: u32 = 1_000_000;

struct Script<'a> {
    r: &'a mut Numbers,
    player: Player,
    dues: Vec<u32>,
    /// of entries that were held or had no register
    unheard: Vec<u32>,
    length: u32,
    /// how many slots are used, so that marks are set again, cleared and gone to
    slots: u32,
    left: u64,
    input: Vec<u8>,
}

/// The input for a console over this log.
pub fn script(r: &mut Numbers, log: &[u8]) -> Vec<u8> {
    let Ok((mut player, _, length)) = Player::open(log) else { return b"image\nplay 1\nseek 0\n".to_vec() };
    if r.one_in(60) {
        return blank(r);
    }
    let dues: Vec<u32> = writes(log).iter().map(|w| w.due).collect();
    let unheard = player.unheard(dues.last().map_or(0, |last| last + 1).min(JUDGED));
    let slots = r.pick(&[2, 4, 16]);
    let long = (FULL..FULL + 1_000_000).contains(&length);
    let left = if long { LONG_CYCLES } else { CYCLES };
    let mut script = Script { r, player, dues, unheard, length, slots, left, input: Vec::new() };
    if long {
        script.play_full();
    }
    let many = script.r.one_in(30);
    for _ in 0..if many { 200 } else { 5 + script.r.below(46) } {
        script.step();
    }
    script.end();
    script.input
}

impl Script<'_> {
    fn step(&mut self) {
        match self.r.below(31) {
            0..=5 => self.play(),
            6..=9 => self.seek(),
            10 | 11 => self.slot_call("set"),
            12 | 13 => self.send(b"set free"),
            14 | 15 => self.slot_call("clear"),
            16..=18 => self.slot_call("goto"),
            19 | 20 => self.send(b"image"),
            21 => self.send(b"memory"),
            22 if self.r.one_in(4) => self.fill(),
            23 | 24 if !self.unheard.is_empty() => self.span(),
            25..=27 => self.mute(),
            28 => self.rehearse(),
            _ => {
                let line = bad(self.r, &CALLS);
                self.send(&line);
            }
        }
        if self.r.one_in(3) {
            self.send(b"image");
        }
    }

    /// Writes the line down, but for a call that would be taken and run for longer than is left.
    fn send(&mut self, line: &[u8]) {
        if let Line::Call(call) = parse(line) {
            let (cost, refused) = (self.player.cost(call) as u64, self.player.refused(call).is_some());
            if !refused && cost > self.left {
                return;
            }
            self.left -= if refused { 0 } else { cost };
            let _ = self.player.call(call);
        }
        self.input.extend_from_slice(line);
        self.input.push(b'\n');
    }

    fn send_number(&mut self, word: &str, n: u32) {
        let width = if self.r.one_in(12) { 1 + self.r.below(10) as usize } else { 1 };
        self.send(format!("{word} {n:0width$}").as_bytes());
    }

    /// At, one before or one after something: an entry, the ends of the log, a mark, a frame, or where the player stands.
    fn target(&mut self) -> u32 {
        let (cycle, length) = (self.player.cycle, self.length);
        let at = match self.r.below(12) {
            0..=3 if !self.dues.is_empty() => self.dues[self.r.below(self.dues.len() as u32) as usize],
            4 => 0,
            5 | 6 => length,
            7 => cycle,
            8 => self.player.marks[self.r.below(self.slots) as usize].unwrap_or(0),
            9 => 480 * self.r.below(length.min(1_000_000) / 480 + 1),
            10 if self.r.one_in(4) => return u32::MAX,
            _ => self.r.below(length.min(1_000_000)),
        };
        match self.r.below(4) {
            0 => at.saturating_sub(1),
            1 => at.saturating_add(1),
            _ => at,
        }
    }

    /// From the end of the log mostly after a seek back, so that there is something to play.
    fn play(&mut self) {
        if self.player.cycle == self.length && !self.r.one_in(4) {
            self.seek();
        }
        let to = self.target();
        let short = self.r.pick(&[0, 1, 479, 480, 481, 960, 4_800, 48_000, 48_000, u32::MAX]);
        let n = if self.length >= FULL && self.r.one_in(3) {
            self.full()
        } else if to < self.player.cycle || self.r.one_in(4) {
            short
        } else {
            to - self.player.cycle
        };
        self.send_number("play", n);
    }

    /// From around one entry that was not taken to around another, mostly again after a way back, or on from there.
    fn span(&mut self) {
        let mut ends = [0; 2].map(|_| self.near_unheard());
        ends.sort();
        let [from, to] = ends;
        self.send_number("seek", from);
        let slot = if self.r.one_in(2) { Some(self.r.below(self.slots)) } else { None };
        slot.into_iter().for_each(|slot| self.send_number("set", slot));
        for _ in 0..1 + self.r.below(3) {
            self.send_number("play", to - from);
            match slot {
                _ if self.r.one_in(4) => {}
                Some(slot) => self.send_number("goto", slot),
                None => self.send_number("seek", from),
            }
        }
        slot.into_iter().for_each(|slot| self.send_number("clear", slot));
    }

    fn near_unheard(&mut self) -> u32 {
        let at = self.r.pick(&self.unheard);
        (at + self.r.below(3)).saturating_sub(1).min(self.length)
    }

    /// The cycles for 32,767 frames, for 32,768, the most that make no more, and the least that do.
    fn full(&mut self) -> u32 {
        let into = self.player.cycle % 480;
        self.r.pick(&[FULL - into - 1, FULL - into, FULL + 479 - into, FULL + 480 - into])
    }

    fn play_full(&mut self) {
        let from = self.r.below((self.length - FULL + 1).min(1_000));
        self.send_number("seek", from);
        let n = self.full();
        self.send_number("play", n);
    }

    fn seek(&mut self) {
        let to = self.target();
        self.send_number("seek", to);
    }

    fn mute(&mut self) {
        let bits = bits(self.r);
        self.send_number("mute", bits);
    }

    /// Mutes, and others or the same before a way back, by a mark or without; then what is there, heard and stored.
    fn rehearse(&mut self) {
        self.mute();
        let slot = if self.r.one_in(3) { None } else { Some(self.r.below(self.slots)) };
        slot.into_iter().for_each(|slot| self.send_number("set", slot));
        if self.r.one_in(2) {
            self.play();
        }
        if !self.r.one_in(3) {
            self.mute();
        }
        match slot {
            Some(slot) => self.send_number("goto", slot),
            None => {
                let to = self.r.below(self.player.cycle + 1);
                self.send_number("seek", to);
            }
        }
        self.send(b"image");
        let n = self.r.pick(&[480, 960, 4_800, 48_000]);
        self.send_number("play", n);
        if self.r.one_in(2) {
            self.send(b"memory");
        }
    }

    fn slot_call(&mut self, word: &str) {
        let slot = match self.r.below(12) {
            0 => 14 + self.r.below(7),
            1 => self.r.pick(&[255, 256, 65_536, 65_539, 0x8000_0000, u32::MAX]),
            2..=5 if word != "set" => self.set_slot(),
            _ => self.r.below(self.slots),
        };
        self.send_number(word, slot);
    }

    /// The slot of a mark that is set, or the first.
    fn set_slot(&mut self) -> u32 {
        let set: Vec<u32> = (0..16).filter(|&slot| self.player.marks[slot as usize].is_some()).collect();
        if set.is_empty() {
            0
        } else {
            self.r.pick(&set)
        }
    }

    /// Takes slots until none is free, and asks for one more.
    fn fill(&mut self) {
        while self.player.free() < 16 {
            self.send(b"set free");
            if self.r.one_in(3) {
                self.play();
            }
        }
        self.send(b"set free");
        self.send(b"memory");
    }

    /// A rest without a newline is a line; an empty rest is none.
    fn end(&mut self) {
        match self.r.below(6) {
            0 | 1 => {
                self.input.pop();
            }
            2 => self.input.extend_from_slice(b"image"),
            3 => self.input.extend_from_slice(b"\n"),
            _ => {}
        }
    }
}

/// Bits of a mute call: mostly such as there are, some above them.
fn bits(r: &mut Numbers) -> u32 {
    match r.below(6) {
        0 => r.pick(&[64, 64, 65, 66, 127, 128, 192, 255, 256, 257, 319, 65_536, 0x8000_0000, u32::MAX]),
        1 | 2 => r.below(64),
        _ => mutes(r),
    }
}

/// What stands before the log of a WAV: nothing, the line with its mutes, or what is nearly one, with or without an end. A log
/// around the limit of size mostly has the line, which is no part of it, and nothing that would be one.
pub fn front(r: &mut Numbers, log: &[u8]) -> Vec<u8> {
    let small = log.len() < OPENED / 2;
    match r.below(8) {
        0 | 1 => Vec::new(),
        2 if small => Vec::new(),
        3 if small => any(r, NEARLY).into(),
        4 if small => [&bad(r, &FRONT)[..], b"\n"].concat(),
        _ => {
            let width = if r.one_in(4) { 1 + r.below(10) as usize } else { 1 };
            format!("mute {:0width$}\n", bits(r)).into_bytes()
        }
    }
}

/// Nothing but newlines.
pub fn blank(r: &mut Numbers) -> Vec<u8> {
    [&b""[..], b"\n", b"\n\n", b"\r\n"][r.below(4) as usize].to_vec()
}

/// What a program reads, as lists with a bar between two.
pub struct Forms {
    /// lines that it knows
    pub good: &'static str,
    /// lines that it doesn't know although they look like one
    pub odd: &'static str,
    /// lines with a place for a number
    pub numbered: &'static str,
}

const CALLS: Forms = Forms {
    good: "play 480|play 1|seek 0|seek 481|set 3|set free|clear 0|goto 1|image|memory|mute 5|mute 63|mute 0",
    odd:
        "| |play|play |seek|set|set |clear|goto|goto |play480|play 1 2|play 0x10|play 1e3|play 4.0|play 4,000|play one|\
        play free|seek free|clear free|goto free|set Free|set fre|set freee|set free |set  free|setfree|image 0|images|\
        mage|memory 0|memor|unknown|open|quit|go to 1|stop|play -0|play +0|seek 18446744073709551616|play 4294967296|\
        goto 4294967297|mute|mute |mute5|mutes 5|mute free|mute all|mute 0x3f|mute 1 2|mute 1,2|mute 101b|unmute 1|unmute|\
        mute 00000000063|mute 4294967296|mute 4294967359|mute 63.0",
    numbered: "play _|seek _|set _|clear _|goto _|mute _",
};

const FRONT: Forms = Forms {
    good: "mute 5|mute 63|mute 64|mute 0",
    odd: "|mute|mute |mute5|mutes 5|mute free|mute 1 2|mute 1,2|unmute 1|play 1|mute 18446744073709551621",
    numbered: "mute _",
};

/// No line with mutes, but for the last two, which have more between it and the log.
const NEARLY: &str =
    "mute 5|mute 5\r\n|mute 5 \n|mute  5\n|mute\t5\n| mute 5\n|Mute 5\n|mute +5\n|mute 0x5\n|mute 5\0\n|\
    mute 00000000005\n|mute 4294967296\n|mute 4294967301\n|\nmute 5\n|mute 5\n\n|mute 5\nmute 5\n";

/// Numbers around their limits: ten digits and eleven, the largest and one more, signs, other digits.
const NUMBERS: &str =
    "4294967295|4294967296|4294967297|9999999999|10000000000|04294967295|0000000001|00000000001|0000000000|\
    00000000000|+1|-1|1-|1_000|１|²|18446744073709551617|/|:|0:|/0";

pub fn any<'a>(r: &mut Numbers, list: &'a str) -> &'a str {
    let list: Vec<&str> = list.split('|').collect();
    list[r.below(list.len() as u32) as usize]
}

/// A line that is mostly not known.
pub fn bad(r: &mut Numbers, forms: &Forms) -> Vec<u8> {
    let good = any(r, forms.good);
    let line = match r.below(12) {
        0..=2 => any(r, forms.odd).to_string(),
        3 => good.to_uppercase(),
        4 => good[..1].to_uppercase() + &good[1..],
        5 => good.replace(' ', any(r, "  |\t|\r|\0|\u{b}|\u{a0}|_|")),
        6 => good.to_string() + any(r, " |\t|\r|\0|0 |\u{7f}|é| 0"),
        7 => any(r, " |\t|\0|\u{feff}|+|-|0|\r").to_string() + good,
        8 => any(r, forms.numbered).replacen('_', any(r, NUMBERS), 1),
        9 => return long(r, good, forms),
        10 => return edited(r, good),
        _ => return (0..r.below(30)).map(|_| r.below(256) as u8).filter(|&byte| byte != b'\n').collect(),
    };
    line.into_bytes()
}

/// Lines longer than any buffer for them may be, that begin or end like a known one.
fn long(r: &mut Numbers, good: &str, forms: &Forms) -> Vec<u8> {
    let near = r.pick(&[16, 32, 64, 100, 128, 256, 512, 1_024, 2_048, 4_096, 4_096, 8_192, 16_384, 65_536, 200_000]);
    let size = (near + r.below(21) - 10) as usize;
    let fill = [b'x', b' ', b'0', 0, 0xFF][r.below(5) as usize];
    let fill = vec![fill; size];
    let (before, rest) = forms.numbered.split_once('_').unwrap();
    let after = rest.split('|').next().unwrap();
    match r.below(4) {
        0 => fill,
        1 => [good.as_bytes(), &fill].concat(),
        2 => [&fill, good.as_bytes()].concat(),
        _ => [before.as_bytes(), &fill, b"1", after.as_bytes()].concat(),
    }
}

/// One byte of a good line lost, doubled or changed; it may still be a call.
fn edited(r: &mut Numbers, good: &str) -> Vec<u8> {
    let mut line = good.as_bytes().to_vec();
    let at = r.below(line.len() as u32) as usize;
    match r.below(4) {
        0 => {
            line.remove(at);
        }
        1 => line.insert(at, line[at]),
        2 => line[at] ^= 1 << r.below(8),
        _ => line.truncate(at),
    }
    line.retain(|&byte| byte != b'\n');
    line
}
