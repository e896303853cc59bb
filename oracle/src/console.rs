//! The console over the player: each line of its input is a call, and each gets one line. Only the lines are here; what a
//! call does is in `player`.

use crate::digest::{sum_of, FrameSum};
use crate::listing::refused;
use crate::log::Refused;
use crate::player::{Call, Done, Player};
use crate::vsu::traits::Sink;

/// What a line asks for.
#[derive(Clone, Copy, Debug, PartialEq)]
pub enum Line {
    Call(Call),
    Image,
    Memory,
    Unknown,
}

/// A whole session: the lines that it prints, and the cycles that the player had to run.
pub struct Session {
    pub lines: Vec<String>,
    pub cycles: u64,
}

pub struct Console {
    pub player: Player,
    pub cycles: u64,
}

impl Console {
    /// The first line, and a console where the log is accepted.
    pub fn open(log: &[u8]) -> (String, Option<Console>) {
        match Player::open(log) {
            Ok((player, count, length)) => {
                (format!("open entries {count} cycles {length}"), Some(Console { player, cycles: 0 }))
            }
            Err(why) => (refused(why).trim_end().to_string(), None),
        }
    }

    pub fn answer(&mut self, line: &[u8]) -> String {
        match parse(line) {
            Line::Call(call) => {
                let cost = self.player.cost(call) as u64;
                let done = self.player.call(call);
                self.cycles += if done.is_ok() { cost } else { 0 };
                let counts = match &done {
                    Ok(Done::Played(_, counts)) => format!(" {counts}"),
                    _ => String::new(),
                };
                format!("{} {}{counts}", told(done), self.record())
            }
            Line::Image => format!("image {}", hex(&self.player.image())),
            Line::Memory => format!("memory sum {}", sum_of(&self.player.memory)),
            Line::Unknown => "unknown".to_string(),
        }
    }

    fn record(&mut self) -> String {
        let (cycle, applied, free) = (self.player.cycle, self.player.applied(), self.player.free());
        let set = self.player.marks.iter().flatten().count();
        format!("cycle {cycle} applied {applied} marks {set} free {free}")
    }
}

/// All that a console prints for a log and its input.
pub fn session(log: &[u8], input: &[u8]) -> Session {
    let (first, console) = Console::open(log);
    let mut session = Session { lines: vec![first], cycles: 0 };
    if let Some(mut console) = console {
        session.lines.extend(lines(input).iter().map(|line| console.answer(line)));
        session.cycles = console.cycles;
    }
    session
}

/// "A line is the bytes up to a newline; a rest without one at the end is a line too."
pub fn lines(input: &[u8]) -> Vec<&[u8]> {
    let mut list: Vec<&[u8]> = input.split(|&byte| byte == b'\n').collect();
    if list.last() == Some(&&b""[..]) {
        list.pop();
    }
    list
}

pub fn parse(line: &[u8]) -> Line {
    match line {
        b"image" => return Line::Image,
        b"memory" => return Line::Memory,
        b"set free" => return Line::Call(Call::SetFree),
        _ => {}
    }
    let calls: [(&[u8], fn(u32) -> Call); 6] = [
        (b"play ", Call::Play),
        (b"seek ", Call::Seek),
        (b"set ", Call::Set),
        (b"clear ", Call::Clear),
        (b"goto ", Call::GoTo),
        (b"mute ", Call::Mute),
    ];
    let call = calls.iter().find_map(|(word, call)| Some(call(decimal(line.strip_prefix(*word)?)?)));
    call.map_or(Line::Unknown, Line::Call)
}

/// "1 to 10 decimal digits, leading zeros allowed, up to 4,294,967,295"
pub fn decimal(digits: &[u8]) -> Option<u32> {
    let fits = (1..=10).contains(&digits.len()) && digits.iter().all(u8::is_ascii_digit);
    let value = digits.iter().take(10).fold(0, |sum, digit| 10 * sum + u64::from(digit.wrapping_sub(b'0')));
    if fits {
        u32::try_from(value).ok()
    } else {
        None
    }
}

fn told(done: Result<Done, Refused>) -> String {
    match done {
        Ok(Done::Played(frames, _)) => {
            let mut made = FrameSum::default();
            frames.into_iter().for_each(|frame| made.append(frame));
            format!("played {} sum {}", made.frames, made.sum)
        }
        Ok(Done::Sought) => "sought".to_string(),
        Ok(Done::Set(slot)) => format!("set {slot}"),
        Ok(Done::Cleared) => "cleared".to_string(),
        Ok(Done::Went) => "went".to_string(),
        Ok(Done::Muted(bits)) => format!("muted {bits}"),
        Err((number, carried)) => format!("refused {number} {carried}"),
    }
}

fn hex(bytes: &[u8]) -> String {
    bytes.iter().map(|byte| format!("{byte:02x}")).collect()
}
