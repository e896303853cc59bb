//! Document 02 (iv): may two register writes due at one cycle be exchanged? It is asked of the given Rust alone: no rule of 01 is
//! read here, so that a table made from those rules can be held against it. Here are the lines of the program `exchange`, an answer
//! by trial, which plays the program's part, and what is wrong with a program's answer.

use crate::image::{image_of, LENGTH};
use crate::random::{self, Numbers};
use crate::recorder::number;
use crate::state::{self, in_range, named, State};
use crate::vsu::core::VSU;

/// How many bytes of a line the program keeps, from its front on.
pub const KEPT: usize = 128;

#[derive(Clone, Copy, Debug, PartialEq)]
pub struct Write {
    pub address: u16,
    pub byte: u8,
}

impl std::fmt::Display for Write {
    fn fmt(&self, f: &mut std::fmt::Formatter) -> std::fmt::Result {
        write!(f, "0x{:04x} {}", self.address, self.byte)
    }
}

/// Two writes, in the order in which a line has them.
pub type Pair = [Write; 2];

/// What a line asks for.
#[derive(Clone, Debug, PartialEq)]
pub enum Line<'a> {
    /// an empty line or a comment, with what is printed of it
    Shown(&'a [u8]),
    Pair(Pair),
    Unknown,
}

/// A pair is `ADDRESS BYTE ADDRESS BYTE`, with single spaces. An empty line and one that begins with # are printed as they are.
/// Anything else is unknown.
pub fn parse(line: &[u8]) -> Line<'_> {
    let front = &line[..line.len().min(KEPT)];
    if front.is_empty() || front[0] == b'#' {
        return Line::Shown(front);
    }
    let words: Vec<&[u8]> = front.split(|&byte| byte == b' ').collect();
    let pair = match words[..] {
        [address, byte, other_address, other_byte] => written(address, byte).zip(written(other_address, other_byte)),
        _ => None,
    };
    pair.map_or(Line::Unknown, |(first, second)| Line::Pair([first, second]))
}

/// An address is at most 65,535, a byte 255.
fn written(address: &[u8], byte: &[u8]) -> Option<Write> {
    Some(Write { address: number(address)?.try_into().ok()?, byte: number(byte)?.try_into().ok()? })
}

#[derive(Clone, Debug, PartialEq)]
pub enum Answer {
    Yes,
    /// After the lead, made from power-on, the two orders differ. This is the lowest byte of the image that does, with its value
    /// for the pair in the order of the line, and in the other.
    No {
        lead: Vec<Write>,
        at: usize,
        values: [u8; 2],
    },
}

/// The line with an answer, without its newline.
pub fn said([first, second]: Pair, answer: &Answer) -> String {
    match answer {
        Answer::Yes => format!("{first} {second} yes"),
        Answer::No { lead, at, values: [one, other] } => {
            format!("{first} {second} no {}: byte {at} of the image is {one} or {other}", lead_said(lead))
        }
    }
}

fn lead_said(lead: &[Write]) -> String {
    let writes: Vec<String> = lead.iter().map(Write::to_string).collect();
    match writes[..] {
        [] => "from power-on".to_string(),
        _ => format!("after {}", writes.join(", ")),
    }
}

/// The other way round; none where the text is no lead: no write, one, or two, of which the second has the byte 128.
fn lead_of(text: &str) -> Option<Vec<Write>> {
    if text == "from power-on" {
        return Some(Vec::new());
    }
    let word = |write: &str| {
        let (address, byte) = write.split_once(' ')?;
        written(address.as_bytes(), byte.as_bytes())
    };
    let lead: Vec<Write> = text.strip_prefix("after ")?.split(", ").map(word).collect::<Option<_>>()?;
    match lead[..] {
        [_] | [_, Write { byte: 128, .. }] => Some(lead),
        _ => None,
    }
}

/// Where an order ends: the whole state and its image.
#[derive(PartialEq)]
struct End {
    state: State,
    image: [u8; LENGTH],
}

/// The ends of both orders, that of the pair as it stands first.
fn ends(start: impl Fn() -> VSU, [first, second]: Pair) -> [End; 2] {
    [[first, second], [second, first]].map(|writes| {
        let state = state::read(&made(start(), &writes));
        End { image: image_of(&state), state }
    })
}

fn made(mut unit: VSU, writes: &[Write]) -> VSU {
    writes.iter().for_each(|w| unit.set_u8(w.address.into(), w.byte));
    unit
}

/// The unit after a lead.
pub fn led(lead: &[Write]) -> VSU {
    made(VSU::new(), lead)
}

/// No, where the orders differ after this lead.
pub fn after(lead: &[Write], pair: Pair) -> Option<Answer> {
    let [one, other] = ends(|| led(lead), pair);
    if one == other {
        return None;
    }
    let at = (0..LENGTH).find(|&at| one.image[at] != other.image[at]).expect("two states have two images");
    Some(Answer::No { lead: lead.to_vec(), at, values: [one.image[at], other.image[at]] })
}

/// An answer by trial: no where the orders differ after one of some leads, and yes where they do so after none.
pub fn trial(pair: Pair) -> Answer {
    leads(pair).iter().find_map(|lead| after(lead, pair)).unwrap_or(Answer::Yes)
}

/// What may bring out a difference: nothing; either register filled with another byte in every bit; that, and one of the six
/// playing.
fn leads(pair: Pair) -> Vec<Vec<Write>> {
    let fills = pair.map(|w| Write { byte: 255 - w.byte, ..w });
    let starts = (0..6).map(|channel| Write { address: 0x400 + 0x40 * channel, byte: 128 });
    let mut list = vec![Vec::new()];
    list.extend(fills.map(|fill| vec![fill]));
    list.extend(starts.flat_map(|start| fills.map(|fill| vec![fill, start])));
    list
}

/// The program's answer to a line, without its newline.
pub fn respond(line: &[u8]) -> Vec<u8> {
    match parse(line) {
        Line::Shown(front) => front.to_vec(),
        Line::Pair(pair) => said(pair, &trial(pair)).into(),
        Line::Unknown => b"unknown".to_vec(),
    }
}

/// How many states a yes is tried on: those after the leads of the trial, with power-on among them, and random ones.
pub const TRIED: usize = 15 + 30;

/// Random states in range: with nothing playing, each of the six playing by itself twice, all playing, and as they come. They are
/// the same ones for the same pair and seed, whatever was asked before.
pub fn tried(pair: Pair, seed: u64) -> Vec<State> {
    let mut list: Vec<State> = leads(pair).iter().map(|lead| state::read(&led(lead))).collect();
    let numbers = pair.map(|w| u64::from(w.address) << 8 | u64::from(w.byte));
    let mut r = Numbers::new(numbers.into_iter().fold(seed, |sum, n| sum.rotate_left(24) ^ n));
    let mut random = |plays: Option<[u32; 6]>| {
        let mut state = random::state(&mut r);
        plays.into_iter().for_each(|plays| (0..6).for_each(|k| state.channels[k].play = plays[k]));
        list.push(state);
    };
    (0..5).for_each(|_| random(Some([0; 6])));
    (0..12).for_each(|i| random(Some([0, 1, 2, 3, 4, 5].map(|k| u32::from(k == i % 6)))));
    (0..5).for_each(|_| random(Some([1; 6])));
    (0..8).for_each(|_| random(None));
    list
}

/// What is wrong with the line that a program printed for one that it was sent; none where it holds on the Rust.
pub fn wrong(sent: &[u8], printed: &[u8], seed: u64) -> Option<String> {
    let Some(got) = printed.strip_suffix(b"\n") else { return Some("the line has no end".to_string()) };
    match parse(sent) {
        Line::Shown(front) => other_than(front, got),
        Line::Unknown => other_than(b"unknown", got),
        Line::Pair(pair) => wrong_answer(pair, got, seed),
    }
}

fn other_than(expected: &[u8], got: &[u8]) -> Option<String> {
    (expected != got).then(|| format!("expected: {}", expected.escape_ascii()))
}

/// A yes has to hold on every state that is tried; of a no, the Rust gives all that follows the lead.
fn wrong_answer(pair: Pair, got: &[u8], seed: u64) -> Option<String> {
    let [first, second] = pair;
    let text = String::from_utf8_lossy(got);
    let Some(answer) = text.strip_prefix(&format!("{first} {second} ")) else {
        return Some(format!("expected: {first} {second} and an answer"));
    };
    if answer == "yes" {
        return tried(pair, seed).iter().find_map(|start| parted(pair, start));
    }
    let lead = answer.strip_prefix("no ").and_then(|no| lead_of(no.split_once(':')?.0));
    let Some(lead) = lead else { return Some("no answer of the form that there is".to_string()) };
    if !in_range(&state::read(&led(&lead))) {
        return Some("its lead ends out of range".to_string());
    }
    match after(&lead, pair) {
        Some(no) => other_than(said(pair, &no).as_bytes(), got),
        None => Some("after its lead both orders give one state".to_string()),
    }
}

/// What the two orders leave apart on this state.
fn parted(pair: Pair, start: &State) -> Option<String> {
    let [one, other] = ends(|| state::write(start), pair);
    if one == other {
        return None;
    }
    let fields = named(&one.state).into_iter().zip(named(&other.state));
    let apart: Vec<String> =
        fields.filter(|(a, b)| a != b).map(|((name, a), (_, b))| format!("{name} {a} or {b}")).collect();
    let plays: Vec<usize> = (0..6).filter(|&k| start.channels[k].play == 1).collect();
    Some(format!("with the channels {plays:?} playing the orders give {}", apart.join(", ")))
}
