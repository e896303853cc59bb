//! Random pairs of writes for the program `exchange`, by the sorts of registers that they go to, and lines that are no pair.

use crate::exchange::{Pair, Write, KEPT};
use crate::panels::{numeral, LIMITS};
use crate::random::Numbers;
use crate::scripts::{any, bad, blank, Forms};
use crate::state::{NOISE, SWEPT};

/// What a write goes to. The two registers whose byte decides what becomes of another write are two sorts each.
#[derive(Clone, Copy, Debug, PartialEq)]
pub enum Sort {
    Wave,
    Modulation,
    /// offset 0x00 with the play bit, and without it
    Start,
    Rest,
    /// one of the others that a channel has
    Offset(u16),
    /// 0x580 with bit 0 set, and clear
    Stop,
    NoStop,
    Nothing,
}

use Sort::*;

pub const SORTS: [Sort; 14] = [
    Wave,
    Modulation,
    Start,
    Rest,
    Offset(0x04),
    Offset(0x08),
    Offset(0x0C),
    Offset(0x10),
    Offset(0x14),
    Offset(0x18),
    Offset(0x1C),
    Stop,
    NoStop,
    Nothing,
];

impl Sort {
    /// A write of this sort.
    pub fn write(self, r: &mut Numbers) -> Write {
        let byte = r.byte();
        let (address, byte) = match self {
            Wave => (r.below(0x280), byte),
            Modulation => (0x280 + r.below(0x80), byte),
            Start => (register(r, 6, 0x00), byte | 0x80),
            Rest => (register(r, 6, 0x00), byte & 0x7F),
            Offset(0x1C) => (0x51C + mirror(r), byte),
            // noise, the last channel, has no bank
            Offset(0x18) => (register(r, 5, 0x18), byte),
            Offset(offset) => (register(r, 6, offset.into()), byte),
            Stop => (0x580, byte | 1),
            NoStop => (0x580, byte & 0xFE),
            Nothing => (nothing(r), byte),
        };
        Write { address: address as u16, byte }
    }
}

/// The address of a register of one of so many channels, channel 5 more often than the others.
fn register(r: &mut Numbers, channels: u32, offset: u32) -> u32 {
    let channel = if r.one_in(4) { SWEPT as u32 } else { r.below(channels) };
    0x400 + 0x40 * channel + mirror(r) + offset
}

fn mirror(r: &mut Numbers) -> u32 {
    r.pick(&[0, 0, 0, 0x20])
}

/// An address with no register: 0x18 of noise, 0x1C of the others than channel 5, offsets that are not listed, next to the ends of
/// the ranges, where a mirror of the stop register would lie, a mapped address with a higher bit.
fn nothing(r: &mut Numbers) -> u32 {
    match r.below(8) {
        0 => 0x400 + 0x40 * NOISE as u32 + mirror(r) + 0x18,
        1 => 0x400 + 0x40 * r.pick(&[0, 1, 2, 3, NOISE as u32]) + mirror(r) + 0x1C,
        2 | 3 => 0x400 + 4 * r.below(0x60) + 1 + r.below(3),
        4 => 0x300 + r.below(0x100),
        5 => r.pick(&[0x581, 0x582, 0x583, 0x584, 0x5A0, 0x5A0, 0x5C0, 0x5FF]),
        6 => r.pick(&[0x300, 0x3FF, 0x600, 0x680, 0x780, 0x7FF, 0x8000, 0xFFFF]),
        _ => r.below(0x581) | (0x800 << r.below(5)),
    }
}

/// Two writes: to one register, to two of one sort, to two of one channel, to two where one may decide what becomes of the other,
/// or to any two.
pub fn pair(r: &mut Numbers) -> Pair {
    let sort = any_of(r, &SORTS);
    let first = sort.write(r);
    let [first, second] = match r.below(10) {
        0..=2 => [first, Write { address: same_place(r, first.address), byte: like(r, first.byte) }],
        3 => [first, Write { byte: like(r, first.byte), ..sort.write(r) }],
        4 => [first, on_its_channel(r, first)],
        5 | 6 => [any_of(r, &[Wave, Modulation, Start, Rest]), any_of(r, &[Start, Rest, Stop, NoStop, Nothing])]
            .map(|sort| sort.write(r)),
        _ => [first, any_of(r, &SORTS).write(r)],
    };
    if r.one_in(2) {
        [second, first]
    } else {
        [first, second]
    }
}

fn any_of(r: &mut Numbers, sorts: &[Sort]) -> Sort {
    sorts[r.below(sorts.len() as u32) as usize]
}

/// An address of the same register, or the same address where there is none.
fn same_place(r: &mut Numbers, address: u16) -> u16 {
    match address {
        0x000..=0x2FF => address - address % 4 + r.below(4) as u16,
        0x400..=0x57F if r.one_in(2) => address ^ 0x20,
        _ => address,
    }
}

/// The same byte, one with one bit or with bits changed that some register doesn't keep, or any.
fn like(r: &mut Numbers, byte: u8) -> u8 {
    match r.below(6) {
        0 => byte,
        1 | 2 => byte ^ 1 << r.below(8),
        3 | 4 => byte ^ r.pick(&[0x40, 0x80, 0xC0, 0x8C, 0x70, 0xF8, 0xFC, 0xFE, 0xFF]) as u8,
        _ => r.byte(),
    }
}

/// Any register of the same channel, or of channel 1.
fn on_its_channel(r: &mut Numbers, w: Write) -> Write {
    let base = if (0x400..=0x57F).contains(&w.address) { w.address - w.address % 0x40 } else { 0x400 };
    Write { address: base + 4 * r.below(0x10) as u16, byte: r.byte() }
}

/// Some forty lines: pairs, and between them comments, empty lines and lines that are none of these.
pub fn script(r: &mut Numbers) -> Vec<u8> {
    if r.one_in(60) {
        return blank(r);
    }
    let mut input = Vec::new();
    for _ in 0..20 + r.below(41) {
        let line = if r.one_in(8) { other(r) } else { sent(r) };
        input.extend(line);
        input.push(b'\n');
    }
    // a rest without a newline is a line
    if r.one_in(4) {
        input.pop();
    }
    input
}

fn sent(r: &mut Numbers) -> Vec<u8> {
    let [first, second] = pair(r);
    let numbers = [first.address.into(), first.byte.into(), second.address.into(), second.byte.into()];
    numbers.map(|n| numeral(r, n)).join(" ").into()
}

fn other(r: &mut Numbers) -> Vec<u8> {
    match r.below(8) {
        0 | 1 => any(r, SHOWN).into(),
        2 => comment(r),
        3 | 4 => any(r, PAIRS.numbered).replace('_', any(r, LIMITS)).into(),
        _ => bad(r, &PAIRS),
    }
}

/// One around the length of what is kept, or a long one.
fn comment(r: &mut Numbers) -> Vec<u8> {
    let size = if r.one_in(8) { r.below(100_000) as usize } else { KEPT - 3 + r.below(6) as usize };
    let fill = [b'x', b' ', b'0', 0, 0xFF][r.below(5) as usize];
    (0..size).map(|at| if at == 0 { b'#' } else { fill }).collect()
}

// Lists, with a bar between two.
const SHOWN: &str = "||#|##|# a comment|#0 0 0 0|# 0x0000 1 0x0404 18 yes|# unknown|#\t|#\r|#\0|#é";

const PAIRS: Forms = Forms {
    good: "0x0000 1 0x0404 18|0 0 0 0|0x580 1 0x400 128|1024 128 1408 1|0xfF 0xA 0x57f 255|65535 255 0xFFFF 0xFF|0512 007 0x500 0",
    odd: " |\t|\r|0|0 |0 0|0 0 0|0 0 0 |0 0 0 0 | 0 0 0 0|0  0 0 0|0 0  0 0|0 0 0  0|0 0 0 0 0|0 0 0 0 #| # no comment|\
        0 0 0 0#|;|0 0 0 x|x 0 0 0|0 -1 0 0|0 0 +0 0|-0 0 0 0|0 0 0 1.0|0,0 0 0|0 0 0,0|400h 1 0 0|$400 1 0 0|0b1 0 0 0|\
        65536 0 0 0|0 256 0 0|0 0 65536 0|0 0 0 256|0 65535 0 0|0 0 0 65535|4294967296 0 0 0|0x400=128 0x404=1|\
        0x400 128, 0x404 1|0x0000 1 0x0404 18 yes|0x400 128|yes|no|unknown|add 0 0 0|finish 0",
    numbered: "_ 1 0x400 128|0 _ 0x400 128|0 1 _ 128|0 1 0x400 _",
};
