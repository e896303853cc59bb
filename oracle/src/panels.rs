//! Random turns of the panel: input for the recorder's program. The oracle's own recorder goes along, so that cycles and
//! lengths lie around the last due cycle.

use crate::listing::LISTED;
use crate::log::{check, room, writes, Write};
use crate::random::Numbers;
use crate::recorder::{parse, Recorder, Turn, PROGRAM};
use crate::scripts::{any, bad, blank, Forms};
use crate::tunes::{many, tune};

struct Panel<'a> {
    r: &'a mut Numbers,
    recorder: Recorder,
    input: Vec<u8>,
}

/// The input for a recorder: the adds of a tune with other lines between them, a finish, and lines that nobody reads.
pub fn script(r: &mut Numbers) -> Vec<u8> {
    if r.one_in(60) {
        return blank(r);
    }
    let (length, writes) = take(r);
    let calm = if writes.len() > 1_000 { 5_000 } else { r.pick(&[2, 5, 20, 100]) };
    let recorder = Recorder::start(PROGRAM).expect("its own buffer");
    let mut panel = Panel { r, recorder, input: Vec::new() };
    for w in writes {
        while panel.r.one_in(calm) {
            panel.other(w.due);
        }
        panel.add(w);
    }
    panel.end(length);
    panel.input
}

/// What is recorded: its length and its writes.
fn take(r: &mut Numbers) -> (u32, Vec<Write>) {
    match r.below(150) {
        0 | 1 => around(r, PROGRAM.room),
        2 | 3 => around(r, LISTED),
        4..=20 => wide(r),
        _ => {
            let log = tune(r);
            (check(&log).expect("a tune is accepted").1, writes(&log))
        }
    }
}

/// As many writes as a log of this size has, one fewer, one and two more.
fn around(r: &mut Numbers, size: usize) -> (u32, Vec<Write>) {
    let count = room(&vec![0; size]) as usize + r.below(4) as usize - 1;
    let length = 1 + r.below(200_000);
    let mut writes = many(r, length, count);
    writes.truncate(count);
    (length, writes)
}

/// Cycles up to the largest, some of them in any order.
fn wide(r: &mut Numbers) -> (u32, Vec<Write>) {
    let mut dues: Vec<u32> = (0..1 + r.below(30)).map(|_| wide_due(r)).collect();
    if !r.one_in(4) {
        dues.sort();
    }
    let last = dues.iter().max().map_or(0, |last| last.saturating_add(1));
    let length = r.pick(&[last, u32::MAX]);
    (length, dues.into_iter().map(|due| Write { due, address: r.word() as u16, byte: r.word() as u8 }).collect())
}

fn wide_due(r: &mut Numbers) -> u32 {
    match r.below(12) {
        0 => u32::MAX - r.below(3),
        1 | 2 => 0x8000_0000 - 2 + r.below(4),
        3 => r.below(1_000),
        _ => r.word(),
    }
}

impl Panel<'_> {
    /// A line that is none of the tune's, whose next write is due at a cycle.
    fn other(&mut self, next: u32) {
        let last = self.recorder.last();
        match (self.r.below(16), last) {
            (0..=3, Some(last @ 1..)) => {
                let earlier = self.r.pick(&[0, last / 2, last - 1, last - 1]);
                self.add_at(earlier)
            }
            (4, Some(last)) => self.add_at(last),
            (5 | 6, Some(last)) => {
                let short = self.r.pick(&[0, last.saturating_sub(1), last, last]);
                self.finish(short)
            }
            (7, _) => {
                let line = any(self.r, SKIPPED);
                self.put(line.as_bytes())
            }
            (8, _) if self.r.one_in(8) => {
                let size = self.r.below(100_000) as usize;
                self.put(&[&b"# "[..], &vec![b'x'; size]].concat())
            }
            (9..=11, _) => {
                let line = self.at_limits();
                self.send(line.as_bytes(), next)
            }
            _ => {
                let line = bad(self.r, &TURNS);
                self.send(&line, next)
            }
        }
    }

    /// Any write at a cycle.
    fn add_at(&mut self, due: u32) {
        let (address, byte) = (self.r.word() as u16, self.r.word() as u8);
        self.add(Write { due, address, byte });
    }

    fn add(&mut self, w: Write) {
        let [cycle, address, byte] = [w.due, w.address.into(), w.byte.into()].map(|n| numeral(self.r, n));
        self.put(format!("add {cycle} {address} {byte}").as_bytes());
    }

    fn finish(&mut self, length: u32) {
        let length = numeral(self.r, length);
        self.put(format!("finish {length}").as_bytes());
    }

    /// A number at one of its limits, in any place.
    fn at_limits(&mut self) -> String {
        let last = self.recorder.last().unwrap_or(0).to_string();
        let form = any(self.r, "add _ 0x400 1|add @ _ 1|add @ 0x400 _|finish _").replace('@', &last);
        form.replace('_', any(self.r, LIMITS))
    }

    /// Writes the line down, but mostly not one that ends the tune before its time: a finish that is accepted, or an add that
    /// is later than the next one.
    fn send(&mut self, line: &[u8], next: u32) {
        let ends = match parse(line) {
            Turn::Add(w) => w.due > next,
            Turn::Finish(length) => self.recorder.last().is_none_or(|last| length > last),
            Turn::Skipped | Turn::Unknown => false,
        };
        if !ends || self.r.one_in(40) {
            self.put(line);
        }
    }

    fn put(&mut self, line: &[u8]) {
        if let Turn::Add(w) = parse(line) {
            let _ = self.recorder.add(w);
        }
        self.input.extend_from_slice(line);
        self.input.push(b'\n');
    }

    /// One in ten has no finish of its own. What follows a finish that is accepted is not read; a rest without a newline is a line.
    fn end(&mut self, length: u32) {
        let last = self.recorder.last().unwrap_or(0);
        // a full buffer is met by adds of every sort
        let full = self.recorder.writes.len() > 1_000;
        for _ in 0..self.r.below(if full { 20 } else { 4 }) {
            self.other(last);
        }
        if !self.r.one_in(10) {
            let least = last.saturating_add(1);
            let length = if self.r.one_in(6) { least } else { length };
            self.finish(length);
        }
        for _ in 0..self.r.pick(&[0, 0, 1, 5]) {
            self.other(u32::MAX);
        }
        if self.r.one_in(4) {
            self.input.pop();
        }
    }
}

/// Decimal or hex, hex in either case and in both, sometimes with zeros before it.
pub fn numeral(r: &mut Numbers, n: u32) -> String {
    let hex = r.one_in(3);
    let most = if hex { 8 } else { 10 };
    let width = if r.one_in(4) { 1 + r.below(most) as usize } else { 1 };
    if !hex {
        return format!("{n:0width$}");
    }
    let (small, large) = (format!("{n:0width$x}"), format!("{n:0width$X}"));
    let mixed = small.chars().zip(large.chars()).map(|(s, l)| if r.one_in(2) { s } else { l }).collect();
    "0x".to_string() + &[small, large, mixed][r.below(3) as usize]
}

// Lists, with a bar between two.
const SKIPPED: &str = "||#|##|# a comment|#add 0 0 0|# finish 960|#\t|#\r|#\0|#é";

const TURNS: Forms = Forms {
    good: "add 0 0 0|add 5 0x400 0x80|add 480 0x0504 255|add 0000000009 1028 7|add 0xA 0xfF 0xFf|finish 960|finish 0x3C0|\
        finish 0|finish 4294967295",
    odd: " |\t|\r|add|add |add 1|add 1 2|add 1 2 |add 1 2 3 |add 1 2 3 4| add 1 2 3|add  1 2 3|add 1  2 3|add 1 2  3|\
        add 1 2 3 #|add 1 2 3#| # no comment|;|// add 1 2 3|add 1 2 three|add one 2 3|add 1 -2 3|add +1 2 3|add 1.0 2 3|\
        add 1,000 0 0|add 1 400h 1|add 1 $400 1|add 1 0b1 1|add 1 0o7 1|add 1 2 3e1|add0 0 0|adds 0 0 0|ad 0 0 0|\
        add 1 65536 0|add 1 0 256|add 0 0 4294967296|add 4294967296 0 0|add 0 65536|add 0 0x400,1|add 0=0x400 1|\
        finish|finish |finish 1 2|finish  1|finish 1 |finish -1|finish 0X10|finish ten|finish960|finis 960|finishh 960|\
        finish finish|add finish 9|start|start 16|stop|end|quit|unknown|no log was finished|line 1: unknown",
    numbered: "add _ 0x400 1|add 7 _ 1|add 7 0x400 _|finish _",
};

/// Numbers around the limits of their places, and hex ones that are none.
pub const LIMITS: &str = "0|255|256|257|65535|65536|65537|0000000255|0000065535|4294967295|4294967296|0x0|0x00000000|0x000000000|\
    0xFF|0xff|0x100|0x000000FF|0xFFFF|0xffff|0x10000|0x0000FFFF|0xFFFFFFFF|0xffffffff|0xFfFfFfFf|0x100000000|0x1FFFFFFFF|\
    0x|0X|0X1|0XFF|x1|1x0|00x1|0x0x1|0x-1|0x+1|0x_1|0x1_0|0x 1|0x1h|ff|FF|0xg|0xG|0x@|0x`|0x/|0x:|0x１|0x\0|0xA|0xa|0xF|0xf|\
    0x0000000g|0x12345678|0x123456789|0x9|0xabcdef|0xABCDEF";
