//! The stored input of the program `exchange`: a list of pairs, so that its answers are a table. There are rows for each two sorts
//! of registers, by where the two writes go, and a row speaks for all pairs of its kind.

use crate::exchange::{Pair, Write};
use crate::pairs::{Sort, SORTS};

/// What the rows of a sort are made of.
struct Sample {
    name: &'static str,
    own: Write,
    /// for a row with the same sort: an address elsewhere, a byte with other bits that are kept, and one with others that are not
    elsewhere: Option<u16>,
    kept: Option<u8>,
    ignored: Option<u8>,
}

/// A channel's registers are those of channel 5, which has them all.
fn sample(sort: Sort) -> Sample {
    let of = |name, address, byte, elsewhere, kept, ignored| {
        let own = Write { address, byte };
        Sample { name, own, elsewhere, kept, ignored }
    };
    match sort {
        Sort::Wave => of("wave sample", 0x0000, 1, Some(0x0004), Some(2), Some(193)),
        Sort::Modulation => of("modulation entry", 0x0280, 1, Some(0x0284), Some(129), None),
        Sort::Start => of("offset 0x00 with play", 0x0500, 128, Some(0x0400), Some(129), Some(192)),
        Sort::Rest => of("offset 0x00 without play", 0x0500, 0, Some(0x0400), Some(1), Some(64)),
        Sort::Offset(0x04) => of("offset 0x04", 0x0504, 240, Some(0x0404), Some(15), None),
        Sort::Offset(0x08) => of("offset 0x08", 0x0508, 1, Some(0x0408), Some(129), None),
        Sort::Offset(0x0C) => of("offset 0x0C", 0x050C, 1, Some(0x040C), Some(2), Some(249)),
        Sort::Offset(0x10) => of("offset 0x10", 0x0510, 240, Some(0x0410), Some(15), None),
        Sort::Offset(0x14) => of("offset 0x14", 0x0514, 1, Some(0x0414), Some(2), Some(141)),
        Sort::Offset(0x18) => of("offset 0x18", 0x0518, 1, Some(0x0418), Some(2), Some(249)),
        // no other channel has one
        Sort::Offset(_) => of("offset 0x1C", 0x051C, 1, None, Some(129), None),
        Sort::Stop => of("stop with bit 0 set", 0x0580, 1, None, None, Some(255)),
        Sort::NoStop => of("stop with bit 0 clear", 0x0580, 0, None, None, Some(254)),
        Sort::Nothing => of("no register", 0x0300, 1, Some(0x0600), None, Some(128)),
    }
}

/// What is told about the rows, of which no line may be cut.
const FIRST: &str =
    "# Two registers of channels: on one channel, then on two. A modulation entry: with channel 5, then with channel 1.
# Two of one sort: elsewhere; in one place with a bit that is kept, with bits that are not; the same write twice.
";

/// The whole input: the table, and lines that are no pairs.
pub fn stored() -> String {
    table() + LAST
}

/// Under headings the rows of each two sorts, the earlier one first, and what is besides.
pub fn table() -> String {
    let mut text = FIRST.to_string();
    for (at, &s) in SORTS.iter().enumerate() {
        text += &format!("# {0}, {0}\n{1}", sample(s).name, lines(&alone(s)));
        for run in SORTS[at + 1..].chunk_by(|t, u| is_offset(*t) && is_offset(*u)) {
            let pairs: Vec<Pair> = run.iter().flat_map(|&t| together(s, t)).collect();
            text += &format!("# {}, {}\n{}", sample(s).name, names(run), lines(&pairs));
        }
    }
    for (heading, pairs) in BESIDES {
        let pair = |&(a, b, c, d): &Row| [Write { address: a, byte: b }, Write { address: c, byte: d }];
        text += &format!("# {heading}\n{}", lines(&pairs.iter().map(pair).collect::<Vec<Pair>>()));
    }
    text
}

/// Offsets that follow each other share one heading.
fn names(run: &[Sort]) -> String {
    let [first, last] = [run[0], run[run.len() - 1]].map(|sort| sample(sort).name);
    match run {
        [_] => first.to_string(),
        _ => format!("{} to {}", first.replace("offset", "offsets"), last.replace("offset ", "")),
    }
}

fn is_offset(sort: Sort) -> bool {
    matches!(sort, Sort::Offset(_))
}

fn lines(pairs: &[Pair]) -> String {
    pairs.iter().map(|[first, second]| format!("{first} {second}\n")).collect()
}

/// The rows of a sort with itself.
fn alone(sort: Sort) -> Vec<Pair> {
    let Sample { own, elsewhere, kept, ignored, .. } = sample(sort);
    let elsewhere = elsewhere.map(|address| Write { address, byte: kept.or(ignored).unwrap_or(own.byte) });
    let here = [kept, ignored, Some(own.byte)].into_iter().flatten().map(|byte| Write { byte, ..own });
    elsewhere.into_iter().chain(here).map(|second| [own, second]).collect()
}

/// The rows of two sorts. Where nothing is said about the channel it is channel 1.
fn together(s: Sort, t: Sort) -> Vec<Pair> {
    let [first, second] = [s, t].map(|sort| sample(sort).own);
    let channel = |sort| is_offset(sort) || matches!(sort, Sort::Start | Sort::Rest);
    match (channel(s), channel(t)) {
        (true, true) => vec![[first, second], [on_channel_1(first), second]],
        (false, true) if s == Sort::Modulation && t != Sort::Offset(0x1C) => {
            vec![[first, second], [first, on_channel_1(second)]]
        }
        (false, true) => vec![[first, on_channel_1(second)]],
        (true, false) => vec![[on_channel_1(first), second]],
        (false, false) => vec![[first, second]],
    }
}

/// But for 0x1C, which channel 5 alone has.
fn on_channel_1(w: Write) -> Write {
    match w.address {
        0x051C => w,
        _ => Write { address: w.address - 0x100, ..w },
    }
}

type Row = (u16, u8, u16, u8);

/// Where channels differ, and other addresses of a register.
const BESIDES: [(&str, &[Row]); 3] = [
    (
        "offset 0x14, bits 4 to 6: a wave channel, channel 5, noise",
        &[(0x0414, 1, 0x0414, 113), (0x0514, 1, 0x0514, 113), (0x0554, 1, 0x0554, 113)],
    ),
    ("offset 0x18 of noise, offset 0x1C of a wave channel", &[(0x0558, 1, 0x0558, 2), (0x041C, 1, 0x041C, 2)]),
    (
        "channels are mirrored at 0x20, stop is not",
        &[
            (0x0400, 128, 0x0420, 129),
            (0x0404, 240, 0x0428, 1),
            (0x0000, 1, 0x0420, 128),
            (0x0280, 1, 0x0520, 0),
            (0x0420, 128, 0x0580, 1),
            (0x0420, 128, 0x05A0, 1),
        ],
    ),
];

/// Numbers too few, too many, too large; spaces too many, a tab; signs, words, a bare or upper-case 0x, digits too many; a pair with
/// something far behind it; a comment that is cut. The last line is not ended.
const LAST: &str = "# No pairs, and one that is, in other words

0x400 128 0x580
0x400 128 0x580 1 0
65536 1 0x404 18
0x000 256 0x404 18
0x000 1 0x10000 18
0x000 1 0x404 0x100
4294967296 1 0x404 18
0x400  128 0x580 1
0x400 128 0x580 1\x20
 0x400 128 0x580 1
0x400\t128 0x580 1
0x400 +128 0x580 1
0x400 128 -1 1
0x400 128 stop 1
0x 128 0x580 1
0X400 128 0x580 1
00000001024 128 0x580 1
0x000000400 128 0x580 1
exchange
0x400 128 0x580 1                                                                                                               1
# of a line the front of 128 bytes is kept, so that of a comment as long as this one what stands behind the hundred and twenty-eighth byte is not printed
0000001024 0x00000080 1408 0x1";
