//! May two writes be exchanged? Document 02 (iv) once more: 01's rules as a table of the pairs that may, held against the trial on
//! the Rust; a lead for each pair that may not; programs that go by a wrong table or print wrong lines, which the comparison has to
//! find; and the stored list of pairs, whose rows have to speak for all others.

#[macro_use]
mod faults;

use oracle::console::lines;
use oracle::exchange::{led, parse, respond, trial, tried, wrong, Answer, Line, Pair, Write, KEPT, TRIED};
use oracle::image::{image, LENGTH};
use oracle::pairlist::table;
use oracle::pairs::{pair, Sort, SORTS};
use oracle::process::Printed;
use oracle::programs::{case, different, wanted, Case, Kind, Totals, Wanted};
use oracle::random::{self, Numbers};
use oracle::recorder::number;
use oracle::state::{self, in_range, power_on, State};
use std::collections::{BTreeMap, BTreeSet};
use Register::*;

/// What lies at an address: a sample, an entry, the channel and the offset.
#[derive(Clone, Copy, Debug, PartialEq, Eq, PartialOrd, Ord)]
enum Register {
    Wave(u16),
    Modulation(u16),
    Channel(u16, u16),
    Stop,
    Nothing,
}

// How a program is wrong.
faults! {
    // its table
    StartAndStop,
    RestAndStop,
    WaveAndStart,
    WaveAndRest,
    WaveAndStop,
    WaveHeldByChannel5,
    WaveNotHeldByNoise,
    ModulationHeldByAny,
    ModulationNeverHeld,
    ModulationAndStop,
    ModulationAndRest,
    SameRegister,
    SameSample,
    SameEntry,
    OtherChannels,
    OtherOffsets,
    /// the two halves of channel 5's frequency
    FrequencyHalves,
    StopBitClear,
    StopByAnyBit,
    StopTwice,
    /// an address with no register beside the stop register
    NothingAndStop,
    AllMay,
    NoneMay,
    // what a register keeps
    SampleWhole,
    StartBit6,
    StartPlayAlone,
    HighFrequencyWhole,
    /// only the level
    EnvelopeHigh,
    TapOnWaveChannels,
    TapNowhere,
    SweepBitsNowhere,
    BankOnNoise,
    BankWhole,
    BankOfFour,
    SweepOnWaveChannels,
    SweepNowhere,
    // where it lies
    SampleOfAnyWave,
    LongTable,
    MirrorApart,
    LowBitsDropped,
    StopMirrored,
    AddressCut,
    // its lead
    LeadNone,
    LeadWithoutFill,
    LeadWithoutStart,
    LeadStartsChannel1,
    LeadBackwards,
    LeadStartsWith129,
    // the line
    ValuesSwapped,
    LastByte,
    ByteOneMore,
    EchoByAddress,
    EchoAsSent,
    EchoInUpperCase,
    EchoByteInHex,
    // what is no pair
    CommentDropped,
    CommentWhole,
    CommentShort,
    EmptyUnknown,
    UnknownShown,
    SpacesDropped,
    SpaceAtEndDropped,
    FifthWordDropped,
    LargeX,
    NumbersWrap,
    NineHexDigits,
    RestIsNoLine,
}

fn register(fault: Fault, address: u16) -> Register {
    let address = if fault == Fault::AddressCut { address & 0x7FF } else { address };
    let offset = match fault {
        Fault::MirrorApart => address % 0x40,
        Fault::LowBitsDropped => address % 0x20 - address % 4,
        _ => address % 0x20,
    };
    match address {
        0x000..=0x27F if fault == Fault::SampleOfAnyWave => Wave(address / 4 % 32),
        0x000..=0x27F => Wave(address / 4),
        0x280..=0x2FF => Modulation((address - 0x280) / 4),
        0x300..=0x3FF if fault == Fault::LongTable => Modulation((address - 0x280) / 4),
        0x400..=0x57F => Channel((address - 0x400) / 0x40, offset),
        0x5A0 if fault == Fault::StopMirrored => Stop,
        0x580 => Stop,
        _ => Nothing,
    }
}

/// The bits of a byte that a channel's register keeps.
fn kept(fault: Fault, channel: u16, offset: u16) -> u8 {
    match (offset, channel) {
        (0x00, _) if fault == Fault::StartBit6 => 0xFF,
        (0x00, _) if fault == Fault::StartPlayAlone => 0x80,
        (0x00, _) => 0xBF,
        (0x10, _) if fault == Fault::EnvelopeHigh => 0xF0,
        (0x04 | 0x08 | 0x10, _) => 0xFF,
        (0x0C, _) if fault == Fault::HighFrequencyWhole => 0xFF,
        (0x0C, _) => 0x07,
        (0x14, 0..=3) if fault == Fault::TapOnWaveChannels => 0x73,
        (0x14, 5) if fault == Fault::TapNowhere => 0x03,
        (0x14, 4) if fault == Fault::SweepBitsNowhere => 0x03,
        (0x14, 0..=3) => 0x03,
        (0x14, _) => 0x73,
        (0x18, 5) if fault == Fault::BankOnNoise => 0x07,
        (0x18, 5) => 0x00,
        (0x18, _) if fault == Fault::BankWhole => 0xFF,
        (0x18, _) if fault == Fault::BankOfFour => 0x03,
        (0x18, _) => 0x07,
        (0x1C, 4) if fault == Fault::SweepNowhere => 0x00,
        (0x1C, 0..=3) if fault == Fault::SweepOnWaveChannels => 0xFF,
        (0x1C, 4) => 0xFF,
        _ => 0x00,
    }
}

/// The two writes by what lies there, so that the earlier of the sorts comes first.
fn both(fault: Fault, pair: Pair) -> [(Register, u8); 2] {
    let mut both = pair.map(|w| (register(fault, w.address), w.byte));
    both.sort();
    both
}

/// The table: may the two be exchanged, on every state?
fn may(fault: Fault, pair: Pair) -> bool {
    let both = both(fault, pair);
    if let Some(mistaken) = mistaken(fault, both) {
        return mistaken;
    }
    let [(first, byte), (second, other)] = both;
    match (first, second) {
        (_, Nothing) => true,
        (Wave(i), Wave(j)) if fault == Fault::SampleWhole => i != j || byte == other,
        (Wave(i), Wave(j)) => i != j || byte % 64 == other % 64,
        (Wave(_), Modulation(_)) => true,
        (Wave(_), Channel(_, offset)) => offset != 0x00,
        (Modulation(i), Modulation(j)) => i != j || byte == other,
        (Modulation(_), Channel(channel, offset)) => channel != 4 || offset != 0x00,
        (Wave(_) | Modulation(_), Stop) => other & 1 == 0,
        (Channel(channel, offset), Channel(..)) => {
            first != second || (byte ^ other) & kept(fault, channel, offset) == 0
        }
        (Channel(_, offset), Stop) => offset != 0x00 || byte & 0x80 == 0 || other & 1 == 0,
        (Stop, Stop) => true,
        _ => panic!("{pair:?} are not in order"),
    }
}

/// What a wrong table has to say.
fn mistaken(fault: Fault, [(first, byte), (second, other)]: [(Register, u8); 2]) -> Option<bool> {
    let (plays, stops) = (other & 0x80 != 0, other & 1 != 0);
    match (fault, first, second) {
        (Fault::StartAndStop, Channel(_, 0), Stop) => Some(true),
        (Fault::RestAndStop, Channel(_, 0), Stop) if byte & 0x80 == 0 => Some(!stops),
        (Fault::WaveAndStart, Wave(_), Channel(_, 0)) if plays => Some(true),
        (Fault::WaveAndRest, Wave(_), Channel(_, 0)) if !plays => Some(true),
        (Fault::WaveAndStop, Wave(_), Stop) => Some(true),
        (Fault::WaveHeldByChannel5, Wave(_), Channel(channel, 0)) => Some(channel != 4),
        (Fault::WaveNotHeldByNoise, Wave(_), Channel(5, 0)) => Some(true),
        (Fault::ModulationHeldByAny, Modulation(_), Channel(_, 0)) => Some(false),
        (Fault::ModulationNeverHeld, Modulation(_), Channel(4, 0)) => Some(true),
        (Fault::ModulationAndStop, Modulation(_), Stop) => Some(true),
        (Fault::ModulationAndRest, Modulation(_), Channel(4, 0)) if !plays => Some(true),
        (Fault::SameRegister, Channel(..), Channel(..)) if first == second => Some(true),
        (Fault::SameSample, Wave(i), Wave(j)) if i == j => Some(true),
        (Fault::SameEntry, Modulation(i), Modulation(j)) if i == j => Some(true),
        (Fault::OtherChannels, Channel(i, _), Channel(j, _)) if i != j => Some(false),
        (Fault::OtherOffsets, Channel(i, 0), Channel(j, 1..)) if i == j => Some(false),
        (Fault::FrequencyHalves, Channel(4, 0x08), Channel(4, 0x0C)) => Some(false),
        (Fault::StopBitClear, Wave(_) | Channel(_, 0), Stop) if !stops => Some(false),
        (Fault::StopByAnyBit, Wave(_), Stop) => Some(other == 0),
        (Fault::StopTwice, Stop, Stop) => Some(byte == other),
        (Fault::NothingAndStop, Stop, Nothing) => Some(false),
        (Fault::AllMay, _, _) => Some(true),
        (Fault::NoneMay, _, _) => Some(false),
        _ => None,
    }
}

/// The lead for a pair that may not be exchanged. A sample or an entry is filled with another byte first. Beside what starts a
/// channel that will do; beside what stops one, a channel has to play, and for the stop register that is channel 5.
fn lead(fault: Fault, pair: Pair) -> Vec<Write> {
    let by_address = |w: &&Write| w.address;
    let table = *pair.iter().min_by_key(by_address).unwrap();
    let other = *pair.iter().max_by_key(by_address).unwrap();
    let held = matches!(both(Fault::None, pair), [(Wave(_) | Modulation(_), _), (Channel(_, 0) | Stop, _)]);
    if !held || fault == Fault::LeadNone {
        return Vec::new();
    }
    let fill = Write { byte: 255 - table.byte, ..table };
    let channel = match fault {
        Fault::LeadStartsChannel1 => 0x400,
        _ if other.address == 0x580 => 0x500,
        _ => other.address,
    };
    let start = Write { address: channel, byte: if fault == Fault::LeadStartsWith129 { 129 } else { 128 } };
    match fault {
        _ if other.address != 0x580 && other.byte & 0x80 != 0 => vec![fill],
        Fault::LeadWithoutFill => vec![start],
        Fault::LeadWithoutStart => vec![fill],
        Fault::LeadBackwards => vec![start, fill],
        _ => vec![fill, start],
    }
}

/// The images after a lead and both orders.
fn images(lead: &[Write], [first, second]: Pair) -> [[u8; LENGTH]; 2] {
    [[first, second], [second, first]].map(|writes| {
        let mut unit = led(lead);
        writes.iter().for_each(|w| unit.set_u8(w.address.into(), w.byte));
        image(&unit)
    })
}

/// The table and the lead on the Rust; answers whether the pair may be exchanged.
fn holds(pair: Pair) -> bool {
    let (may, tried) = (may(Fault::None, pair), trial(pair));
    assert_eq!(may, tried == Answer::Yes, "{pair:?}: the Rust says {tried:?}");
    if !may {
        let lead = lead(Fault::None, pair);
        assert!(in_range(&state::read(&led(&lead))), "{pair:?} after {lead:?}");
        let [one, other] = images(&lead, pair);
        assert_ne!(one, other, "{pair:?} after {lead:?}");
    }
    may
}

/// Bytes for two writes: for each bit two that differ in it alone, among zeros and among ones, and two that are the same.
fn byte_pairs() -> Vec<(u8, u8)> {
    let mut list = vec![(0x00, 0x00), (0xFF, 0xFF)];
    for base in [0x00, 0xFF] {
        list.extend((0..8).map(|bit| (base, base ^ 1 << bit)));
    }
    list
}

const TABLES: [u16; 9] = [0x000, 0x003, 0x004, 0x080, 0x27C, 0x280, 0x283, 0x284, 0x2FF];
const OTHERS: [u16; 6] = [0x580, 0x300, 0x3FF, 0x581, 0x5A0, 0xFFFF];

/// Every register of every channel, some of the tables, the stop register and addresses with none.
#[test]
fn the_table_of_every_two_registers() {
    let channels = (0..6).flat_map(|channel| (0..8).map(move |i| 0x400 + 0x40 * channel + 4 * i));
    let list: Vec<u16> = TABLES.into_iter().chain(channels).chain(OTHERS).collect();
    let (mut pairs, mut yes) = (0, 0);
    for &address in &list {
        for &other_address in &list {
            for (byte, other) in byte_pairs() {
                let pair = [Write { address, byte }, Write { address: other_address, byte: other }];
                (pairs, yes) = (pairs + 1, yes + usize::from(holds(pair)));
            }
        }
    }
    println!("{pairs} pairs, {yes} may be exchanged");
    assert_eq!(pairs, 63 * 63 * 18);
}

/// The offsets that are no register's, of all channels, beside each other and beside every register.
#[test]
fn the_table_of_every_other_offset() {
    let channels: Vec<u16> = (0..6).flat_map(|channel| (0..0x20).map(move |i| 0x400 + 0x40 * channel + i)).collect();
    let odd: Vec<u16> = channels.iter().copied().filter(|address| address % 4 != 0).collect();
    assert_eq!((channels.len(), odd.len()), (192, 144));
    for &address in &odd {
        for other in TABLES.into_iter().chain(channels.iter().copied()).chain(OTHERS) {
            assert!(holds([Write { address, byte: 0x00 }, Write { address: other, byte: 0xFF }]));
        }
        for bit in 0..8 {
            assert!(holds([Write { address, byte: 0xFF }, Write { address, byte: 0xFF ^ 1 << bit }]));
        }
    }
}

#[test]
fn the_table_of_random_pairs() {
    let (mut r, mut yes) = (Numbers::new(1), 0);
    for number in 0..60_000 {
        // any two numbers, or the pairs of the cases
        let pair = match number % 2 {
            0 => pair(&mut r),
            _ => [0; 2].map(|_| Write { address: r.below(0x600) as u16, byte: r.word() as u8 }),
        };
        yes += usize::from(holds(pair));
    }
    println!("{yes} of 60000 may be exchanged");
    assert!((20_000..55_000).contains(&yes));
}

/// "the same write made twice with no cycle between equals one"
#[test]
fn the_same_write_twice() {
    let mut r = Numbers::new(2);
    for _ in 0..5_000 {
        let (start, [w, _]) = (random::state(&mut r), pair(&mut r));
        let [once, twice] = [1, 2].map(|times| {
            let mut unit = state::write(&start);
            (0..times).for_each(|_| unit.set_u8(w.address.into(), w.byte));
            state::read(&unit)
        });
        assert_eq!(once, twice, "{w}");
    }
}

fn plays(state: &State) -> Vec<usize> {
    (0..6).filter(|&k| state.channels[k].play == 1).collect()
}

/// A yes is tried with nothing playing, with each channel by itself, with all, and with others.
#[test]
fn what_a_yes_is_tried_on() {
    let mut r = Numbers::new(3);
    let pair = pair(&mut r);
    for seed in 0..200 {
        let states = tried(pair, seed);
        assert_eq!(states, tried(pair, seed));
        assert_ne!(states, tried(pair, seed + 1));
        assert_eq!(states.len(), TRIED);
        assert!(states[0] == power_on() && states.iter().all(in_range));
        // behind those of the trial
        let with = |set: &[usize]| states[15..].iter().filter(|state| plays(state) == set).count();
        assert!(with(&[]) >= 5 && with(&[0, 1, 2, 3, 4, 5]) >= 5);
        assert!((0..6).all(|channel| with(&[channel]) >= 2));
    }
}

/// Worked by hand from 01: what is answered, and another lead that does as well.
#[test]
fn answers_by_hand() {
    let steps = [
        ("0x0000 1 0x0404 18", "0x0000 1 0x0404 18 yes"),
        ("0 1 1028 0x12", "0x0000 1 0x0404 18 yes"),
        ("0x0000 1 0x0400 128", "0x0000 1 0x0400 128 no after 0x0000 254: byte 16 of the image is 1 or 62"),
        ("0x400 128 0 1", "0x0400 128 0x0000 1 no after 0x0000 254: byte 16 of the image is 62 or 1"),
        ("0x000 0 0x400 7", "0x0000 0 0x0400 7 no after 0x0000 255, 0x0400 128: byte 16 of the image is 63 or 0"),
        ("0x27f 1 0x580 1", "0x027f 1 0x0580 1 no after 0x027f 254, 0x0500 128: byte 175 of the image is 62 or 1"),
        ("0x2FC 255 0x520 0", "0x02fc 255 0x0520 0 no after 0x02fc 0, 0x0520 128: byte 207 of the image is 0 or 255"),
        ("0x2FC 255 0x540 0", "0x02fc 255 0x0540 0 yes"),
        ("0x580 1 0x400 128", "0x0580 1 0x0400 128 no from power-on: byte 208 of the image is 2 or 0"),
        ("0x540 128 0x580 255", "0x0540 128 0x0580 255 no from power-on: byte 368 of the image is 0 or 2"),
        ("0x580 254 0x400 128", "0x0580 254 0x0400 128 yes"),
        ("0x400 128 0x400 129", "0x0400 128 0x0400 129 no from power-on: byte 209 of the image is 1 or 0"),
        ("0x400 128 0x420 192", "0x0400 128 0x0420 192 yes"),
        ("0x408 1 0x40C 1", "0x0408 1 0x040c 1 yes"),
        ("0x554 0 0x554 112", "0x0554 0 0x0554 112 no from power-on: byte 377 of the image is 11 or 14"),
        ("65535 255 0 0", "0xffff 255 0x0000 0 yes"),
    ];
    for (sent, answer) in steps {
        assert_eq!(wrong(sent.as_bytes(), format!("{answer}\n").as_bytes(), 1), None, "{sent}");
        let own = [respond(sent.as_bytes()), b"\n".to_vec()].concat();
        assert_eq!(wrong(sent.as_bytes(), &own, 1), None, "{sent}");
        assert_eq!(respond(sent.as_bytes()).ends_with(b" yes"), answer.ends_with(" yes"), "{sent}");
    }
}

/// One line that holds, and what is near it.
#[test]
fn answers_that_do_not_hold() {
    let sent = b"0x0000 1 0x0400 0";
    let right = "0x0000 1 0x0400 0 no after 0x0000 254, 0x0400 128: byte 16 of the image is 62 or 1\n";
    assert_eq!(wrong(sent, right.as_bytes(), 1), None);
    let others = [
        ("no after 0x0000 254, 0x0400 128: byte 16 of the image is 62 or 1", "yes"),
        ("0x0000 254, 0x0400 128", "0x0000 254"),
        ("after 0x0000 254, 0x0400 128", "from power-on"),
        ("after 0x0000 254, 0x0400 128", "after nothing"),
        ("after 0x0000 254, 0x0400 128", "after "),
        ("after ", "from "),
        ("254, 0x0400 128:", "254, 0x0400 129:"),
        ("254, 0x0400 128:", "254, 0x0440 128:"),
        ("254, 0x0400 128:", "254, 0x0404 1, 0x0400 128:"),
        ("254, ", "1, "),
        ("254, ", "254,"),
        ("0x0400 128:", "0x400 128:"),
        ("0x0400 128:", "1024 128:"),
        ("0x0000 254", "0x0000 0xFE"),
        ("byte 16", "byte 17"),
        ("62 or 1", "1 or 62"),
        ("62 or 1", "62 or 1 "),
        ("62 or 1", "62"),
        ("0x0000 1 0x0400 0 no", "0x0400 0 0x0000 1 no"),
        ("0x0000 1 0x0400 0 no", "0x0000 1 0x0400 0  no"),
        ("0x0000 1 0x0400 0 no", "0x0000 1 0x0400 0 No"),
        ("0x0000 1 0x0400 0 no", "0x000 1 0x0400 0 no"),
        ("0x0000 1 0x0400 0 ", ""),
        ("0x0000 1 0x0400 0 no after", "unknown"),
        ("1\n", "1"),
        ("1\n", "1\r\n"),
    ];
    for (part, other) in others {
        let line = right.replacen(part, other, 1);
        assert_ne!(line, right);
        assert!(wrong(sent, line.as_bytes(), 1).is_some(), "{line}");
    }
}

#[test]
fn lines_that_are_no_pair() {
    let (zero, last) = (Write { address: 0, byte: 0 }, Write { address: 65_535, byte: 255 });
    assert_eq!(parse(b"0 0 65535 255"), Line::Pair([zero, last]));
    assert_eq!(parse(b"0x00000000 0000000000 0x0000FfFf 0xfF"), Line::Pair([zero, last]));
    let none =
        "0 0 0|0 0 0 0 0|0 0 0 0 | 0 0 0 0|0  0 0 0|0 0 0 65536|0 0 0 256|65536 0 0 0|0 0 0x10000 0|0 0x100 0 0|\
        +0 0 0 0|0 -0 0 0|0 0 0 0x|0 0 0 0X1|0 0 0 0x000000000|0 0 0 00000000000|4294967296 0 0 0|0\t0 0 0|0 0 0 0\r|\
        0,0 0 0|0x0g 0 0 0| #|x| |0 0 0 0#";
    none.split('|').for_each(|line| assert_eq!(parse(line.as_bytes()), Line::Unknown, "{line:?}"));
    assert_eq!(respond(b"0 0 0"), b"unknown");
    for shown in ["", "#", "# 0 0 0 0", "#\r", "#0 0 0 0\0"] {
        assert_eq!(respond(shown.as_bytes()), shown.as_bytes());
    }
    let long = [&b"#"[..], &[b'x'; 200]].concat();
    assert_eq!(KEPT, 128);
    for size in [127, 128, 129, 201] {
        assert_eq!(respond(&long[..size]), &long[..size.min(128)]);
    }
}

/// What a program with this fault makes of a line before it reads it.
fn changed(fault: Fault, line: &[u8]) -> Vec<u8> {
    let words = || line.split(|&byte| byte == b' ');
    match fault {
        Fault::SpacesDropped => words().filter(|word| !word.is_empty()).collect::<Vec<_>>().join(&b' '),
        Fault::SpaceAtEndDropped => line.strip_suffix(b" ").unwrap_or(line).to_vec(),
        Fault::FifthWordDropped => words().take(4).collect::<Vec<_>>().join(&b' '),
        Fault::LargeX => String::from_utf8_lossy(line).replace("0X", "0x").into(),
        Fault::NineHexDigits => words().map(shorter).collect::<Vec<_>>().join(&b' '),
        Fault::NumbersWrap => match words().map(number).collect::<Option<Vec<u32>>>().as_deref() {
            Some(&[a, b, c, d]) => format!("{} {} {} {}", a as u16, b as u8, c as u16, d as u8).into(),
            _ => line.to_vec(),
        },
        _ => line.to_vec(),
    }
}

/// A hex number without the first of nine digits, where that is a zero.
fn shorter(word: &[u8]) -> Vec<u8> {
    match word.strip_prefix(b"0x0") {
        Some(digits) if digits.len() == 8 => [b"0x", digits].concat(),
        _ => word.to_vec(),
    }
}

/// What a program by the table prints for a line, with its newline.
fn answered(fault: Fault, sent: &[u8]) -> Vec<u8> {
    let line = changed(fault, sent);
    let answer = match (fault, parse(&line)) {
        (Fault::CommentDropped, Line::Shown([b'#', ..])) => return Vec::new(),
        (Fault::CommentWhole, Line::Shown(_)) => line,
        (Fault::CommentShort, Line::Shown(front)) => front[..front.len().min(KEPT - 1)].to_vec(),
        (Fault::EmptyUnknown, Line::Shown(b"")) => b"unknown".to_vec(),
        (_, Line::Shown(front)) => front.to_vec(),
        (Fault::UnknownShown, Line::Unknown) => line,
        (_, Line::Unknown) => b"unknown".to_vec(),
        (_, Line::Pair(pair)) if may(fault, pair) => format!("{} yes", echo(fault, sent, pair)).into(),
        (_, Line::Pair(pair)) => format!("{} no {}", echo(fault, sent, pair), shown(fault, pair)).into(),
    };
    [answer, b"\n".to_vec()].concat()
}

fn echo(fault: Fault, sent: &[u8], mut pair: Pair) -> String {
    if fault == Fault::EchoByAddress {
        pair.sort_by_key(|w| w.address);
    }
    let [first, second] = pair;
    match fault {
        Fault::EchoAsSent => String::from_utf8_lossy(sent).into(),
        Fault::EchoInUpperCase => format!("{first} {second}").to_uppercase().replace('X', "x"),
        Fault::EchoByteInHex => format!("0x{:04x} {:#x} {second}", first.address, first.byte),
        _ => format!("{first} {second}"),
    }
}

/// The lead, and where the orders part; a wrong table may have it where they do not.
fn shown(fault: Fault, pair: Pair) -> String {
    let lead = lead(fault, pair);
    let [one, other] = images(&lead, pair);
    let apart: Vec<usize> = (0..LENGTH).filter(|&at| one[at] != other[at]).collect();
    let at = match fault {
        Fault::LastByte => apart.last(),
        _ => apart.first(),
    };
    let at = at.copied().unwrap_or(0) + usize::from(fault == Fault::ByteOneMore);
    let (a, b) = if fault == Fault::ValuesSwapped { (other[at], one[at]) } else { (one[at], other[at]) };
    let how = match &lead[..] {
        [] => "from power-on".to_string(),
        [fill] => format!("after {fill}"),
        [fill, start, ..] => format!("after {fill}, {start}"),
    };
    format!("{how}: byte {at} of the image is {a} or {b}")
}

fn printed(fault: Fault, case: &Case) -> Printed {
    let mut input = &case.script[..];
    if fault == Fault::RestIsNoLine {
        input = &input[..input.iter().rposition(|&byte| byte == b'\n').map_or(0, |at| at + 1)];
    }
    let out = lines(input).into_iter().flat_map(|line| answered(fault, line)).collect();
    Printed { out, err: Vec::new() }
}

/// The cases until the program differs, and what differs.
fn found(fault: Fault, cases: usize) -> Option<(usize, String)> {
    let mut r = Numbers::new(1);
    (1..=cases).find_map(|number| {
        let case = case(Kind::Exchange, &mut r);
        Some((number, different(&case, &wanted(&case).printed, &printed(fault, &case))?))
    })
}

/// Every yes of the table holds on random states, and every no as the Rust has it.
#[test]
fn a_program_by_the_table_agrees() {
    assert_eq!(found(Fault::None, 150), None);
}

#[test]
fn wrong_programs_are_found() {
    for &fault in FAULTS {
        let (number, what) = found(fault, 100).unwrap_or_else(|| panic!("{fault:?} is not found"));
        println!("{fault:?}: case {number} {what}");
    }
}

/// What lies at an address and the byte, as the list tells sorts apart.
fn sort_of(w: Write) -> Sort {
    match register(Fault::None, w.address) {
        Wave(_) => Sort::Wave,
        Modulation(_) => Sort::Modulation,
        Channel(_, 0x00) if w.byte & 0x80 != 0 => Sort::Start,
        Channel(_, 0x00) => Sort::Rest,
        Channel(channel, offset) if kept(Fault::None, channel, offset) != 0 => Sort::Offset(offset),
        Channel(..) | Nothing => Sort::Nothing,
        Stop if w.byte & 1 != 0 => Sort::Stop,
        Stop => Sort::NoStop,
    }
}

/// The sorts of a pair as their places in the list, and how the two writes lie to each other.
fn kind_of(pair: Pair) -> (usize, usize, &'static str) {
    let place = |w| SORTS.iter().position(|&sort| sort == sort_of(w)).unwrap();
    let mut pair = pair;
    pair.sort_by_key(|&w| place(w));
    let [s, t] = pair.map(place);
    (s, t, if s == t { alike(pair) } else { together(pair) })
}

fn alike([w, v]: Pair) -> &'static str {
    let [here, there] = [w, v].map(|w| register(Fault::None, w.address));
    let kept = match here {
        Wave(_) => 0x3F,
        Modulation(_) => 0xFF,
        Channel(channel, offset) => kept(Fault::None, channel, offset),
        Stop | Nothing => 0x00,
    };
    let nowhere = sort_of(w) == Sort::Nothing;
    match w.byte ^ v.byte {
        _ if here != there || nowhere && w.address != v.address => "elsewhere",
        0 => "the same write",
        bits if bits & kept != 0 => "a bit that is kept",
        _ => "bits that are not kept",
    }
}

fn together([w, v]: Pair) -> &'static str {
    match [w, v].map(|w| (sort_of(w), register(Fault::None, w.address))) {
        [(Sort::Nothing, _), _] | [_, (Sort::Nothing, _)] => "",
        [(_, Channel(j, _)), (_, Channel(k, _))] if j == k => "on one channel",
        [(_, Channel(..)), (_, Channel(..))] => "on two channels",
        [(_, Modulation(_)), (_, Channel(4, _))] => "on channel 5",
        [(_, Modulation(_)), (_, Channel(..))] => "on another channel",
        _ => "",
    }
}

/// As a heading has it.
fn title(sort: Sort) -> String {
    match sort {
        Sort::Wave => "wave sample".to_string(),
        Sort::Modulation => "modulation entry".to_string(),
        Sort::Start => "offset 0x00 with play".to_string(),
        Sort::Rest => "offset 0x00 without play".to_string(),
        Sort::Offset(offset) => format!("offset 0x{offset:02X}"),
        Sort::Stop => "stop with bit 0 set".to_string(),
        Sort::NoStop => "stop with bit 0 clear".to_string(),
        Sort::Nothing => "no register".to_string(),
    }
}

/// Whether a heading names the sorts: `S, T`, or `S, offsets T to U` with the second from T on up to U.
fn names(heading: &str, s: Sort, t: Sort) -> bool {
    let Some((first, second)) = heading.split_once(", ") else { return false };
    let within = match (second.strip_prefix("offsets ").and_then(|run| run.split_once(" to ")), t) {
        (Some((from, to)), Sort::Offset(offset)) => (from..=to).contains(&&format!("0x{offset:02X}")[..]),
        _ => second == title(t),
    };
    first == title(s) && within
}

/// The pairs of the list, each with its heading: those for two sorts, or what is besides.
fn rows(besides: bool) -> Vec<(String, Pair)> {
    let text = table();
    let (sorts, others) = text.split_at(text.find("# offset 0x14, bits 4 to 6").unwrap());
    let (mut heading, mut list) = (String::new(), Vec::new());
    for line in if besides { others } else { sorts }.lines() {
        match parse(line.as_bytes()) {
            Line::Pair(pair) => list.push((heading.clone(), pair)),
            Line::Shown(_) => heading = line.trim_start_matches("# ").to_string(),
            Line::Unknown => panic!("{line}"),
        }
    }
    list
}

/// The list has each two sorts in their order, each kind of pair once, under a heading that names it.
#[test]
fn the_list_has_every_two_sorts() {
    let (mut seen, mut sorts) = (BTreeSet::new(), Vec::new());
    for (heading, pair) in rows(false) {
        let (s, t, how) = kind_of(pair);
        assert!(names(&heading, SORTS[s], SORTS[t]), "{pair:?} under {heading}");
        assert!(seen.insert((s, t, how)), "{pair:?} is there twice");
        sorts.push((s, t));
    }
    sorts.dedup();
    let all: Vec<(usize, usize)> = (0..14).flat_map(|s| (s..14).map(move |t| (s, t))).collect();
    assert_eq!(sorts, all);
    assert!(table().lines().count() < 280 && table().lines().all(|line| line.len() <= KEPT));
}

/// Every random pair is of a kind that the list has, and its answer is that of the row. So the answers to the list are the table.
#[test]
fn a_row_speaks_for_all_pairs_of_its_kind() {
    let listed: BTreeMap<_, bool> = rows(false).into_iter().map(|(_, pair)| (kind_of(pair), holds(pair))).collect();
    let (mut r, mut met) = (Numbers::new(5), BTreeMap::new());
    for _ in 0..40_000 {
        let pair = pair(&mut r);
        let kind = kind_of(pair);
        let row = listed.get(&kind).unwrap_or_else(|| panic!("{pair:?}: the list has no {kind:?}"));
        assert_eq!(trial(pair) == Answer::Yes, *row, "{pair:?}: {kind:?}");
        *met.entry(kind).or_insert(0) += 1;
    }
    for kind in listed.keys() {
        assert!(met.get(kind).is_some_and(|&times| times > 20), "{kind:?} is hardly met");
    }
    // what is besides are other pairs of these kinds
    for (heading, pair) in rows(true) {
        assert_eq!(listed[&kind_of(pair)], holds(pair), "{pair:?} under {heading}");
    }
}

/// The cases come to everything that they are for.
#[test]
fn what_the_cases_hold() {
    let (mut r, mut totals, mut seen) = (Numbers::new(7), Totals::new(Kind::Exchange), BTreeMap::new());
    let mut met = |what: String| *seen.entry(what).or_insert(0) += 1;
    for _ in 0..400 {
        let case = case(Kind::Exchange, &mut r);
        for line in lines(&case.script) {
            match parse(line) {
                Line::Pair(pair) => {
                    let (s, t, how) = kind_of(pair);
                    met(format!("{}, {} {how}", title(SORTS[s]), title(SORTS[t])));
                    pair.iter().for_each(|w| met(where_at(w.address).to_string()));
                }
                Line::Shown(front) => met(format!("shown, {}", front.len().clamp(126, 128))),
                Line::Unknown => met("unknown".to_string()),
            }
        }
        totals.add(&Wanted { printed: printed(Fault::None, &case), ..Wanted::default() });
    }
    println!("{totals}");
    seen.iter().for_each(|(met, times)| println!("{met}: {times}"));
    let kinds = rows(false).into_iter().map(|(_, pair)| kind_of(pair));
    let kinds = kinds.map(|(s, t, how)| format!("{}, {} {how}", title(SORTS[s]), title(SORTS[t])));
    for met in kinds.chain(EXPECTED.split('|').map(str::to_string)) {
        assert!(seen.get(&met).is_some_and(|&times| times > 5), "{met} is hardly met");
    }
    assert!(totals.may > 5_000 && totals.may_not.iter().all(|&times| times > 200), "{totals}");
}

const EXPECTED: &str = "shown, 126|shown, 127|shown, 128|unknown|a mirror|an odd offset|0x300 to 0x3FF|0x581 to 0x5FF|\
    0x600 and on|no multiple of 4 in a table|0x18 of noise|0x1C of another";

fn where_at(address: u16) -> &'static str {
    match address {
        0x000..=0x2FF if address & 3 != 0 => "no multiple of 4 in a table",
        0x000..=0x2FF => "a table",
        0x300..=0x3FF => "0x300 to 0x3FF",
        0x558 | 0x578 => "0x18 of noise",
        0x400..=0x57F if address & 3 != 0 => "an odd offset",
        0x400..=0x57F if address % 0x20 == 0x1C && address / 0x40 != 0x14 => "0x1C of another",
        0x400..=0x57F if address & 0x20 != 0 => "a mirror",
        0x400..=0x580 => "a register",
        0x581..=0x5FF => "0x581 to 0x5FF",
        _ => "0x600 and on",
    }
}
