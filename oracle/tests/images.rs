//! An image read once more, in another way: a picture of its bytes, where each word is a field and has a letter for each
//! of its bytes, and each edition has its own. Held against `imagecheck` on damaged images; and readings that are wrong about the
//! editions, which the images have to find.

#[macro_use]
mod faults;

use oracle::image::{first_edition, image_of, read_image, state_of, LENGTH};
use oracle::imagecases::{self, largest};
use oracle::imagecheck::check;
use oracle::log::Refused;
use oracle::random::{muted_state, state, Numbers};
use oracle::reader::Reader;
use oracle::sample::sample;
use oracle::state::{power_on, State};
use oracle::stream::{op, Maker, Op};
use oracle::unit::Unit;
use std::collections::HashSet;

const WAVE: &str = "F I I V V V E V E B P Z KK KK LLLL TTTT NNNN ZZ ZZ";
const NOISE: &str = "F I I V V V E V E A O Z KK KK LLLL YYYY NNNN RR ZZ";
const SWEEP: &str = "F E E C HHHH P Z KK KK KK";
const REST: [&str; 2] = ["DD ZZ", "DD U Z"];

/// The fields from offset 16 on.
fn picture(edition: usize) -> String {
    let waves = "W ".repeat(5 * 32);
    let modulation = "M ".repeat(32);
    [&waves, &modulation, WAVE, WAVE, WAVE, WAVE, WAVE, NOISE, SWEEP, REST[edition - 1]].join(" ")
}

/// The first number that is too large for a field of this letter.
fn end(letter: char) -> u64 {
    match letter {
        'W' | 'U' => 64,
        'M' => 256,
        'F' | 'I' | 'P' => 32,
        'V' => 16,
        'E' | 'B' => 8,
        'C' => 7,
        'K' => 2_048,
        'L' => 76_805,
        'T' => 4,
        'Y' => 40,
        'N' => 307_219,
        'H' => 153_609,
        'R' => 32_768,
        'D' => 480,
        'A' => 15,
        'O' => 2,
        'Z' => 1,
        _ => panic!("no such letter: {letter}"),
    }
}

#[derive(Clone, Copy)]
struct Field {
    at: usize,
    letter: char,
    value: u64,
}

/// The fields that this edition has in the bytes.
fn fields_of(edition: usize, image: &[u8]) -> Vec<Field> {
    let mut at = 16;
    let mut list = Vec::new();
    for word in picture(edition).split_whitespace() {
        let bytes = &image[at..at + word.len()];
        let value = bytes.iter().rev().fold(0, |sum, &b| 256 * sum + b as u64);
        list.push(Field { at, letter: word.chars().next().unwrap(), value });
        at += word.len();
    }
    assert_eq!(at, LENGTH);
    list
}

/// The fields of an image whose header is right.
fn fields(image: &[u8]) -> Vec<Field> {
    fields_of(image[0].into(), image)
}

fn holds(f: &Field, image: &[u8]) -> bool {
    f.value < end(f.letter)
        && match f.letter {
            'A' => ![0, 1, 2, 3, 5, 7, 12].contains(&f.value),
            'O' => f.value == image[396] as u64 % 2,
            _ => true,
        }
}

/// 9, 10 or 11, or zeros where the image is accepted.
fn naive(bytes: &[u8]) -> Refused {
    if bytes.len() != LENGTH {
        return (9, 0);
    }
    let header: Vec<u32> = (0..16).step_by(2).map(|at| bytes[at] as u32 + 256 * bytes[at + 1] as u32).collect();
    // the total takes two of these
    if !matches!(header[..], [1 | 2, 16, 420, 0, 5, 6, 208, 400]) {
        return (10, 0);
    }
    fields(bytes).iter().find(|f| !holds(f, bytes)).map_or((0, 0), |f| (11, f.at as u32))
}

/// What the streams held: how many of each answer, and the values that fields had where they were accepted, and where
/// they were the fault, by edition and offset.
#[derive(Default)]
struct Seen {
    answers: [u64; 12],
    taken: HashSet<(u8, usize, u64)>,
    refused: HashSet<(u8, usize, u64)>,
}

impl Seen {
    fn add(&mut self, bytes: &[u8], answer: Refused) {
        self.answers[answer.0 as usize] += 1;
        if answer.0 == 0 {
            self.taken.extend(fields(bytes).iter().map(|f| (bytes[0], f.at, f.value)));
        }
        if answer.0 == 11 {
            let fault = fields(bytes).into_iter().find(|f| f.at == answer.1 as usize).unwrap();
            self.refused.insert((bytes[0], fault.at, fault.value));
        }
    }

    fn hold(&mut self, bytes: &[u8], answer: Refused) {
        let found = naive(bytes);
        assert_eq!(check(bytes).err().unwrap_or((0, 0)), found, "{bytes:?}");
        assert_eq!(answer, found, "{bytes:?}");
        // the reading that goes by the state
        let by_state = bytes.try_into().ok().and_then(state_of);
        assert_eq!(by_state.is_some(), found.0 == 0, "{bytes:?}");
        let (state, _) = read_image(bytes);
        assert_eq!(image_of(&state)[..], again(bytes, found));
        self.add(bytes, answer);
    }

    fn all_of(&self, least: u64) {
        assert!([0, 9, 10, 11].iter().all(|&n| self.answers[n] >= least), "hardly seen: {:?}", self.answers);
    }
}

/// What is written again after a reading: edition 2 of what was accepted, or power-on.
fn again(bytes: &[u8], answer: Refused) -> Vec<u8> {
    match answer {
        (0, _) => [&[2], &bytes[1..]].concat(),
        _ => image_of(&power_on()).to_vec(),
    }
}

/// Every image that a stream has read, with the answer. What it loads and shows is edition 2 or, in a load, either.
fn images(stream: &[u8]) -> Vec<(Vec<u8>, Refused)> {
    let mut reader = Reader::new(stream);
    let (mut unit, mut list) = (Unit::new(), Vec::new());
    loop {
        match op(&mut reader).unwrap() {
            Op::Power => unit = Unit::new(),
            Op::Load(image) => {
                unit = Unit::of(&state_of(&image).unwrap());
                list.push((image.to_vec(), (0, 0)));
            }
            Op::Write { address, byte } => unit.write(address, byte),
            Op::Mute { bits } => unit.mutes = bits.into(),
            Op::Run { n, .. } | Op::Silent { n, .. } => unit.step(n, &mut oracle::digest::FrameSum::default()),
            Op::State { .. } => {}
            Op::Image(image) => {
                assert_eq!(unit.image(), *image);
                assert_eq!(image[0], 2);
                list.push((image.to_vec(), (0, 0)));
            }
            Op::Byte { at, value, answer } => {
                let mut image = unit.image().to_vec();
                image[at as usize] = value;
                list.push((image, answer));
            }
            Op::Bytes { bytes, answer } => list.push((bytes, answer)),
            Op::End => return list,
        }
    }
}

/// Holds the readings together on every image of a stream.
fn hold(stream: &[u8], seen: &mut Seen) {
    images(stream).iter().for_each(|(bytes, answer)| seen.hold(bytes, *answer));
}

#[test]
fn random_and_damaged_images() {
    let mut seen = Seen::default();
    for seed in 0..10 {
        let (mut maker, mut numbers) = (Maker::new(), Numbers::new(seed));
        imagecases::case(&mut maker, &mut numbers);
        maker.end();
        hold(&maker.bytes, &mut seen);
    }
    println!("accepted {}, refused 9 to 11: {:?}", seen.answers[0], &seen.answers[9..]);
    seen.all_of(60);
}

/// Every byte of an image set to every value, and bytes that are an image by chance only.
#[test]
fn every_value_of_every_byte() {
    let mut seen = Seen::default();
    let starts = [power_on(), largest(), state(&mut Numbers::new(7))].map(|start| image_of(&start));
    for image in starts.into_iter().flat_map(|image| [image, first_edition(image)]) {
        for at in 0..LENGTH {
            for value in 0..=255 {
                let mut broken = image;
                broken[at] = value;
                let answer = check(&broken).err().unwrap_or((0, 0));
                assert_eq!(answer, naive(&broken), "offset {at} value {value}");
                seen.answers[answer.0 as usize] += 1;
            }
        }
    }
    assert!([0, 10, 11].iter().all(|&n| seen.answers[n] > 10_000), "hardly seen: {:?}", seen.answers);
    let mut numbers = Numbers::new(8);
    for _ in 0..10_000 {
        let mut noise = image_of(&muted_state(&mut numbers));
        if numbers.one_in(2) {
            noise = first_edition(noise);
        }
        let from = 16 + numbers.below(404) as usize;
        noise[from..].iter_mut().for_each(|b| *b = numbers.byte());
        assert_eq!(check(&noise).err().unwrap_or((0, 0)), naive(&noise), "{noise:?}");
    }
}

/// The sample has each field of edition 2 at its largest value, accepted, and at one more, as the fault; of edition 1 the one that
/// it has for itself.
#[test]
fn the_sample() {
    let mut seen = Seen::default();
    hold(&sample().bytes, &mut seen);
    println!("accepted {}, refused 9 to 11: {:?}", seen.answers[0], &seen.answers[9..]);
    seen.all_of(10);
    let own = fields_of(1, &image_of(&power_on())).pop().unwrap();
    assert_eq!((own.at, own.letter), (418, 'Z'));
    for value in [1, 63, 64, 255, 256, 257] {
        assert!(seen.refused.contains(&(1, own.at, value)), "edition 1 with {value} is not in the sample");
    }
    for f in fields(&image_of(&power_on())) {
        let above = end(f.letter);
        assert!(seen.taken.contains(&(2, f.at, above - 1)), "offset {}: {} is not in the sample", f.at, above - 1);
        let fault = f.letter == 'M' || seen.refused.contains(&(2, f.at, above));
        assert!(fault, "offset {}: {above} is not in the sample", f.at);
    }
}

#[test]
fn the_largest_state() {
    let image = image_of(&largest());
    assert_eq!(check(&image), Ok(()));
    fields(&image).iter().for_each(|f| assert_eq!(f.value, end(f.letter) - 1, "offset {}", f.at));
}

// How a reading is wrong about the editions.
faults! {
    /// a byte at 418 of edition 1 is not looked at
    FirstWithMutes,
    /// or is read as mutes
    FirstIsMuted,
    /// "u16 zero at 418" of edition 1 is one byte
    FirstLooksAt418Only,
    /// its second byte is named by itself
    FirstNames419,
    FirstWrittenBackAsFirst,
    FirstRefused,
    SecondWithoutMutes,
    /// 418 and 419 of edition 2 are one number up to 63
    SecondNames418,
    SecondTakes64,
    SecondTakesAnyMutes,
    /// 419 is not looked at
    SecondTakes419,
    SecondRefusesMutes,
    EditionThree,
    EditionZero,
    /// by the first byte of its number
    LowByteOnly,
    /// the rest of the header is not looked at
    EditionOnly,
    /// 418 is looked at before the others
    MutesFirst,
    /// a refused one hands back power-on with the mutes that it had
    MutesHandedBack,
}

/// A reading's answer and what is written again after it, by the picture and with a fault.
fn reading(fault: Fault, bytes: &[u8]) -> (Refused, Vec<u8>) {
    if bytes.len() != LENGTH {
        return refused((9, 0));
    }
    let number = if fault == Fault::LowByteOnly { bytes[0].into() } else { bytes[0] as u16 + 256 * bytes[1] as u16 };
    let edition = match number {
        1 if fault != Fault::FirstRefused => 1,
        2 => 2,
        3 if fault == Fault::EditionThree => 2,
        0 if fault == Fault::EditionZero => 1,
        _ => return refused((10, 0)),
    };
    if fault != Fault::EditionOnly && bytes[2..16] != image_of(&power_on())[2..16] {
        return refused((10, 0));
    }
    let mut faults: Vec<usize> = fields_of(edition, bytes).iter().filter(|f| !holds(f, bytes)).map(|f| f.at).collect();
    faults.retain(|&at| at < 418);
    let (bits, zero) = (bytes[418], bytes[419]);
    match (edition, fault) {
        (1, Fault::FirstWithMutes) => {}
        (1, Fault::FirstIsMuted) if bits <= 63 && zero == 0 => {}
        (1, Fault::FirstLooksAt418Only) if bits == 0 => {}
        (1, Fault::FirstNames419) if bits == 0 && zero > 0 => faults.push(419),
        (1, _) if bits > 0 || zero > 0 => faults.push(418),
        (1, _) => {}
        (_, Fault::SecondTakes64) if bits == 64 && zero == 0 => {}
        (_, Fault::SecondTakesAnyMutes) if zero == 0 => {}
        (_, Fault::SecondTakes419) if bits <= 63 => {}
        (_, Fault::SecondNames418) if zero > 0 => faults.push(418),
        (_, Fault::SecondRefusesMutes) if bits > 0 => faults.push(418),
        _ if bits > 63 => faults.push(418),
        _ if zero > 0 => faults.push(419),
        _ => {}
    }
    let lowest = if fault == Fault::MutesFirst { faults.last() } else { faults.first() };
    if let Some(&at) = lowest {
        let (answer, mut power_on) = refused((11, at as u32));
        power_on[418] = if fault == Fault::MutesHandedBack { bits & 63 } else { 0 };
        return (answer, power_on);
    }
    ((0, 0), written(fault, edition, bytes))
}

fn refused(why: Refused) -> (Refused, Vec<u8>) {
    (why, image_of(&power_on()).to_vec())
}

/// Of an image that was accepted.
fn written(fault: Fault, edition: usize, bytes: &[u8]) -> Vec<u8> {
    let mut image = bytes.to_vec();
    image[..16].copy_from_slice(&image_of(&power_on())[..16]);
    match (edition, fault) {
        (1, Fault::FirstIsMuted) => {}
        (1, Fault::FirstWrittenBackAsFirst) => image[0] = 1,
        (1, _) | (2, Fault::SecondWithoutMutes) => image[418] = 0,
        _ => {}
    }
    image
}

/// The first of these images that a reading is wrong about.
fn found(fault: Fault, list: &[(Vec<u8>, Refused)]) -> Option<usize> {
    list.iter().position(|(bytes, answer)| reading(fault, bytes) != (*answer, again(bytes, *answer)))
}

/// By the sample and by random cases, each alone.
#[test]
fn wrong_readings_are_found() {
    let mut random = Maker::new();
    let mut numbers = Numbers::new(11);
    (0..4).for_each(|_| imagecases::case(&mut random, &mut numbers));
    random.end();
    for list in [images(&sample().bytes), images(&random.bytes)] {
        assert_eq!(found(Fault::None, &list), None);
        for &fault in FAULTS {
            let at = found(fault, &list).unwrap_or_else(|| panic!("{fault:?} is not found"));
            println!("{fault:?}: image {at} of {}", list.len());
        }
    }
}

/// Document 02 (v)'s own words on single images.
#[test]
fn single_editions() {
    let image = image_of(&State { mutes: 5, ..power_on() });
    let with = |pairs: &[(usize, u8)]| {
        let mut broken = image;
        pairs.iter().for_each(|&(at, value)| broken[at] = value);
        read_image(&broken)
    };
    assert_eq!((image[0], image[1], image[418], image[419]), (2, 0, 5, 0));
    assert_eq!(with(&[]), (State { mutes: 5, ..power_on() }, Ok(())));
    assert_eq!(with(&[(418, 63)]), (State { mutes: 63, ..power_on() }, Ok(())));
    assert_eq!(with(&[(418, 64)]), (power_on(), Err((11, 418))));
    assert_eq!(with(&[(419, 1)]), (power_on(), Err((11, 419))));
    assert_eq!(with(&[(418, 64), (419, 1)]), (power_on(), Err((11, 418))));
    // edition 1
    assert_eq!(with(&[(0, 1)]), (power_on(), Err((11, 418))));
    assert_eq!(with(&[(0, 1), (418, 0)]), (power_on(), Ok(())));
    assert_eq!(with(&[(0, 1), (418, 0), (419, 1)]), (power_on(), Err((11, 418))));
    for [low, high] in [0u16, 3, 256, 257, 258, 513, 514].map(u16::to_le_bytes) {
        assert_eq!(with(&[(0, low), (1, high), (418, 0)]), (power_on(), Err((10, 0))));
    }
}

/// Document 01's own words on single images.
#[test]
fn single_images() {
    let image = image_of(&power_on());
    let with = |at: usize, value: u8| {
        let mut broken = image;
        broken[at] = value;
        check(&broken)
    };
    assert_eq!(check(&image), Ok(()));
    assert_eq!(check(&image[..419]), Err((9, 0)));
    assert_eq!(check(&[]), Err((9, 0)));
    assert_eq!(with(15, 0), Err((10, 0)));
    // a field is named by its first byte
    assert_eq!(with(231, 1), Err((11, 228)));
    assert_eq!(with(407, 1), Err((11, 404)));
    assert_eq!(with(419, 1), Err((11, 419)));
    // taps 14 and 7; the output against the shift, whichever of the two is changed
    assert_eq!(with(377, 10), Ok(()));
    assert_eq!(with(377, 7), Err((11, 377)));
    assert_eq!(with(378, 1), Err((11, 378)));
    assert_eq!(with(396, 1), Err((11, 378)));
    assert_eq!(with(396, 2), Ok(()));
    assert_eq!(with(397, 128), Err((11, 396)));
    // unused flags
    assert_eq!(with(208, 32), Err((11, 208)));
    assert_eq!(with(400, 31), Ok(()));
}
