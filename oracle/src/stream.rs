//! The stream that a replaying program reads: made here with the Rust's answers in it, and read here.

use crate::digest::{sum_of, FrameSum};
use crate::image::{first_edition, image_of, state_of, LENGTH};
use crate::imagecheck::check;
use crate::log::Refused;
use crate::reader::Reader;
use crate::state::{in_range, State};
use crate::unit::Unit;

/// The most cycles of one op of the cycle engine.
pub const MOST: u32 = 1_900_000;

/// The most frames of one run: what a replaying program has room for.
pub const MOST_FRAMES: u32 = 4_096;

/// The most bytes that are read as an image: what a replaying program has room for.
pub const MOST_BYTES: usize = 1_024;

/// Which of document 02 (vii)'s two engines a replaying program runs by. The Rust is the same for both.
#[derive(Clone, Copy, Debug, PartialEq)]
pub enum Engine {
    Cycle,
    Quick,
}

impl Engine {
    pub const BOTH: [Engine; 2] = [Engine::Cycle, Engine::Quick];

    /// The letter of a run with frames.
    pub fn run(self) -> char {
        match self {
            Engine::Cycle => 'R',
            Engine::Quick => 'Q',
        }
    }

    /// The letter of a run whose frames are not looked at.
    pub fn silent(self) -> char {
        match self {
            Engine::Cycle => 'A',
            Engine::Quick => 'J',
        }
    }
}

/// One op of a stream. The bytes are in README.md.
#[derive(Clone, Debug, PartialEq)]
pub enum Op {
    Power,
    Load(Box<[u8; LENGTH]>),
    Write { address: u32, byte: u8 },
    Mute { bits: u8 },
    Run { by: Engine, n: u32, made: FrameSum },
    Silent { by: Engine, n: u32 },
    State { sum: u32 },
    Image(Box<[u8; LENGTH]>),
    Byte { at: u16, value: u8, answer: Refused },
    Bytes { bytes: Vec<u8>, answer: Refused },
    End,
}

/// What a stream holds.
#[derive(Clone, Copy, Debug, Default, PartialEq)]
pub struct Totals {
    pub cases: u64,
    pub checks: u64,
    pub cycles: u64,
}

impl std::fmt::Display for Totals {
    fn fmt(&self, f: &mut std::fmt::Formatter) -> std::fmt::Result {
        write!(f, "{} cases {} checks {} cycles", self.cases, self.checks, self.cycles)
    }
}

/// A reading's answer as a stream has it: zeros where the image is accepted.
pub fn answer(bytes: &[u8]) -> Refused {
    check(bytes).err().unwrap_or((0, 0))
}

/// Makes a stream: does each op on the Rust's unit and writes it down with the answer.
pub struct Maker {
    unit: Unit,
    pub bytes: Vec<u8>,
    pub totals: Totals,
}

impl Maker {
    pub fn new() -> Self {
        Maker { unit: Unit::new(), bytes: Vec::new(), totals: Totals::default() }
    }

    pub fn power(&mut self) {
        self.unit = Unit::new();
        self.bytes.push(b'P');
        self.totals.cases += 1;
    }

    pub fn load(&mut self, state: &State) {
        self.load_as(state, image_of(state));
    }

    /// By an image of edition 1, which has no mutes.
    pub fn load_first_edition(&mut self, state: &State) {
        self.load_as(&State { mutes: 0, ..state.clone() }, first_edition(image_of(state)));
    }

    fn load_as(&mut self, state: &State, image: [u8; LENGTH]) {
        assert!(in_range(state), "a state out of range must not be loaded: {state:?}");
        self.unit = Unit::of(state);
        self.bytes.push(b'L');
        self.bytes.extend_from_slice(&image);
        self.totals.cases += 1;
    }

    /// A register write, and the sum of the image after it: no write goes without.
    pub fn write(&mut self, address: u32, byte: u8) {
        self.unit.write(address, byte);
        self.bytes.push(b'W');
        self.put(address);
        self.bytes.push(byte);
        self.state();
    }

    /// The mutes, and the sum of the image after them.
    pub fn mute(&mut self, bits: u32) {
        assert!(bits <= 63);
        self.unit.mutes = bits;
        self.bytes.extend([b'M', bits as u8]);
        self.state();
    }

    pub fn run(&mut self, n: u32) {
        self.run_by(Engine::Cycle, n);
    }

    pub fn run_by(&mut self, by: Engine, n: u32) {
        assert!(by == Engine::Quick || n <= MOST);
        let mut made = FrameSum::default();
        self.unit.step(n, &mut made);
        assert!(made.frames <= MOST_FRAMES);
        self.bytes.push(by.run() as u8);
        self.put(n);
        self.put(made.frames);
        self.put(made.sum);
        self.totals.checks += 1;
        self.totals.cycles += n as u64;
    }

    pub fn silent(&mut self, n: u32) {
        self.silent_by(Engine::Cycle, n);
    }

    pub fn silent_by(&mut self, by: Engine, n: u32) {
        assert!(by == Engine::Quick || n <= MOST);
        self.unit.silent(n as usize);
        self.bytes.push(by.silent() as u8);
        self.put(n);
        self.totals.cycles += n as u64;
    }

    /// The sum of the present state's image.
    pub fn state(&mut self) {
        let image = self.present_image();
        self.bytes.push(b'S');
        self.put(sum_of(&image));
        self.totals.checks += 1;
    }

    /// The present state's image, every byte of it.
    pub fn image(&mut self) {
        let image = self.present_image();
        self.bytes.push(b'I');
        self.bytes.extend_from_slice(&image);
        self.totals.checks += 1;
    }

    /// The present state's image with one byte set, read as an image.
    pub fn byte(&mut self, at: usize, value: u8) {
        let mut image = self.present_image();
        image[at] = value;
        self.bytes.push(b'B');
        self.put_half(at as u16);
        self.bytes.push(value);
        self.put_answer(&image);
    }

    /// Any bytes, read as an image.
    pub fn bytes(&mut self, bytes: &[u8]) {
        assert!(bytes.len() <= MOST_BYTES);
        self.bytes.push(b'D');
        self.put_half(bytes.len() as u16);
        self.bytes.extend_from_slice(bytes);
        self.put_answer(bytes);
    }

    pub fn end(&mut self) {
        self.bytes.push(b'E');
    }

    pub fn present(&self) -> State {
        self.unit.state()
    }

    /// Holds the Rust to document 01's range rules on the way.
    pub fn present_image(&self) -> [u8; LENGTH] {
        let state = self.present();
        assert!(in_range(&state), "the Rust left the range: {state:?}");
        image_of(&state)
    }

    fn put(&mut self, v: u32) {
        self.bytes.extend_from_slice(&v.to_le_bytes());
    }

    fn put_half(&mut self, v: u16) {
        self.bytes.extend_from_slice(&v.to_le_bytes());
    }

    /// Both readings must take the same images.
    fn put_answer(&mut self, bytes: &[u8]) {
        let (number, carried) = answer(bytes);
        let state = bytes.try_into().ok().and_then(state_of);
        assert_eq!(state.is_some(), number == 0, "refused {number} {carried}: {bytes:?}");
        self.bytes.push(number as u8);
        self.put_half(carried as u16);
        self.totals.checks += 1;
    }
}

/// The next op of a stream.
pub fn op(reader: &mut Reader) -> Result<Op, String> {
    Ok(match reader.array::<1>()?[0] {
        b'P' => Op::Power,
        b'L' => Op::Load(Box::new(reader.array::<LENGTH>()?)),
        b'W' => Op::Write { address: reader.number()?, byte: reader.byte()? },
        b'M' => match reader.byte()? {
            bits @ 0..=63 => Op::Mute { bits },
            _ => return Err("M is above 63".to_string()),
        },
        b'R' => read_run(Engine::Cycle, reader)?,
        b'Q' => read_run(Engine::Quick, reader)?,
        b'A' => Op::Silent { by: Engine::Cycle, n: reader.number()? },
        b'J' => Op::Silent { by: Engine::Quick, n: reader.number()? },
        b'S' => Op::State { sum: reader.number()? },
        b'I' => Op::Image(Box::new(reader.array::<LENGTH>()?)),
        b'B' => {
            let (at, value) = (reader.half()?, reader.byte()?);
            if at as usize >= LENGTH {
                return Err("B is past the end".to_string());
            }
            Op::Byte { at, value, answer: read_answer(reader)? }
        }
        b'D' => {
            let size = reader.half()? as usize;
            if size > MOST_BYTES {
                return Err("D is too long".to_string());
            }
            Op::Bytes { bytes: reader.take(size)?.to_vec(), answer: read_answer(reader)? }
        }
        b'E' => Op::End,
        _ => return Err("is no op".to_string()),
    })
}

fn read_run(by: Engine, reader: &mut Reader) -> Result<Op, String> {
    let [n, frames, sum] = reader.numbers()?;
    Ok(Op::Run { by, n, made: FrameSum { frames, sum } })
}

fn read_answer(reader: &mut Reader) -> Result<Refused, String> {
    Ok((reader.byte()? as u32, reader.half()? as u32))
}
