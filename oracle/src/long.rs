//! Spans of up to 1,000,000,000 cycles, for which the Rust is too slow: a replaying program's two engines are held against each other.
//! The program is asked what its quick engine comes to, and the stream has these answers behind the letters of the cycle engine, so
//! that the program has to agree with itself. What comes before a span is run on the Rust.

use crate::quick::{long_span, next_to_sample, sampling, starts};
use crate::random::{self, Numbers};
use crate::state::TAPS;
use crate::stream::{Engine, Maker, Totals, MOST};

/// The most cycles of one span unless the command line says otherwise.
pub const MAX_CYCLES: u32 = 1_000_000_000;

/// A span has at least the most cycles halved so often, a thousandth of them.
const HALVES: u32 = 10;

/// No sum is this one: the program says that it differs, and what it got.
const UNKNOWN: u32 = u32::MAX;

/// Runs the program on a stream, and hands back what it prints.
pub type Ask<'a> = dyn Fn(&[u8]) -> Result<String, String> + 'a;

/// A stream of so many cases and what it holds, or why a program's quick engine has no answer.
pub fn stream(seed: u64, cases: u64, max: u32, ask: &Ask) -> Result<(Vec<u8>, Totals), String> {
    let (mut r, mut bytes, mut totals) = (Numbers::new(seed), Vec::new(), Totals::default());
    for number in 0..cases {
        let case = case(&mut r, number, max, ask).map_err(|why| format!("case {}: {why}", number + 1))?;
        bytes.extend(case.cycle);
        totals.cases += case.totals.cases;
        totals.checks += case.totals.checks;
        totals.cycles += case.totals.cycles;
    }
    bytes.push(b'E');
    Ok((bytes, totals))
}

/// The first span of a stream has the most cycles, or ends at its last sample. After one span in three come frames.
fn case<'a>(r: &mut Numbers, number: u64, max: u32, ask: &'a Ask) -> Result<Case<'a>, String> {
    let mut maker = Maker::new();
    start(&mut maker, r, number);
    let state = maker.present();
    let n = if number == 0 { max } else { long_span(r, max, HALVES) };
    let n = next_to_sample(&state, r, n);
    let mut case = Case { cycle: maker.bytes.clone(), quick: maker.bytes, totals: maker.totals, ask };
    case.silent(n);
    case.state()?;
    if r.one_in(3) {
        let output = (state.output as u64 + n as u64) % 480;
        case.run(r.below(MOST + 1), output as u32)?;
        case.state()?;
    }
    Ok(case)
}

/// A state for many samples, a random one that writes change, or one that writes lead to from power-on.
fn start(maker: &mut Maker, r: &mut Numbers, number: u64) {
    let mut state = random::muted_state(r);
    match number % 3 {
        0 => {
            sampling(&mut state, r, TAPS[(number / 3 % 8) as usize]);
            maker.load(&state);
        }
        1 => {
            maker.load(&state);
            (0..r.below(5)).for_each(|_| write_all(maker, vec![random::write(r)]));
        }
        _ => written(maker, r),
    }
    maker.image();
}

/// As a tune does it: channels set up one after the other, with some cycles in between; half of the time all play on.
fn written(maker: &mut Maker, r: &mut Numbers) {
    maker.power();
    for _ in 0..4 + r.below(8) {
        write_all(maker, random::setup(r));
        maker.run(r.below(5_000));
    }
    if r.one_in(2) {
        write_all(maker, starts(r));
    }
}

fn write_all(maker: &mut Maker, list: Vec<(u32, u8)>) {
    list.into_iter().for_each(|(address, byte)| maker.write(address, byte));
}

/// A case by the letters of both engines, which are all that differs.
struct Case<'a> {
    cycle: Vec<u8>,
    quick: Vec<u8>,
    totals: Totals,
    ask: &'a Ask<'a>,
}

impl Case<'_> {
    fn silent(&mut self, n: u32) {
        self.put(Engine::silent, &[n]);
        self.totals.cycles += n as u64;
    }

    /// The sum of the state's image.
    fn state(&mut self) -> Result<(), String> {
        let sum = self.answer(|_| 'S', &[], "S sum")?;
        self.put(|_| 'S', &[sum]);
        self.totals.checks += 1;
        Ok(())
    }

    /// From this output counter.
    fn run(&mut self, n: u32, output: u32) -> Result<(), String> {
        let frames = (output + n) / 480;
        let sum = self.answer(Engine::run, &[n, frames], "R sum")?;
        self.put(Engine::run, &[n, frames, sum]);
        self.totals.checks += 1;
        self.totals.cycles += n as u64;
        Ok(())
    }

    fn put(&mut self, letter: fn(Engine) -> char, numbers: &[u32]) {
        add(&mut self.cycle, letter(Engine::Cycle), numbers);
        add(&mut self.quick, letter(Engine::Quick), numbers);
    }

    /// What the quick engine has for the last number of an op. The messages name one letter for both engines.
    fn answer(&self, letter: fn(Engine) -> char, numbers: &[u32], what: &str) -> Result<u32, String> {
        let mut question = self.quick.clone();
        add(&mut question, letter(Engine::Quick), &[numbers, &[UNKNOWN]].concat());
        question.push(b'E');
        let said = (self.ask)(&question)?;
        let got = said.trim_end().split_once(&format!(" {what} expected {UNKNOWN} got ")).map(|(_, got)| got.parse());
        got.and_then(Result::ok).ok_or(format!("the quick engine was asked for {what}, but the program said: {said}"))
    }
}

fn add(bytes: &mut Vec<u8>, letter: char, numbers: &[u32]) {
    bytes.push(letter as u8);
    numbers.iter().for_each(|number| bytes.extend(number.to_le_bytes()));
}
