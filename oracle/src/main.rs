use oracle::console::Console;
use oracle::log::Refused;
use oracle::process::Way;
use oracle::programs::{Against, Kind};
use oracle::stream::Maker;
use oracle::{
    bench, constants, exchange, explain, listing, logcases, logstream, long, pairlist, process, quick, random,
    recorder, render, replay, sample, stems, stemslog, wavlog,
};
use std::io::{BufRead, BufWriter, Read, Write};
use std::mem::take;
use std::process::exit;

const USAGE: &str = "usage: oracle constants
       oracle sample [short]                  the stored sample stream, to standard output; short: without its long span
       oracle random SEED CASES [MAXCYCLES]   a stream of random cases, none longer than MAXCYCLES
       oracle quick SEED CASES [MAXCYCLES]    a stream of random cases for the quick engine, no span longer than MAXCYCLES
       oracle long SEED CASES [MAXCYCLES] -- PROGRAM [WORD..]
                                              a stream of random long spans, by the cycle engine, with what PROGRAM's quick
                                              engine answers
       oracle replay                          replays a stream from standard input on the Rust itself
       oracle explain [OP]                    prints a stream to read; all fields after op number OP
       oracle bench CYCLES                    the sum of the frames of the timed run
       oracle bench highest CYCLES            that with every frequency 2047
       oracle bench noise CYCLES              that with noise at its fastest
       oracle bench quiet CYCLES              that with nothing playing, which is 0
       oracle bench ticks CYCLES              that with a change at every tick of the envelopes and of the sweep
       oracle bench advance CYCLES            that of 48,000 cycles after so many whose frames are dropped
       oracle render                          a WAV of the log on standard input, made in the fastest way, to be timed
       oracle logs SEED CASES                 a stream of random and damaged logs
       oracle logsample                       the stored sample of logs, to standard output
       oracle logreplay                       replays a stream of logs from standard input on the oracle's own reading
       oracle lister                          01's listing of the log on standard input
       oracle wav                             a WAV of the log on standard input, with the mutes of a line before it
       oracle heard                           the entries of the log on standard input that were not taken
       oracle stems                           the mix and the six stems of the log on standard input
       oracle wavlog                          the log of the stored run of crates/wav, to standard output
       oracle stemslog                        the log of the stored run of crates/bouncer, to standard output
       oracle console FILE                    the console over the log in FILE
       oracle recorder                        the panel recorder over the script on standard input
       oracle exchangepairs                   the stored input of crates/exchange, to standard output
       oracle exchange                        whether each pair of writes on standard input may be exchanged, by trial
       oracle against list|wav|heard|drive|record|exchange|stems FIRST SEEDS CASES FOUND PROGRAM [WORD..] [-- LISTER [WORD..]]
                                              holds a program against these seven; what differs goes to the folder FOUND
                                              with a smaller case, or nowhere where that is -; LISTER lists what a
                                              recorder makes";

fn main() {
    let words: Vec<String> = std::env::args().skip(1).collect();
    let words: Vec<&str> = words.iter().map(String::as_str).collect();
    match words[..] {
        ["constants"] => print_constants(),
        ["sample"] => write_sample(&[&sample::PARTS[..], &[sample::LONG]].concat()),
        ["sample", "short"] => write_sample(&sample::PARTS),
        ["random", seed, cases] => write_random(number(seed), number(cases), random::MAX_CYCLES),
        ["random", seed, cases, max] => write_random(number(seed), number(cases), number(max) as u32),
        ["quick", seed, cases] => write_quick(number(seed), number(cases), quick::MAX_CYCLES),
        ["quick", seed, cases, max] => write_quick(number(seed), number(cases), number(max) as u32),
        ["long", seed, cases, "--", ref program @ ..] if !program.is_empty() => {
            write_long(number(seed), number(cases), long::MAX_CYCLES, program)
        }
        ["long", seed, cases, max, "--", ref program @ ..] if !program.is_empty() => {
            write_long(number(seed), number(cases), number(max) as u32, program)
        }
        ["replay"] => report(replay::replay(&read_in())),
        ["explain"] => run_explain(None),
        ["explain", op] => run_explain(Some(number(op))),
        ["bench", cycles] => println!("{}", bench::bench(number(cycles) as usize)),
        ["bench", "advance", cycles] => println!("{}", bench::advance(number(cycles) as usize)),
        ["bench", "highest", cycles] => println!("{}", bench::highest(number(cycles) as usize)),
        ["bench", "noise", cycles] => println!("{}", bench::noise(number(cycles) as usize)),
        ["bench", "quiet", cycles] => println!("{}", bench::quiet(number(cycles) as usize)),
        ["bench", "ticks", cycles] => println!("{}", bench::ticks(number(cycles) as usize)),
        ["logs", seed, cases] => write_logs(number(seed), number(cases)),
        ["logsample"] => write_logsample(),
        ["logreplay"] => report(logstream::replay(&read_in())),
        ["lister"] => put(listing::listing(&read_in()).as_bytes()),
        ["wav"] => put_wav(listing::wav(&read_in())),
        ["render"] => put_wav(render::render(&read_in())),
        ["heard"] => put(listing::heard(&read_in()).as_bytes()),
        ["stems"] => put(stems::stems(&read_in()).as_bytes()),
        ["wavlog"] => put(&wavlog::stored()),
        ["stemslog"] => put(&stemslog::stored()),
        ["console", file] => console(file),
        ["recorder"] => recorder(),
        ["exchangepairs"] => put(pairlist::stored().as_bytes()),
        ["exchange"] => exchange(),
        ["against", kind, first, seeds, cases, found, ref program @ ..] if !program.is_empty() => {
            against(kind, [first, seeds, cases].map(number), found, program)
        }
        _ => fail(USAGE),
    }
}

fn print_constants() {
    println!("CLOCK_SPEED {}", constants::CLOCK_SPEED);
    println!("SOUND_LIVE_INTERVAL_CYCLE_COUNT {}", constants::SOUND_LIVE_INTERVAL_CYCLE_COUNT);
    println!("WAVE_CHANNEL_BASE_FREQUENCY_CYCLE_COUNT {}", constants::WAVE_CHANNEL_BASE_FREQUENCY_CYCLE_COUNT);
    println!("NOISE_CHANNEL_BASE_FREQUENCY_CYCLE_COUNT {}", constants::NOISE_CHANNEL_BASE_FREQUENCY_CYCLE_COUNT);
    println!("ENVELOPE_CYCLE_COUNT {}", constants::ENVELOPE_CYCLE_COUNT);
    println!("SWEEP_SLOW_CYCLE_COUNT {}", constants::SWEEP_SLOW_CYCLE_COUNT);
    println!("SWEEP_FAST_CYCLE_COUNT {}", constants::SWEEP_FAST_CYCLE_COUNT);
    println!("SOUND_SAMPLE_RATE_CYCLE_COUNT {}", constants::SOUND_SAMPLE_RATE_CYCLE_COUNT);
}

fn put_wav(made: Result<Vec<u8>, Refused>) {
    match made {
        Ok(bytes) => put(&bytes),
        Err(why) => eprint!("{}", listing::refused(why)),
    }
}

fn write_sample(parts: &[sample::Part]) {
    let mut maker = Maker::new();
    for (name, part) in parts {
        let (bytes, before) = (maker.bytes.len(), maker.totals);
        part(&mut maker);
        let now = maker.totals;
        let (cases, checks, cycles) =
            (now.cases - before.cases, now.checks - before.checks, now.cycles - before.cycles);
        eprintln!("{name}: {} bytes {cases} cases {checks} checks {cycles} cycles", maker.bytes.len() - bytes);
    }
    maker.end();
    put(&maker.bytes);
    eprintln!("made {}", maker.totals);
}

/// Writes the pieces and tells whether all went out: a reader that has found a difference closes its end, and that is no
/// error of ours.
fn pour(mut pieces: impl Iterator<Item = Vec<u8>>) -> bool {
    let mut out = BufWriter::new(std::io::stdout().lock());
    pieces.all(|piece| out.write_all(&piece).is_ok()) && out.flush().is_ok()
}

fn write_random(seed: u64, cases: u64, max_cycles: u32) {
    write_cases(seed, cases, |maker, numbers, _| random::case(maker, numbers, max_cycles));
}

fn write_quick(seed: u64, cases: u64, max_cycles: u32) {
    write_cases(seed, cases, |maker, numbers, number| quick::case(maker, numbers, number, max_cycles));
}

/// The totals go to standard error, so that a script can hold the replaying program's count against them.
fn write_cases(seed: u64, cases: u64, case: impl Fn(&mut Maker, &mut random::Numbers, u64)) {
    let mut maker = Maker::new();
    let mut numbers = random::Numbers::new(seed);
    let all = pour((0..=cases).map(|i| {
        if i < cases {
            case(&mut maker, &mut numbers, i)
        } else {
            maker.end()
        }
        take(&mut maker.bytes)
    }));
    if all {
        eprintln!("made {}", maker.totals);
    }
}

/// The program is run on each question. How it ends says nothing: what it prints does.
fn write_long(seed: u64, cases: u64, max_cycles: u32, program: &[&str]) {
    let program: Vec<String> = program.iter().map(|word| word.to_string()).collect();
    let ask = |stream: &[u8]| {
        let (printed, _) = process::run(&program, stream, Way::Whole)?;
        Ok(String::from_utf8_lossy(&[printed.out, printed.err].concat()).into_owned())
    };
    let (bytes, totals) = long::stream(seed, cases, max_cycles, &ask).unwrap_or_else(|why| fail(&why));
    put(&bytes);
    eprintln!("made {totals}");
}

fn write_logs(seed: u64, cases: u64) {
    let mut maker = logstream::Maker::new();
    let mut numbers = random::Numbers::new(seed);
    let all = pour((0..=cases).map(|i| {
        if i < cases {
            logcases::case(&mut maker, &mut numbers)
        } else {
            maker.end()
        }
        take(&mut maker.bytes)
    }));
    if all {
        eprintln!("made {}", maker.totals);
    }
}

fn write_logsample() {
    let mut maker = logstream::Maker::new();
    for (name, part) in logcases::PARTS {
        let (bytes, before) = (maker.bytes.len(), maker.totals);
        part(&mut maker);
        let (logs, checks) = (maker.totals.logs - before.logs, maker.totals.checks - before.checks);
        eprintln!("{name}: {} bytes {logs} logs {checks} checks", maker.bytes.len() - bytes);
    }
    maker.end();
    put(&maker.bytes);
    eprintln!("made {}", maker.totals);
}

fn report<T: std::fmt::Display>(replayed: Result<T, String>) {
    match replayed {
        Ok(totals) => println!("agreed {totals}"),
        Err(text) => {
            println!("differs {text}");
            exit(1);
        }
    }
}

fn console(file: &str) {
    let log = std::fs::read(file).unwrap_or_else(|e| fail(&format!("{file}: {e}")));
    let (first, console) = Console::open(&log);
    put(format!("{first}\n").as_bytes());
    let Some(mut console) = console else { return };
    let (mut input, mut line) = (std::io::stdin().lock(), Vec::new());
    while input.read_until(b'\n', &mut line).unwrap_or_else(|e| fail(&e.to_string())) > 0 {
        let answer = console.answer(line.strip_suffix(b"\n").unwrap_or(&line));
        put(format!("{answer}\n").as_bytes());
        line.clear();
    }
}

fn recorder() {
    let lines = std::io::stdin().lock().split(b'\n');
    let lines = lines.map(|line| line.unwrap_or_else(|e| fail(&e.to_string())));
    let recorded = recorder::record(lines, recorder::PROGRAM);
    eprint!("{}", recorded.err.concat());
    put(&recorded.out);
}

fn exchange() {
    for line in std::io::stdin().lock().split(b'\n') {
        let line = line.unwrap_or_else(|e| fail(&e.to_string()));
        put(&[&exchange::respond(&line)[..], b"\n"].concat());
    }
}

fn against(kind: &str, [first, seeds, cases]: [u64; 3], found: &str, program: &[&str]) {
    let kind = Kind::ALL.into_iter().find(|known| known.word() == kind).unwrap_or_else(|| fail(USAGE));
    let room = std::env::temp_dir().join(format!("oracle-{}", std::process::id()));
    std::fs::create_dir_all(&room).unwrap_or_else(|e| fail(&e.to_string()));
    let words = |words: &[&str]| words.iter().map(|word| word.to_string()).collect::<Vec<String>>();
    let mut programs = program.split(|word| *word == "--").map(words);
    let (program, lister) = (programs.next().unwrap_or_default(), programs.next().unwrap_or_default());
    if kind == Kind::Record && lister.is_empty() {
        fail(USAGE);
    }
    let found = (found != "-").then(|| found.into());
    let against = Against { program, lister, room, found };
    let compared = against.compare(kind, first, seeds, cases);
    let _ = std::fs::remove_dir_all(&against.room);
    report(compared);
}

fn run_explain(all: Option<u64>) {
    let mut out = BufWriter::new(std::io::stdout().lock());
    let result = explain::explain(&read_in(), all, &mut |line| {
        if writeln!(out, "{line}").is_err() {
            exit(0);
        }
    });
    let _ = out.flush();
    if let Err(text) = result {
        fail(&text);
    }
}

fn read_in() -> Vec<u8> {
    let mut bytes = Vec::new();
    std::io::stdin().lock().read_to_end(&mut bytes).unwrap_or_else(|e| fail(&e.to_string()));
    bytes
}

fn put(bytes: &[u8]) {
    let mut out = std::io::stdout().lock();
    out.write_all(bytes).and_then(|_| out.flush()).unwrap_or_else(|e| fail(&e.to_string()));
}

fn number(word: &str) -> u64 {
    word.parse().unwrap_or_else(|_| fail(USAGE))
}

fn fail(text: &str) -> ! {
    eprintln!("{text}");
    exit(2);
}
