//! Holds a program against the oracle's own answers, on random logs and scripts.

use crate::chords::chord;
use crate::console::{lines, session};
use crate::exchange::{wrong, TRIED};
use crate::listing::{check_sized, check_wav, heard, listing, listing_of, refused, wav, LISTED, OPENED};
use crate::log::{bytes_of, check, writes};
use crate::pairlist;
use crate::pairs;
use crate::panels;
use crate::process::{run, Printed, Way, HUNG};
use crate::random::Numbers;
use crate::recorder::{record, Recorded, PROGRAM};
use crate::run::Stems;
use crate::scripts::{front, script};
use crate::stems;
use crate::tunes;
use std::collections::BTreeMap;
use std::fs;
use std::path::{Path, PathBuf};

/// The most cycles of a log that is listed or written out whole.
const LONGEST: u32 = tunes::FULL + 1_000_000;

/// How often a part of a case is left out to make it smaller: a log or a script may have 131,070 of them.
const TRIES: u32 = 1_000;

#[derive(Clone, Copy, Debug, PartialEq)]
pub enum Kind {
    List,
    Wav,
    Heard,
    Drive,
    Record,
    Exchange,
    Stems,
}

impl Kind {
    pub const ALL: [Kind; 7] =
        [Kind::List, Kind::Wav, Kind::Heard, Kind::Drive, Kind::Record, Kind::Exchange, Kind::Stems];

    /// As the command line has it.
    pub fn word(self) -> &'static str {
        match self {
            Kind::List => "list",
            Kind::Wav => "wav",
            Kind::Heard => "heard",
            Kind::Drive => "drive",
            Kind::Record => "record",
            Kind::Exchange => "exchange",
            Kind::Stems => "stems",
        }
    }
}

#[derive(Clone)]
pub struct Case {
    pub kind: Kind,
    /// empty for the recorder, which makes one, and for pairs
    pub log: Vec<u8>,
    /// empty but for the console, the recorder and pairs; what stands before the log of a WAV
    pub script: Vec<u8>,
    pub way: Way,
    /// of the states that pairs are tried on
    pub seed: u64,
}

pub fn case(kind: Kind, r: &mut Numbers) -> Case {
    let log = match kind {
        Kind::List => whole(r, LISTED),
        Kind::Wav | Kind::Heard => whole(r, OPENED),
        Kind::Drive => tunes::opened(r),
        Kind::Record | Kind::Exchange => Vec::new(),
        // several voices at once in one of three
        Kind::Stems if r.one_in(3) => chord(r),
        Kind::Stems => whole(r, LISTED),
    };
    let script = match kind {
        Kind::List | Kind::Heard | Kind::Stems => Vec::new(),
        Kind::Wav => front(r, &log),
        Kind::Drive => script(r, &log),
        Kind::Record => panels::script(r),
        Kind::Exchange => pairs::script(r),
    };
    let way = way(kind, r, log.len().max(script.len()));
    let seed = if kind == Kind::Exchange { r.word().into() } else { 0 };
    Case { kind, log, script, way, seed }
}

fn whole(r: &mut Numbers, most: usize) -> Vec<u8> {
    loop {
        let log = tunes::whole(r, most);
        if !check(&log).is_ok_and(|(_, cycles)| cycles > LONGEST) {
            return log;
        }
    }
}

/// A byte at a time only where that is soon over.
fn way(kind: Kind, r: &mut Numbers, size: usize) -> Way {
    let piece = r.pick(&[1, 7, 4_096]) as usize;
    match r.below(10) {
        0 if size < 300 * piece => Way::Pieces(piece),
        1 if kind == Kind::Drive => Way::Lines,
        1 if kind == Kind::Record => Way::Open,
        _ => Way::Whole,
    }
}

/// What a program must print, and how many cycles it runs for that.
#[derive(Default)]
pub struct Wanted {
    /// empty for pairs, whose answers are looked at by themselves: there are many leads to one no
    pub printed: Printed,
    /// the log, or of a script that it finishes one
    pub accepted: bool,
    pub cycles: u64,
    pub recorded: Option<Recorded>,
    /// of what was recorded, where the lister takes it
    pub listing: Option<String>,
    /// of a log that is bounced: every frame
    pub frames: Option<Vec<Stems>>,
}

pub fn wanted(case: &Case) -> Wanted {
    let checked = match case.kind {
        Kind::List | Kind::Stems => check_sized(&case.log, LISTED).map(|(_, cycles)| cycles),
        Kind::Wav => check_wav(&input(case)).map(|(_, _, cycles)| cycles),
        _ => check_sized(&case.log, OPENED).map(|(_, cycles)| cycles),
    };
    let cycles = checked.map_or(0, u64::from);
    let mut wanted = Wanted { accepted: checked.is_ok(), cycles, ..Wanted::default() };
    match case.kind {
        Kind::List => wanted.printed.out = listing(&case.log).into(),
        Kind::Wav => match wav(&input(case)) {
            Ok(bytes) => wanted.printed.out = bytes,
            Err(why) => wanted.printed.err = refused(why).into(),
        },
        Kind::Heard => wanted.printed.out = heard(&case.log).into(),
        Kind::Drive => {
            let session = session(&case.log, &case.script);
            wanted.printed.out = (session.lines.join("\n") + "\n").into();
            wanted.cycles = session.cycles;
        }
        Kind::Record => wanted = wanted_of(record(lines(&case.script), PROGRAM)),
        Kind::Exchange => {}
        Kind::Stems => match stems::bounce(&case.log) {
            Ok(bounced) => {
                wanted.printed.out = stems::listing_of(&bounced).into();
                wanted.frames = Some(bounced.frames);
            }
            Err(why) => wanted.printed.out = refused(why).into(),
        },
    }
    wanted
}

/// The standard input of a program over a log.
fn input(case: &Case) -> Vec<u8> {
    [&case.script[..], &case.log].concat()
}

/// The listing is one of the writes that were taken, on the Rust: the log's bytes are not used for it.
fn wanted_of(recorded: Recorded) -> Wanted {
    let listed = recorded.length.filter(|&length| recorded.out.len() <= LISTED && length <= LONGEST);
    Wanted {
        printed: Printed { out: recorded.out.clone(), err: recorded.err.concat().into() },
        accepted: recorded.length.is_some(),
        cycles: listed.map_or(0, u64::from),
        listing: listed.map(|length| listing_of(recorded.writes.clone(), length)),
        recorded: Some(recorded),
        frames: None,
    }
}

/// None where everything printed is as it has to be.
pub fn different(case: &Case, expected: &Printed, got: &Printed) -> Option<String> {
    let out = match case.kind {
        Kind::Wav | Kind::Record => different_bytes(&expected.out, &got.out),
        Kind::List | Kind::Heard | Kind::Drive | Kind::Stems => different_lines(case, &expected.out, &got.out),
        Kind::Exchange => wrong_answers(case, &got.out),
    };
    let err = different_lines(case, &expected.err, &got.err).map(|what| format!("standard error, {what}"));
    joined([out, err])
}

/// What can't be in the lines of a bouncer, whatever the oracle's own lines are.
pub fn unbalanced(wanted: &Wanted, got: &Printed) -> Option<String> {
    stems::seen(wanted.frames.as_ref()?, &got.out).err()
}

fn joined(found: [Option<String>; 2]) -> Option<String> {
    let both: Vec<String> = found.into_iter().flatten().collect();
    (!both.is_empty()).then(|| both.join("\n"))
}

fn different_bytes(expected: &[u8], got: &[u8]) -> Option<String> {
    let at = (0..expected.len().max(got.len())).find(|&i| expected.get(i) != got.get(i))?;
    Some(format!("byte {at}: expected {:?} got {:?}", expected.get(at), got.get(at)))
}

/// The first line that differs, with what was sent for it.
fn different_lines(case: &Case, expected: &[u8], got: &[u8]) -> Option<String> {
    if expected == got {
        return None;
    }
    let (expected, got) = (cut(expected), cut(got));
    let at = (0..).find(|&i| expected.get(i) != got.get(i))?;
    let mut text = format!("line {}\n", at + 1);
    let of = match case.kind {
        Kind::Record => [&expected, &got].iter().filter_map(|lines| named(lines.get(at)?)).min().unwrap_or(0),
        _ => at,
    };
    if let Some(line) = lines(&case.script).get(of.wrapping_sub(1)) {
        text += &format!("sent:     {}\n", show(line));
    }
    let shown = |lines: &[Vec<u8>]| lines.get(at).map_or("nothing".to_string(), |line| show(line));
    Some(text + &format!("expected: {}\ngot:      {}", shown(&expected), shown(&got)))
}

/// The first answer to a pair that does not hold, with what was sent for it.
fn wrong_answers(case: &Case, got: &[u8]) -> Option<String> {
    let (sent, got) = (lines(&case.script), cut(got));
    (0..sent.len().max(got.len())).find_map(|at| {
        let why = match (sent.get(at), got.get(at)) {
            (Some(sent), Some(got)) => wrong(sent, got, case.seed)?,
            (Some(_), None) => "expected: an answer".to_string(),
            (None, _) => "expected: no line more".to_string(),
        };
        let [sent, got] = [sent.get(at).copied(), got.get(at).map(Vec::as_slice)]
            .map(|line| line.map_or("nothing".to_string(), show));
        Some(format!("line {}\nsent:     {sent}\ngot:      {got}\n{why}", at + 1))
    })
}

/// K of `line K: ..`
fn named(line: &[u8]) -> Option<usize> {
    let text = std::str::from_utf8(line).ok()?;
    text.strip_prefix("line ")?.split(':').next()?.parse().ok()
}

fn show(line: &[u8]) -> String {
    line[..line.len().min(1_000)].escape_ascii().to_string()
}

/// The lines with their newlines.
fn cut(text: &[u8]) -> Vec<Vec<u8>> {
    text.split_inclusive(|&byte| byte == b'\n').map(<[u8]>::to_vec).collect()
}

/// A program by its words, a lister for what a recorder makes, a folder for a console's log, and one for what is found, where
/// that is wanted.
pub struct Against {
    pub program: Vec<String>,
    pub lister: Vec<String>,
    pub room: PathBuf,
    pub found: Option<PathBuf>,
}

impl Against {
    /// The totals of all seeds, or the first difference.
    pub fn compare(&self, kind: Kind, first: u64, seeds: u64, cases: u64) -> Result<Totals, String> {
        let mut totals = Totals::new(kind);
        match kind {
            Kind::Drive => self.unreadable()?,
            Kind::Exchange => self.listed(first)?,
            _ => {}
        }
        for seed in first..first + seeds {
            let mut r = Numbers::new(seed);
            for number in 0..cases {
                let case = case(kind, &mut r);
                let wanted = wanted(&case);
                let printed = self.printed(&case, &wanted).map_err(|what| {
                    let name = format!("{}-{seed}-{number}", kind.word());
                    let keep = |found: &PathBuf| self.keep(&found.join(name), &case, &what);
                    let kept = self.found.as_ref().map_or(String::new(), keep);
                    format!("{} seed {seed} case {number} {what}\n{kept}up to here agreed {totals}", kind.word())
                })?;
                totals.add(&Wanted { printed, ..wanted });
            }
            totals.seeds += 1;
        }
        Ok(totals)
    }

    /// What the program prints, where everything is as it has to be; else what is not.
    fn printed(&self, case: &Case, wanted: &Wanted) -> Result<Printed, String> {
        let (got, status) = self.run(case, wanted)?;
        if status != 0 {
            return Err(format!("it ended with exit status {status}"));
        }
        let differs = joined([different(case, &wanted.printed, &got), unbalanced(wanted, &got)]);
        differs.or_else(|| self.unsound(wanted, &got.out)).map_or(Ok(got), Err)
    }

    /// A log that was recorded, read as 01 has it, and listed.
    fn unsound(&self, wanted: &Wanted, log: &[u8]) -> Option<String> {
        let recorded = wanted.recorded.as_ref()?;
        let (length, taken) = (recorded.length?, &recorded.writes);
        if check(log) != Ok((taken.len() as u32, length)) || writes(log) != *taken {
            return Some(format!("its log is read as {:?}, {:?}", check(log), writes(log)));
        }
        let expected = wanted.listing.as_ref()?;
        match run(&self.lister, log, Way::Whole) {
            Err(why) => Some(why),
            Ok((got, _)) if got.out == expected.as_bytes() => None,
            Ok((got, _)) => Some(format!("its listing: {}", different_bytes(expected.as_bytes(), &got.out)?)),
        }
    }

    fn run(&self, case: &Case, wanted: &Wanted) -> Result<(Printed, i32), String> {
        match case.kind {
            Kind::List | Kind::Wav | Kind::Heard | Kind::Stems => run(&self.program, &input(case), case.way),
            Kind::Exchange => run(&self.program, &case.script, case.way),
            Kind::Drive => {
                let file = self.room.join("log");
                fs::write(&file, &case.log).map_err(|e| e.to_string())?;
                run(&self.with_file(&file), &case.script, case.way)
            }
            Kind::Record => {
                // only a finish that is accepted ends it, and a rest is no line before the input's end
                let ends = wanted.accepted && case.script.ends_with(b"\n");
                let way = if case.way == Way::Open && !ends { Way::Whole } else { case.way };
                run(&self.program, &case.script, way)
            }
        }
    }

    fn with_file(&self, file: &Path) -> Vec<String> {
        [&self.program[..], &[file.display().to_string()]].concat()
    }

    /// "A file that can't be read: a message on standard error and nothing on standard output."
    fn unreadable(&self) -> Result<(), String> {
        for file in [self.room.join("none"), self.room.clone()] {
            let (printed, _) = run(&self.with_file(&file), b"image\n", Way::Whole)?;
            if !printed.out.is_empty() || printed.err.is_empty() {
                return Err(format!("a file that can't be read: {printed:?}"));
            }
        }
        Ok(())
    }

    /// The stored list of pairs.
    fn listed(&self, seed: u64) -> Result<(), String> {
        let script = pairlist::stored().into();
        let case = Case { kind: Kind::Exchange, log: Vec::new(), script, way: Way::Whole, seed };
        self.printed(&case, &wanted(&case)).map(drop).map_err(|what| format!("the stored list, {what}"))
    }

    /// Writes down the case, and a smaller one that still differs. To wait for a program that hangs takes too long for many tries.
    fn keep(&self, path: &Path, case: &Case, what: &str) -> String {
        let small = if what == HUNG { case.clone() } else { self.smaller(case) };
        let mut text = String::new();
        for (more, case) in [("", case), ("-small", &small)] {
            for (ending, bytes) in [("log", &case.log), ("script", &case.script)] {
                let file = PathBuf::from(format!("{}{more}.{ending}", path.display()));
                let written = fs::create_dir_all(path.parent().unwrap()).and_then(|_| fs::write(&file, bytes));
                let how = written.map_or_else(|e| e.to_string(), |_| format!("{} bytes", bytes.len()));
                text += &format!("{}: {how}, given {:?}\n", file.display(), case.way);
            }
        }
        let again = self.printed(&small, &wanted(&small)).err().unwrap_or("agrees when run again".to_string());
        format!("{text}the small one: {again}\n")
    }

    /// Gives the input whole, drops lines, then entries, and both again, as long as it differs.
    fn smaller(&self, case: &Case) -> Case {
        let still = |case: Case| self.printed(&case, &wanted(&case)).is_err();
        let mut small = Case { way: Way::Whole, ..case.clone() };
        if !still(small.clone()) {
            small.way = case.way;
        }
        for _ in 0..2 {
            let kept = fewer(cut(&small.script), |kept| still(Case { script: kept.concat(), ..small.clone() }));
            small.script = kept.concat();
            if let Ok((_, cycles)) = check(&small.log) {
                let log = |kept: &[_]| bytes_of(cycles, kept);
                let kept = fewer(writes(&small.log), |kept| still(Case { log: log(kept), ..small.clone() }));
                small.log = log(&kept);
            }
        }
        small
    }
}

/// The list without the parts that can go: halves first, then ever smaller ones, as long as there are tries.
fn fewer<T: Clone>(mut list: Vec<T>, still: impl Fn(&[T]) -> bool) -> Vec<T> {
    let (mut size, mut at, mut tries) = (list.len().div_ceil(2), 0, 0);
    while size > 0 && tries < TRIES {
        if at >= list.len() {
            (size, at) = (size / 2, 0);
            continue;
        }
        let mut without = list.clone();
        without.drain(at..(at + size).min(list.len()));
        tries += 1;
        if still(&without) {
            list = without;
        } else {
            at += size;
        }
    }
    list
}

/// What agreed.
pub struct Totals {
    pub kind: Kind,
    pub seeds: u64,
    /// logs, or scripts of a recorder or with pairs
    pub cases: u64,
    /// logs that are refused, or scripts that finish none
    pub refused: u64,
    pub lines: u64,
    pub bytes: u64,
    pub cycles: u64,
    /// the entries that were taken, held, and had no register; a console's once for each play over them
    pub sorts: [u64; 3],
    /// a recorder's adds that it took, and its logs that were listed
    pub adds: u64,
    pub listings: u64,
    /// pairs that may be exchanged, and that may not by the writes of their lead, and the states that they were tried on
    pub may: u64,
    pub may_not: [u64; 3],
    pub states: u64,
    /// what a bouncer's lines came to
    pub seen: stems::Seen,
    /// the refused logs by their line, and a program's answers by their first word; refusals by their number
    pub answers: BTreeMap<String, u64>,
}

impl Totals {
    pub fn new(kind: Kind) -> Self {
        Totals {
            kind,
            seeds: 0,
            cases: 0,
            refused: 0,
            lines: 0,
            bytes: 0,
            cycles: 0,
            sorts: [0; 3],
            adds: 0,
            listings: 0,
            may: 0,
            may_not: [0; 3],
            states: 0,
            seen: stems::Seen::default(),
            answers: BTreeMap::new(),
        }
    }

    pub fn add(&mut self, wanted: &Wanted) {
        self.cases += 1;
        self.refused += u64::from(!wanted.accepted);
        self.bytes += wanted.printed.out.len() as u64;
        self.cycles += wanted.cycles;
        let [out, err] = [&wanted.printed.out, &wanted.printed.err].map(|text| String::from_utf8_lossy(text));
        match self.kind {
            Kind::Wav if wanted.accepted => {}
            Kind::Wav => self.count("log ", &err),
            Kind::Record => self.add_record(wanted, &err),
            Kind::Exchange => {
                self.lines += out.lines().count() as u64;
                out.lines().for_each(|line| self.add_answer(line));
            }
            Kind::List | Kind::Heard | Kind::Drive | Kind::Stems => {
                self.lines += out.lines().count() as u64;
                out.lines().filter_map(sorts).for_each(|sorts| (0..3).for_each(|i| self.sorts[i] += sorts[i]));
                if !wanted.accepted {
                    self.count("log ", &out);
                } else if self.kind == Kind::Drive {
                    out.lines().skip(1).for_each(|line| self.count("", line));
                }
                let seen = wanted.frames.as_ref().and_then(|frames| stems::seen(frames, out.as_bytes()).ok());
                self.seen.join(seen.unwrap_or_default());
            }
        }
    }

    fn add_record(&mut self, wanted: &Wanted, err: &str) {
        let recorded = wanted.recorded.as_ref().expect("of a recorder");
        self.lines += recorded.lines as u64;
        self.adds += recorded.writes.len() as u64;
        self.listings += u64::from(wanted.listing.is_some());
        err.lines().filter_map(|line| line.split_once(": ")).for_each(|(_, answer)| self.count("", answer));
    }

    fn pairs(&self) -> String {
        let (may, [none, one, two]) = (self.may, self.may_not);
        let pairs = may + none + one + two;
        let by_lead = format!("{none} from power-on, {one} after one write, {two} after two");
        format!("{pairs} pairs ({may} yes, {} no: {by_lead}) {} states", pairs - may, self.states)
    }

    /// Of a program that answers for pairs.
    fn add_answer(&mut self, line: &str) {
        if line.is_empty() || line.starts_with('#') {
            self.count("", "shown");
        } else if line.ends_with(" yes") {
            self.may += 1;
            self.states += TRIED as u64;
        } else if let Some((_, no)) = line.split_once(" no ") {
            let writes = if no.starts_with("after") { 1 + no.matches(", ").count() } else { 0 };
            self.may_not[writes] += 1;
            self.states += 1;
        } else {
            self.count("", line);
        }
    }

    fn count(&mut self, what: &str, line: &str) {
        let words = if line.starts_with("refused") { 2 } else { 1 };
        let answer: Vec<&str> = line.split(' ').take(words).collect();
        *self.answers.entry(what.to_string() + &answer.join(" ")).or_default() += 1;
    }
}

/// The numbers of the sorts where a line has them; the listing has those that were taken among all.
fn sorts(line: &str) -> Option<[u64; 3]> {
    let words: Vec<&str> = line.split(' ').collect();
    let after = |word: &str| words.get(words.iter().position(|known| *known == word)? + 1)?.parse::<u64>().ok();
    let (held, none) = (after("held")?, after("none")?);
    let taken = after("taken").or_else(|| Some(after("entries")? - held - none))?;
    Some([taken, held, none])
}

impl std::fmt::Display for Totals {
    fn fmt(&self, f: &mut std::fmt::Formatter) -> std::fmt::Result {
        let Totals { kind, seeds, cases, refused, lines, bytes, cycles, sorts, adds, listings, answers, .. } = self;
        match kind {
            Kind::Exchange => write!(f, "{seeds} seeds {cases} scripts {lines} lines {} {bytes} bytes", self.pairs())?,
            Kind::Record => {
                let finished = cases - refused;
                write!(f, "{seeds} seeds {cases} scripts ({finished} finished, {refused} not) ")?;
                write!(f, "{lines} lines {adds} adds {listings} listings {bytes} bytes {cycles} cycles")?
            }
            Kind::List | Kind::Wav | Kind::Heard | Kind::Drive | Kind::Stems => {
                write!(f, "{seeds} seeds {cases} logs ({} accepted, {refused} refused) ", cases - refused)?;
                let [taken, held, none] = sorts;
                match kind {
                    Kind::Wav => {}
                    Kind::Stems => write!(f, "{lines} lines ")?,
                    _ => write!(f, "{lines} lines {taken} taken {held} held {none} none ")?,
                }
                write!(f, "{bytes} bytes {cycles} cycles")?;
                if *kind == Kind::Stems {
                    write!(f, " {}", self.seen)?
                }
            }
        }
        let answers: Vec<String> = answers.iter().map(|(answer, times)| format!("{answer}: {times}")).collect();
        if answers.is_empty() {
            return Ok(());
        }
        write!(f, "\n{}", answers.join(", "))
    }
}
