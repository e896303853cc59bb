//! The programs over a log: document 01's own log and a session by hand; and consoles that are wrong, which the comparison
//! has to find.

#[macro_use]
mod faults;

use oracle::console::{lines, parse, session, Line};
use oracle::digest::{fold, sum_of, Frames};
use oracle::image::{from_image, image_of};
use oracle::listing::{check_sized, listing, wav, LISTED, OPENED};
use oracle::log::{bytes_of, writes, Write};
use oracle::player::{Call, MARKS, ROOM, SLOT};
use oracle::process::Printed;
use oracle::programs::{case, different, wanted, Case, Kind, Totals};
use oracle::random::Numbers;
use oracle::run::Run;
use oracle::sorts::{sort, Counts, Sort};
use oracle::state::{power_on, read, write, State};
use oracle::unit::Unit;
use oracle::vsu::traits::{AudioFrame, Sink};
use oracle::VSU;
use std::collections::HashSet;
use std::ops::Range;

/// 01's own log.
fn own() -> Vec<u8> {
    let write = |address, byte| Write { due: 0, address, byte };
    bytes_of(960, &[write(0x000, 0x3F), write(0x404, 0xF0), write(0x410, 0xF0), write(0x400, 0x80)])
}

#[test]
fn the_listing_of_the_own_log() {
    assert_eq!(listing(&own()), "log 1 entries 4 cycles 960 frames 2 held 0 none 0\n1 480 3648 0\n2 960 3648 0\n");
    assert_eq!(listing(&own()[..15]), "refused 3 0\n");
    assert_eq!(listing(&bytes_of(0, &[])), "log 1 entries 0 cycles 0 frames 0 held 0 none 0\n");
    assert_eq!(listing(&vec![0; LISTED + 1]), "refused 2 0\n");
    assert_eq!(listing(&vec![0; LISTED]), "refused 4 0\n");
}

#[test]
fn the_wav_of_the_own_log() {
    let bytes = [
        &b"RIFF"[..],
        &[44, 0, 0, 0],
        b"WAVEfmt ",
        &[16, 0, 0, 0, 1, 0, 2, 0],                         // PCM, two channels
        &[0xC3, 0xA2, 0, 0, 0x0C, 0x8B, 2, 0, 4, 0, 16, 0], // 41,667 and 166,668 a second, 4 bytes, 16 bits
        b"data",
        &[8, 0, 0, 0],
        &[0x40, 0x0E, 0, 0, 0x40, 0x0E, 0, 0], // 3648 and 0, twice
    ]
    .concat();
    assert_eq!(wav(&own()), Ok(bytes));
    assert_eq!(wav(&own()), wav(&[b"mute 0\n", &own()[..]].concat()));
    assert_eq!(wav(&vec![0; OPENED + 1]), Err((2, 0)));
    assert_eq!(wav(&vec![0; OPENED]), Err((4, 0)));
}

/// The line before the log, and what is none: then all of it is the log.
#[test]
fn the_mutes_of_a_wav() {
    let silent = [&wav(&own()).unwrap()[..44], &[0; 8]].concat();
    let with = |front: &str, log: &[u8]| wav(&[front.as_bytes(), log].concat());
    assert_eq!(with("mute 1\n", &own()), Ok(silent.clone()));
    assert_eq!(with("mute 0000000063\n", &own()), Ok(silent));
    assert_eq!(with("mute 62\n", &own()), wav(&own()));
    for front in
        ["mute 1", "mute 1\r\n", "Mute 1\n", "mute  1\n", "mute 00000000001\n", "mute 4294967296\n", "mute\n", "\n"]
    {
        assert_eq!(with(front, &own()), Err((4, 0)), "{front:?}");
    }
    assert_eq!(with("mute 1\nmute 1\n", &own()), Err((4, 0)));
    assert_eq!(with("mute 1\n", b""), Err((3, 0)));
    // 1 comes first, and the line is no part of the log
    for front in ["mute 64\n", "mute 4294967295\n"] {
        assert_eq!(with(front, &own()), Err((1, 0)));
        assert_eq!(with(front, b""), Err((1, 0)));
        assert_eq!(with(front, &vec![0; OPENED + 1]), Err((1, 0)));
    }
    assert_eq!(with("mute 63\n", &vec![0; OPENED]), Err((4, 0)));
    assert_eq!(with("mute 63\n", &vec![0; OPENED + 1]), Err((2, 0)));
}

/// The state at each cycle, against the unit stepped by hand.
#[test]
fn entries_due_before() {
    let stop = Write { due: 3, address: 0x580, byte: 1 };
    let play = Write { due: 0, address: 0x400, byte: 0x80 };
    let mut run = Run::new(vec![play, stop]);
    let play_at = |run: &mut Run, cycle| (run.at(cycle).0, run.at(cycle).1.channels[0].play);
    let seen: Vec<_> = (0..6).map(|cycle| play_at(&mut run, cycle)).collect();
    assert_eq!(seen, [(0, 0), (1, 1), (1, 1), (1, 1), (2, 0), (2, 0)]);
    assert_eq!(play_at(&mut run, 20_000), (2, 0));
    assert_eq!(play_at(&mut run, 3), (1, 1));
    assert_eq!(run.frames(479, 480, 0).len(), 1);
    assert_eq!(run.frames(480, 959, 0).len(), 0);
}

/// A volume written in the very cycle that makes a frame, before it: the mutes go by the channel and not by what it had.
#[test]
fn frames_with_mutes() {
    let mut writes = writes(&own());
    writes.push(Write { due: 479, address: 0x404, byte: 0x0F });
    let mut run = Run::new(writes);
    assert_eq!(run.frames(0, 960, 0), [(480, (0, 3648)), (960, (0, 3648))]);
    assert_eq!(run.frames(0, 960, 1), [(480, (0, 0)), (960, (0, 0))]);
    assert_eq!(run.frames(480, 960, 62), [(960, (0, 3648))]);
    assert_eq!(run.at(960).1.channels[0].right, 15);
}

/// 01's own log at cycle 480.
fn unit_at_480() -> State {
    let mut unit = VSU::new();
    own()[16..].chunks(8).for_each(|e| unit.set_u8(e[4] as usize + 256 * e[5] as usize, e[6]));
    unit.step(480, &mut Frames::default());
    read(&unit)
}

/// The memory's sum when a mark at cycle 480 of 01's own log fills the first slot, and only that one.
fn slot_at_480(mutes: u32) -> u32 {
    let image = image_of(&State { mutes, ..unit_at_480() });
    let mut memory = [&[0xE0, 1, 0, 0, 4, 0, 0, 0], &image[..]].concat();
    memory.resize(6_848, 0);
    sum_of(&memory)
}

fn shown(state: &State) -> String {
    let image: String = image_of(state).iter().map(|byte| format!("{byte:02x}")).collect();
    format!("image {image}")
}

#[test]
fn a_session_by_hand() {
    let memory = format!("memory sum {}", slot_at_480(0));
    let image = shown(&power_on());
    // 3648 and 0 fold to 31 × 3648
    let steps = [
        ("memory", "memory sum 0"),
        ("image", &image),
        ("play 480", "played 1 sum 113088 cycle 480 applied 4 marks 0 free 0 taken 4 held 0 none 0"),
        ("set free", "set 0 cycle 480 applied 4 marks 1 free 1"),
        ("memory", &memory),
        ("play 480", "played 1 sum 113088 cycle 960 applied 4 marks 1 free 1 taken 0 held 0 none 0"),
        ("play 0", "played 0 sum 0 cycle 960 applied 4 marks 1 free 1 taken 0 held 0 none 0"),
        ("play 1", "refused 12 0 cycle 960 applied 4 marks 1 free 1"),
        ("goto 0", "went cycle 480 applied 4 marks 1 free 1"),
        ("goto 1", "refused 15 0 cycle 480 applied 4 marks 1 free 1"),
        ("goto 16", "refused 14 0 cycle 480 applied 4 marks 1 free 1"),
        ("clear 4294967295", "refused 14 0 cycle 480 applied 4 marks 1 free 1"),
        ("clear 0", "cleared cycle 480 applied 4 marks 0 free 0"),
        ("memory", &memory),
        ("clear 0", "refused 15 0 cycle 480 applied 4 marks 0 free 0"),
        ("seek 961", "refused 12 0 cycle 480 applied 4 marks 0 free 0"),
        ("seek 1", "sought cycle 1 applied 4 marks 0 free 0"),
        ("seek 0", "sought cycle 0 applied 0 marks 0 free 0"),
        ("image", &image),
        ("set 007", "set 7 cycle 0 applied 0 marks 1 free 0"),
        ("", "unknown"),
        ("seek 960", "sought cycle 960 applied 4 marks 1 free 0"),
    ];
    assert_eq!(hold(&steps), 480 + 480 + 1 + 960);
}

/// The lines that go in and those that come out, over 01's own log; the cycles.
fn hold(steps: &[(&str, &str)]) -> u64 {
    let input: Vec<&str> = steps.iter().map(|(line, _)| *line).collect();
    let answers: Vec<&str> = steps.iter().map(|(_, answer)| *answer).collect();
    let session = session(&own(), input.join("\n").as_bytes());
    assert_eq!(session.lines[0], "open entries 4 cycles 960");
    assert_eq!(session.lines[1..], answers);
    session.cycles
}

/// Kept by play, set, goto, clear and both ways of a seek; stored by set.
#[test]
fn a_session_with_mutes() {
    let memory = format!("memory sum {}", slot_at_480(1));
    let (at_480, at_0) = (shown(&State { mutes: 62, ..unit_at_480() }), shown(&State { mutes: 62, ..power_on() }));
    hold(&[
        ("mute 1", "muted 1 cycle 0 applied 0 marks 0 free 0"),
        ("play 480", "played 1 sum 0 cycle 480 applied 4 marks 0 free 0 taken 4 held 0 none 0"),
        ("set 0", "set 0 cycle 480 applied 4 marks 1 free 1"),
        ("memory", &memory),
        ("mute 62", "muted 62 cycle 480 applied 4 marks 1 free 1"),
        ("play 480", "played 1 sum 113088 cycle 960 applied 4 marks 1 free 1 taken 0 held 0 none 0"),
        ("goto 0", "went cycle 480 applied 4 marks 1 free 1"),
        ("image", &at_480),
        ("play 480", "played 1 sum 113088 cycle 960 applied 4 marks 1 free 1 taken 0 held 0 none 0"),
        ("mute 64", "refused 1 0 cycle 960 applied 4 marks 1 free 1"),
        ("mute 4294967295", "refused 1 0 cycle 960 applied 4 marks 1 free 1"),
        ("mute 4294967296", "unknown"),
        ("clear 0", "cleared cycle 960 applied 4 marks 0 free 0"),
        ("memory", &memory),
        ("seek 0", "sought cycle 0 applied 0 marks 0 free 0"),
        ("image", &at_0),
        ("seek 480", "sought cycle 480 applied 4 marks 0 free 0"),
        ("image", &at_480),
        ("mute 0000000001", "muted 1 cycle 480 applied 4 marks 0 free 0"),
        ("play 480", "played 1 sum 0 cycle 960 applied 4 marks 0 free 0 taken 0 held 0 none 0"),
        ("mute 0", "muted 0 cycle 960 applied 4 marks 0 free 0"),
        ("seek 480", "sought cycle 480 applied 4 marks 0 free 0"),
        ("play 480", "played 1 sum 113088 cycle 960 applied 4 marks 0 free 0 taken 0 held 0 none 0"),
    ]);
}

#[test]
fn sixteen_marks_and_the_frame_buffer() {
    let log = bytes_of(480 * 40_000, &[]);
    let last = |input: &str| session(&log, input.as_bytes()).lines.pop().unwrap();
    assert_eq!(last(&"set free\n".repeat(16)), "set 15 cycle 0 applied 0 marks 16 free 16");
    assert_eq!(last(&"set free\n".repeat(17)), "refused 16 0 cycle 0 applied 0 marks 16 free 16");
    let full = "played 32768 sum 0 cycle 15729119 applied 0 marks 0 free 0 taken 0 held 0 none 0";
    assert_eq!(last("play 15729119"), full);
    assert_eq!(last("play 15729120"), "refused 2 0 cycle 0 applied 0 marks 0 free 0");
    assert_eq!(last("play 479\nplay 15728640"), full);
    assert_eq!(last("play 479\nplay 15728641"), "refused 2 0 cycle 479 applied 0 marks 0 free 0");
    assert_eq!(last("play 4294967295"), "refused 12 0 cycle 0 applied 0 marks 0 free 0");
}

#[test]
fn lines_that_are_no_call() {
    assert_eq!(parse(b"play 4294967295"), Line::Call(Call::Play(u32::MAX)));
    assert_eq!(parse(b"goto 0000000016"), Line::Call(Call::GoTo(16)));
    assert_eq!(parse(b"mute 0000000064"), Line::Call(Call::Mute(64)));
    let none =
        "play 4294967296|play 00000000001|play |play|Play 1|play  1|play\t1|play 1\r|play +1|play -1| play 1|play 1 |\
                image |IMAGE|set Free|set  free|clear free|goto free|seek 1e3|play \u{b2}|play 1\0|\
                mute|mute |mute  1|Mute 1|mute 1 |mutes 1|mute free|mute 0x1|mute 00000000001|mute 4294967296|unmute 1";
    none.split('|').for_each(|line| assert_eq!(parse(line.as_bytes()), Line::Unknown, "{line:?}"));
    assert_eq!(lines(b""), [b""; 0]);
    assert_eq!(lines(b"\n"), [b""]);
    assert_eq!(lines(b"image\n\nset free"), [&b"image"[..], b"", b"set free"]);
    assert_eq!(lines(b"image\r\n"), [b"image\r"]);
}

// How a console is wrong.
faults! {
    /// a seek back sends the writes again, and runs nothing in between
    RegistersAgain,
    /// a play begins with the log's first entry wherever it stands
    FromFirstEntry,
    /// those due at the cycle are counted too
    AppliedOffByOne,
    GoToLeavesState,
    LeftSideOnly,
    RestIsNoLine,
    WritesOneLate,
    ClearWrites,
    ClearedNotUsedAgain,
    RoomWithoutCounter,
    RoomFirst,
    RefusedPlayRuns,
    /// a write is judged when all those of its cycle are made
    JudgedAfterItsCycle,
    /// or before the first of them
    JudgedBeforeItsCycle,
    SpanWithItsEnd,
    SpanWithoutItsStart,
    /// a play's counts begin with those of the last one
    CountsCarriedOver,
    /// or with what was passed over by a seek
    SeekCounts,
    /// an entry that is played again counts no more
    CountedOnce,
    RefusedPlayCounts,
    /// bit k mutes channel k + 1
    MutesTheNext,
    LeftSideMuted,
    RightSideMuted,
    /// a muted channel is stopped
    MuteStops,
    MutedEnvelopeStands,
    MutedSampleStands,
    /// the writes that only muted channels hold off are taken
    MutedHoldsNothing,
    /// new bits are added to those there were
    MutesAdded,
    Takes64,
    /// bits above 63 are cut off
    MutesCut,
    RefusedMuteSets,
    PlayLosesMutes,
    SeekBackLosesMutes,
    SeekOnLosesMutes,
    GoToTakesMutes,
    GoToLosesMutes,
    SetLosesMutes,
    SetStoresNoMutes,
    ImageWithoutMutes,
    MuteCounts,
}

/// A console in the player's own way: the unit is carried along from call to call, a mark is its image.
struct Carried {
    fault: Fault,
    writes: Vec<Write>,
    length: u32,
    unit: Unit,
    cycle: u32,
    applied: usize,
    marks: [bool; MARKS],
    memory: Vec<u8>,
    /// of the entries that the last run came to
    sorts: Vec<Sort>,
    /// as many entries as were ever played
    counted: usize,
}

#[derive(Default)]
struct Sum(u32, u32, bool);

impl Sink<AudioFrame> for Sum {
    fn append(&mut self, (left, right): AudioFrame) {
        let right = if self.2 { 0 } else { right };
        *self = Sum(self.0 + 1, fold(fold(self.1, left as u16 as u32), right as u16 as u32), self.2);
    }
}

impl Carried {
    fn new(fault: Fault, log: &[u8], length: u32) -> Self {
        let memory = vec![0; MARKS * SLOT];
        let (unit, marks) = (Unit::new(), [false; MARKS]);
        let (writes, sorts) = (writes(log), Vec::new());
        Carried { fault, writes, length, unit, cycle: 0, applied: 0, marks, memory, sorts, counted: 0 }
    }

    fn run_to(&mut self, to: u32) -> Sum {
        let mut sum = Sum(0, 0, self.fault == Fault::LeftSideOnly);
        let before = read(&self.unit.rust);
        while self.cycle < to {
            self.write_due();
            self.run_cycle(&mut sum);
            self.cycle += 1;
        }
        self.stand_still(before);
        sum
    }

    /// A frame with mutes is one of a unit whose muted channels do not play.
    fn run_cycle(&mut self, sum: &mut Sum) {
        if self.unit.mutes == 0 || self.cycle % 480 != 479 {
            return self.unit.rust.step(1, sum);
        }
        let (mut all, mut heard) = (Frames::default(), Frames::default());
        let mut state = read(&self.unit.rust);
        (0..6).filter(|&k| self.is_muted(k)).for_each(|k| state.channels[k].play = 0);
        write(&state).step(1, &mut heard);
        self.unit.rust.step(1, &mut all);
        for ((left, right), all) in heard.0.into_iter().zip(all.0) {
            sum.append(match self.fault {
                Fault::LeftSideMuted => (left, all.1),
                Fault::RightSideMuted => (all.0, right),
                _ => (left, right),
            });
        }
    }

    fn is_muted(&self, channel: usize) -> bool {
        let bits = if self.fault == Fault::MutesTheNext { self.unit.mutes << 1 } else { self.unit.mutes };
        bits >> channel & 1 == 1
    }

    /// Of the muted channels, what a faulty run does not move.
    fn stand_still(&mut self, before: State) {
        if !matches!(self.fault, Fault::MutedEnvelopeStands | Fault::MutedSampleStands) {
            return;
        }
        let mut state = read(&self.unit.rust);
        for k in (0..6).filter(|&k| self.is_muted(k)) {
            let (c, old) = (&mut state.channels[k], &before.channels[k]);
            if self.fault == Fault::MutedEnvelopeStands {
                (c.level, c.envelope_step, c.envelope_tick) = (old.level, old.envelope_step, old.envelope_tick);
            } else {
                (c.position, c.shift) = (old.position, old.shift);
            }
        }
        self.unit.rust = write(&state);
    }

    /// Makes the writes that are due, and judges each before it.
    fn write_due(&mut self) {
        let late = u32::from(self.fault == Fault::WritesOneLate);
        let due = self.writes[self.applied..].iter().take_while(|w| w.due + late <= self.cycle).count();
        let group = self.applied..self.applied + due;
        let before = (self.fault == Fault::JudgedBeforeItsCycle).then(|| self.judged(group.clone()));
        let own: Vec<Sort> = group.clone().map(|_| self.write_next()).collect();
        let after = (self.fault == Fault::JudgedAfterItsCycle).then(|| self.judged(group));
        self.sorts.extend(before.or(after).unwrap_or(own));
    }

    fn judged(&self, entries: Range<usize>) -> Vec<Sort> {
        self.writes[entries].iter().map(|w| sort(&self.unit.rust, w.address.into())).collect()
    }

    fn write_next(&mut self) -> Sort {
        let w = self.writes[self.applied];
        let sort = sort(&self.unit.rust, w.address.into());
        if self.fault == Fault::MutedHoldsNothing && sort == Sort::Held {
            self.write_unheard(w);
        }
        self.unit.write(w.address.into(), w.byte);
        self.applied += 1;
        sort
    }

    /// As if the muted channels did not play.
    fn write_unheard(&mut self, w: Write) {
        let plays = read(&self.unit.rust).channels.map(|c| c.play);
        let mut state = read(&self.unit.rust);
        (0..6).filter(|&k| self.is_muted(k)).for_each(|k| state.channels[k].play = 0);
        self.unit.rust = write(&state);
        self.unit.write(w.address.into(), w.byte);
        let mut state = read(&self.unit.rust);
        (0..6).for_each(|k| state.channels[k].play = plays[k]);
        self.unit.rust = write(&state);
    }

    fn play(&mut self, n: u32) -> String {
        let output = if self.fault == Fault::RoomWithoutCounter { 0 } else { self.cycle as u64 % 480 };
        let full = (output + n as u64) / 480 > ROOM;
        let beyond = self.cycle as u64 + n as u64 > self.length as u64;
        if full && (self.fault == Fault::RoomFirst || !beyond) {
            return "refused 2 0".to_string();
        }
        if beyond {
            if self.fault == Fault::RefusedPlayRuns {
                self.run_to(self.length.min(self.cycle + 1));
            }
            return "refused 12 0".to_string();
        }
        if self.fault == Fault::FromFirstEntry {
            self.applied = 0;
        }
        if !matches!(self.fault, Fault::CountsCarriedOver | Fault::SeekCounts) {
            self.sorts.clear();
        }
        let first = self.applied;
        let sum = self.run_to(self.cycle + n);
        self.lose_mutes(Fault::PlayLosesMutes);
        self.miscount(first, self.cycle - n);
        format!("played {} sum {}", sum.0, sum.1)
    }

    /// Spoils the sorts of a play from this entry and this cycle on.
    fn miscount(&mut self, first: usize, from: u32) {
        let due_at = |cycle| self.writes.iter().filter(|w| w.due == cycle).count();
        match self.fault {
            Fault::SpanWithItsEnd => self.sorts.extend(self.judged(self.applied..self.applied + due_at(self.cycle))),
            Fault::SpanWithoutItsStart => drop(self.sorts.drain(..due_at(from).min(self.sorts.len()))),
            Fault::CountedOnce => {
                let again = self.counted.clamp(first, self.applied) - first;
                drop(self.sorts.drain(..again));
            }
            _ => {}
        }
        self.counted = self.counted.max(self.applied);
    }

    fn seek(&mut self, to: u32) -> String {
        if to > self.length {
            return "refused 12 0".to_string();
        }
        if to < self.cycle {
            (self.unit.rust, self.cycle, self.applied) = (VSU::new(), 0, 0);
            self.lose_mutes(Fault::SeekBackLosesMutes);
            if self.fault == Fault::RegistersAgain {
                self.send_again(to);
            }
        }
        if to > self.cycle {
            self.lose_mutes(Fault::SeekOnLosesMutes);
        }
        self.run_to(to);
        "sought".to_string()
    }

    fn lose_mutes(&mut self, fault: Fault) {
        if self.fault == fault {
            self.unit.mutes = 0;
        }
    }

    fn mute(&mut self, bits: u32) -> String {
        let taken = bits <= 63 || self.fault == Fault::Takes64 && bits == 64 || self.fault == Fault::MutesCut;
        if !taken {
            if self.fault == Fault::RefusedMuteSets {
                self.unit.mutes = bits % 64;
            }
            return "refused 1 0".to_string();
        }
        let before = if self.fault == Fault::MutesAdded { self.unit.mutes } else { 0 };
        self.unit.mutes = before | bits % 64;
        if self.fault == Fault::MuteStops {
            let mut state = read(&self.unit.rust);
            (0..6).filter(|&k| self.is_muted(k)).for_each(|k| state.channels[k].play = 0);
            self.unit.rust = write(&state);
        }
        format!("muted {bits}")
    }

    /// The output counter is put right, so that frames come when they are due.
    fn send_again(&mut self, to: u32) {
        while self.applied < self.writes.len() && self.writes[self.applied].due < to {
            self.write_next();
        }
        let mut state = read(&self.unit.rust);
        state.output = to % 480;
        self.unit.rust = write(&state);
        self.cycle = to;
    }

    fn set(&mut self, slot: usize) -> String {
        let head = [self.cycle.to_le_bytes(), (self.applied as u32).to_le_bytes()].concat();
        self.memory[SLOT * slot..][..8].copy_from_slice(&head);
        self.lose_mutes(Fault::SetLosesMutes);
        let state = if self.fault == Fault::SetStoresNoMutes { read(&self.unit.rust) } else { self.unit.state() };
        self.memory[SLOT * slot + 8..][..SLOT - 8].copy_from_slice(&image_of(&state));
        self.marks[slot] = true;
        format!("set {slot}")
    }

    fn go_to(&mut self, slot: usize) -> String {
        let bytes = &self.memory[SLOT * slot..][..SLOT];
        let number = |at: usize| u32::from_le_bytes(bytes[at..at + 4].try_into().unwrap());
        (self.cycle, self.applied) = (number(0), number(4) as usize);
        if self.fault != Fault::GoToLeavesState {
            let marked = from_image(bytes[8..].try_into().unwrap());
            self.unit.rust = marked.rust;
            self.lose_mutes(Fault::GoToLosesMutes);
            if self.fault == Fault::GoToTakesMutes {
                self.unit.mutes = marked.mutes;
            }
        }
        "went".to_string()
    }

    fn free(&self) -> usize {
        if self.fault == Fault::ClearedNotUsedAgain {
            return self.marks.iter().rposition(|&set| set).map_or(0, |last| last + 1);
        }
        self.marks.iter().position(|&set| !set).unwrap_or(MARKS)
    }

    fn call(&mut self, call: Call) -> String {
        match call {
            Call::Play(n) => self.play(n),
            Call::Seek(to) => self.seek(to),
            Call::SetFree if self.free() == MARKS => "refused 16 0".to_string(),
            Call::SetFree => self.set(self.free()),
            Call::Set(slot) | Call::Clear(slot) | Call::GoTo(slot) if slot > 15 => "refused 14 0".to_string(),
            Call::Set(slot) => self.set(slot as usize),
            Call::Clear(slot) | Call::GoTo(slot) if !self.marks[slot as usize] => "refused 15 0".to_string(),
            Call::Clear(slot) => {
                self.marks[slot as usize] = false;
                if self.fault == Fault::ClearWrites {
                    self.memory[SLOT * slot as usize..][..SLOT].fill(0);
                }
                "cleared".to_string()
            }
            Call::GoTo(slot) => self.go_to(slot as usize),
            Call::Mute(bits) => self.mute(bits),
        }
    }

    fn answer(&mut self, line: &[u8]) -> String {
        let call = match parse(line) {
            Line::Call(call) => call,
            Line::Image if self.fault == Fault::ImageWithoutMutes => return shown(&read(&self.unit.rust)),
            Line::Image => return shown(&self.unit.state()),
            Line::Memory => return format!("memory sum {}", sum_of(&self.memory)),
            Line::Unknown => return "unknown".to_string(),
        };
        let done = self.call(call);
        let due = |w: &&Write| w.due == self.cycle && self.fault == Fault::AppliedOffByOne;
        let applied = self.applied + self.writes.iter().filter(due).count();
        let set = self.marks.iter().filter(|&&set| set).count();
        let counts = self.counts(call, done.starts_with("refused"));
        format!("{done} cycle {} applied {applied} marks {set} free {}{counts}", self.cycle, self.free())
    }

    /// At the end of a play's line.
    fn counts(&mut self, call: Call, refused: bool) -> String {
        let counts: Counts = self.sorts.iter().copied().collect();
        match call {
            Call::Play(_) if !refused => {
                if self.fault == Fault::SeekCounts {
                    self.sorts.clear();
                }
                format!(" {counts}")
            }
            Call::Play(_) if self.fault == Fault::RefusedPlayCounts => format!(" {}", Counts::default()),
            Call::Mute(_) if self.fault == Fault::MuteCounts => format!(" {}", Counts::default()),
            _ => String::new(),
        }
    }
}

fn printed(fault: Fault, case: &Case) -> Vec<u8> {
    let Ok((count, length)) = check_sized(&case.log, OPENED) else { return wanted(case).printed.out };
    let mut console = Carried::new(fault, &case.log, length);
    let mut text = format!("open entries {count} cycles {length}\n");
    let mut input = &case.script[..];
    if fault == Fault::RestIsNoLine {
        input = &input[..input.iter().rposition(|&byte| byte == b'\n').map_or(0, |at| at + 1)];
    }
    lines(input).iter().for_each(|line| text += &(console.answer(line) + "\n"));
    text.into_bytes()
}

/// The cases until the console differs, and what differs.
fn found(fault: Fault, cases: usize) -> Option<(usize, String)> {
    let mut r = Numbers::new(1);
    (1..=cases).find_map(|number| {
        let case = case(Kind::Drive, &mut r);
        let got = Printed { out: printed(fault, &case), err: Vec::new() };
        Some((number, different(&case, &wanted(&case).printed, &got)?))
    })
}

/// A player that carries its state along is, call by call, the unbroken run.
#[test]
fn a_console_in_the_players_way_agrees() {
    assert_eq!(found(Fault::None, 150), None);
}

#[test]
fn wrong_consoles_are_found() {
    for &fault in FAULTS {
        let (number, what) = found(fault, 300).unwrap_or_else(|| panic!("{fault:?} is not found"));
        println!("{fault:?}: case {number} {what}");
    }
}

/// The cases come to everything that they are for.
#[test]
fn what_the_cases_hold() {
    let (mut r, mut totals, mut silent, mut heard) = (Numbers::new(7), Totals::new(Kind::Drive), 0, 0);
    let mut mutes = HashSet::new();
    for _ in 0..300 {
        let wanted = wanted(&case(Kind::Drive, &mut r));
        let text = String::from_utf8(wanted.printed.out.clone()).unwrap();
        let of_none = |line: &&str| line.starts_with("played") && !line.starts_with("played 0");
        let (hushed, loud): (Vec<&str>, Vec<&str>) =
            text.lines().filter(of_none).partition(|line| line.contains(" sum 0 "));
        (silent, heard) = (silent + hushed.len(), heard + loud.len());
        mutes.extend(
            text.lines().filter_map(|line| line.strip_prefix("muted ")?.split(' ').next()?.parse::<u32>().ok()),
        );
        totals.add(&wanted);
    }
    println!("{totals}\nplays with frames: {heard} heard, {silent} silent");
    assert_eq!(mutes, (0..64).collect());
    for answer in ["played", "sought", "set", "cleared", "went", "muted", "image", "memory", "unknown"] {
        assert!(totals.answers[answer] > 200, "{answer} is hardly seen");
    }
    for (refusal, least) in [("1", 100), ("2", 20), ("12", 400), ("14", 200), ("15", 300), ("16", 50)] {
        assert!(totals.answers[&format!("refused {refusal}")] > least, "refusal {refusal} is hardly seen");
    }
    assert!(totals.refused > 50 && 3 * totals.refused < 2 * totals.cases);
    assert!(totals.sorts.iter().all(|&entries| entries > 5_000), "a sort is hardly seen");
}
