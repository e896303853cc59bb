//! Was the write heard? Document 02 (iii) once more, in other ways: the sorts painted over all addresses, and asked of what the
//! Rust does with a write; a log by hand; and readings that are wrong, which the comparison has to find.

#[macro_use]
mod faults;

use oracle::console::session;
use oracle::digest::Frames;
use oracle::listing::{check_sized, heard, listing, LISTED, OPENED};
use oracle::log::{bytes_of, writes, Write};
use oracle::player::Player;
use oracle::process::Printed;
use oracle::programs::{case, different, wanted, Case, Kind, Totals};
use oracle::random::{self, Numbers};
use oracle::sorts::{sort, Counts, Sort};
use oracle::state::{self, power_on, State};
use oracle::VSU;
use std::collections::BTreeMap;

/// What lies at an address.
#[derive(Clone, Copy, Debug, PartialEq)]
enum Place {
    Wave,
    Modulation,
    Register,
    Nothing,
}

/// Painted from the sentences, one after the other: nothing anywhere, the tables over it, then each channel's own registers, in
/// both halves of its 0x40.
fn painted() -> Vec<Place> {
    let mut map = vec![Place::Nothing; 0x1_0000];
    map[0x000..=0x27F].fill(Place::Wave);
    map[0x280..=0x2FF].fill(Place::Modulation);
    let all = [0x00, 0x04, 0x08, 0x0C, 0x10, 0x14];
    let more: [(usize, &[usize]); 6] =
        [(0x400, &[0x18]), (0x440, &[0x18]), (0x480, &[0x18]), (0x4C0, &[0x18]), (0x500, &[0x18, 0x1C]), (0x540, &[])];
    for (base, own) in more {
        for offset in all.iter().chain(own) {
            map[base + offset] = Place::Register;
            map[base + 0x20 + offset] = Place::Register;
        }
    }
    map[0x580] = Place::Register;
    map
}

/// By what lies there and which of the six play.
fn painted_sort(place: Place, plays: [bool; 6]) -> Sort {
    match place {
        Place::Wave if plays != [false; 6] => Sort::Held,
        Place::Modulation if plays[4] => Sort::Held,
        Place::Nothing => Sort::Absent,
        _ => Sort::Taken,
    }
}

/// Bit k for channel k.
fn set_of(bits: usize) -> [bool; 6] {
    [0, 1, 2, 3, 4, 5].map(|k| bits >> k & 1 == 1)
}

fn with_playing(mut state: State, plays: [bool; 6]) -> State {
    (0..6).for_each(|k| state.channels[k].play = plays[k].into());
    state
}

fn plays(unit: &VSU) -> [bool; 6] {
    state::read(unit).channels.map(|channel| channel.play == 1)
}

/// Which of the six the next cycle stops.
fn stopping(unit: &VSU) -> [bool; 6] {
    let mut next = state::write(&state::read(unit));
    next.step(1, &mut Frames::default());
    [0, 1, 2, 3, 4, 5].map(|k| plays(unit)[k] && !plays(&next)[k])
}

#[test]
fn every_address_whatever_plays() {
    let map = painted();
    let size = |place| map.iter().filter(|&&known| known == place).count();
    assert_eq!((size(Place::Wave), size(Place::Modulation)), (640, 128));
    assert_eq!(size(Place::Register), 2 * (6 * 6 + 5 + 1) + 1);
    for bits in 0..64 {
        let unit = state::write(&with_playing(power_on(), set_of(bits)));
        for (address, &place) in map.iter().enumerate() {
            assert_eq!(sort(&unit, address as u32), painted_sort(place, set_of(bits)), "{address:#x} {bits:06b}");
        }
        // "an address is any 32-bit number"
        for address in (11..32).flat_map(|bit| (0..0x600).map(move |low| 1 << bit | low)) {
            assert_eq!(sort(&unit, address), Sort::Absent, "{address:#x}");
        }
    }
}

/// What a register keeps of a byte is not the same for 0x00 and 0xFF: where both leave the state as it was, nothing was taken. It
/// was held where that is otherwise once all have stopped. 0x580 alone may be taken with nothing to see.
#[test]
fn what_the_rust_does() {
    let mut r = Numbers::new(3);
    for bits in (0..6).map(|k| 1 << k).chain([0, 0b101111, 0b111111]) {
        let now = with_playing(random::state(&mut r), set_of(bits));
        let (unit, still) = (state::write(&now), with_playing(now.clone(), [false; 6]));
        for address in (0..0x700).chain([0x800, 0xC00, 0x1400, 0x1580, 0x8000, 0xFFFF]).filter(|&at| at != 0x580) {
            let seen = match (changes(&now, address), changes(&still, address)) {
                (true, _) => Sort::Taken,
                (false, true) => Sort::Held,
                (false, false) => Sort::Absent,
            };
            assert_eq!(sort(&unit, address as u32), seen, "{address:#x} {bits:06b}");
        }
        assert_eq!((sort(&unit, 0x580), changes(&now, 0x580)), (Sort::Taken, bits != 0));
    }
}

fn changes(state: &State, address: usize) -> bool {
    [0x00, 0xFF].into_iter().any(|byte| {
        let mut unit = state::write(state);
        unit.set_u8(address, byte);
        state::read(&unit) != *state
    })
}

use Sort::{Absent, Held, Taken};

/// Worked by hand from 01 and 02: channel 1 stops by itself after 76,805 cycles, noise by the stop register, channel 5 by its
/// own register and then after 19,201 cycles by a sweep past 2047.
const BY_HAND: [(u32, u16, u8, Sort); 49] = [
    (0, 0x0000, 1, Taken),
    (0, 0x0400, 0xA0, Taken),
    (0, 0x0004, 2, Held), // the start is due in the same cycle, but before
    (0, 0x02FF, 3, Taken),
    (0, 0x0408, 0xFF, Taken),
    (76_804, 0x027F, 4, Held),
    (76_805, 0x027F, 5, Taken),
    (76_805, 0x0540, 0x80, Taken),
    (76_805, 0x027F, 6, Held),
    (76_805, 0x0280, 7, Taken), // noise is no channel 5
    (76_806, 0x0580, 0xFE, Taken),
    (76_806, 0x0080, 8, Held),
    (76_806, 0x0580, 0x01, Taken),
    (76_806, 0x0080, 9, Taken),
    (76_807, 0x0580, 0x01, Taken), // though all have stopped
    (80_000, 0x0280, 10, Taken),
    (80_000, 0x0520, 0x80, Taken), // through the mirror
    (80_000, 0x0280, 11, Held),
    (80_000, 0x0000, 12, Held),
    (80_000, 0x0500, 0x00, Taken),
    (80_000, 0x0280, 13, Taken),
    (80_000, 0x0000, 14, Taken),
    (90_000, 0x0518, 0, Taken),
    (90_000, 0x0538, 0, Taken),
    (90_000, 0x0558, 0, Absent),
    (90_000, 0x0578, 0, Absent),
    (90_000, 0x041C, 0, Absent),
    (90_000, 0x04DC, 0, Absent),
    (90_000, 0x055C, 0, Absent),
    (90_000, 0x057C, 0, Absent),
    (90_000, 0x0405, 0, Absent),
    (90_000, 0x051F, 0, Absent),
    (90_000, 0x0300, 0, Absent),
    (90_000, 0x03FF, 0, Absent),
    (90_000, 0x057F, 0, Absent),
    (90_000, 0x0581, 1, Absent),
    (90_000, 0x05A0, 1, Absent),
    (90_000, 0x0600, 0, Absent),
    (90_000, 0xFFFF, 0, Absent),
    (100_000, 0x050C, 7, Taken),
    (100_000, 0x0514, 0x40, Taken),
    (100_000, 0x053C, 0x18, Taken), // up by the whole, after one interval
    (100_000, 0x0500, 0x80, Taken),
    (119_200, 0x02FC, 15, Held),
    (119_200, 0x0000, 16, Held),
    (119_201, 0x02FC, 17, Taken),
    (119_201, 0x0000, 18, Taken),
    (119_201, 0x0500, 0x80, Taken),
    (119_201, 0x0000, 19, Held),
];

fn log_by_hand() -> Vec<u8> {
    bytes_of(120_000, &BY_HAND.map(|(due, address, byte, _)| Write { due, address, byte }))
}

#[test]
fn a_log_by_hand() {
    let mut expected = String::new();
    for (index, (due, address, byte, sort)) in BY_HAND.into_iter().enumerate() {
        if sort != Taken {
            let word = if sort == Held { "held" } else { "none" };
            expected += &format!("{index} {due} 0x{address:04x} {byte} {word}\n");
        }
    }
    assert!(expected.starts_with("2 0 0x0004 2 held\n5 76804 0x027f 4 held\n"));
    assert!(expected.contains("\n38 90000 0xffff 0 none\n"));
    assert_eq!(heard(&log_by_hand()), expected + "taken 25 held 9 none 15\n");
    let text = listing(&log_by_hand());
    assert_eq!(text.lines().next(), Some("log 1 entries 49 cycles 120000 frames 250 held 9 none 15"));
}

#[test]
fn the_words_of_heard() {
    assert_eq!(heard(&bytes_of(0, &[])), "taken 0 held 0 none 0\n");
    assert_eq!(heard(&bytes_of(480, &[])), "taken 0 held 0 none 0\n");
    assert_eq!(heard(&log_by_hand()[..15]), "refused 3 0\n");
    assert_eq!(heard(&vec![0; OPENED + 1]), "refused 2 0\n");
    assert_eq!(heard(&vec![0; OPENED]), "refused 4 0\n");
    let late = [(47_999, 0x0400, 0x80), (48_000, 0x0018, 63)].map(|(due, address, byte)| Write { due, address, byte });
    assert_eq!(heard(&bytes_of(48_001, &late)), "1 48000 0x0018 63 held\ntaken 1 held 1 none 0\n");
}

/// The counts of a play are those of the entries due from its first cycle up to but not at its end.
#[test]
fn spans_by_hand() {
    let steps = [
        ("play 0", "taken 0 held 0 none 0"),
        ("play 1", "taken 4 held 1 none 0"),
        ("play 76803", "taken 0 held 0 none 0"),
        ("play 1", "taken 0 held 1 none 0"),
        ("play 1", "taken 3 held 1 none 0"),
        ("play 2", "taken 4 held 1 none 0"),
        ("set 3", ""),
        ("play 3192", "taken 0 held 0 none 0"),
        ("play 10000", "taken 5 held 2 none 0"),
        ("play 40000", ""),
        ("play 10001", "taken 6 held 0 none 15"),
        ("goto 3", ""),
        ("play 13192", "taken 5 held 2 none 0"),
        ("seek 80000", ""),
        ("play 10000", "taken 5 held 2 none 0"),
        ("seek 119201", ""),
        ("play 0", "taken 0 held 0 none 0"),
        ("play 799", "taken 3 held 1 none 0"),
        ("seek 119200", ""),
        ("play 1", "taken 0 held 2 none 0"),
        ("seek 0", ""),
        ("play 120000", "taken 25 held 9 none 15"),
    ];
    let input = steps.map(|(line, _)| line).join("\n");
    let lines = session(&log_by_hand(), input.as_bytes()).lines;
    for ((line, counts), answer) in steps.into_iter().zip(&lines[1..]) {
        let said = answer.find("taken ").map_or("", |at| &answer[at..]);
        assert_eq!(said, counts, "{line}: {answer}");
    }
    let whole = "cycle 120000 applied 49 marks 1 free 0 taken 25 held 9 none 15";
    assert!(lines.last().unwrap().ends_with(whole));
    assert_eq!(lines[10], "refused 12 0 cycle 90000 applied 22 marks 1 free 0");
}

#[test]
fn counts_of_sorts() {
    let counts: Counts = [Held, Taken, Absent, Taken, Taken, Absent].into_iter().collect();
    assert_eq!(counts, Counts { taken: 3, held: 1, none: 2 });
    assert_eq!(counts.to_string(), "taken 3 held 1 none 2");
}

// How a reading is wrong.
faults! {
    ModulationHeldByAny,
    ModulationNeverHeld,
    WaveHeldByChannel5,
    WaveNotHeldByNoise,
    /// only by a channel whose bank it is
    WaveHeldByItsBank,
    BankOnNoise,
    SweepOnChannel1,
    SweepOnNoise,
    MirrorAbsent,
    /// the low two bits of an offset do not count
    UnlistedTaken,
    ClearStopAbsent,
    /// 0x580 has a mirror, or the whole of its 0x40
    StopAt5A0,
    StopToEnd,
    /// the table goes on to 0x3FF
    LongTable,
    /// only the low bits of an address count
    AddressCut,
    AbsentIsHeld,
    /// taken is what changes the state
    TakenIfItChanges,
    /// what plays is worked out from the writes: nothing stops by itself
    PlaysByWrites,
    /// judged when all the writes of its cycle are made
    AfterItsCycle,
    /// judged before the first of them
    BeforeItsCycle,
    /// what stops by itself is found out a cycle too late
    StopsOneLate,
    StopsOneEarly,
}

/// A log read in its own way: the unit is run on from due cycle to due cycle, and the sorts are painted.
struct Reading {
    fault: Fault,
    map: Vec<Place>,
    unit: VSU,
    /// by the writes alone
    started: [bool; 6],
    /// what stopped by itself in the cycle before the last writes, and what does so in the one after them
    before: [bool; 6],
    after: [bool; 6],
}

impl Reading {
    fn new(fault: Fault) -> Self {
        let mut map = painted();
        match fault {
            Fault::BankOnNoise => [0x558, 0x578].into_iter().for_each(|at| map[at] = Place::Register),
            Fault::SweepOnChannel1 => [0x41C, 0x43C].into_iter().for_each(|at| map[at] = Place::Register),
            Fault::SweepOnNoise => [0x55C, 0x57C].into_iter().for_each(|at| map[at] = Place::Register),
            Fault::MirrorAbsent => (0x400..0x580).filter(|at| at & 0x20 != 0).for_each(|at| map[at] = Place::Nothing),
            Fault::UnlistedTaken => (0x400..0x580).for_each(|at| map[at] = map[at & 0xFFC]),
            Fault::StopAt5A0 => map[0x5A0] = Place::Register,
            Fault::StopToEnd => map[0x580..0x5C0].fill(Place::Register),
            Fault::LongTable => map[0x280..0x400].fill(Place::Modulation),
            _ => {}
        }
        let [started, before, after] = [[false; 6]; 3];
        Reading { fault, map, unit: VSU::new(), started, before, after }
    }

    fn sorts(&mut self, writes: &[Write]) -> Vec<Sort> {
        let (mut list, mut cycle) = (Vec::new(), 0);
        for group in writes.chunk_by(|a, b| a.due == b.due) {
            self.run(group[0].due - cycle);
            cycle = group[0].due;
            let before: Vec<Sort> = group.iter().map(|&w| self.sort(w)).collect();
            let own: Vec<Sort> = group.iter().map(|&w| self.write(w)).collect();
            let after: Vec<Sort> = group.iter().map(|&w| self.sort(w)).collect();
            list.extend(match self.fault {
                Fault::BeforeItsCycle => before,
                Fault::AfterItsCycle => after,
                _ => own,
            });
        }
        list
    }

    fn run(&mut self, cycles: u32) {
        self.unit.step(cycles.saturating_sub(1) as usize, &mut Frames::default());
        self.before = stopping(&self.unit);
        self.unit.step(cycles.min(1) as usize, &mut Frames::default());
        self.after = stopping(&self.unit);
    }

    /// Its sort, and then the write.
    fn write(&mut self, w: Write) -> Sort {
        let (sort, before) = (self.sort(w), state::read(&self.unit));
        self.unit.set_u8(w.address.into(), w.byte);
        match w.address {
            0x400..=0x57F if w.address % 0x20 == 0 => {
                self.started[usize::from(w.address - 0x400) / 0x40] = w.byte & 0x80 != 0;
            }
            0x580 if w.byte & 1 == 1 => self.started = [false; 6],
            _ => {}
        }
        match sort {
            Taken if self.fault == Fault::TakenIfItChanges && state::read(&self.unit) == before => Held,
            _ => sort,
        }
    }

    fn plays(&self) -> [bool; 6] {
        let plays = plays(&self.unit);
        match self.fault {
            Fault::PlaysByWrites => self.started,
            Fault::StopsOneLate => [0, 1, 2, 3, 4, 5].map(|k| plays[k] || self.before[k]),
            Fault::StopsOneEarly => [0, 1, 2, 3, 4, 5].map(|k| plays[k] && !self.after[k]),
            _ => plays,
        }
    }

    fn sort(&self, w: Write) -> Sort {
        let address = if self.fault == Fault::AddressCut { w.address & 0x7FF } else { w.address };
        let place = self.map[usize::from(address)];
        let plays = self.plays();
        let held_if = |plays: bool| if plays { Held } else { Taken };
        match (self.fault, place) {
            (Fault::ModulationHeldByAny, Place::Modulation) => held_if(plays.contains(&true)),
            (Fault::ModulationNeverHeld, Place::Modulation) => Taken,
            (Fault::WaveHeldByChannel5, Place::Wave) => held_if(plays[4]),
            (Fault::WaveNotHeldByNoise, Place::Wave) => held_if(plays[..5].contains(&true)),
            (Fault::WaveHeldByItsBank, Place::Wave) => {
                let channels = state::read(&self.unit).channels;
                held_if((0..5).any(|k| plays[k] && channels[k].bank == u32::from(w.address / 0x80)))
            }
            (Fault::ClearStopAbsent, _) if w.address == 0x580 && w.byte & 1 == 0 => Absent,
            (Fault::AbsentIsHeld, Place::Nothing) => Held,
            _ => painted_sort(place, plays),
        }
    }
}

/// What a program with this reading prints. Of the listing only the counts are its own.
fn printed(fault: Fault, case: &Case, expected: &[u8]) -> Vec<u8> {
    let most = if case.kind == Kind::List { LISTED } else { OPENED };
    if check_sized(&case.log, most).is_err() {
        return expected.to_vec();
    }
    let writes = writes(&case.log);
    let sorts = Reading::new(fault).sorts(&writes);
    let count = |sort| sorts.iter().filter(|&&known| known == sort).count();
    let (taken, held, none) = (count(Taken), count(Held), count(Absent));
    let mut text = String::new();
    if case.kind == Kind::List {
        let expected = String::from_utf8(expected.to_vec()).unwrap();
        let (before, after) = expected.split_once(" held ").unwrap();
        text = format!("{before} held {held} none {none}\n{}", after.split_once('\n').unwrap().1);
    } else {
        let unheard = writes.iter().zip(&sorts).enumerate().filter(|(_, (_, sort))| **sort != Taken);
        for (index, (w, sort)) in unheard {
            let word = ["held", "none"][usize::from(*sort == Absent)];
            text += &format!("{index} {} {:#06x} {} {word}\n", w.due, w.address, w.byte);
        }
        text += &format!("taken {taken} held {held} none {none}\n");
    }
    text.into_bytes()
}

/// The cases until the reading differs, and what differs.
fn found(fault: Fault, kind: Kind, cases: usize) -> Option<(usize, String)> {
    let mut r = Numbers::new(1);
    (1..=cases).find_map(|number| {
        let case = case(kind, &mut r);
        let wanted = wanted(&case).printed;
        let got = Printed { out: printed(fault, &case, &wanted.out), err: Vec::new() };
        Some((number, different(&case, &wanted, &got)?))
    })
}

#[test]
fn a_reading_in_its_own_way_agrees() {
    assert_eq!(found(Fault::None, Kind::Heard, 150), None);
    assert_eq!(found(Fault::None, Kind::List, 150), None);
}

#[test]
fn wrong_readings_are_found() {
    for &fault in FAULTS {
        for kind in [Kind::Heard, Kind::List] {
            let (number, what) = found(fault, kind, 300).unwrap_or_else(|| panic!("{fault:?} is not found"));
            println!("{fault:?}: {kind:?} case {number} {what}");
        }
    }
}

/// The cases come to everything that they are for.
#[test]
fn what_the_cases_hold() {
    let (mut r, mut totals, mut seen) = (Numbers::new(7), Totals::new(Kind::Heard), BTreeMap::new());
    for _ in 0..400 {
        let case = case(Kind::Heard, &mut r);
        let wanted = wanted(&case);
        totals.add(&wanted);
        // a log at the limit of size would hide what the others hold
        if wanted.accepted && case.log.len() < LISTED {
            meetings(&writes(&case.log)).into_iter().for_each(|met| *seen.entry(met).or_insert(0) += 1);
        }
    }
    println!("{totals}");
    seen.iter().for_each(|(met, times)| println!("{met}: {times}"));
    for met in EXPECTED.split('|') {
        assert!(seen.get(met).is_some_and(|&times| times > 5), "{met} is hardly seen");
    }
}

/// Plays begin and end at entries that were not taken, and a cycle before and after them.
#[test]
fn where_plays_begin_and_end() {
    let (mut r, mut seen) = (Numbers::new(7), BTreeMap::new());
    for _ in 0..60 {
        let case = case(Kind::Drive, &mut r);
        let Ok((mut player, _, length)) = Player::open(&case.log) else { continue };
        let (unheard, mut from) = (player.unheard(length.min(1_000_000)), 0);
        for line in session(&case.log, &case.script).lines {
            let Some((_, rest)) = line.split_once(" cycle ") else { continue };
            let to: u32 = rest.split(' ').next().unwrap().parse().unwrap();
            for (end, at) in [("begins", from), ("ends", to)].into_iter().filter(|_| line.starts_with("played")) {
                for (near, due) in [("before", at + 1), ("at", at), ("after", at.wrapping_sub(1))] {
                    *seen.entry(format!("{end} {near}")).or_insert(0) += usize::from(unheard.contains(&due));
                }
            }
            from = to;
        }
    }
    println!("{seen:?}");
    assert!(seen.len() == 6 && seen.values().all(|&times| times > 20));
}

const EXPECTED: &str =
    "Wave, none plays|Wave, channel 5 plays|Wave, noise plays|Wave, another plays|Wave, several play|\
    Modulation, none plays|Modulation, channel 5 plays|Modulation, noise plays|Modulation, another plays|\
    Modulation, several play|held then taken in one cycle|taken then held in one cycle|channel 5 stops by itself|\
    noise stops by itself|another stops by itself|register in a mirror|stop, bit 0 set|stop, bit 0 clear|0x18 of noise|\
    0x1C of another|offset not listed|0x300 to 0x3FF|0x581 to 0x5FF|0x600 and on";

/// What the entries of a log meet, by name.
fn meetings(writes: &[Write]) -> Vec<String> {
    let (mut reading, mut list, mut cycle) = (Reading::new(Fault::None), Vec::new(), 0);
    // the last write to each of the two tables, and what played after the last of all
    let (mut last, mut played) = ([None; 2], [false; 6]);
    for &w in writes {
        reading.run(w.due - cycle);
        let (place, now) = (reading.map[usize::from(w.address)], plays(&reading.unit));
        let sort = reading.write(w);
        list.push(met(w, place, now));
        if let Some(table) = [Place::Wave, Place::Modulation].iter().position(|&table| table == place) {
            match last[table] {
                Some((due, Held)) if due == w.due && sort == Taken => list.push("held then taken in one cycle".into()),
                Some((due, Taken)) if due == w.due && sort == Held => list.push("taken then held in one cycle".into()),
                Some((due, Held)) if due + 1 == w.due && sort == Taken => {
                    let stopped = (0..6).filter(|&k| played[k] && !now[k]);
                    list.extend(stopped.map(|k| format!("{} stops by itself", named(k))));
                }
                _ => {}
            }
            last[table] = Some((w.due, sort));
        }
        (cycle, played) = (w.due, plays(&reading.unit));
    }
    list
}

fn met(w: Write, place: Place, plays: [bool; 6]) -> String {
    let who: Vec<usize> = (0..6).filter(|&k| plays[k]).collect();
    match (place, w.address) {
        (Place::Wave | Place::Modulation, _) => match who[..] {
            [] => format!("{place:?}, none plays"),
            [channel] => format!("{place:?}, {} plays", named(channel)),
            _ => format!("{place:?}, several play"),
        },
        (_, 0x580) if w.byte & 1 == 0 => "stop, bit 0 clear".into(),
        (_, 0x580) => "stop, bit 0 set".into(),
        (Place::Register, address) if address & 0x20 != 0 => "register in a mirror".into(),
        (Place::Register, _) => "register".into(),
        (_, 0x558 | 0x578) => "0x18 of noise".into(),
        (_, 0x400..=0x57F) if w.address % 0x20 == 0x1C => "0x1C of another".into(),
        (_, 0x400..=0x57F) => "offset not listed".into(),
        (_, 0x300..=0x3FF) => "0x300 to 0x3FF".into(),
        (_, 0x581..=0x5FF) => "0x581 to 0x5FF".into(),
        _ => "0x600 and on".into(),
    }
}

fn named(channel: usize) -> &'static str {
    match channel {
        4 => "channel 5",
        5 => "noise",
        _ => "another",
    }
}
