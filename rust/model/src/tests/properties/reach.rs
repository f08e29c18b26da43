//! The generators are to reach everything: each kind in each state, done and
//! not, and each special case of an access.

use std::collections::{BTreeMap, BTreeSet};

use super::*;
use crate::tape::LAST_KIND;
use crate::Msr;

#[test]
fn reach() {
    let mut seen = Seen::default();
    let mut rng = Rng::new(77);
    for _ in 0..120_000 {
        seen.event(&Stepped::draw(&mut rng));
    }
    let wanted = wanted();
    let rare: Vec<_> = wanted
        .iter()
        .map(|w| (w, seen.0.get(w).copied().unwrap_or(0)))
        .filter(|&(_, n)| n < 8)
        .collect();
    assert!(rare.is_empty(), "{rare:#?}");
}

/// Every cell of the table of rule E0.11 for both kinds, doomed or not and with
/// either PR asked, and T with all that can be asked.
#[test]
fn reach_of_what_is_asked() {
    let mut met = BTreeMap::<_, usize>::new();
    let mut rng = Rng::new(78);
    for _ in 0..360_000 {
        let s = Stepped::draw(&mut rng);
        if s.thread >= s.before.m.count || s.before.thread(s.thread).pr {
            continue;
        }
        let t = s.before.thread(s.thread);
        let asked = match s.e {
            Event::Rfid => Msr::of(t.srr1),
            Event::Mtmsrd { ts, tm, pr } => Msr { ts, tm, pr },
            _ => continue,
        };
        let cell = (s.e.kind(), class(t), t.tm, asked.ts, asked.tm, asked.pr);
        *met.entry(cell).or_default() += 1;
    }
    // Two kinds, N, T, S live and S doomed, either TM, and sixteen to ask for.
    assert_eq!(met.len(), 2 * 4 * 2 * 16, "{met:#?}");
    let rare: BTreeSet<_> = met.iter().filter(|(_, times)| **times < 4).collect();
    assert!(rare.is_empty(), "{rare:#?}");
}

fn class(t: &Thread) -> &'static str {
    match (t.state, t.doomed) {
        (State::N, _) => "N",
        (State::T, _) => "T",
        (State::S, false) => "S live",
        (State::S, true) => "S doomed",
    }
}

/// How often each thing was seen.
#[derive(Default)]
struct Seen(BTreeMap<String, usize>);

impl Seen {
    fn note(&mut self, what: impl Into<String>) {
        *self.0.entry(what.into()).or_default() += 1;
    }

    fn event(&mut self, s: &Stepped) {
        let number = s.number;
        self.note(format!("answer {number}"));
        if s.thread >= s.before.m.count {
            return;
        }
        let (t, after) = s.own();
        let kind = s.e.kind();
        self.note(format!("kind {kind} in {}", class(t)));
        self.note(format!("kind {kind} in {}: {number}", class(t)));
        let done_in_t = number == 0 && t.state == State::T;
        match s.e {
            Event::Ld { index, .. } => self.access(s, "ld", index, 0xFF),
            Event::Std { index, .. } => self.access(s, "std", index, 0xFF),
            Event::Lbz { address, .. } => self.narrow(s, "lbz", address, 1),
            Event::Lhz { address, .. } => self.narrow(s, "lhz", address, 2),
            Event::Lwz { address, .. } => self.narrow(s, "lwz", address, 4),
            Event::Stb { address, .. } => self.narrow(s, "stb", address, 1),
            Event::Sth { address, .. } => self.narrow(s, "sth", address, 2),
            Event::Stw { address, .. } => self.narrow(s, "stw", address, 4),
            Event::Tlbie { page } if matches!(number, 0 | 21) => self.tlbie(s, page),
            Event::Tbegin { r } if done_in_t => {
                self.note(format!("nested to {}", after.level()));
                self.note(format!("nested, rot {}, R {r}", t.rot()));
            }
            Event::Tbegin { r } if number == 20 => {
                self.note(format!("too deep, rot {}, R {r}", t.rot()));
            }
            Event::Tend { .. } if done_in_t => {
                if after.state == State::N && t.log[..t.count].iter().any(|e| e.marks != 0xFF) {
                    self.note("tend of a doubleword stored in part");
                }
                self.note(format!("tend to {:?}, rot {}", after.state, t.rot()));
            }
            _ => {}
        }
    }

    /// An access of some bytes at an address that may be no right one.
    fn narrow(&mut self, s: &Stepped, name: &str, address: u32, width: u32) {
        let end = 8 * s.before.mem.len() as u32;
        if address % width != 0 {
            let past = address >= end;
            self.note(format!("{name} at no multiple, past the end {past}"));
            return;
        }
        for (at, what) in [(end.wrapping_sub(width), "last"), (end, "first past")] {
            if address == at {
                self.note(format!("{name} at the {what} address"));
            }
        }
        let marks = (0xFF >> (8 - width) << (8 - width - address % 8)) as u8;
        self.access(s, name, address / 8, marks);
        if answer::is_done(s.number) {
            self.note(format!("{name} at byte {}", address % 8));
        }
    }

    /// How an access meets the bytes that its doubleword has in the log.
    fn meets_marks(&mut self, s: &Stepped, name: &str, index: u32, marks: u8) {
        let t = s.before.thread(s.thread);
        let logged = t.log[..t.count].iter().find(|e| e.index == index);
        let Some(stored) = logged.map(|e| e.marks).filter(|_| t.is_live()) else {
            return;
        };
        let how = match (stored & marks, marks & !stored) {
            (0, _) => "beside what is stored",
            (_, 0) => "within what is stored",
            _ => "across what is stored",
        };
        self.note(format!("{name} in {} {how}", class(t)));
    }

    fn access(&mut self, s: &Stepped, name: &str, index: u32, marks: u8) {
        if index as usize >= s.before.mem.len() || !answer::is_done(s.number) {
            return;
        }
        if s.number == 20 {
            self.overflow(s, name, index as usize / 16);
        } else {
            self.access_made(s, name, index);
            self.meets_marks(s, name, index, marks);
            self.victims(s, name);
        }
    }

    fn tlbie(&mut self, s: &Stepped, page: u32) {
        self.victims(s, "tlbie");
        let page = page as usize;
        if 512 * (page + 1) > s.before.mem.len() {
            self.note("tlbie of a page that ends past the memory");
        }
        for n in (0..s.before.m.count).filter(|&n| s.before.thread(n).is_live()) {
            let (t, whose) = (
                s.before.thread(n),
                if n == s.thread { "own" } else { "another" },
            );
            let lines = (0..256).filter(|&l| has(t, l));
            let (within, beside): (Vec<_>, Vec<_>) = lines.partition(|l| l / 32 == page);
            let last = 32 * page + 31;
            if within.is_empty() && beside.contains(&(last + 1)) {
                self.note(format!("tlbie below the first line of {whose}"));
            }
            if within.is_empty() && beside.contains(&last.wrapping_sub(32)) {
                self.note(format!("tlbie above the last line of {whose}"));
            }
            if within == [last] || within == [32 * page] {
                self.note(format!("tlbie at the border of {whose}"));
            }
            if !within.is_empty() && within.iter().all(|&l| !t.writes.contains(l)) {
                self.note(format!("tlbie of lines only read by {whose}"));
            }
            if t.rot() && within.is_empty() {
                self.note(format!("tlbie spares a ROT of {whose}"));
            }
        }
    }

    fn overflow(&mut self, s: &Stepped, name: &str, line: usize) {
        let t = s.before.thread(s.thread);
        let lines = !has(t, line) && t.footprint() == 32;
        let places = t.count == 64;
        self.note(format!("{name} overflow: lines {lines}, places {places}"));
        let hits = s.others().any(|n| has(s.before.thread(n), line));
        self.note(format!("{name} overflow at another's line: {hits}"));
    }

    fn access_made(&mut self, s: &Stepped, name: &str, index: u32) {
        let t = s.before.thread(s.thread);
        let mine = has(t, index as usize / 16);
        let logged = t.log[..t.count].iter().any(|e| e.index == index);
        self.note(format!(
            "{name} in {}: own line {mine}, logged {logged}",
            class(t)
        ));
        if t.footprint() == 32 && t.state == State::T {
            self.note(format!("{name} at 32: own line {mine}, rot {}", t.rot()));
        }
        if t.count == 64 && t.state == State::T {
            self.note(format!("{name} at 64: logged {logged}"));
        }
    }

    /// The other threads that an access fails.
    fn victims(&mut self, s: &Stepped, name: &str) {
        let t = s.before.thread(s.thread);
        let mut victims = 0;
        for n in s.others().filter(|&n| s.each(n).0 != s.each(n).1) {
            victims += 1;
            let victim = class(s.before.thread(n));
            self.note(format!("{name} in {} fails {victim}", class(t)));
            if s.number == 21 {
                self.note("own failure and another's");
            }
            if t.rot() && name == "ld" && t.state == State::T {
                self.note("rot load fails another");
            }
        }
        self.note(format!("{name}: {victims} victims"));
    }
}

/// Whether the thread has the line in either set.
fn has(t: &Thread, line: usize) -> bool {
    t.reads.contains(line) || t.writes.contains(line)
}

const STATES: [&str; 4] = ["N", "T", "S live", "S doomed"];
const LIVE: [&str; 2] = ["T", "S live"];

/// Answers that a kind has in a state besides that of `of_kind`.
const OTHER_ANSWERS: [(u8, &str, u8); 24] = [
    (1, "T", 20),
    (4, "T", 20),
    (5, "T", 20),
    (4, "S live", 21),
    (5, "S live", 21),
    (6, "S doomed", 0),
    (13, "S live", 21),
    (12, "T", 20),
    (13, "T", 20),
    (18, "S live", 13),
    (18, "S doomed", 20),
    (19, "S live", 13),
    (19, "S doomed", 20),
    (26, "S live", 21),
    (26, "S live", 4),
    (20, "T", 20),
    (21, "T", 20),
    (22, "T", 20),
    (23, "T", 20),
    (24, "T", 20),
    (25, "T", 20),
    (23, "S live", 21),
    (24, "S live", 21),
    (25, "S live", 21),
];

const SPECIAL: [&str; 39] = [
    "std overflow: lines false, places true",
    "std overflow: lines true, places true",
    "ld at 32: own line false, rot true",
    "std at 64: logged true",
    "ld at 64: logged false",
    "ld: 1 victims",
    "std: 1 victims",
    "std: 2 victims",
    "std: 3 victims",
    "own failure and another's",
    "rot load fails another",
    "nested, rot false, R false",
    "nested, rot false, R true",
    "nested, rot true, R false",
    "nested, rot true, R true",
    "too deep, rot false, R false",
    "too deep, rot false, R true",
    "too deep, rot true, R false",
    "too deep, rot true, R true",
    "tend to N, rot false",
    "tend to N, rot true",
    "tend to T, rot false",
    "tend to T, rot true",
    "tlbie: 0 victims",
    "tlbie: 1 victims",
    "tlbie: 2 victims",
    "tlbie: 3 victims",
    "tlbie of a page that ends past the memory",
    "tlbie below the first line of own",
    "tlbie below the first line of another",
    "tlbie above the last line of own",
    "tlbie above the last line of another",
    "tlbie at the border of own",
    "tlbie at the border of another",
    "tlbie of lines only read by own",
    "tlbie of lines only read by another",
    "tlbie spares a ROT of own",
    "tlbie spares a ROT of another",
    "tend of a doubleword stored in part",
];

/// All that is to be seen often enough.
fn wanted() -> Vec<String> {
    let answers = [0, 20, 21, 3, 4, 5, 11, 12, 13].map(|number| format!("answer {number}"));
    let kinds = (1..=LAST_KIND).flat_map(|kind| STATES.map(|state| of_kind(kind, state)));
    let others =
        OTHER_ANSWERS.map(|(kind, state, number)| format!("kind {kind} in {state}: {number}"));
    let levels = [2, 3, MAX_LEVEL].map(|level| format!("nested to {level}"));
    let accesses = ["ld", "std"].into_iter().flat_map(of_access);
    let narrow = [
        ("lbz", 1),
        ("stb", 1),
        ("lhz", 2),
        ("sth", 2),
        ("lwz", 4),
        ("stw", 4),
    ];
    let narrow = narrow
        .into_iter()
        .flat_map(|(name, width)| of_narrow(name, width));
    let mut wanted = answers.to_vec();
    wanted.extend(kinds.flatten());
    wanted.extend(others);
    wanted.extend(levels);
    wanted.extend(accesses);
    wanted.extend(narrow);
    wanted.extend(victims_of_a_tlbie());
    wanted.extend(SPECIAL.map(String::from));
    wanted
}

/// A kind in a state, and an answer that it has there if it is ever done there.
fn of_kind(kind: u8, state: &str) -> Vec<String> {
    let reached = format!("kind {kind} in {state}");
    let done = match (kind, state) {
        // Refused there always.
        (2 | 9, "S live" | "S doomed") | (9 | 10 | 17, "T") | (8, "N") => {
            return vec![reached];
        }
        (3 | 15 | 18 | 19 | 26, "T") => 20,
        (3, "S live") => 21,
        (6, "S doomed") => 20,
        _ => 0,
    };
    let answered = format!("{reached}: {done}");
    vec![reached, answered]
}

/// In T a tlbie has none.
fn victims_of_a_tlbie() -> impl Iterator<Item = String> {
    ["N", "S live", "S doomed"]
        .into_iter()
        .flat_map(|state| LIVE.map(|victim| format!("tlbie in {state} fails {victim}")))
}

/// Each place in a doubleword, each way to meet what is stored of it, and the
/// addresses at the end of the memory and those that are no multiples.
fn of_narrow(name: &str, width: usize) -> Vec<String> {
    let mut wanted: Vec<_> = (0..8)
        .step_by(width)
        .map(|k| format!("{name} at byte {k}"))
        .collect();
    for state in LIVE {
        wanted.push(format!("{name} in {state} beside what is stored"));
        wanted.push(format!("{name} in {state} within what is stored"));
        if width > 1 {
            wanted.push(format!("{name} in {state} across what is stored"));
        }
    }
    for what in ["last", "first past"] {
        wanted.push(format!("{name} at the {what} address"));
    }
    if width > 1 {
        let past = [false, true].map(|past| format!("{name} at no multiple, past the end {past}"));
        wanted.extend(past);
    }
    wanted.push(format!("{name} overflow: lines true, places false"));
    let victims = LIVE.map(|victim| format!("{name} in T fails {victim}"));
    wanted.extend(victims);
    wanted
}

fn of_access(name: &str) -> Vec<String> {
    let limits = [
        format!("{name} overflow at another's line: true"),
        format!("{name} overflow: lines true, places false"),
        format!("{name} at 32: own line true, rot false"),
    ];
    let victims = STATES
        .into_iter()
        .flat_map(|state| LIVE.map(|victim| format!("{name} in {state} fails {victim}")));
    // In S a store to an own line gives 21, and is noted too.
    let lines = LIVE.into_iter().flat_map(|state| {
        [(true, true), (true, false), (false, false)]
            .map(|(mine, logged)| format!("{name} in {state}: own line {mine}, logged {logged}"))
    });
    limits.into_iter().chain(victims).chain(lines).collect()
}
