//! How often each cell and each sight was met, and what should have been.

use std::fmt::Write;

use model::Done;
use naszeptan::{raw, KINDS};

use crate::cells::{self, Before, Call, CALLS, CALL_ROWS, NUMBERS, SHOWN, STATES};
use crate::editions;
use crate::masks::{self, Mask, MASKS};
use crate::{accesses, marks, returns, runs, sessions, sights};

/// From so many events on, all that can be met must be. Of a quarter of them the
/// rarest are met three to five times, so that fewer may miss one by chance.
pub const ALL_MET_FROM: u64 = 1_000_000;

/// How often one cell, mask, sight or call was met, and why it cannot be, if so.
pub(crate) struct Row {
    pub(crate) met: u64,
    pub(crate) name: String,
    pub(crate) why_not: Option<&'static str>,
}

/// All that was met.
#[derive(Clone, PartialEq, Eq, Debug)]
pub struct Counts {
    /// Events compared, by kind (0 for none), state and answer.
    cells: Vec<[[u64; NUMBERS]; STATES]>,
    /// The same events, by kind, state (none if refused) and who failed.
    masks: Vec<[[u64; MASKS]; STATES]>,
    sights: [u64; sights::SIGHTS],
    calls: [[u64; NUMBERS]; CALLS],
    /// What was met of loads and stores by their bytes.
    pub accesses: accesses::Met,
    /// Machines that were refused for their marks.
    pub marks: marks::Met,
    /// What was met of rfid, mtmsrd, SRR0 and SRR1.
    pub returns: returns::Met,
    /// Records done by runs.
    pub records: u64,
    /// What was met of runs.
    pub runs: runs::cells::Met,
    /// What was met of edition two.
    pub editions: editions::cells::Met,
    /// What was met of sessions.
    pub sessions: sessions::cells::Met,
}

impl Default for Counts {
    fn default() -> Counts {
        Counts {
            cells: vec![[[0; NUMBERS]; STATES]; KINDS.len() + 1],
            masks: vec![[[0; MASKS]; STATES]; KINDS.len() + 1],
            sights: [0; sights::SIGHTS],
            calls: [[0; NUMBERS]; CALLS],
            accesses: accesses::Met::default(),
            marks: marks::Met::default(),
            returns: returns::Met::default(),
            records: 0,
            runs: runs::cells::Met::default(),
            editions: editions::cells::Met::default(),
            sessions: sessions::cells::Met::default(),
        }
    }
}

/// The place of a kind. Those that are none share the first.
fn kind_place(kind: u8) -> usize {
    cells::place(kind).map_or(0, |place| place + 1)
}

/// The place of a number. Those past 21 share the last, which no table allows.
pub(crate) fn place(answer: u8) -> usize {
    usize::from(answer).min(NUMBERS - 1)
}

impl Counts {
    /// One event on which both sides agreed, and its sights.
    pub fn event(&mut self, kind: u8, before: Before, answer: u8, sights: &sights::Seen) {
        let before = match answer {
            1 | 2 | 3 | 8 | 9 => Before::Nobody,
            _ => before,
        };
        self.cells[kind_place(kind)][before as usize][place(answer)] += 1;
        if model::answer::is_done(answer) {
            for (bit, count) in self.sights.iter_mut().enumerate() {
                *count += u64::from(sights.has(bit));
            }
        }
    }

    /// Who failed in that event.
    pub fn failed(&mut self, e: raw::Event, before: Before, done: Done) {
        let before = match model::answer::is_done(done.answer) {
            true => before,
            false => Before::Nobody,
        };
        let mask = Mask::of(e.thread, done.failed);
        self.masks[kind_place(e.kind)][before as usize][mask.place()] += 1;
    }

    /// One call on which both sides agreed.
    pub fn call(&mut self, call: Call, answer: u8) {
        self.calls[call as usize][place(answer)] += 1;
    }

    /// All numbers in a fixed order, by which a worker tells what it met.
    pub fn numbers(&self) -> Vec<u64> {
        let cells = self.cells.as_flattened().as_flattened().iter();
        cells
            .chain(self.masks.as_flattened().as_flattened())
            .chain(&self.sights)
            .chain(self.calls.as_flattened())
            .chain(self.accesses.numbers())
            .chain(self.marks.numbers())
            .chain(self.returns.numbers())
            .chain([&self.records])
            .chain(self.runs.numbers())
            .chain(self.editions.numbers())
            .chain(self.sessions.numbers())
            .copied()
            .collect()
    }

    /// Adds what another has met, by its numbers.
    pub fn add(&mut self, numbers: impl IntoIterator<Item = u64>) {
        let cells = self.cells.as_flattened_mut().as_flattened_mut().iter_mut();
        cells
            .chain(self.masks.as_flattened_mut().as_flattened_mut())
            .chain(&mut self.sights)
            .chain(self.calls.as_flattened_mut())
            .chain(self.accesses.numbers_mut())
            .chain(self.marks.numbers_mut())
            .chain(self.returns.numbers_mut())
            .chain([&mut self.records])
            .chain(self.runs.numbers_mut())
            .chain(self.editions.numbers_mut())
            .chain(self.sessions.numbers_mut())
            .zip(numbers)
            .for_each(|(ours, theirs)| *ours += theirs);
    }

    /// How many events were compared.
    pub fn events(&self) -> u64 {
        self.cells.as_flattened().as_flattened().iter().sum()
    }

    /// What is wrong after so many events: what was met and cannot be, and from
    /// [`ALL_MET_FROM`] on what was not met and can.
    pub fn wrong(&self, events: u64) -> Vec<String> {
        let mut wrong = self.impossible();
        if events >= ALL_MET_FROM {
            wrong.extend(self.unmet());
        }
        wrong
    }

    /// What was met and cannot be.
    fn impossible(&self) -> Vec<String> {
        let met = self.all().filter(|row| row.met > 0);
        met.filter_map(|row| {
            let (met, name) = (row.met, &row.name);
            Some(format!("met {met} times: {name}, though {}", row.why_not?))
        })
        .collect()
    }

    /// What could be met and was not.
    pub fn unmet(&self) -> Vec<String> {
        self.all()
            .filter(|row| row.met == 0 && row.why_not.is_none())
            .map(|row| format!("not met: {}", row.name))
            .collect()
    }

    /// Every cell, mask, sight and call, and all of returns, of runs, of edition
    /// two and of sessions.
    fn all(&self) -> impl Iterator<Item = Row> + '_ {
        let sights = self.sights.iter().zip(&sights::ALL);
        let sights = sights.map(|(&met, (_, name, _))| Row {
            met,
            name: name.to_string(),
            why_not: None,
        });
        self.all_cells()
            .chain(self.all_masks())
            .chain(sights)
            .chain(self.all_calls())
            .chain(self.accesses.rows())
            .chain(self.marks.rows())
            .chain(self.returns.rows())
            .chain(self.runs.rows())
            .chain(self.editions.rows())
            .chain(self.sessions.rows())
    }

    fn all_masks(&self) -> impl Iterator<Item = Row> + '_ {
        let kinds = cells::kinds().zip(&self.masks);
        let states = kinds.flat_map(|(kind, states)| {
            Before::ALL.map(|before| (kind, before, &states[before as usize]))
        });
        states.flat_map(|(kind, before, met)| {
            Mask::all().map(|mask| Row {
                met: met[mask.place()],
                name: format!(
                    "{}, {}, failed: {}",
                    cells::name(kind),
                    before.name(),
                    mask.name()
                ),
                why_not: masks::why_not(kind, before, mask),
            })
        })
    }

    fn all_cells(&self) -> impl Iterator<Item = Row> + '_ {
        let kinds = cells::kinds().zip(&self.cells);
        let states = kinds.flat_map(|(kind, states)| {
            Before::ALL.map(|before| (kind, before, &states[before as usize]))
        });
        states.flat_map(|(kind, before, answers)| {
            (0u8..).zip(answers).map(move |(answer, &met)| Row {
                met,
                name: format!("{}, {}, {answer}", cells::name(kind), before.name()),
                why_not: cells::why_not(kind, before, answer),
            })
        })
    }

    fn all_calls(&self) -> impl Iterator<Item = Row> + '_ {
        CALL_ROWS.into_iter().flat_map(|(call, name, can)| {
            let answers = (0u8..).zip(&self.calls[call as usize]);
            answers.map(move |(answer, &met)| Row {
                met,
                name: format!("{name}, {answer}"),
                why_not: (!can.contains(&answer)).then_some("it never gives that"),
            })
        })
    }

    /// The tables. A dot is a cell that cannot be met.
    pub fn tables(&self) -> String {
        let mut text = String::new();
        // Writing to a string does not fail.
        let _ = self.write_cells(&mut text);
        let _ = self.write_masks(&mut text);
        let _ = self.write_calls(&mut text);
        let _ = writeln!(text, "\nsituations met");
        for (met, (_, name, _)) in self.sights.iter().zip(&sights::ALL) {
            let _ = writeln!(text, "{met:>9}  {name}");
        }
        text + &self.accesses.tables()
            + &self.marks.table()
            + &self.returns.tables()
            + &self.runs.table()
            + &self.editions.tables()
            + &self.sessions.tables()
    }

    fn write_cells(&self, text: &mut String) -> std::fmt::Result {
        write!(text, "events, by kind, state before and answer\n{:22}", "")?;
        for answer in SHOWN {
            write!(text, "{answer:>8}")?;
        }
        writeln!(text)?;
        for (kind, states) in cells::kinds().zip(&self.cells) {
            for before in Before::ALL {
                let met = &states[before as usize];
                let can = |answer| cells::why_not(kind, before, answer).is_none();
                if !SHOWN.into_iter().any(can) {
                    continue;
                }
                write!(text, "{:11}{:11}", cells::name(kind), before.name())?;
                for answer in SHOWN {
                    write_cell(text, met[usize::from(answer)], can(answer))?;
                }
                writeln!(text)?;
            }
        }
        Ok(())
    }

    /// Rows of which someone can fail.
    fn write_masks(&self, text: &mut String) -> std::fmt::Result {
        write!(
            text,
            "\nevents done, by kind, state before and who failed\n{:22}",
            ""
        )?;
        for mask in Mask::all() {
            write!(text, "{:>9}", mask.name())?;
        }
        writeln!(text)?;
        for (kind, states) in cells::kinds().zip(&self.masks) {
            for before in Before::ALL {
                let can = |mask| masks::why_not(kind, before, mask).is_none();
                if !Mask::all().into_iter().skip(1).any(can) {
                    continue;
                }
                write!(text, "{:11}{:11}", cells::name(kind), before.name())?;
                for mask in Mask::all() {
                    write!(text, " ")?;
                    write_cell(text, states[before as usize][mask.place()], can(mask))?;
                }
                writeln!(text)?;
            }
        }
        Ok(())
    }

    fn write_calls(&self, text: &mut String) -> std::fmt::Result {
        write!(text, "\ncalls, by answer\n{:22}", "")?;
        for answer in 0..14 {
            write!(text, "{answer:>8}")?;
        }
        writeln!(text)?;
        for (call, name, can) in CALL_ROWS {
            write!(text, "{name:22}")?;
            for answer in 0..14u8 {
                let met = self.calls[call as usize][usize::from(answer)];
                write_cell(text, met, can.contains(&answer))?;
            }
            writeln!(text)?;
        }
        Ok(())
    }
}

pub(crate) fn write_cell(text: &mut String, met: u64, can: bool) -> std::fmt::Result {
    if met == 0 && !can {
        write!(text, "{:>8}", ".")
    } else {
        write!(text, "{met:>8}")
    }
}
