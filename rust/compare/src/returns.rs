//! The ways back from an interrupt, cell by cell: rfid and mtmsrd by the state
//! before and what is asked (rule E0.11), mtspr and mfspr of SRR0 and SRR1 by
//! the state, PR and TM (rules E10 and E11). Read by hand from docs/RULES.md, as
//! is the one answer that each cell has.

use std::fmt::{self, Write};

use model::{Event, Machine, Msr, State, Thread};

use crate::cells::name;
use crate::counts::Row;

/// What is asked, as TS and TM.
const ASKED: [&str; 8] = ["N,0", "N,1", "S,0", "S,1", "T,0", "T,1", "11,0", "11,1"];

/// Where a privileged thread stands, and the answer to each that it may ask.
#[rustfmt::skip]
const FROM: [(&str, [u8; ASKED.len()]); 8] = [
    ("N, TM = 0",         [ 0,  0, 13, 13, 13, 13, 13, 13]),
    ("N, TM = 1",         [ 0,  0, 13, 13, 13, 13, 13, 13]),
    ("S, TM = 0",         [ 0, 13,  0,  0, 13,  0, 13, 13]),
    ("S, TM = 1",         [13, 13,  0,  0, 13,  0, 13, 13]),
    ("S, TM = 0, doomed", [ 0, 13,  0,  0, 13, 20, 13, 13]),
    ("S, TM = 1, doomed", [13, 13,  0,  0, 13, 20, 13, 13]),
    ("T, TM = 0",         [20; ASKED.len()]),
    ("T, TM = 1",         [20; ASKED.len()]),
];

/// Kinds that ask.
const ASKING: [u8; 2] = [18, 19];
/// Cells of rfid and mtmsrd: each with PR asked 0 and 1.
const ASKS: usize = ASKING.len() * FROM.len() * ASKED.len() * 2;

/// The kinds of mtspr and mfspr.
const MOVING: [u8; 2] = [10, 11];
const SPRS: [(u8, &str); 2] = [(26, "SRR0"), (27, "SRR1")];
const STATES: [&str; 3] = ["N", "T", "S"];
/// PR and TM.
const FLAGS: [&str; 4] = ["PR=0 TM=0", "PR=0 TM=1", "PR=1 TM=0", "PR=1 TM=1"];
/// Cells of mtspr and mfspr.
const MOVES: usize = MOVING.len() * SPRS.len() * STATES.len() * FLAGS.len();

const CELLS: usize = ASKS + MOVES;

/// The place of an event by this thread, if it is one of these. Where the
/// thread has PR = 1 nothing is asked: 12 comes first.
pub fn place(m: &Machine, thread: u8, e: Event) -> Option<usize> {
    let thread = usize::from(thread);
    let t = m.threads.get(thread).filter(|_| thread < m.count)?;
    match e {
        Event::Rfid => asks(0, t, Msr::of(t.srr1)),
        Event::Mtmsrd { ts, tm, pr } => asks(1, t, Msr { ts, tm, pr }),
        Event::Mtspr { spr, ra } if ra < 32 => moves(0, t, spr),
        Event::Mfspr { rt, spr } if rt < 32 => moves(1, t, spr),
        _ => None,
    }
}

fn asks(kind: usize, t: &Thread, asked: Msr) -> Option<usize> {
    if t.pr {
        return None;
    }
    let state = match (t.state, t.doomed) {
        (State::N, _) => 0,
        (State::S, false) => 1,
        (State::S, true) => 2,
        (State::T, _) => 3,
    };
    let from = 2 * state + usize::from(t.tm);
    let column = 2 * usize::from(asked.ts) + usize::from(asked.tm);
    let cell = (kind * FROM.len() + from) * ASKED.len() + column;
    Some(2 * cell + usize::from(asked.pr))
}

fn moves(kind: usize, t: &Thread, spr: u8) -> Option<usize> {
    let spr = SPRS.iter().position(|(number, _)| *number == spr)?;
    let state = match t.state {
        State::N => 0,
        State::T => 1,
        State::S => 2,
    };
    let flags = 2 * usize::from(t.pr) + usize::from(t.tm);
    let row = (kind * SPRS.len() + spr) * STATES.len() + state;
    Some(ASKS + row * FLAGS.len() + flags)
}

/// The answer that a cell has, and its name.
fn cell(place: usize) -> (u8, String) {
    match place.checked_sub(ASKS) {
        None => {
            let (cell, pr) = (place / 2, place % 2);
            let (row, column) = (cell / ASKED.len(), cell % ASKED.len());
            let (from, answers) = FROM[row % FROM.len()];
            let kind = name(ASKING[row / FROM.len()]);
            let (answer, asked) = (answers[column], ASKED[column]);
            (answer, format!("{kind}, {from}, asks {asked}, PR {pr}"))
        }
        Some(place) => {
            let (row, flags) = (place / FLAGS.len(), place % FLAGS.len());
            let (which, state) = (row / STATES.len(), row % STATES.len());
            let kind = MOVING[which / SPRS.len()];
            let answer = match (kind, STATES[state]) {
                _ if flags >= 2 => 12,
                (10, "T") => 13,
                _ => 0,
            };
            let (_, spr) = SPRS[which % SPRS.len()];
            let (kind, state, flags) = (name(kind), STATES[state], FLAGS[flags]);
            (answer, format!("{kind} {spr}, {state}, {flags}"))
        }
    }
}

/// How often each cell was met, with its answer and with another.
#[derive(Clone, PartialEq, Eq, Debug)]
pub struct Met {
    right: [u64; CELLS],
    other: [u64; CELLS],
}

impl Default for Met {
    fn default() -> Met {
        Met {
            right: [0; CELLS],
            other: [0; CELLS],
        }
    }
}

impl Met {
    /// One event on which both sides agreed, and its place if it has one. What
    /// is refused before its thread is looked at is none.
    pub fn note(&mut self, place: Option<usize>, answer: u8) {
        match place {
            Some(place) if !matches!(answer, 1 | 2) => match cell(place).0 == answer {
                true => self.right[place] += 1,
                false => self.other[place] += 1,
            },
            _ => {}
        }
    }

    /// All numbers in a fixed order.
    pub fn numbers(&self) -> impl Iterator<Item = &u64> {
        self.right.iter().chain(&self.other)
    }

    /// The same, to be changed.
    pub fn numbers_mut(&mut self) -> impl Iterator<Item = &mut u64> {
        self.right.iter_mut().chain(&mut self.other)
    }

    /// Every cell, with its answer and with another.
    pub(crate) fn rows(&self) -> impl Iterator<Item = Row> + '_ {
        (0..CELLS).flat_map(|place| {
            let (answer, name) = cell(place);
            let right = Row {
                met: self.right[place],
                name: format!("{name}: {answer}"),
                why_not: None,
            };
            let other = Row {
                met: self.other[place],
                name: format!("{name}: not {answer}"),
                why_not: Some("the rules give that answer"),
            };
            [right, other]
        })
    }

    /// The tables.
    pub fn tables(&self) -> String {
        let mut text = String::new();
        // Writing to a string does not fail.
        let _ = self.write_asks(&mut text);
        let _ = self.write_moves(&mut text);
        text
    }

    fn write_asks(&self, text: &mut String) -> fmt::Result {
        head(
            text,
            "rfid and mtmsrd, by the state before and what is asked",
            &ASKED,
        )?;
        let rows = self.right[..ASKS].chunks(2 * ASKED.len()).enumerate();
        for (row, met) in rows {
            let kind = name(ASKING[row / FROM.len()]);
            let (from, _) = FROM[row % FROM.len()];
            write!(text, "{:28}", format!("{kind} {from}"))?;
            for with_pr in met.chunks(2) {
                write!(text, "{:>11}", with_pr.iter().sum::<u64>())?;
            }
            writeln!(text)?;
        }
        Ok(())
    }

    fn write_moves(&self, text: &mut String) -> fmt::Result {
        head(
            text,
            "SRR0 and SRR1, by the state before, PR and TM",
            &FLAGS,
        )?;
        let rows = self.right[ASKS..].chunks(FLAGS.len()).enumerate();
        for (row, met) in rows {
            let (which, state) = (row / STATES.len(), STATES[row % STATES.len()]);
            let kind = name(MOVING[which / SPRS.len()]);
            let (_, spr) = SPRS[which % SPRS.len()];
            write!(text, "{:28}", format!("{kind} {spr} {state}"))?;
            for met in met {
                write!(text, "{met:>11}")?;
            }
            writeln!(text)?;
        }
        Ok(())
    }
}

fn head(text: &mut String, title: &str, columns: &[&str]) -> fmt::Result {
    write!(text, "\n{title}\n{:28}", "")?;
    for column in columns {
        write!(text, "{column:>11}")?;
    }
    writeln!(text)
}

#[cfg(test)]
mod tests {
    use super::*;
    use std::collections::HashSet;

    /// Each cell is told from the others.
    #[test]
    fn names() {
        let names: HashSet<_> = (0..CELLS).map(|place| cell(place).1).collect();
        assert_eq!(names.len(), CELLS);
        for known in [
            "rfid, S, TM = 0, doomed, asks T,1, PR 1",
            "mtmsrd, N, TM = 1, asks 11,0, PR 0",
            "mtspr SRR1, S, PR=0 TM=1",
            "mfspr SRR0, T, PR=1 TM=0",
        ] {
            assert!(names.contains(known), "{known}");
        }
    }

    /// Places and names are of the same cells.
    #[test]
    fn places() {
        let mut m = Machine::fresh();
        let told = |m: &Machine, e| place(m, 2, e).map(|place| cell(place).1);
        let get = Event::Mfspr { rt: 3, spr: 27 };
        assert_eq!(told(&m, Event::Rfid), None);
        assert_eq!(told(&m, get), Some("mfspr SRR1, N, PR=1 TM=1".to_string()));
        let t = &mut m.threads[2];
        (t.state, t.doomed, t.pr, t.tm) = (State::S, true, false, false);
        t.srr1 = 0x5_0000_4000;
        let known = "rfid, S, TM = 0, doomed, asks T,1, PR 1";
        assert_eq!(told(&m, Event::Rfid), Some(known.to_string()));
        let (ts, tm, pr) = (1, true, false);
        let known = "mtmsrd, S, TM = 0, doomed, asks S,1, PR 0";
        assert_eq!(
            told(&m, Event::Mtmsrd { ts, tm, pr }),
            Some(known.to_string())
        );
        m.count = 2;
        assert_eq!(told(&m, get), None);
    }
}
