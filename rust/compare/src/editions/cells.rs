//! What of edition two must be met, read by hand from docs/RULES.md, T9 to T13
//! and H9: each number that a call can give, each kind that it can take, and
//! situations finer than these.

use std::fmt::{self, Write};

use model::edition_two::{LAST_KIND, LAST_THREAD};
use model::Edition;

use crate::cells::{name, NUMBERS};
use crate::counts::{place, write_cell, Row};

/// How many calls there are.
const CALLS: usize = 4;
/// How many kinds edition two has.
const KINDS: usize = LAST_KIND as usize;
/// Places for the situations of one call.
const MOST: usize = 20;
/// A table shows the numbers below this.
const SHOWN: u8 = 14;

/// A call.
#[derive(Clone, Copy, PartialEq, Eq, Debug)]
pub enum Call {
    /// The reader.
    Read,
    /// The writer.
    Write,
    /// The converter from edition two.
    FromTwo,
    /// The converter from edition three.
    FromThree,
}

impl Call {
    /// The converter from this edition.
    pub fn convert(edition: Edition) -> Call {
        match edition {
            Edition::Two => Call::FromTwo,
            Edition::Three => Call::FromThree,
        }
    }
}

/// A call, its name, the numbers that it can give, and lists of its situations.
type CallRow = (
    Call,
    &'static str,
    &'static [u8],
    &'static [&'static [Situation]],
);

/// Every call.
const ROWS: [CallRow; CALLS] = [
    (Call::Read, "read two", &[0, 6, 7, 8, 9], &[&READ]),
    (Call::Write, "write two", &[0, 3, 8, 9, 10], &[&WRITE]),
    (
        Call::FromTwo,
        "two to three",
        &[0, 6, 7, 8, 9, 10],
        &[&CONVERT],
    ),
    (
        Call::FromThree,
        "three to two",
        &[0, 3, 6, 7, 8, 9, 10],
        &[&CONVERT, &FROM_THREE],
    ),
];

/// A call as it was answered.
pub struct View<'a> {
    /// Which.
    pub call: Call,
    /// The record to read, the fields to write as a record of edition three, or
    /// the tape to convert.
    pub bytes: &'a [u8],
    /// How long the buffer is, where there is one.
    pub room: usize,
    /// The number given back.
    pub answer: u8,
    /// The index beside it; 0 where there is none.
    pub index: usize,
}

/// A name, and whether a call is such a one.
type Situation = (&'static str, fn(&View) -> bool);

#[rustfmt::skip]
const READ: [Situation; 13] = [
    ("by the last thread", |v| v.answer == 0 && v.bytes[0] == LAST_THREAD),
    ("an index above 255", |v| v.answer == 0 && v.bytes[9..12] != [0; 3]),
    ("an SI above 255", |v| v.answer == 0 && v.bytes[7] != 0),
    ("6 of no bytes", |v| v.answer == 6 && v.bytes.is_empty()),
    ("6 of a good record and more", |v| v.answer == 6 && v.bytes.get(..16).is_some_and(is_good)),
    ("7 of the thread after the last", |v| v.answer == 7 && v.bytes[0] == LAST_THREAD + 1),
    ("7 of edition three", |v| v.answer == 7 && Edition::Three.read(v.bytes).is_ok()),
    ("7 before 8", |v| v.answer == 7 && !is_kind(v.bytes[1])),
    ("8 of kind 0", |v| v.answer == 8 && v.bytes[1] == 0),
    ("8 of the kind after the last", |v| v.answer == 8 && v.bytes[1] == LAST_KIND + 1),
    ("8 before 9", |v| v.answer == 8 && v.bytes[12..] != [0; 4]),
    ("9 of a fixed byte", |v| v.answer == 9 && v.bytes[12..] != [0; 4]),
    ("9 of flags", |v| v.answer == 9 && v.bytes[5] != 0 && matches!(v.bytes[1], 1 | 2 | 6 | 17)),
];

#[rustfmt::skip]
const WRITE: [Situation; 12] = [
    ("by the last thread", |v| v.answer == 0 && v.bytes[2] == LAST_THREAD),
    ("into 16 bytes", |v| v.answer == 0 && v.room == 16),
    ("into more than 16 bytes", |v| v.answer == 0 && v.room > 16),
    ("8 of no kind, before 3", |v| v.answer == 8 && v.bytes[2] > LAST_THREAD),
    ("8 of a kind after the last", |v| v.answer == 8 && is_later(v.bytes)),
    ("8 of a kind after the last, before 10", |v| v.answer == 8 && is_later(v.bytes) && v.room < 16),
    ("3 before 8 of a kind after the last", |v| v.answer == 3 && is_later(v.bytes)),
    ("9 before 3", |v| v.answer == 9 && v.bytes[2] > LAST_THREAD),
    ("3 by the thread after the last", |v| v.answer == 3 && v.bytes[2] == LAST_THREAD + 1),
    ("3 before 10", |v| v.answer == 3 && v.room < 16),
    ("10 of 15 bytes", |v| v.answer == 10 && v.room == 15),
    ("10 of no bytes", |v| v.answer == 10 && v.room == 0),
];

#[rustfmt::skip]
const CONVERT: [Situation; 15] = [
    ("no record", |v| v.answer == 0 && v.bytes.is_empty()),
    ("several records", |v| v.answer == 0 && v.index > 1),
    ("into as much as the tape has", |v| v.answer == 0 && v.index > 0 && v.room == v.bytes.len()),
    ("into more than the tape has", |v| v.answer == 0 && v.index > 0 && v.room > v.bytes.len()),
    ("refused at the first of several", |v| v.of_a_record() && v.index == 0 && v.records() > 1),
    ("refused at the last of several", |v| v.of_a_record() && v.index > 0 && v.index + 1 == v.records()),
    ("the first of several refused", |v| v.of_a_record() && v.refused() > 1),
    ("all of the other edition", |v| v.answer == 7 && v.all_of_the_other()),
    ("6, no whole record", |v| v.answer == 6 && v.index == 0),
    ("6, some whole records", |v| v.answer == 6 && v.index > 1),
    ("6 before 10", |v| v.answer == 6 && v.room < v.bytes.len()),
    ("6 before a record", |v| v.answer == 6 && v.room >= v.bytes.len() && v.refused() > 0),
    ("10 of a byte too few", |v| v.answer == 10 && v.room + 1 == v.bytes.len()),
    ("10 of no bytes", |v| v.answer == 10 && v.room == 0),
    ("10 before a record", |v| v.answer == 10 && v.refused() > 0),
];

#[rustfmt::skip]
const FROM_THREE: [Situation; 3] = [
    ("8 of a kind that edition two has not", |v| v.answer == 8 && v.index > 0 && is_later(&v.bytes[16 * v.index..][..16])),
    ("3 before 8 of such a kind", |v| v.answer == 3 && is_later(&v.bytes[16 * v.index..][..16])),
    ("9 before 3", |v| v.answer == 9 && v.bytes[16 * v.index + 2] > LAST_THREAD),
];

// Each has a place.
const _: () = assert!(READ.len() <= MOST && WRITE.len() <= MOST);
const _: () = assert!(CONVERT.len() + FROM_THREE.len() <= MOST);

fn is_good(record: &[u8]) -> bool {
    Edition::Two.read(record).is_ok()
}

/// Whether this is a good record of edition three, of a kind that edition two
/// has not.
fn is_later(record: &[u8]) -> bool {
    record[1] > LAST_KIND && Edition::Three.read(record).is_ok()
}

fn is_kind(kind: u8) -> bool {
    (1..=LAST_KIND).contains(&kind)
}

impl View<'_> {
    /// The edition of what is read or converted; of the fields of a writer it
    /// is edition three.
    fn edition(&self) -> Edition {
        match self.call {
            Call::Read | Call::FromTwo => Edition::Two,
            Call::Write | Call::FromThree => Edition::Three,
        }
    }

    /// Whole records.
    fn records(&self) -> usize {
        self.bytes.len() / 16
    }

    /// Whether a record is refused, and not the whole tape.
    fn of_a_record(&self) -> bool {
        matches!(self.answer, 3 | 7 | 8 | 9)
    }

    /// How many whole records of the tape a converter refuses.
    fn refused(&self) -> usize {
        let edition = self.edition();
        let records = self.bytes.chunks_exact(16);
        let refused = records.filter(|record| edition.convert(record, &mut [0; 16]).0 != 0);
        refused.count()
    }

    fn all_of_the_other(&self) -> bool {
        let other = self.edition().other();
        let mut records = self.bytes.chunks_exact(16);
        records.all(|record| other.read(record).is_ok())
    }
}

/// How often each was met.
#[derive(Clone, PartialEq, Eq, Default, Debug)]
pub struct Met {
    answers: [[u64; NUMBERS]; CALLS],
    kinds: [[u64; KINDS]; CALLS],
    situations: [[u64; MOST]; CALLS],
}

impl Met {
    /// One call on which both sides agreed.
    pub fn note(&mut self, view: &View) {
        let call = view.call as usize;
        self.answers[call][place(view.answer)] += 1;
        if view.answer == 0 {
            for record in view.bytes.chunks_exact(16) {
                self.kinds[call][usize::from(record[1]) - 1] += 1;
            }
        }
        let (.., lists) = ROWS[call];
        let situations = lists.iter().copied().flatten();
        for ((_, is_such), met) in situations.zip(&mut self.situations[call]) {
            *met += u64::from(is_such(view));
        }
    }

    /// All numbers in a fixed order.
    pub fn numbers(&self) -> impl Iterator<Item = &u64> {
        let answers = self.answers.as_flattened().iter();
        answers
            .chain(self.kinds.as_flattened())
            .chain(self.situations.as_flattened())
    }

    /// The same, to be changed.
    pub fn numbers_mut(&mut self) -> impl Iterator<Item = &mut u64> {
        let answers = self.answers.as_flattened_mut().iter_mut();
        answers
            .chain(self.kinds.as_flattened_mut())
            .chain(self.situations.as_flattened_mut())
    }

    /// Every number, kind and situation of each call.
    pub(crate) fn rows(&self) -> impl Iterator<Item = Row> + '_ {
        self.answer_rows()
            .chain(self.kind_rows())
            .chain(self.situation_rows())
    }

    fn answer_rows(&self) -> impl Iterator<Item = Row> + '_ {
        ROWS.into_iter().flat_map(|(call, name, can, _)| {
            let answers = (0u8..).zip(&self.answers[call as usize]);
            answers.map(move |(answer, &met)| Row {
                met,
                name: format!("{name}, {answer}"),
                why_not: (!can.contains(&answer)).then_some("it never gives that"),
            })
        })
    }

    fn kind_rows(&self) -> impl Iterator<Item = Row> + '_ {
        ROWS.into_iter().flat_map(|(call, call_name, ..)| {
            let kinds = (1u8..).zip(&self.kinds[call as usize]);
            kinds.map(move |(kind, &met)| Row {
                met,
                name: format!("{call_name}, {}", name(kind)),
                why_not: None,
            })
        })
    }

    fn situation_rows(&self) -> impl Iterator<Item = Row> + '_ {
        ROWS.into_iter().flat_map(|(call, call_name, _, lists)| {
            let situations = lists.iter().copied().flatten();
            let met = situations.zip(&self.situations[call as usize]);
            met.map(move |((situation, _), &met)| Row {
                met,
                name: format!("{call_name}: {situation}"),
                why_not: None,
            })
        })
    }

    /// The tables of edition two.
    pub fn tables(&self) -> String {
        let mut text = String::new();
        // Writing to a string does not fail.
        let _ = self.write_answers(&mut text);
        let _ = self.write_kinds(&mut text);
        let _ = writeln!(text, "\nedition two, situations met");
        for row in self.situation_rows() {
            let _ = writeln!(text, "{:>9}  {}", row.met, row.name);
        }
        text
    }

    fn write_answers(&self, text: &mut String) -> fmt::Result {
        write!(text, "\nedition two, by answer\n{:22}", "")?;
        for answer in 0..SHOWN {
            write!(text, "{answer:>8}")?;
        }
        writeln!(text)?;
        for (call, name, can, _) in ROWS {
            write!(text, "{name:22}")?;
            for answer in 0..SHOWN {
                let met = self.answers[call as usize][usize::from(answer)];
                write_cell(text, met, can.contains(&answer))?;
            }
            writeln!(text)?;
        }
        Ok(())
    }

    fn write_kinds(&self, text: &mut String) -> fmt::Result {
        write!(text, "\nedition two, records by kind\n{:22}", "")?;
        for (_, call_name, ..) in ROWS {
            write!(text, "{call_name:>14}")?;
        }
        writeln!(text)?;
        for kind in 1..=LAST_KIND {
            write!(text, "{:22}", name(kind))?;
            for met in &self.kinds {
                write!(text, "{:>14}", met[usize::from(kind) - 1])?;
            }
            writeln!(text)?;
        }
        Ok(())
    }
}
