//! Situations of a run that must be met, finer than its answer: read by hand
//! from docs/RULES.md, R1 to R3. The whole tape is read before an event of it is
//! done, so what stands before a bad record must not matter.

use std::fmt::Write;

use model::{answer, Ended};

use crate::counts::Row;
use crate::start::Start;

/// A run as it was answered.
pub struct View<'a> {
    tape: &'a [u8],
    ended: Ended,
    /// Where the tape is refused: the answer of a run of the records before the
    /// first bad one, or before the ragged end.
    before: u8,
}

/// A name, and whether a run is such a one.
type Situation = (&'static str, fn(&View) -> bool);

/// How many situations there are.
const SITUATIONS: usize = 30;

#[rustfmt::skip]
const ALL: [Situation; SITUATIONS] = [
    ("no record", |v| v.gives(0) && v.tape.is_empty()),
    ("several records", |v| v.gives(0) && v.ended.count > 1),
    ("stopped at the last of several", |v| v.is_stopped() && v.ended.count > 0 && v.behind() == 0),
    ("stopped with good records behind", |v| v.is_stopped() && v.behind() > 0),
    ("1 before 6", |v| v.gives(1) && v.is_ragged()),
    ("1 before a bad record", |v| v.gives(1) && !v.is_ragged() && v.bad() > 0),
    ("2 before 6", |v| v.gives(2) && v.is_ragged()),
    ("2 before a bad record", |v| v.gives(2) && !v.is_ragged() && v.bad() > 0),
    ("6, no whole record", |v| v.gives(6) && v.ended.index == 0),
    ("6, some whole records", |v| v.gives(6) && v.ended.index > 1),
    ("6 behind records that would be done", |v| v.gives(6) && v.ended.index > 0 && v.bad() == 0 && v.before == 0),
    ("6 behind a refusal by 3", |v| v.gives(6) && v.before == 3),
    ("6 behind a refusal by 13", |v| v.gives(6) && v.before == 13),
    ("6 before a bad record", |v| v.gives(6) && v.bad() > 0),
    ("7 behind records that would be done", |v| v.gives(7) && v.ended.index > 0 && v.before == 0),
    ("8 behind records that would be done", |v| v.gives(8) && v.ended.index > 0 && v.before == 0),
    ("9 behind records that would be done", |v| v.gives(9) && v.ended.index > 0 && v.before == 0),
    ("7 behind a refusal by 3", |v| v.gives(7) && v.before == 3),
    ("8 behind a refusal by 3", |v| v.gives(8) && v.before == 3),
    ("9 behind a refusal by 3", |v| v.gives(9) && v.before == 3),
    ("7 behind a refusal by 13", |v| v.gives(7) && v.before == 13),
    ("8 behind a refusal by 13", |v| v.gives(8) && v.before == 13),
    ("9 behind a refusal by 13", |v| v.gives(9) && v.before == 13),
    ("a bad record behind a refusal by 4", |v| v.is_of_a_record() && v.before == 4),
    ("a bad record behind a refusal by 5", |v| v.is_of_a_record() && v.before == 5),
    ("a bad record behind a refusal by 11", |v| v.is_of_a_record() && v.before == 11),
    ("a bad record behind a refusal by 12", |v| v.is_of_a_record() && v.before == 12),
    ("the first of several bad records", |v| v.is_of_a_record() && v.bad() > 1),
    ("a bad record with good ones behind", |v| v.is_of_a_record() && v.behind() > 0 && v.bad() == 1),
    ("a bad record at the end of several", |v| v.is_of_a_record() && v.ended.index > 1 && v.behind() == 0),
];

impl<'a> View<'a> {
    /// The tape's run from this start.
    pub fn new(start: Start, tape: &'a [u8], ended: Ended) -> View<'a> {
        let mut view = View {
            tape,
            ended,
            before: answer::DONE,
        };
        if view.gives(6) || view.is_of_a_record() {
            let good = tape.chunks_exact(16).take_while(|record| is_good(record));
            let (mut m, mut memory) = start.build();
            let before = &tape[..16 * good.count()];
            view.before = model::run(&mut m, &mut memory, before).answer;
        }
        view
    }

    fn gives(&self, number: u8) -> bool {
        self.ended.answer == number
    }

    /// Whether a record is refused, and not the whole tape.
    fn is_of_a_record(&self) -> bool {
        matches!(self.ended.answer, 7..=9)
    }

    /// Whether an event was refused.
    fn is_stopped(&self) -> bool {
        matches!(self.ended.answer, 3..=5 | 11..=13)
    }

    fn is_ragged(&self) -> bool {
        self.tape.len() % 16 != 0
    }

    /// Whole records behind the one that the answer is about.
    fn behind(&self) -> usize {
        (self.tape.len() / 16).saturating_sub(self.ended.index + 1)
    }

    /// Whole records that are none.
    fn bad(&self) -> usize {
        let records = self.tape.chunks_exact(16);
        records.filter(|record| !is_good(record)).count()
    }
}

fn is_good(record: &[u8]) -> bool {
    model::read(record).is_ok()
}

/// How often each was met.
#[derive(Clone, PartialEq, Eq, Debug)]
pub struct Met([u64; SITUATIONS]);

impl Default for Met {
    fn default() -> Met {
        Met([0; SITUATIONS])
    }
}

impl Met {
    /// One run on which both sides agreed.
    pub fn note(&mut self, view: &View) {
        for (met, (_, is_such)) in self.0.iter_mut().zip(ALL) {
            *met += u64::from(is_such(view));
        }
    }

    /// All numbers in a fixed order.
    pub fn numbers(&self) -> impl Iterator<Item = &u64> {
        self.0.iter()
    }

    /// The same, to be changed.
    pub fn numbers_mut(&mut self) -> impl Iterator<Item = &mut u64> {
        self.0.iter_mut()
    }

    /// Every situation.
    pub(crate) fn rows(&self) -> impl Iterator<Item = Row> + '_ {
        self.0.iter().zip(ALL).map(|(&met, (name, _))| Row {
            met,
            name: format!("run: {name}"),
            why_not: None,
        })
    }

    /// The table of them.
    pub fn table(&self) -> String {
        let mut text = "\nruns, situations met\n".to_string();
        for row in self.rows() {
            // Writing to a string does not fail.
            let _ = writeln!(text, "{:>9}  {}", row.met, row.name);
        }
        text
    }
}
