//! Rules R1 to R5, the run, and P1 to P6, the program.

use std::fmt::Write;

use crate::machine::{valid, Machine, MAX_MEMORY};
use crate::step::step_trusted;
use crate::tape::{self, RECORD};
use crate::{answer, Event};

/// The longest input that the program runs, in bytes.
pub const LONGEST: usize = 65_536;

/// How a run ended.
#[derive(Clone, Copy, PartialEq, Eq, Debug)]
pub struct Ended {
    /// The answer that ended it: 0 at the end of the tape.
    pub answer: u8,
    /// The number of records done, which are all that has changed the machine.
    pub count: usize,
    /// The index of the record that the answer is about.
    pub index: usize,
}

impl Ended {
    /// It was refused as it stands: nothing was run.
    pub(crate) const fn refused(answer: u8, index: usize) -> Ended {
        Ended {
            answer,
            count: 0,
            index,
        }
    }

    /// The run went so far and ended there.
    pub(crate) const fn after(answer: u8, count: usize) -> Ended {
        Ended {
            answer,
            count,
            index: count,
        }
    }

    /// Whether a record is none, or the tape ends within one (rule P3).
    const fn is_bad(&self) -> bool {
        matches!(
            self.answer,
            answer::RAGGED | answer::MARK | answer::KIND | answer::FIELD
        )
    }
}

/// Runs a tape, if every record of it is one.
pub fn run(m: &mut Machine, mem: &mut [u64], tape: &[u8]) -> Ended {
    watched(m, mem, tape, |_, _| {})
}

/// As [`run`], and puts the answer of each event into the buffer, record k's at
/// place k, as far as the buffer has places (rule R5).
pub fn run_with_answers(
    m: &mut Machine,
    mem: &mut [u64],
    tape: &[u8],
    answers: &mut [u8],
) -> Ended {
    watched(m, mem, tape, |index, number| {
        if let Some(place) = answers.get_mut(index) {
            *place = number;
        }
    })
}

/// The run, telling the answer of each event, the one that stops it too.
#[inline]
fn watched(
    m: &mut Machine,
    mem: &mut [u64],
    tape: &[u8],
    mut tell: impl FnMut(usize, u8),
) -> Ended {
    if let Err(refused) = judge(m, mem.len(), tape) {
        return refused;
    }
    let mut done = 0;
    // Every event keeps the machine valid, so each step is trusted.
    for (thread, e) in events(tape) {
        let number = step_trusted(m, mem, thread, e);
        tell(done, number);
        if !answer::is_done(number) {
            return Ended::after(number, done);
        }
        done += 1;
    }
    Ended::after(answer::DONE, done)
}

/// Rule R1: the machine, and then the whole tape. Nothing is done.
fn judge(m: &Machine, len: usize, tape: &[u8]) -> Result<(), Ended> {
    if !m.shape_fits(len) {
        return Err(Ended::refused(answer::SHAPE, 0));
    }
    if !valid(m, len) {
        return Err(Ended::refused(answer::INVALID, 0));
    }
    if tape.len() % RECORD != 0 {
        return Err(Ended::refused(answer::RAGGED, tape.len() / RECORD));
    }
    for (index, record) in records(tape).enumerate() {
        if let Err(number) = tape::judge(record) {
            return Err(Ended::refused(number, index));
        }
    }
    Ok(())
}

/// The whole records of a tape.
#[inline(always)]
fn records(tape: &[u8]) -> impl Iterator<Item = &[u8; RECORD]> {
    tape.chunks_exact(RECORD)
        .filter_map(|record| record.first_chunk())
}

/// The events of a tape whose records have all been judged.
#[inline(always)]
fn events(tape: &[u8]) -> impl Iterator<Item = (u8, Event)> + '_ {
    records(tape).map(tape::judged)
}

/// What the program writes for these bytes on its standard input.
pub fn program(tape: &[u8]) -> String {
    if tape.len() > LONGEST {
        return "long\n".to_string();
    }
    let mut m = Machine::fresh();
    let mut mem = [0u64; MAX_MEMORY];
    let mut text = String::new();
    // Writing to a string does not fail.
    let ended = watched(&mut m, &mut mem, tape, |index, number| {
        let _ = writeln!(text, "{index} {number}");
    });
    let _ = match ended.is_bad() {
        true => writeln!(text, "bad {} {}", ended.index, ended.answer),
        false => writeln!(text, "end {}", ended.count),
    };
    text
}
