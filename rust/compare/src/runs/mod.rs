//! Runs, compared at their ends: tapes that go on, tapes that are stopped, and
//! tapes that are refused as a whole, of which nothing may be run.
//!
//! - [`cells`]: what of them must be met, and how often it was.

pub mod cells;

use model::gen::{self, Rng};
use model::{answer, step_trusted, Machine};

use crate::batch::Found;
use crate::cells::Call;
use crate::counts::Counts;
use crate::pair::Pair;
use crate::shrink::Case;
use crate::sides::{self, event, model_valid, Side};
use crate::start::Start;
use cells::View;

type Bytes = [u8; 16];

/// The runs of one batch.
pub fn all(side: &dyn Side, rng: &mut Rng, counts: &mut Counts) -> Result<(), Found> {
    for _ in 0..4 {
        run(side, rng, counts)?;
        bad_run(side, rng, counts)?;
    }
    Ok(())
}

/// Some records, good or not, and often a piece of one.
pub(crate) fn loose_bytes(rng: &mut Rng) -> Vec<u8> {
    let mut bytes = Vec::new();
    for _ in 0..rng.below(3) {
        bytes.extend(gen::record(rng));
    }
    bytes.truncate(bytes.len().saturating_sub(rng.pick([0, 0, 1, 15])));
    bytes
}

/// A tape of up to so many records for this machine; a short one if it refuses
/// them all.
fn records(rng: &mut Rng, pair: &Pair, most: usize) -> Vec<Bytes> {
    let tape = match model_valid(pair.machine(), pair.memory().len()) {
        0 => gen::tape(rng, pair.machine(), pair.memory(), most),
        _ => loose_bytes(rng),
    };
    whole_records(&tape)
}

/// One run of any tape.
fn run(side: &dyn Side, rng: &mut Rng, counts: &mut Counts) -> Result<(), Found> {
    let start = Start::random(rng);
    let pair = Pair::new(start);
    let (records, tail) = any_tape(rng, &pair);
    compared(side, pair, (start, records, tail), counts)
}

/// One run of a short tape that is not to be run.
fn bad_run(side: &dyn Side, rng: &mut Rng, counts: &mut Counts) -> Result<(), Found> {
    let start = Start::random(rng);
    let pair = Pair::new(start);
    let (records, tail) = bad_tape(rng, &pair);
    compared(side, pair, (start, records, tail), counts)
}

/// A tape, its records and a ragged end, for this machine: one that goes on,
/// that is stopped at its end, that has a record which may be bad, that is
/// ragged, or an empty one.
pub(crate) fn any_tape(rng: &mut Rng, pair: &Pair) -> (Vec<Bytes>, Vec<u8>) {
    let most = rng.pick([0, 0, 1, 2, 20, 60, 120, 500]);
    let mut records = records(rng, pair, most);
    let mut tail = Vec::new();
    match rng.below(6) {
        0..=2 => {
            let wanted = rng.pick([3, 4, 4, 5, 5, 5, 5, 7, 8, 9, 11, 11, 11, 12, 13, 13]);
            records.push(stopper(rng, pair, &records, wanted));
        }
        3 => spoil_records(rng, &mut records),
        4 => tail = piece(rng),
        _ => {}
    }
    (records, tail)
}

/// A short tape with a bad record or two, or ragged; some of them behind an
/// event that would be refused.
pub(crate) fn bad_tape(rng: &mut Rng, pair: &Pair) -> (Vec<Bytes>, Vec<u8>) {
    let most = rng.pick([0, 1, 2, 3, 8]);
    let mut records = records(rng, pair, most);
    if rng.one_in(3) {
        records.truncate(rng.below(2));
    } else {
        let wanted = rng.pick([3, 3, 4, 5, 11, 12, 13, 13, 13]);
        records.push(stopper(rng, pair, &records, wanted));
    }
    let mut tail = Vec::new();
    for _ in 0..rng.pick([1, 1, 2]) {
        match rng.below(5) {
            0 => tail = piece(rng),
            _ => records.push(bad_record(rng)),
        }
        records.extend(rng.flag().then(|| good_record(rng, pair.machine())));
    }
    (records, tail)
}

/// Runs the tape on both sides and notes what was met.
fn compared(
    side: &dyn Side,
    mut pair: Pair,
    (start, records, tail): (Start, Vec<Bytes>, Vec<u8>),
    counts: &mut Counts,
) -> Result<(), Found> {
    let tape = [records.as_flattened(), &tail].concat();
    let Ok(ended) = pair.run(side, &tape) else {
        return Err(Found::Tape(Case {
            start,
            records,
            tail: Some(tail),
        }));
    };
    let call = match ended.count {
        0 => Call::RunNone,
        _ => Call::RunSome,
    };
    counts.call(call, ended.answer);
    counts.records += ended.count as u64;
    counts.runs.note(&View::new(start, &tape, ended));
    Ok(())
}

/// The records of a tape; a ragged end is left out.
fn whole_records(tape: &[u8]) -> Vec<Bytes> {
    let records = tape.chunks_exact(16);
    records
        .map(|record| record.try_into().expect("16 bytes each"))
        .collect()
}

/// A piece of a record.
fn piece(rng: &mut Rng) -> Vec<u8> {
    gen::record(rng)[..rng.pick([1, 8, 15])].to_vec()
}

/// A record of an event for this machine, which may well be refused.
fn good_record(rng: &mut Rng, m: &Machine) -> Bytes {
    let (thread, e) = gen::event(rng, m, naszeptan::raw::MEMORY);
    sides::record(event(thread, e))
}

/// A record that is none, by 7, 8 or 9.
fn bad_record(rng: &mut Rng) -> Bytes {
    let wanted = rng.pick([answer::MARK, answer::KIND, answer::FIELD]);
    let mut record = [0; 16];
    for _ in 0..60 {
        record = gen::record(rng);
        if model::read(&record) == Err(wanted) {
            break;
        }
    }
    record
}

/// A record that stops the run by this number where the records before it leave
/// the machine, if a few tries find one. By 7, 8 and 9 nothing is run.
fn stopper(rng: &mut Rng, pair: &Pair, records: &[Bytes], wanted: u8) -> Bytes {
    let (mut m, mut memory) = (pair.machine().clone(), pair.memory().to_vec());
    model::run(&mut m, &mut memory, records.as_flattened());
    let mut record = gen::record(rng);
    for _ in 0..60 {
        let (thread, e) = gen::event(rng, &m, memory.len());
        record = match wanted {
            7..=9 => gen::record(rng),
            _ => sides::record(event(thread, e)),
        };
        let number = match model::read(&record) {
            Ok((thread, e)) => step_trusted(&mut m.clone(), &mut memory.clone(), thread, e),
            Err(number) => number,
        };
        if number == wanted {
            break;
        }
    }
    record
}

/// Changes a byte of a record, or puts one in that may be good or not.
fn spoil_records(rng: &mut Rng, records: &mut Vec<Bytes>) {
    let at = rng.below(records.len() + 1);
    match records.get_mut(at) {
        Some(record) if rng.flag() => record[rng.below(16)] = rng.byte(),
        _ => records.insert(at, gen::record(rng)),
    }
}
