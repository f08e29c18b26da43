//! A numbered piece of the comparison, and a worker's share of the pieces.
//! What a batch does follows from the seed and its number alone, so the counts
//! do not depend on how many workers there are.

use std::fmt;

use model::gen::Rng;

use crate::accesses;
use crate::calls;
use crate::cells::Before;
use crate::counts::Counts;
use crate::editions;
use crate::marks::By;
use crate::pair::Pair;
use crate::past::Past;
use crate::plan::Plan;
use crate::returns;
use crate::runs;
use crate::sessions;
use crate::shrink::Case;
use crate::sides::{record, Side};
use crate::sights;
use crate::start::Start;

/// Events of a batch.
pub const BATCH: u64 = 1000;

/// A difference between the sides.
#[derive(Clone, PartialEq, Eq, Debug)]
pub struct Failure {
    /// The batch that found it.
    pub batch: u64,
    /// In what the sides differ, on the shrunk tape if there is one.
    pub what: String,
    /// The shrunk tape; none where a call takes no tape.
    pub case: Option<Case>,
}

impl Failure {
    /// The failure of a batch: a tape is shrunk, and what differs is told of
    /// the shrunk one.
    fn new(side: &dyn Side, batch: u64, found: Found) -> Failure {
        match found {
            Found::Call(what) => Failure {
                batch,
                what,
                case: None,
            },
            Found::Tape(case) => {
                let case = case.shrunk(side);
                let what = match case.differs(side) {
                    Some((_, what)) => what,
                    None => "they did, but not when tried again".to_string(),
                };
                let case = Some(case);
                Failure { batch, what, case }
            }
        }
    }
}

impl fmt::Display for Failure {
    fn fmt(&self, f: &mut fmt::Formatter) -> fmt::Result {
        writeln!(f, "batch {}: the sides differ", self.batch)?;
        writeln!(f, "{}", self.what)?;
        match &self.case {
            Some(case) => write!(f, "{case}"),
            None => Ok(()),
        }
    }
}

/// A difference as it was found.
pub enum Found {
    /// On a tape, by steps or by a run.
    Tape(Case),
    /// By a call that takes no tape: all of its input and output.
    Call(String),
}

/// The generator of a batch.
fn rng(seed: u64, batch: u64) -> Rng {
    // The odd factor keeps the batches of near seeds apart.
    Rng::new(seed ^ batch.wrapping_add(1).wrapping_mul(0xD6E8_FEB8_6659_FD93))
}

/// One batch: this many events in sequences, then runs, the other calls, those
/// of edition two, and sessions.
fn batch(
    side: &dyn Side,
    seed: u64,
    number: u64,
    events: u64,
    counts: &mut Counts,
) -> Result<(), Found> {
    let mut rng = rng(seed, number);
    let mut left = events as usize;
    while left > 0 {
        let start = Start::random(&mut rng);
        let length = start.length(&mut rng).min(left);
        sequence(side, &mut rng, start, length, counts)?;
        left -= length;
    }
    runs::all(side, &mut rng, counts)?;
    calls::all(side, &mut rng, counts)?;
    editions::all(side, &mut rng, counts)?;
    sessions::all(side, &mut rng, counts)
}

/// One sequence of events from one start, compared after each.
fn sequence(
    side: &dyn Side,
    rng: &mut Rng,
    start: Start,
    length: usize,
    counts: &mut Counts,
) -> Result<(), Found> {
    let mut pair = Pair::new(start);
    let mut plan = Plan::default();
    let mut past = Past::new(pair.machine());
    let mut records = Vec::with_capacity(length);
    for _ in 0..length {
        let e = plan.next(rng, pair.machine(), pair.memory().len());
        records.push(record(e));
        let before = Before::of(pair.machine(), e.thread);
        let event = model::read(&record(e));
        let sights = event.map_or(sights::Seen::default(), |(thread, e)| {
            let len = pair.memory().len();
            sights::seen((pair.machine(), len), &past, thread, e)
        });
        let access = event.map_or(None, |(thread, e)| {
            accesses::place(pair.machine(), pair.memory().len(), thread, e)
        });
        let returns = event.map_or(None, |(thread, e)| {
            returns::place(pair.machine(), thread, e)
        });
        match pair.step(side, e) {
            Ok(done) => {
                counts.event(e.kind, before, done.answer, &sights);
                if done.answer == 2 {
                    // It is the machine from before.
                    let len = pair.memory().len();
                    counts.marks.refused(By::Step, pair.machine(), len);
                }
                counts.accesses.note(access, done.answer);
                counts.returns.note(returns, done.answer);
                counts.failed(e, before, done);
            }
            Err(_) => {
                return Err(Found::Tape(Case {
                    start,
                    records,
                    tail: None,
                }))
            }
        }
        if let Ok((thread, e)) = event {
            past.note(pair.machine(), thread, e);
        }
    }
    Ok(())
}

/// One worker's share of the batches for this many events: every batch whose
/// number leaves `share` when divided by `shares`. Stops at its first failure.
pub fn compare(
    side: &dyn Side,
    seed: u64,
    events: u64,
    (share, shares): (u64, u64),
) -> (Counts, Option<Failure>) {
    let mut counts = Counts::default();
    let batches = events.div_ceil(BATCH);
    for number in (share..batches).step_by(shares.max(1) as usize) {
        let size = BATCH.min(events - number * BATCH);
        if let Err(found) = batch(side, seed, number, size, &mut counts) {
            return (counts, Some(Failure::new(side, number, found)));
        }
    }
    (counts, None)
}
