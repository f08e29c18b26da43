//! Sessions: tapes cut at random places, both sides held to each other after
//! each piece, and at the end to the model's session over one whole piece; and
//! values that are no session.
//!
//! - [`desk`]: a session on both sides, and where the two differ.
//! - [`case`]: a start and its pieces.
//! - [`bits`]: values handed in, most of which are no session.
//! - [`cells`]: what of them must be met, and how often it was.

pub mod bits;
pub mod case;
pub mod cells;
pub mod desk;

use model::gen::Rng;

use crate::batch::Found;
use crate::counts::Counts;
use crate::pair::Pair;
use crate::runs;
use crate::sides::Side;
use crate::start::Start;
use case::{Case, Piece};

/// More pieces than this are one.
const MOST: usize = 24;

/// The sessions of one batch.
pub fn all(side: &dyn Side, rng: &mut Rng, counts: &mut Counts) -> Result<(), Found> {
    for _ in 0..8 {
        pieces(side, rng, counts)?;
        bits::value(side, rng, counts)?;
        bits::no_machine(side, rng, counts)?;
    }
    Ok(())
}

/// One session over a tape in pieces.
pub fn pieces(side: &dyn Side, rng: &mut Rng, counts: &mut Counts) -> Result<(), Found> {
    let start = Start::random(rng);
    let tape = tape(rng, start);
    let near_the_top = u64::MAX - rng.below(4) as u64;
    let any = rng.bits();
    let case = Case {
        start,
        count: rng.pick([0, 0, 0, 0, any, near_the_top]),
        pieces: cut(rng, &tape),
    };
    let met = &mut counts.sessions;
    match case.compared(side, &mut |view| met.note(view)) {
        Ok(()) => Ok(()),
        Err(_) => Err(Found::Call(case.shrunk(side).told(side))),
    }
}

/// A tape that goes on, is stopped, has bad records or is ragged; often with
/// more behind what stops it.
pub(crate) fn tape(rng: &mut Rng, start: Start) -> Vec<u8> {
    let pair = Pair::new(start);
    let (records, tail) = match rng.below(4) {
        0 => runs::bad_tape(rng, &pair),
        _ => runs::any_tape(rng, &pair),
    };
    let more = match rng.below(3) {
        0 => runs::loose_bytes(rng),
        _ => Vec::new(),
    };
    [records.as_flattened(), &tail, &more].concat()
}

/// The tape in pieces of random lengths, some of them none.
fn cut(rng: &mut Rng, tape: &[u8]) -> Vec<Piece> {
    let mut pieces = Vec::new();
    let mut from = 0;
    while from < tape.len() || rng.one_in(3) {
        let rest = tape.len() - from;
        let (few, many) = (rng.below(40), rng.below(600));
        let wanted = rng.pick([0, 1, 15, 16, 17, few, few, many, rest]);
        let length = match pieces.len() < MOST {
            true => wanted.min(rest),
            false => rest,
        };
        let bytes = tape[from..from + length].to_vec();
        let answers = buffer(rng, (from % 16 + length) / 16);
        pieces.push(Piece { bytes, answers });
        from += length;
    }
    pieces
}

/// A buffer for the answers of so many records: mostly with a place for each.
fn buffer(rng: &mut Rng, records: usize) -> Vec<u8> {
    let less = records.saturating_sub(1);
    let room = rng.pick([records, records, records, records + 3, less, records / 2, 0]);
    (0..room).map(|_| rng.byte()).collect()
}
