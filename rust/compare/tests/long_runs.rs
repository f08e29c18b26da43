//! Runs of 100,000 records on both sides. In one such run each log is filled,
//! committed, failed and filled again thousands of times, so that what the
//! proved run's rows keep behind a log's count is rubbish by then. It must not
//! show: not at the end, and not where the run is cut into several, or into the
//! pieces of a session.

use compare::pair::Pair;
use compare::sessions::case::{Case, Piece};
use compare::sides::{event, record, Archive};
use compare::start::{Kind, Start};
use model::gen::{self, Rng};
use model::{answer, Ended, Event, Machine, State};

const RECORDS: usize = 100_000;

/// An event by a thread; one whose facility is off is often mended, or a tape
/// would dry up after some interrupts.
fn next(rng: &mut Rng, m: &Machine, len: usize) -> (u8, Event) {
    let (thread, e) = gen::event(rng, m, len);
    match m.threads.get(usize::from(thread)) {
        Some(t) if !t.tm && t.state != State::T && rng.one_in(3) => {
            let pr = rng.flag();
            (thread, Event::Host { pr, tm: true })
        }
        _ => (thread, e),
    }
}

/// A tape none of whose records is refused from this start.
fn tape(rng: &mut Rng, start: Start) -> Vec<u8> {
    let (mut m, mut memory) = start.build();
    let mut tape = Vec::with_capacity(RECORDS * 16);
    while tape.len() < RECORDS * 16 {
        let (thread, e) = next(rng, &m, memory.len());
        if answer::is_done(model::step(&mut m, &mut memory, thread, e)) {
            tape.extend(record(event(thread, e)));
        }
    }
    tape
}

/// A start whose machine is valid.
fn start(kind: Kind, seed: u64) -> Start {
    Start { kind, seed }
}

/// The end of a run that did all of so many records.
fn all(count: usize) -> Ended {
    Ended {
        answer: 0,
        count,
        index: count,
    }
}

#[test]
fn long_runs_agree() {
    for (kind, seed) in [(Kind::Fresh, 1), (Kind::Valid, 2), (Kind::Valid, 3)] {
        let from = start(kind, seed);
        let tape = tape(&mut Rng::new(seed), from);
        let mut pair = Pair::new(from);
        assert_eq!(pair.run(&Archive, &tape), Ok(all(RECORDS)), "seed {seed}");
    }
}

#[test]
fn a_long_run_in_parts_agrees() {
    let from = start(Kind::Valid, 4);
    let tape = tape(&mut Rng::new(4), from);
    let mut pair = Pair::new(from);
    for part in tape.chunks(16 * 977) {
        let count = part.len() / 16;
        assert_eq!(pair.run(&Archive, part), Ok(all(count)));
    }
}

/// Pieces that end within records, in which records are done in the thousands.
#[test]
fn a_long_session_agrees() {
    let start = start(Kind::Valid, 5);
    let tape = tape(&mut Rng::new(5), start);
    let pieces = tape.chunks(16 * 977 + 5).map(|piece| Piece {
        bytes: piece.to_vec(),
        answers: vec![0; 978],
    });
    let case = Case {
        start,
        count: 0,
        pieces: pieces.collect(),
    };
    let mut finished = 0;
    let met = case.compared(&Archive, &mut |view| finished += view.finished());
    assert_eq!((met, finished), (Ok(()), RECORDS));
}
