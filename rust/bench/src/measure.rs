//! Times of both sides: in one process, in turn, the medians of some rounds.

use std::hint::black_box;
use std::time::Duration;

use model::Ended;

use crate::sides::{hold_equal, Proved, Rust, Side, Start};
use crate::time::{Spent, Watch};

/// How often each side is timed.
#[derive(Clone, Copy)]
pub struct Rounds {
    /// The Rust model.
    pub rust: usize,
    /// The proved machine.
    pub proved: usize,
}

/// The typical times of both sides.
pub struct Times {
    pub rust: Spent,
    pub proved: Spent,
}

impl Times {
    /// By the clock: how many times as long the proved machine takes.
    pub fn ratio(&self) -> f64 {
        ratio(self.proved.clock, self.rust.clock)
    }

    /// The same on the processor, if it is told.
    pub fn ratio_on_processor(&self) -> Option<f64> {
        Some(ratio(self.proved.processor?, self.rust.processor?))
    }
}

fn ratio(proved: Duration, rust: Duration) -> f64 {
    proved.as_secs_f64() / rust.as_secs_f64()
}

/// Nanoseconds of each, where so many take this time.
pub fn each(time: Duration, many: usize) -> f64 {
    time.as_secs_f64() * 1e9 / many as f64
}

/// One timing of a side: the time, the side at its end, and what it answered.
type Timed<S, A> = (Spent, S, A);

/// Both sides take turns, and the proved one has the first turn of every other
/// round. After each pair their ends and answers are held equal.
fn in_turn<A: PartialEq + std::fmt::Debug>(
    rounds: Rounds,
    rust: impl Fn() -> Timed<Rust, A>,
    proved: impl Fn() -> Timed<Proved, A>,
) -> Times {
    let (mut ours, mut theirs) = (Vec::new(), Vec::new());
    for round in 0..rounds.rust.max(rounds.proved) {
        let proved_first = round % 2 == 1;
        let mut ends = (None, None);
        for turn in 0..2 {
            if (turn == 0) == proved_first {
                if round < rounds.proved {
                    let (spent, side, answer) = proved();
                    theirs.push(spent);
                    ends.1 = Some((side, answer));
                }
            } else if round < rounds.rust {
                let (spent, side, answer) = rust();
                ours.push(spent);
                ends.0 = Some((side, answer));
            }
        }
        if let (Some((ours, our_answer)), Some((theirs, their_answer))) = ends {
            assert_eq!(our_answer, their_answer, "answers");
            hold_equal(&ours, &theirs);
        }
    }
    Times {
        rust: Spent::typical(&ours),
        proved: Spent::typical(&theirs),
    }
}

/// Times one tape, which must run to its end.
pub fn tape(start: &Start, tape: &[u8], rounds: Rounds) -> Times {
    ending(start, tape, 0, rounds)
}

/// Times the reading of a whole tape alone (rule R1): its last byte, a fixed
/// 0, is made 1, so that it is refused by 9 when all of it is read.
pub fn reading(start: &Start, tape: &[u8], rounds: Rounds) -> Times {
    let mut bad = tape.to_vec();
    *bad.last_mut().expect("a tape has records") = 1;
    ending(start, &bad, 9, rounds)
}

/// Times one tape, which must end with this answer.
fn ending(start: &Start, tape: &[u8], answer: u8, rounds: Rounds) -> Times {
    in_turn(
        rounds,
        || run::<Rust>(start, tape, answer),
        || run::<Proved>(start, tape, answer),
    )
}

/// Times a session of the proved machine, fed in pieces of so many bytes, beside
/// the Rust model's run of the tape, which must run to its end.
pub fn session(start: &Start, tape: &[u8], piece: usize, rounds: Rounds) -> Times {
    let proved = || {
        timed(Proved::new(start), 0, |side| {
            side.session(black_box(tape), piece)
        })
    };
    in_turn(rounds, || run::<Rust>(start, tape, 0), proved)
}

/// One run of a tape.
fn run<S: Side>(start: &Start, tape: &[u8], answer: u8) -> Timed<S, Ended> {
    timed(S::new(start), answer, |side| side.run(black_box(tape)))
}

/// One timing of what ends as a run does, with this answer.
fn timed<S>(mut side: S, answer: u8, run: impl FnOnce(&mut S) -> Ended) -> Timed<S, Ended> {
    let watch = Watch::start();
    let ended = black_box(run(&mut side));
    let spent = watch.spent();
    assert_eq!(ended.answer, answer, "record {}", ended.index);
    (spent, side, ended)
}

/// Times so many lone steps, all by the same event.
pub fn steps(start: &Start, thread: u8, e: model::Event, many: usize, rounds: Rounds) -> Times {
    fn one<S: Side>(start: &Start, e: S::Event, many: usize) -> Timed<S, u8> {
        let mut side = S::new(start);
        let watch = Watch::start();
        let mut answers = 0;
        for _ in 0..many {
            answers |= black_box(&mut side).step(black_box(e));
        }
        let spent = watch.spent();
        assert_eq!(answers, 0, "a step is refused");
        (spent, side, answers)
    }
    in_turn(
        rounds,
        || one(start, Rust::event(thread, e), many),
        || one(start, Proved::event(thread, e), many),
    )
}

/// Times so many tests of the machine.
pub fn tests(start: &Start, many: usize, rounds: Rounds) -> Times {
    fn one<S: Side>(start: &Start, many: usize) -> Timed<S, u8> {
        let side = S::new(start);
        let watch = Watch::start();
        let mut answers = 0;
        for _ in 0..many {
            answers |= black_box(&side).valid();
        }
        let spent = watch.spent();
        assert_eq!(answers, 0, "the machine is not valid");
        (spent, side, answers)
    }
    in_turn(rounds, || one(start, many), || one(start, many))
}
