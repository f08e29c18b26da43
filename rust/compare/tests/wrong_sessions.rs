//! The comparison of sessions: sides that are wrong in one thing are found out,
//! and few pieces are left to show it.

use compare::batch::{compare, Found};
use compare::counts::{Counts, ALL_MET_FROM};
use compare::sessions::{bits, pieces};
use compare::sides::{Archive, Side};
use model::gen::Rng;
use model::{Ended, Fed};
use naszeptan::raw;

/// Enough for the rarest to be met; a test ends where it finds the first.
const TRIES: u64 = 4000;

/// The first difference that these tries find; the archive shows none.
fn first(
    side: &dyn Side,
    one: fn(&dyn Side, &mut Rng, &mut Counts) -> Result<(), Found>,
) -> String {
    let counts = &mut Counts::default();
    for seed in 0..TRIES {
        if let Err(found) = one(side, &mut Rng::new(seed), counts) {
            assert!(one(&Archive, &mut Rng::new(seed), counts).is_ok());
            let Found::Call(text) = found else {
                panic!("no tape is told of sessions")
            };
            return text;
        }
    }
    panic!("a wrong side is found out")
}

/// What tapes in pieces tell of the side.
fn in_pieces(side: &dyn Side) -> String {
    first(side, pieces)
}

/// What values handed in tell of it.
fn of_bits(side: &dyn Side) -> String {
    first(side, bits::value)
}

/// How many pieces are left to show it.
fn pieces_left(text: &str) -> usize {
    text.lines()
        .filter(|line| line.contains("room for"))
        .count()
}

/// Whether the session goes on and holds bytes.
fn holds(s: &raw::Session) -> bool {
    s.answer == 0 && (1..=raw::HELD).contains(&s.held)
}

/// Stops the session and holds nothing, as a record would.
fn stop(s: &mut raw::Session, answer: u8) {
    (s.answer, s.held, s.bytes) = (answer, 0, [0; raw::HELD]);
}

/// Looks at the unfinished record: its first byte is 7 at once.
struct LooksAhead;

impl Side for LooksAhead {
    fn feed(
        &self,
        s: &mut raw::Session,
        memory: &mut [u64],
        piece: &[u8],
        answers: &mut [u8],
    ) -> Fed {
        let mut fed = Archive.feed(s, memory, piece, answers);
        if fed.answer == 0 && holds(s) && s.bytes[0] != raw::FIRST_BYTE {
            stop(s, 7);
            fed.answer = 7;
        }
        fed
    }
}

/// Loses the last of fifteen held bytes.
struct LosesHeld;

impl Side for LosesHeld {
    fn feed(
        &self,
        s: &mut raw::Session,
        memory: &mut [u64],
        piece: &[u8],
        answers: &mut [u8],
    ) -> Fed {
        let fed = Archive.feed(s, memory, piece, answers);
        if fed.answer == 0 && s.held == raw::HELD {
            s.held -= 1;
            s.bytes[s.held] = 0;
        }
        fed
    }
}

/// Counts the record that stops it.
struct CountsStop;

impl Side for CountsStop {
    fn feed(
        &self,
        s: &mut raw::Session,
        memory: &mut [u64],
        piece: &[u8],
        answers: &mut [u8],
    ) -> Fed {
        let fed = Archive.feed(s, memory, piece, answers);
        if fed.answer > 2 && fed.finished > 0 {
            s.count = s.count.wrapping_add(1);
        }
        fed
    }
}

/// Goes on with the piece that follows a stop.
struct GoesOn;

impl Side for GoesOn {
    fn feed(
        &self,
        s: &mut raw::Session,
        memory: &mut [u64],
        piece: &[u8],
        answers: &mut [u8],
    ) -> Fed {
        let stopped = Archive.feed(s, memory, &[], &mut []).answer > 2;
        if stopped && piece.len() >= 16 {
            s.answer = 0;
        }
        Archive.feed(s, memory, piece, answers)
    }
}

/// Holds what stands behind the record that stops it.
struct HoldsBehind;

impl Side for HoldsBehind {
    fn feed(
        &self,
        s: &mut raw::Session,
        memory: &mut [u64],
        piece: &[u8],
        answers: &mut [u8],
    ) -> Fed {
        let before = *s;
        let fed = Archive.feed(s, memory, piece, answers);
        if fed.answer > 2 && fed.finished > 0 {
            s.held = (before.held + piece.len()) % 16;
        }
        fed
    }
}

/// Reads the whole piece before it does a record, as a run reads its tape.
struct ReadsThePiece;

impl Side for ReadsThePiece {
    fn feed(
        &self,
        s: &mut raw::Session,
        memory: &mut [u64],
        piece: &[u8],
        answers: &mut [u8],
    ) -> Fed {
        let held = s.bytes.get(..s.held).unwrap_or(&[]);
        let joined = [held, piece].concat();
        let mut records = joined.chunks_exact(16).map(|record| Archive.read(record));
        let bad = records.find(|record| record.answer != 0);
        match bad {
            Some(bad) if Archive.feed(s, memory, &[], &mut []).answer == 0 => {
                stop(s, bad.answer);
                Fed {
                    answer: bad.answer,
                    finished: 1,
                }
            }
            _ => Archive.feed(s, memory, piece, answers),
        }
    }
}

#[test]
fn wrong_pieces_are_found_and_few_are_left() {
    let text = in_pieces(&LooksAhead);
    assert!(text.contains("model Fed { answer: 0"), "{text}");
    assert!(text.contains("proved Fed { answer: 7"), "{text}");
    // Each of the first three ends within a record, which the next one finishes.
    assert_eq!(pieces_left(&text), 4, "{text}");
    let text = in_pieces(&LosesHeld);
    assert!(text.contains("held: model 15, proved 14"), "{text}");
    assert_eq!(pieces_left(&text), 1, "{text}");
    let text = in_pieces(&CountsStop);
    assert!(text.contains("feed, count: model "), "{text}");
    assert_eq!(pieces_left(&text), 1, "{text}");
    // Two that make the record which stops it, and one more.
    let text = in_pieces(&GoesOn);
    assert_eq!(pieces_left(&text), 3, "{text}");
    let text = in_pieces(&HoldsBehind);
    assert!(text.contains("feed, held: model 0, proved "), "{text}");
    let text = in_pieces(&ReadsThePiece);
    assert!(text.contains("session: feed"), "{text}");
    assert_eq!(pieces_left(&text), 1, "{text}");
}

/// Fills the whole buffer.
struct FillsAnswers;

impl Side for FillsAnswers {
    fn feed(
        &self,
        s: &mut raw::Session,
        memory: &mut [u64],
        piece: &[u8],
        answers: &mut [u8],
    ) -> Fed {
        let fed = Archive.feed(s, memory, piece, answers);
        if let Some(rest) = answers.get_mut(fed.finished..) {
            rest.fill(0);
        }
        fed
    }
}

/// Puts an answer at the place of its record in the whole tape.
struct AnswersByTheCount;

impl Side for AnswersByTheCount {
    fn feed(
        &self,
        s: &mut raw::Session,
        memory: &mut [u64],
        piece: &[u8],
        answers: &mut [u8],
    ) -> Fed {
        let first = usize::try_from(s.count).unwrap_or(usize::MAX);
        let first = first.min(answers.len());
        Archive.feed(s, memory, piece, &mut answers[first..])
    }
}

#[test]
fn wrong_answers_are_found() {
    assert!(in_pieces(&FillsAnswers).contains("feed, answers at "));
    assert!(in_pieces(&AnswersByTheCount).contains("feed, answers at "));
}

/// Takes any byte past those held for 0.
struct TakesAnyByte;

impl Side for TakesAnyByte {
    fn feed(
        &self,
        s: &mut raw::Session,
        memory: &mut [u64],
        piece: &[u8],
        answers: &mut [u8],
    ) -> Fed {
        let bytes = s.bytes;
        if let Some(past) = s.bytes.get_mut(s.held..) {
            past.fill(0);
        }
        let fed = Archive.feed(s, memory, piece, answers);
        // What is refused for another reason stays as it was: this side is wrong in the bytes alone.
        if matches!(fed.answer, 1 | 2) {
            s.bytes = bytes;
        }
        fed
    }
}

/// Gives back a value that it has refused with the number as its answer.
struct MarksRefused;

impl Side for MarksRefused {
    fn feed(
        &self,
        s: &mut raw::Session,
        memory: &mut [u64],
        piece: &[u8],
        answers: &mut [u8],
    ) -> Fed {
        let fed = Archive.feed(s, memory, piece, answers);
        if matches!(fed.answer, 1 | 2) {
            s.answer = fed.answer;
        }
        fed
    }
}

/// Tells the count though it refuses.
struct CountsRefused;

impl Side for CountsRefused {
    fn close(&self, s: &raw::Session, len: usize) -> (Ended, raw::Machine) {
        let (mut ended, machine) = Archive.close(s, len);
        ended.count = s.count as usize;
        (ended, machine)
    }
}

/// Does not mind an unfinished record at the close.
struct ClosesRagged;

impl Side for ClosesRagged {
    fn close(&self, s: &raw::Session, len: usize) -> (Ended, raw::Machine) {
        let (mut ended, machine) = Archive.close(s, len);
        if ended.answer == 6 {
            ended.answer = 0;
        }
        (ended, machine)
    }
}

/// Opens what is not valid.
struct OpensAll;

impl Side for OpensAll {
    fn open(&self, m: &raw::Machine, len: usize) -> raw::Session {
        let mut session = Archive.open(m, len);
        if session.answer == 2 {
            session.answer = 0;
        }
        session
    }
}

#[test]
fn wrong_refusals_are_found() {
    let text = of_bits(&TakesAnyByte);
    assert!(text.contains("feed: model Fed { answer: 2"), "{text}");
    let text = of_bits(&MarksRefused);
    assert!(text.contains("feed, session's answer: model "), "{text}");
    let text = of_bits(&CountsRefused);
    assert!(text.contains("close: model Ended { answer: "), "{text}");
    let text = in_pieces(&ClosesRagged);
    assert!(text.contains("close: model Ended { answer: 6"), "{text}");
    let text = in_pieces(&OpensAll);
    assert!(text.contains("open, session's answer: model 2"), "{text}");
}

/// They are among what the whole comparison does.
#[test]
fn a_batch_has_sessions() {
    let (_, failure) = compare(&CountsStop, 7, 2000, (0, 1));
    let failure = failure.expect("a wrong side is found out");
    assert!(failure.what.starts_with("session"), "{failure}");
}

#[test]
fn what_was_not_met_is_told() {
    let unmet = Counts::default().wrong(ALL_MET_FROM);
    for cell in [
        "feed, 2",
        "feed, stops, 13",
        "feed, stopped before, 7",
        "close, 6",
        "close, no machine, 1",
        "0 bytes held before a piece that finishes nothing",
        "15 bytes held before a piece that finishes some",
        "15 bytes held after a piece",
        "feed: 17 bytes",
        "feed: many bytes",
        "feed, stops: by 9 behind records done",
        "close: 2 of the answer 6",
        "feed: 1 of the thread count",
    ] {
        let cell = format!("not met: session: {cell}");
        assert!(unmet.contains(&cell), "{cell}");
    }
}
