//! What of sessions must be met, read by hand from docs/RULES.md, Q1 to Q9 and
//! H10: each number that a call can give, each number of bytes held before and
//! after a piece, and situations finer than these.

use std::fmt::{self, Write};

use model::session::MOST_HELD;
use model::tape::MARK;
use model::{Fed, Session};

use super::case::Piece;
use crate::cells::NUMBERS;
use crate::counts::{place, write_cell, Row};
use crate::sides::model_valid;

/// How many calls there are.
const CALLS: usize = 8;
/// Places for the situations of one call.
const MOST: usize = 40;
/// How many numbers of held bytes there are.
const HELD: usize = MOST_HELD + 1;
/// A table shows the numbers below this.
const SHOWN: u8 = 14;

/// A call. Feeding is told apart by what comes of it.
#[derive(Clone, Copy, PartialEq, Eq, Debug)]
pub enum Call {
    /// open.
    Open,
    /// feed, after which the session goes on, or which is refused.
    Feed,
    /// feed that stops the session.
    Stop,
    /// feed of a session that has stopped before.
    After,
    /// close.
    Close,
    /// open on bits that are no machine.
    BitsOpen,
    /// feed on bits that are no machine.
    BitsFeed,
    /// close on bits that are no machine.
    BitsClose,
}

/// A call, its name, the numbers that it can give, and lists of its situations.
type CallRow = (
    Call,
    &'static str,
    &'static [u8],
    &'static [&'static [Situation]],
);

/// The numbers that stop a session.
const STOPS: [u8; 9] = [3, 4, 5, 7, 8, 9, 11, 12, 13];

/// Every call.
const ROWS: [CallRow; CALLS] = [
    (Call::Open, "open", &[0, 1, 2], &[&SIZES]),
    (Call::Feed, "feed", &[0, 1, 2], &[&FEED, &SIZES, &REFUSED]),
    (Call::Stop, "feed, stops", &STOPS, &[&STOP]),
    (Call::After, "feed, stopped before", &STOPS, &[&AFTER]),
    (
        Call::Close,
        "close",
        &[0, 1, 2, 3, 4, 5, 6, 7, 8, 9, 11, 12, 13],
        &[&CLOSE, &SIZES, &REFUSED],
    ),
    (Call::BitsOpen, "open, no machine", &[1, 2], &[]),
    (Call::BitsFeed, "feed, no machine", &[1, 2], &[]),
    (Call::BitsClose, "close, no machine", &[1, 2], &[]),
];

/// A call as it was answered.
pub struct View<'a> {
    call: Call,
    /// The value handed in; of an opening, the one given back.
    before: &'a Session,
    after: &'a Session,
    /// How long the memory is.
    len: usize,
    piece: &'a [u8],
    /// Places for answers.
    room: usize,
    answer: u8,
    finished: usize,
}

/// A name, and whether a call is such a one.
type Situation = (&'static str, fn(&View) -> bool);

#[rustfmt::skip]
const SIZES: [Situation; 3] = [
    ("1 of the memory's length", |v| v.answer == 1 && v.has_right_count()),
    ("1 of the thread count", |v| v.answer == 1 && !v.has_right_count()),
    ("2 of a machine that is not valid", |v| v.answer == 2 && v.of_machine() == 2 && (v.call == Call::Open || v.holds_well())),
];

#[rustfmt::skip]
const FEED: [Situation; 19] = [
    ("no byte", |v| v.goes_on() && v.piece.is_empty()),
    ("1 byte", |v| v.goes_on() && v.piece.len() == 1),
    ("15 bytes", |v| v.goes_on() && v.piece.len() == 15),
    ("16 bytes", |v| v.goes_on() && v.piece.len() == 16),
    ("17 bytes", |v| v.goes_on() && v.piece.len() == 17),
    ("many bytes", |v| v.goes_on() && v.piece.len() > 320),
    ("bytes join those held, and no record is whole", |v| v.goes_on() && v.joins() && v.finished == 0),
    ("a record begun before, and nothing more", |v| v.goes_on() && v.joins() && v.finished == 1 && v.after.held == 0),
    ("a record begun before, and one begun behind it", |v| v.goes_on() && v.joins() && v.finished == 1 && v.after.held > 0),
    ("a record begun before, and several", |v| v.goes_on() && v.joins() && v.finished > 2),
    ("many records", |v| v.goes_on() && v.finished > 20),
    ("no room", |v| v.goes_on() && v.room == 0 && v.finished > 0),
    ("room for some", |v| v.goes_on() && v.room > 0 && v.room < v.finished),
    ("room for just all", |v| v.goes_on() && v.room > 0 && v.room == v.finished),
    ("more room", |v| v.goes_on() && v.finished > 0 && v.room > v.finished),
    ("the count wraps", |v| v.goes_on() && v.after.count < v.before.count),
    ("a right first byte held", |v| v.goes_on() && v.after.held > 0 && v.after.bytes[0] == MARK),
    ("a wrong first byte held", |v| v.goes_on() && v.after.held > 0 && v.after.bytes[0] != MARK),
    ("a wrong kind held", |v| v.goes_on() && v.after.held > 1 && v.after.bytes[0] == MARK && !matches!(v.after.bytes[1], 1..=26)),
];

#[rustfmt::skip]
const STOP: [Situation; 13] = [
    ("at its first record", |v| v.finished == 1),
    ("at a record begun before", |v| v.joins() && v.finished == 1),
    ("behind others, the first begun before", |v| v.joins() && v.finished > 1),
    ("behind others", |v| v.finished > 1),
    ("nothing behind it", |v| v.behind() == 0),
    ("a part of a record behind it", |v| (1..16).contains(&v.behind())),
    ("whole records behind it", |v| v.behind() >= 16),
    ("by 7 behind records done", |v| v.answer == 7 && v.finished > 1),
    ("by 8 behind records done", |v| v.answer == 8 && v.finished > 1),
    ("by 9 behind records done", |v| v.answer == 9 && v.finished > 1),
    ("by 7 at a record begun before", |v| v.answer == 7 && v.joins() && v.finished == 1),
    ("no room for its answer alone", |v| v.finished > 1 && v.room + 1 == v.finished),
    ("more room", |v| v.room > v.finished),
];

#[rustfmt::skip]
const AFTER: [Situation; 3] = [
    ("no byte", |v| v.piece.is_empty()),
    ("a part of a record", |v| (1..16).contains(&v.piece.len())),
    ("whole records, and room for their answers", |v| v.piece.len() >= 16 && v.room > 0),
];

#[rustfmt::skip]
const CLOSE: [Situation; 7] = [
    ("0, no record", |v| v.answer == 0 && v.before.count == 0),
    ("0, some records", |v| v.answer == 0 && v.before.count > 0),
    ("6 of 1 byte", |v| v.answer == 6 && v.before.held == 1),
    ("6 of 15 bytes", |v| v.answer == 6 && v.before.held == 15),
    ("6 of a wrong first byte", |v| v.answer == 6 && v.before.bytes[0] != MARK),
    ("6, no record", |v| v.answer == 6 && v.before.count == 0),
    ("6, some records", |v| v.answer == 6 && v.before.count > 0),
];

#[rustfmt::skip]
const REFUSED: [Situation; 14] = [
    ("2 of 16 bytes held", |v| v.is_no_session() && v.before.held == 16),
    ("2 of more bytes held", |v| v.is_no_session() && v.before.held > 16),
    ("2 of the byte behind those held", |v| v.is_no_session() && v.past().first().is_some_and(|&byte| byte != 0)),
    ("2 of the last byte, which is not held", |v| v.is_no_session() && v.past().len() > 1 && v.past().last() != Some(&0)),
    ("2 of the answer 1", |v| v.is_no_session() && v.before.answer == 1),
    ("2 of the answer 2", |v| v.is_no_session() && v.before.answer == 2),
    ("2 of the answer 6", |v| v.is_no_session() && v.before.answer == 6),
    ("2 of the answer 10", |v| v.is_no_session() && v.before.answer == 10),
    ("2 of the answer 20", |v| v.is_no_session() && v.before.answer == 20),
    ("2 of the answer 21", |v| v.is_no_session() && v.before.answer == 21),
    ("2 of an answer that is none", |v| v.is_no_session() && (v.before.answer > 21 || matches!(v.before.answer, 14..=19))),
    ("2 of a stop with bytes held", |v| v.is_no_session() && STOPS.contains(&v.before.answer) && v.before.bytes[0] != 0),
    ("2 of a stop with zeros held", |v| v.is_no_session() && STOPS.contains(&v.before.answer) && v.before.bytes == [0; 15]),
    ("1 before 2", |v| v.answer == 1 && v.before.held > 15),
];

// Each has a place.
const _: () = assert!(FEED.len() + SIZES.len() + REFUSED.len() <= MOST);
const _: () = assert!(CLOSE.len() + SIZES.len() + REFUSED.len() <= MOST);

impl<'a> View<'a> {
    /// A call that takes no piece.
    pub fn of(call: Call, session: &'a Session, len: usize, answer: u8) -> View<'a> {
        View {
            call,
            before: session,
            after: session,
            len,
            piece: &[],
            room: 0,
            answer,
            finished: 0,
        }
    }

    /// A piece fed.
    pub fn of_feed(
        before: &'a Session,
        piece: &'a Piece,
        len: usize,
        fed: Fed,
        after: &'a Session,
    ) -> View<'a> {
        let call = match fed.answer {
            0..=2 => Call::Feed,
            _ if before.has_stopped() => Call::After,
            _ => Call::Stop,
        };
        View {
            call,
            before,
            after,
            len,
            piece: &piece.bytes,
            room: piece.answers.len(),
            answer: fed.answer,
            finished: fed.finished,
        }
    }

    /// How many records the piece finished.
    pub fn finished(&self) -> usize {
        self.finished
    }

    fn goes_on(&self) -> bool {
        self.answer == 0
    }

    /// Whether bytes are held before the piece, and it has some.
    fn joins(&self) -> bool {
        self.before.held > 0 && !self.piece.is_empty()
    }

    /// Bytes behind the last record finished.
    fn behind(&self) -> usize {
        self.before.held + self.piece.len() - 16 * self.finished
    }

    fn has_right_count(&self) -> bool {
        (1..=4).contains(&self.before.machine.count)
    }

    /// The tests 1 and 2 of the machine alone.
    fn of_machine(&self) -> u8 {
        model_valid(&self.before.machine, self.len)
    }

    /// Refused by 2, though the machine is valid.
    fn is_no_session(&self) -> bool {
        self.answer == 2 && self.of_machine() == 0
    }

    /// Whether all but the machine is as rule Q2 asks.
    fn holds_well(&self) -> bool {
        let Session {
            held,
            answer,
            bytes,
            ..
        } = self.before;
        let past = bytes.get(*held..);
        past.is_some_and(|past| past.iter().all(|&byte| byte == 0))
            && (*answer == 0 || *held == 0 && STOPS.contains(answer))
    }

    /// The places at and past those held, of a value that goes on.
    fn past(&self) -> &[u8] {
        let Session { held, bytes, .. } = self.before;
        match self.before.has_stopped() {
            true => &[],
            false => bytes.get(*held..).unwrap_or(&[]),
        }
    }
}

/// How often each was met.
#[derive(Clone, PartialEq, Eq, Debug)]
pub struct Met {
    answers: [[u64; NUMBERS]; CALLS],
    /// By the number of bytes held: before a piece that finishes no record,
    /// before one that does, and after a piece.
    held: [[u64; HELD]; 3],
    situations: [[u64; MOST]; CALLS],
}

/// The names of the three.
const HELD_NAMES: [&str; 3] = [
    "before a piece that finishes nothing",
    "before a piece that finishes some",
    "after a piece",
];

impl Default for Met {
    fn default() -> Met {
        Met {
            answers: [[0; NUMBERS]; CALLS],
            held: [[0; HELD]; 3],
            situations: [[0; MOST]; CALLS],
        }
    }
}

impl Met {
    /// One call on which both sides agreed.
    pub fn note(&mut self, view: &View) {
        self.answer(view.call, view.answer);
        if view.call == Call::Feed && view.goes_on() {
            let finishes = usize::from(view.finished > 0);
            self.held[finishes][view.before.held] += 1;
            self.held[2][view.after.held] += 1;
        }
        let call = view.call as usize;
        let (.., lists) = ROWS[call];
        let situations = lists.iter().copied().flatten();
        for ((_, is_such), met) in situations.zip(&mut self.situations[call]) {
            *met += u64::from(is_such(view));
        }
    }

    /// The number of a call.
    pub fn answer(&mut self, call: Call, answer: u8) {
        self.answers[call as usize][place(answer)] += 1;
    }

    /// All numbers in a fixed order.
    pub fn numbers(&self) -> impl Iterator<Item = &u64> {
        let answers = self.answers.as_flattened().iter();
        answers
            .chain(self.held.as_flattened())
            .chain(self.situations.as_flattened())
    }

    /// The same, to be changed.
    pub fn numbers_mut(&mut self) -> impl Iterator<Item = &mut u64> {
        let answers = self.answers.as_flattened_mut().iter_mut();
        answers
            .chain(self.held.as_flattened_mut())
            .chain(self.situations.as_flattened_mut())
    }

    /// Every number and situation of each call, and every number of bytes held.
    pub(crate) fn rows(&self) -> impl Iterator<Item = Row> + '_ {
        self.answer_rows()
            .chain(self.held_rows())
            .chain(self.situation_rows())
    }

    fn answer_rows(&self) -> impl Iterator<Item = Row> + '_ {
        ROWS.into_iter().flat_map(|(call, name, can, _)| {
            let answers = (0u8..).zip(&self.answers[call as usize]);
            answers.map(move |(answer, &met)| Row {
                met,
                name: format!("session: {name}, {answer}"),
                why_not: (!can.contains(&answer)).then_some("it never gives that"),
            })
        })
    }

    fn held_rows(&self) -> impl Iterator<Item = Row> + '_ {
        HELD_NAMES.iter().zip(&self.held).flat_map(|(name, met)| {
            let held = met.iter().enumerate();
            held.map(move |(held, &met)| Row {
                met,
                name: format!("session: {held} bytes held {name}"),
                why_not: None,
            })
        })
    }

    fn situation_rows(&self) -> impl Iterator<Item = Row> + '_ {
        ROWS.into_iter().flat_map(|(call, call_name, _, lists)| {
            let situations = lists.iter().copied().flatten();
            let met = situations.zip(&self.situations[call as usize]);
            met.map(move |((situation, _), &met)| Row {
                met,
                name: format!("session: {call_name}: {situation}"),
                why_not: None,
            })
        })
    }

    /// The tables of them. A dot is a number that cannot be met.
    pub fn tables(&self) -> String {
        let mut text = String::new();
        // Writing to a string does not fail.
        let _ = self.write_answers(&mut text);
        let _ = self.write_held(&mut text);
        let _ = writeln!(text, "\nsessions, situations met");
        for row in self.situation_rows() {
            let _ = writeln!(text, "{:>9}  {}", row.met, row.name);
        }
        text
    }

    fn write_answers(&self, text: &mut String) -> fmt::Result {
        write!(text, "\nsessions, calls by answer\n{:22}", "")?;
        for answer in 0..SHOWN {
            write!(text, "{answer:>8}")?;
        }
        writeln!(text)?;
        for (call, name, can, _) in ROWS {
            write!(text, "{name:22}")?;
            for answer in 0..SHOWN {
                let met = self.answers[call as usize][usize::from(answer)];
                write_cell(text, met, can.contains(&answer))?;
            }
            writeln!(text)?;
        }
        Ok(())
    }

    fn write_held(&self, text: &mut String) -> fmt::Result {
        writeln!(
            text,
            "\nsessions, pieces by the bytes held, 0 to {MOST_HELD}"
        )?;
        for (name, met) in HELD_NAMES.iter().zip(&self.held) {
            write!(text, "{name:38}")?;
            for met in met {
                write!(text, "{met:>7}")?;
            }
            writeln!(text)?;
        }
        Ok(())
    }
}
