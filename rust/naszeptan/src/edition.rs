//! The editions of the tape.

use std::error::Error;
use std::fmt;

use crate::Answer;

/// An edition of the tape: a layout of records, each of 16 bytes (docs/RULES.md,
/// T8). Both have the events of kinds 1 to 17, and edition three the others too.
///
/// Nothing tells the edition from a tape's bytes, and a [`Tape`](crate::Tape)
/// does not know its own: who reads, writes or converts names it. A tape that
/// is taken for one of the other edition is refused by
/// [`Answer::BadFirstByte`] at its first record, unless it is empty or its
/// length is ragged. Where no edition is named, as
/// in a run, it is edition three.
///
/// ```
/// use naszeptan::{Answer, Edition, Event};
///
/// let store = Event::Std { ra: 3, index: 17 };
/// let record = store.write_in(Edition::Two, 1).unwrap();
/// assert_eq!(record, [1, 0x0D, 0, 3, 0, 0, 0, 0, 0x11, 0, 0, 0, 0, 0, 0, 0]);
/// assert_eq!(Event::read_in(Edition::Two, &record), Ok((1, store)));
/// assert_eq!(Event::read_in(Edition::Three, &record), Err(Answer::BadFirstByte));
///
/// // Edition two has four threads.
/// assert_eq!(store.write_in(Edition::Two, 4), Err(Answer::NoThread));
/// // And kinds 1 to 17.
/// assert_eq!(Event::Rfid.write_in(Edition::Two, 0), Err(Answer::NoKind));
/// assert_eq!(Edition::Two.to_string(), "edition two");
/// ```
#[derive(Clone, Copy, Debug, PartialEq, Eq, PartialOrd, Ord, Hash)]
pub enum Edition {
    /// The older layout: the thread, 0 to 3, is the first byte, and the lowest
    /// byte of a number comes first. Kinds 1 to 17, for ever.
    Two,
    /// The layout of rule T2: the first byte is 0xE3, and the highest byte of a
    /// number comes first.
    Three,
}

impl Edition {
    /// Both, two first.
    pub const ALL: [Edition; 2] = [Edition::Two, Edition::Three];

    /// The edition that this one is converted into.
    pub const fn other(self) -> Edition {
        match self {
            Edition::Two => Edition::Three,
            Edition::Three => Edition::Two,
        }
    }

    /// The number: 2 or 3.
    pub const fn number(self) -> u8 {
        match self {
            Edition::Two => 2,
            Edition::Three => 3,
        }
    }
}

impl fmt::Display for Edition {
    fn fmt(&self, f: &mut fmt::Formatter<'_>) -> fmt::Result {
        f.pad(match self {
            Edition::Two => "edition two",
            Edition::Three => "edition three",
        })
    }
}

/// Why a tape was not converted: what [`Tape::convert`](crate::Tape::convert)
/// gives instead of a tape.
#[derive(Clone, Copy, Debug, PartialEq, Eq, Hash)]
pub struct NotConverted {
    /// The edition for whose tape it was taken.
    pub from: Edition,
    /// Why the record was refused; [`Answer::TapeLength`] where the whole tape
    /// was.
    pub answer: Answer,
    /// The record's index, from 0; for a whole tape, how many whole records it
    /// has.
    pub index: usize,
}

impl fmt::Display for NotConverted {
    fn fmt(&self, f: &mut fmt::Formatter<'_>) -> fmt::Result {
        let NotConverted {
            from,
            answer,
            index,
        } = self;
        match answer {
            Answer::TapeLength => f.write_str("the tape: ")?,
            _ => write!(f, "record {index}: ")?,
        }
        write!(f, "{}, ", answer.number())?;
        match (from, answer) {
            (Edition::Two, Answer::BadFirstByte) => f.write_str("the first byte is above 3"),
            (Edition::Three, Answer::BadFirstByte) => f.write_str("the first byte is not 0xE3"),
            // What one edition has not cannot be converted from the other.
            (_, Answer::NoKind) => f.write_str("the kind is not 1 to 17"),
            _ => write!(f, "{answer}"),
        }
    }
}

impl Error for NotConverted {}
