//! The numbers given back.

use std::error::Error;
use std::fmt;

/// What a call gave back: one case for each number of docs/RULES.md, N1.
///
/// The cases 0, 20 and 21 say that the event was done, all others that it was
/// refused and has changed nothing. In a run, 6 to 9 refuse the whole tape; an
/// event that is refused stops the run, and the records before it stay done. In
/// a session the records before a bad one stay done, too.
///
/// ```
/// use naszeptan::Answer;
///
/// let answer = Answer::try_from(13).unwrap();
/// assert_eq!(answer, Answer::BadThing);
/// assert_eq!(answer.number(), 13);
/// assert!(!answer.is_done());
/// assert_eq!(answer.to_string(), "TM Bad Thing");
/// assert!(Answer::try_from(14).is_err());
/// ```
#[derive(Clone, Copy, Debug, PartialEq, Eq, PartialOrd, Ord, Hash)]
#[repr(u8)]
pub enum Answer {
    /// 0: done.
    Done = 0,
    /// 1: memory length or thread count.
    Size = 1,
    /// 2: not a valid machine, or no session.
    NoMachine = 2,
    /// 3: the event's thread is not below the count; from the writer of
    /// edition two, it is above 3.
    NoThread = 3,
    /// 4: a used register, BF, TO, SPR, index, address or page out of range, or
    /// an address that is no multiple of the access's width.
    Operand = 4,
    /// 5: the host event on a Transactional thread.
    HostInT = 5,
    /// 6: the tape's length is not a multiple of 16 bytes.
    TapeLength = 6,
    /// 7: a record's first byte is not 0xE3; in edition two, it is above 3.
    BadFirstByte = 7,
    /// 8: a kind that is not 1 to 26; in edition two, one above 17 too.
    NoKind = 8,
    /// 9: an unused field or a fixed byte is not 0, or flags are too big.
    Field = 9,
    /// 10: the writer's buffer has under 16 bytes, or the converter's fewer
    /// than the tape.
    ShortBuffer = 10,
    /// 11: a TM instruction with TM = 0.
    FacilityOff = 11,
    /// 12: a privileged instruction in problem state.
    Privileged = 12,
    /// 13: TM Bad Thing.
    BadThing = 13,
    /// 20: done; a failure of the event's own thread was handled.
    Handled = 20,
    /// 21: done; a failure of the event's own thread was recorded in
    /// Suspended state.
    Recorded = 21,
}

/// A number that no [`Answer`] has.
#[derive(Clone, Copy, Debug, PartialEq, Eq)]
pub struct NoAnswer(
    /// The number.
    pub u8,
);

impl Answer {
    /// All cases, in the order of their numbers.
    pub const ALL: [Answer; 16] = [
        Answer::Done,
        Answer::Size,
        Answer::NoMachine,
        Answer::NoThread,
        Answer::Operand,
        Answer::HostInT,
        Answer::TapeLength,
        Answer::BadFirstByte,
        Answer::NoKind,
        Answer::Field,
        Answer::ShortBuffer,
        Answer::FacilityOff,
        Answer::Privileged,
        Answer::BadThing,
        Answer::Handled,
        Answer::Recorded,
    ];

    /// The number of rule N1.
    pub const fn number(self) -> u8 {
        self as u8
    }

    /// Whether the event was done, so that a run goes on after it: 0, 20, 21.
    pub const fn is_done(self) -> bool {
        matches!(self, Answer::Done | Answer::Handled | Answer::Recorded)
    }

    /// The answer that the archive gave by its number.
    pub(crate) fn promised(number: u8) -> Answer {
        Answer::try_from(number)
            .expect("proved: the archive gives no number but those of the table")
    }
}

impl TryFrom<u8> for Answer {
    type Error = NoAnswer;

    fn try_from(number: u8) -> Result<Answer, NoAnswer> {
        let found = Answer::ALL.into_iter().find(|a| a.number() == number);
        found.ok_or(NoAnswer(number))
    }
}

impl From<Answer> for u8 {
    fn from(answer: Answer) -> u8 {
        answer.number()
    }
}

impl fmt::Display for Answer {
    fn fmt(&self, f: &mut fmt::Formatter<'_>) -> fmt::Result {
        f.pad(match self {
            Answer::Done => "done",
            Answer::Size => "memory length or thread count out of range",
            Answer::NoMachine => "not a valid machine",
            Answer::NoThread => "no such thread",
            Answer::Operand => "an operand is out of range",
            Answer::HostInT => "the host cannot set PR and TM in Transactional state",
            Answer::TapeLength => "the length is not a multiple of 16 bytes",
            Answer::BadFirstByte => "the first byte is not 0xE3, or above 3 in edition two",
            Answer::NoKind => "the kind is not 1 to 26, or above 17 in edition two",
            Answer::Field => "an unused field or a fixed byte is not 0, or flags are too big",
            Answer::ShortBuffer => "the buffer is too short",
            Answer::FacilityOff => "the facility is off",
            Answer::Privileged => "a privileged instruction in problem state",
            Answer::BadThing => "TM Bad Thing",
            Answer::Handled => "done; own failure handled",
            Answer::Recorded => "done; own failure recorded in Suspended state",
        })
    }
}

impl Error for Answer {}

impl fmt::Display for NoAnswer {
    fn fmt(&self, f: &mut fmt::Formatter<'_>) -> fmt::Result {
        write!(f, "{} is no answer's number", self.0)
    }
}

impl Error for NoAnswer {}
