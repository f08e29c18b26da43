//! How a run ended.

use std::fmt;

use crate::Answer;

/// How a run or a session ended, and which record its answer is about
/// (docs/RULES.md, R1 to R3 and Q8).
///
/// Displayed, it is the record with the number and words of its answer, or the
/// count of records done where the tape ended.
///
/// ```
/// use naszeptan::{Answer, Event, Machine, Tape};
///
/// let (mut machine, mut memory) = (Machine::fresh(), [0; 16]);
/// let mut tape = Tape::new();
/// tape.push(0, Event::Tbegin { r: false }).push(0, Event::Trechkpt);
/// // An event that is refused stops the run.
/// let ended = machine.run(&mut memory, &tape);
/// assert_eq!((ended.answer, ended.count), (Answer::Privileged, 1));
/// assert_eq!(ended.bad_record(), None);
/// assert_eq!(
///     ended.to_string(),
///     "record 1: 12, a privileged instruction in problem state"
/// );
///
/// // A record that is none keeps the whole tape from being run.
/// tape.push(0, Event::Disallowed);
/// let mut bytes = tape.into_bytes();
/// bytes[33] = 27;
/// let ended = machine.run(&mut memory, &bytes);
/// assert_eq!(ended.bad_record(), Some((2, Answer::NoKind)));
/// assert_eq!(
///     ended.to_string(),
///     "record 2: 8, the kind is not 1 to 26, or above 17 in edition two"
/// );
/// ```
#[derive(Clone, Copy, Debug, PartialEq, Eq, Hash)]
pub struct Ended {
    /// The answer that ended the run: [`Answer::Done`] at the tape's end.
    pub answer: Answer,
    /// How many records were done.
    pub count: usize,
    /// The record that the answer is about. Of a tape that was not run it is
    /// the first bad one, with [`Answer::TapeLength`] the number of whole
    /// records, and 0 where the machine or its memory was refused. Of a tape
    /// that was run, and of a session, it is `count`.
    pub index: usize,
}

impl Ended {
    /// The first record that is none, and why. Of a run's tape nothing was done
    /// then; in a session the records before it were. With
    /// [`Answer::TapeLength`] it is the piece behind the whole records.
    ///
    /// None where the tape was run, to its end or up to an event that was
    /// refused, and where the machine or its memory was refused.
    pub const fn bad_record(&self) -> Option<(usize, Answer)> {
        match self.answer {
            Answer::TapeLength | Answer::BadFirstByte | Answer::NoKind | Answer::Field => {
                Some((self.index, self.answer))
            }
            _ => None,
        }
    }
}

impl fmt::Display for Ended {
    fn fmt(&self, f: &mut fmt::Formatter<'_>) -> fmt::Result {
        let Ended {
            answer,
            count,
            index,
        } = self;
        match answer {
            Answer::Done => return write!(f, "{count} records done"),
            Answer::Size | Answer::NoMachine => f.write_str("the machine: ")?,
            Answer::TapeLength => f.write_str("the tape: ")?,
            _ => write!(f, "record {index}: ")?,
        }
        write!(f, "{}, {answer}", answer.number())
    }
}
