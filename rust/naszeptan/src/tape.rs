//! Tapes: events as records of 16 bytes.

use std::fmt;
use std::slice::Chunks;

use crate::raw::{self, RECORD_SIZE};
use crate::{Answer, Edition, Event, NotConverted};

/// A tape: records of 16 bytes, one after the other (docs/RULES.md, T1 and
/// T2).
///
/// It is made event by event, or of any bytes. Bytes that are no records stay
/// as they are; [`records`](Tape::records) and a run say why they are none.
/// All but what names an [`Edition`] is of edition three.
///
/// Displayed, it is a listing: a line for each record with its number, thread
/// and event, or the answer by which it is refused and its bytes.
///
/// ```
/// use naszeptan::{Event, Tape};
///
/// let mut tape = Tape::new();
/// tape.push(0, Event::Tbegin { r: false })
///     .push(1, Event::Std { ra: 3, index: 17 });
/// assert_eq!(tape.len(), 2);
/// assert_eq!(tape.as_bytes()[16..20], [0xE3, 0x0D, 1, 0]);
/// assert_eq!(
///     tape.to_string(),
///     "    0  thread 0  tbegin. R=0\n    1  thread 1  std r3, 17"
/// );
///
/// let bad = Tape::from_bytes([0xE3, 0x0D, 1]);
/// assert_eq!(bad.to_string(), "    0  refused 6: E3 0D 01");
/// ```
#[derive(Clone, Debug, Default, PartialEq, Eq, Hash)]
pub struct Tape {
    bytes: Vec<u8>,
}

/// The records of a [`Tape`], each as thread and event, or as the answer by
/// which it is refused.
#[derive(Clone, Debug)]
pub struct Records<'a> {
    edition: Edition,
    pieces: Chunks<'a, u8>,
}

impl Tape {
    /// The empty tape.
    pub fn new() -> Tape {
        Tape::default()
    }

    /// A tape of any bytes.
    pub fn from_bytes(bytes: impl Into<Vec<u8>>) -> Tape {
        Tape {
            bytes: bytes.into(),
        }
    }

    /// Writes an event by a thread at the end.
    ///
    /// The record starts where the tape stops, also after a ragged end.
    pub fn push(&mut self, thread: u8, event: Event) -> &mut Tape {
        let record = event
            .write_in(Edition::Three, thread)
            .expect("proved: the writer refuses no event where the buffer has 16 bytes");
        self.bytes.extend_from_slice(&record);
        self
    }

    /// The bytes.
    pub fn as_bytes(&self) -> &[u8] {
        &self.bytes
    }

    /// The bytes, without a copy.
    pub fn into_bytes(self) -> Vec<u8> {
        self.bytes
    }

    /// How many records there are; a ragged end counts as one.
    pub fn len(&self) -> usize {
        self.bytes.len().div_ceil(RECORD_SIZE)
    }

    /// Whether there are no bytes.
    pub fn is_empty(&self) -> bool {
        self.bytes.is_empty()
    }

    /// Whether the length is not a multiple of 16 bytes. Such a tape is
    /// refused as a whole by a run, as is one with any record that is none.
    pub fn is_ragged(&self) -> bool {
        self.bytes.len() % RECORD_SIZE != 0
    }

    /// The records, in order. A ragged end is the last of them, with
    /// [`Answer::TapeLength`].
    ///
    /// ```
    /// use naszeptan::{Answer, Event, Tape};
    ///
    /// let mut bytes = [0; 20];
    /// bytes[..2].copy_from_slice(&[0xE3, 0x0F]);
    /// let tape = Tape::from_bytes(bytes);
    /// let mut records = tape.records();
    /// assert_eq!(records.next(), Some(Ok((0, Event::Disallowed))));
    /// assert_eq!(records.next(), Some(Err(Answer::TapeLength)));
    /// assert_eq!(records.next(), None);
    /// ```
    pub fn records(&self) -> Records<'_> {
        self.records_in(Edition::Three)
    }

    /// The records of a tape of this edition, as [`records`](Tape::records) has
    /// those of edition three.
    pub fn records_in(&self, edition: Edition) -> Records<'_> {
        Records {
            edition,
            pieces: self.bytes.chunks(RECORD_SIZE),
        }
    }

    /// This tape, which is of edition `from`, in the other edition: the same
    /// events by the same threads, and converted back the same bytes
    /// (docs/RULES.md, T12 and T13). The first record that one edition's reader
    /// or the other's writer refuses is told, and nothing is converted.
    ///
    /// ```
    /// use naszeptan::{Answer, Edition, Event, Tape};
    ///
    /// let old = Tape::from_bytes([0, 0x0D, 0, 3, 0, 0, 0, 0, 0x11, 0, 0, 0, 0, 0, 0, 0]);
    /// let tape = old.convert(Edition::Two).unwrap();
    /// assert_eq!(tape.to_string(), "    0  thread 0  std r3, 17");
    /// assert_eq!(tape.convert(Edition::Three).unwrap(), old);
    ///
    /// let mixed_up = old.convert(Edition::Three).unwrap_err();
    /// assert_eq!((mixed_up.answer, mixed_up.index), (Answer::BadFirstByte, 0));
    /// assert_eq!(mixed_up.to_string(), "record 0: 7, the first byte is not 0xE3");
    ///
    /// let mut five = Tape::new();
    /// five.push(0, Event::Interrupt).push(4, Event::Interrupt);
    /// let refused = five.convert(Edition::Three).unwrap_err();
    /// assert_eq!(refused.to_string(), "record 1: 3, no such thread");
    /// ```
    pub fn convert(&self, from: Edition) -> Result<Tape, NotConverted> {
        let mut bytes = vec![0; self.bytes.len()];
        let converted = match from {
            Edition::Two => raw::two_to_three(&self.bytes, &mut bytes),
            Edition::Three => raw::three_to_two(&self.bytes, &mut bytes),
        };
        match Answer::promised(converted.answer) {
            Answer::Done => Ok(Tape { bytes }),
            answer => Err(NotConverted {
                from,
                answer,
                index: converted.index,
            }),
        }
    }
}

impl Iterator for Records<'_> {
    type Item = Result<(u8, Event), Answer>;

    fn next(&mut self) -> Option<Self::Item> {
        let piece = self.pieces.next()?;
        Some(Event::read_in(self.edition, piece))
    }

    fn size_hint(&self) -> (usize, Option<usize>) {
        self.pieces.size_hint()
    }
}

impl ExactSizeIterator for Records<'_> {}

impl<'a> IntoIterator for &'a Tape {
    type Item = Result<(u8, Event), Answer>;
    type IntoIter = Records<'a>;

    fn into_iter(self) -> Records<'a> {
        self.records()
    }
}

impl AsRef<[u8]> for Tape {
    fn as_ref(&self) -> &[u8] {
        &self.bytes
    }
}

impl Extend<(u8, Event)> for Tape {
    fn extend<I: IntoIterator<Item = (u8, Event)>>(&mut self, events: I) {
        for (thread, event) in events {
            self.push(thread, event);
        }
    }
}

impl FromIterator<(u8, Event)> for Tape {
    fn from_iter<I: IntoIterator<Item = (u8, Event)>>(events: I) -> Tape {
        let mut tape = Tape::new();
        tape.extend(events);
        tape
    }
}

impl fmt::Display for Tape {
    fn fmt(&self, f: &mut fmt::Formatter<'_>) -> fmt::Result {
        for (number, piece) in self.bytes.chunks(RECORD_SIZE).enumerate() {
            if number > 0 {
                writeln!(f)?;
            }
            write!(f, "{number:>5}  ")?;
            match Event::read_in(Edition::Three, piece) {
                Ok((thread, event)) => write!(f, "thread {thread}  {event}")?,
                Err(refused) => {
                    write!(f, "refused {}:", refused.number())?;
                    for byte in piece {
                        write!(f, " {byte:02X}")?;
                    }
                }
            }
        }
        Ok(())
    }
}
