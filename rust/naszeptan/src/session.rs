//! A tape that comes in pieces.

use std::fmt;
use std::io::{self, ErrorKind, Read};
use std::iter::FusedIterator;

use crate::raw;
use crate::{Answer, Ended, Machine, RECORD_SIZE};

/// Bytes that are read at once: those of 4,096 records.
pub const PIECE: usize = 65_536;

/// A tape that comes in pieces, cut at any byte: down a pipe, say.
///
/// A record is done when its last byte has come, and up to 15 bytes of the next
/// are held. Nothing is read in advance. So, other than in [`Machine::run`], a
/// record that is none stops the session where it stands, and the records
/// before it stay done; as they do where an event is refused. Over any cutting
/// the answers, the count, the machine and the memory are the same
/// (docs/RULES.md, Q1 to Q9).
///
/// ```
/// use naszeptan::{Answer, Event, Machine, Session, Tape, MEMORY};
///
/// let mut tape = Tape::new();
/// tape.push(0, Event::Tbegin { r: false })
///     .push(0, Event::Tabort { ra: 0 })
///     .push(0, Event::Tbegin { r: false });
/// let (first, second) = tape.as_bytes().split_at(23);
///
/// let mut memory = vec![0; MEMORY];
/// let mut session = Session::open(&Machine::fresh(), &mut memory).unwrap();
/// assert!(session.feed(first).eq([Answer::Done]));
/// assert_eq!((session.count(), session.held().len()), (1, 7));
/// assert!(session.feed(second).eq([Answer::Handled, Answer::Done]));
///
/// let ended = session.close();
/// assert_eq!((ended.answer, ended.count), (Answer::Done, 3));
/// assert_eq!(ended.to_string(), "3 records done");
/// println!("{}", session.machine());
/// ```
///
/// From a reader, with a count to watch:
///
/// ```
/// use naszeptan::{Event, Machine, Session, Tape};
///
/// let mut tape = Tape::from_iter([(1, Event::Disallowed); 10_000]);
/// tape.push(4, Event::Disallowed);
///
/// let mut memory = [0; 16];
/// let mut session = Session::open(&Machine::fresh(), &mut memory).unwrap();
/// session.read_to_end(tape.as_bytes(), |session| eprintln!("{}", session.count()))?;
/// assert_eq!(session.close().to_string(), "record 10000: 3, no such thread");
/// # Ok::<(), std::io::Error>(())
/// ```
pub struct Session<'a> {
    bits: raw::Session,
    memory: &'a mut [u64],
    /// Those of the last piece.
    answers: Vec<u8>,
    /// Where a piece is read to; empty before the first read.
    piece: Vec<u8>,
}

impl<'a> Session<'a> {
    /// A session on this machine, which is copied, and over this memory, which
    /// is lent for the session's life. [`Answer::Size`] or
    /// [`Answer::NoMachine`] where that is no machine.
    pub fn open(machine: &Machine, memory: &'a mut [u64]) -> Result<Session<'a>, Answer> {
        let bits = raw::open(machine.into(), memory.len());
        Session::from_raw(bits, memory)
    }

    /// A session from its bits, as [`as_raw`](Session::as_raw) gave them, over
    /// its memory. [`Answer::Size`] or [`Answer::NoMachine`] where they are no
    /// session.
    pub fn from_raw(bits: raw::Session, memory: &'a mut [u64]) -> Result<Session<'a>, Answer> {
        // The numbers 1 and 2 stop no session, so they tell a refusal.
        match Answer::promised(raw::feed(bits, memory, &[], &mut []).answer) {
            refused @ (Answer::Size | Answer::NoMachine) => Err(refused),
            _ => Ok(Session {
                bits,
                memory,
                answers: Vec::new(),
                piece: Vec::new(),
            }),
        }
    }

    /// The bits, to be kept and handed to [`from_raw`](Session::from_raw).
    pub fn as_raw(&self) -> &raw::Session {
        &self.bits
    }

    /// Feeds a piece of any length: the answers of the records that it
    /// finished. The last of them is the one that stopped the session, if one
    /// did. A session that has stopped takes no more: nothing changes.
    ///
    /// ```
    /// use naszeptan::{Answer, Machine, Session};
    ///
    /// let mut memory = [0; 16];
    /// let mut session = Session::open(&Machine::fresh(), &mut memory).unwrap();
    /// // The first byte is wrong. That is found when the record is whole.
    /// assert_eq!(session.feed(&[0; 15]).len(), 0);
    /// assert_eq!(session.answer(), Answer::Done);
    /// assert!(session.feed(&[0]).eq([Answer::BadFirstByte]));
    /// assert!(session.has_stopped());
    /// assert_eq!(session.feed(&[0; 99]).len(), 0);
    /// ```
    pub fn feed(&mut self, piece: &[u8]) -> Answers<'_> {
        let room = (self.bits.held + piece.len()) / RECORD_SIZE;
        self.answers.resize(room, 0);
        let fed = raw::feed(self.bits, self.memory, piece, &mut self.answers);
        self.bits = fed.session;
        // Where it has stopped there may be fewer.
        self.answers.truncate(fed.finished);
        self.last_answers()
    }

    /// The answers of the records that the last piece finished.
    fn last_answers(&self) -> Answers<'_> {
        Answers {
            numbers: self.answers.iter(),
        }
    }

    /// Reads once, up to [`PIECE`] bytes, and feeds what came: the answers of
    /// the records that it finished. None at the reader's end; none, and no
    /// read, where the session has stopped. Where the read fails nothing is fed,
    /// and it may be tried again.
    ///
    /// ```
    /// use naszeptan::{Event, Machine, Session, Tape};
    ///
    /// let tape = Tape::from_iter([(0, Event::Interrupt); 5000]);
    /// let (mut reader, mut memory) = (tape.as_bytes(), [0; 16]);
    /// let mut session = Session::open(&Machine::fresh(), &mut memory).unwrap();
    /// let mut finished = Vec::new();
    /// while let Some(answers) = session.read_piece(&mut reader)? {
    ///     finished.push(answers.len());
    /// }
    /// assert_eq!(finished, [4096, 904]);
    /// # Ok::<(), std::io::Error>(())
    /// ```
    pub fn read_piece(&mut self, from: impl Read) -> io::Result<Option<Answers<'_>>> {
        if self.has_stopped() {
            return Ok(None);
        }
        let mut piece = std::mem::take(&mut self.piece);
        piece.resize(PIECE, 0);
        let read = read_once(from, &mut piece);
        if let Ok(bytes) = read {
            self.feed(&piece[..bytes]);
        }
        self.piece = piece;
        Ok((read? > 0).then(|| self.last_answers()))
    }

    /// Reads and feeds piece after piece until the reader's end, or until the
    /// session stops: the rest is not read then. After each piece the session
    /// is shown, so that its [`count`](Session::count) can be watched.
    ///
    /// Gives the session's answer: [`Answer::Done`] at the reader's end. Where
    /// a read fails, what was fed before stays done, and it may be tried again.
    pub fn read_to_end(
        &mut self,
        mut from: impl Read,
        mut watch: impl FnMut(&Session),
    ) -> io::Result<Answer> {
        while self.read_piece(&mut from)?.is_some() {
            watch(self);
        }
        Ok(self.answer())
    }

    /// How it ends where no more comes: with [`Answer::TapeLength`] where bytes
    /// of an unfinished record are held, if nothing has stopped it before.
    ///
    /// This changes nothing: [`machine`](Session::machine) gives the machine
    /// then, and a piece may still be fed.
    pub fn close(&self) -> Ended {
        let ended = raw::close(self.bits, self.memory.len());
        Ended {
            answer: Answer::promised(ended.answer),
            count: ended.count,
            index: ended.index,
        }
    }

    /// [`Answer::Done`] while it goes on, else the answer that stopped it.
    pub fn answer(&self) -> Answer {
        Answer::promised(self.bits.answer)
    }

    /// Whether a record has stopped it. It takes no more then.
    pub fn has_stopped(&self) -> bool {
        self.answer() != Answer::Done
    }

    /// How many records were done, modulo 2^64. The one that stopped it is not
    /// among them; its index is this.
    pub fn count(&self) -> u64 {
        self.bits.count
    }

    /// The bytes of an unfinished record, at most 15.
    pub fn held(&self) -> &[u8] {
        &self.bits.bytes[..self.bits.held]
    }

    /// The machine after exactly the records done.
    pub fn machine(&self) -> Machine {
        Machine::promised(&self.bits.machine)
    }

    /// The memory after exactly the records done.
    pub fn memory(&self) -> &[u64] {
        self.memory
    }
}

impl fmt::Debug for Session<'_> {
    /// Without the memory, which is long.
    fn fmt(&self, f: &mut fmt::Formatter<'_>) -> fmt::Result {
        f.debug_struct("Session")
            .field("count", &self.count())
            .field("answer", &self.answer())
            .field("held", &self.held())
            .field("machine", &self.machine())
            .finish_non_exhaustive()
    }
}

/// Reads once; a read that a signal broke off is tried again.
fn read_once(mut from: impl Read, piece: &mut [u8]) -> io::Result<usize> {
    loop {
        match from.read(piece) {
            Err(why) if why.kind() == ErrorKind::Interrupted => continue,
            read => return read,
        }
    }
}

/// The answers of the records that a piece finished, in their order.
#[derive(Clone, Debug)]
pub struct Answers<'a> {
    numbers: std::slice::Iter<'a, u8>,
}

impl Iterator for Answers<'_> {
    type Item = Answer;

    fn next(&mut self) -> Option<Answer> {
        self.numbers.next().copied().map(Answer::promised)
    }

    fn size_hint(&self) -> (usize, Option<usize>) {
        self.numbers.size_hint()
    }
}

impl DoubleEndedIterator for Answers<'_> {
    fn next_back(&mut self) -> Option<Answer> {
        self.numbers.next_back().copied().map(Answer::promised)
    }
}

impl ExactSizeIterator for Answers<'_> {}

impl FusedIterator for Answers<'_> {}
