//! Rules Q1 to Q9: the session, a tape in pieces.

use crate::machine::{valid, Machine};
use crate::step::step_trusted;
use crate::tape::{self, RECORD};
use crate::{answer, Ended};

/// The most bytes of an unfinished record.
pub const MOST_HELD: usize = RECORD - 1;

/// What the caller keeps between the pieces (rule Q1). Any value can be made;
/// which of them are sessions over a memory is rule Q2's to say.
#[derive(Clone, PartialEq, Eq, Debug)]
pub struct Session {
    /// The machine after the records done.
    pub machine: Machine,
    /// How many records were done, modulo 2^64.
    pub count: u64,
    /// How many bytes of an unfinished record are held.
    pub held: usize,
    /// 0 while it goes on, else the number that stopped it.
    pub answer: u8,
    /// The held bytes, then zeros.
    pub bytes: [u8; MOST_HELD],
}

/// What feeding a piece gives beside the session.
#[derive(Clone, Copy, PartialEq, Eq, Debug)]
pub struct Fed {
    /// The session's answer, or 1 or 2 where the value is no session.
    pub answer: u8,
    /// How many records the piece finished, the stopping one among them.
    pub finished: usize,
}

impl Session {
    /// Rule Q3: the session of this machine with a memory of `len`. Where it is
    /// refused the value has the number as its answer, and is no session.
    pub fn open(machine: Machine, len: usize) -> Session {
        Session {
            answer: machine_number(&machine, len),
            machine,
            count: 0,
            held: 0,
            bytes: [0; MOST_HELD],
        }
    }

    /// Rules Q4 to Q7: feeds a piece. The answers of the records that it
    /// finishes go into the buffer, as far as that has places.
    pub fn feed(&mut self, mem: &mut [u64], piece: &[u8], answers: &mut [u8]) -> Fed {
        let refused = self.refused(mem.len());
        if refused.is_some() || self.has_stopped() {
            return Fed {
                answer: refused.unwrap_or(self.answer),
                finished: 0,
            };
        }
        let joined = [&self.bytes[..self.held], piece].concat();
        let records = joined.chunks_exact(RECORD);
        let rest = records.remainder();
        let mut finished = 0;
        for record in records {
            let number = self.record(mem, record);
            if let Some(place) = answers.get_mut(finished) {
                *place = number;
            }
            finished += 1;
            if self.has_stopped() {
                break;
            }
        }
        self.hold(if self.has_stopped() { &[] } else { rest });
        Fed {
            answer: self.answer,
            finished,
        }
    }

    /// Rule Q8: what the run over all pieces ended with. Its machine is the
    /// session's.
    pub fn close(&self, len: usize) -> Ended {
        if let Some(number) = self.refused(len) {
            return Ended::refused(number, 0);
        }
        let answer = if self.has_stopped() {
            self.answer
        } else if self.held > 0 {
            answer::RAGGED
        } else {
            answer::DONE
        };
        // Both have 64 bits on the machines that this is for.
        Ended::after(answer, self.count as usize)
    }

    /// Whether a record has stopped it.
    pub fn has_stopped(&self) -> bool {
        self.answer != answer::DONE
    }

    /// Rule Q2: 1 or 2 where the value is no session over a memory of `len`.
    fn refused(&self, len: usize) -> Option<u8> {
        match machine_number(&self.machine, len) {
            answer::DONE if !self.is_well_held() => Some(answer::INVALID),
            answer::DONE => None,
            number => Some(number),
        }
    }

    /// What rule Q2 asks of the held bytes and of the answer.
    fn is_well_held(&self) -> bool {
        let Some((_, past)) = self.bytes.split_at_checked(self.held) else {
            return false;
        };
        past.iter().all(|&byte| byte == 0)
            && match self.answer {
                0 => true,
                3 | 4 | 5 | 7 | 8 | 9 | 11 | 12 | 13 => self.held == 0,
                _ => false,
            }
    }

    /// Rule Q6 of one whole record: it is read and done, and counted or the
    /// session stopped. Every event keeps the machine valid, so the step is
    /// trusted.
    fn record(&mut self, mem: &mut [u64], record: &[u8]) -> u8 {
        let number = match tape::read(record) {
            Ok((thread, e)) => step_trusted(&mut self.machine, mem, thread, e),
            Err(number) => number,
        };
        if answer::is_done(number) {
            self.count = self.count.wrapping_add(1);
        } else {
            self.answer = number;
        }
        number
    }

    /// Holds these bytes and no others.
    fn hold(&mut self, rest: &[u8]) {
        self.held = rest.len();
        self.bytes = [0; MOST_HELD];
        self.bytes[..rest.len()].copy_from_slice(rest);
    }
}

/// The tests 1 and 2 of a machine: the number, or 0.
fn machine_number(m: &Machine, len: usize) -> u8 {
    if !m.shape_fits(len) {
        answer::SHAPE
    } else if !valid(m, len) {
        answer::INVALID
    } else {
        answer::DONE
    }
}
