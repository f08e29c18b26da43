//! Rules Q1 to Q9: a tape in pieces.

mod bits;
mod pieces;
mod stops;

use super::*;
use crate::{Fed, Session};

/// What stands in a lent buffer of answers before a call.
const KEPT: u8 = 0x55;

/// Events of which each is done: 0, 0, 20, 0, 0, 21.
const GOOD: [(u8, Event); 6] = [
    (0, TBEGIN),
    (0, std(0, 1)),
    (0, TABORT),
    (1, TBEGIN),
    (1, TSUSPEND),
    (1, TABORT),
];
const ANSWERS: [u8; 6] = [0, 0, 20, 0, 0, 21];

/// A session with its memory, and all answers that it has given.
#[derive(Clone, PartialEq, Debug)]
struct Desk {
    session: Session,
    mem: Vec<u64>,
    answers: Vec<u8>,
}

impl Desk {
    /// A session on this machine and memory.
    fn open(b: Bench) -> Desk {
        Desk {
            session: Session::open(b.m, b.mem.len()),
            mem: b.mem,
            answers: Vec::new(),
        }
    }

    fn fresh() -> Desk {
        Desk::open(Bench::fresh())
    }

    /// Feeds a piece, with a buffer that has two places too many, which stay.
    fn feed(&mut self, piece: &[u8]) -> Fed {
        let mut answers = vec![KEPT; (self.session.held + piece.len()) / 16 + 2];
        let fed = self.session.feed(&mut self.mem, piece, &mut answers);
        let (given, past) = answers.split_at(fed.finished);
        assert!(past.iter().all(|&place| place == KEPT), "{answers:?}");
        self.answers.extend(given);
        fed
    }

    /// Feeds pieces of this length.
    fn feed_all(&mut self, tape: &[u8], length: usize) -> &mut Desk {
        for piece in tape.chunks(length.max(1)) {
            self.feed(piece);
        }
        self
    }

    fn close(&self) -> Ended {
        self.session.close(self.mem.len())
    }

    /// Machine and memory.
    fn bench(&self) -> Bench {
        Bench {
            m: self.session.machine.clone(),
            mem: self.mem.clone(),
        }
    }

    /// The held bytes are these, and zeros behind them.
    fn holds(&self, bytes: &[u8]) {
        let Session { held, bytes: b, .. } = &self.session;
        assert_eq!(&b[..*held], bytes);
        assert!(b[*held..].iter().all(|&byte| byte == 0));
    }
}

/// A feeding that goes on and has finished so many records.
fn goes_on(finished: usize) -> Fed {
    Fed {
        answer: 0,
        finished,
    }
}

/// A feeding that gives this number and has finished so many records.
fn gives(answer: u8, finished: usize) -> Fed {
    Fed { answer, finished }
}

/// Machine and memory after this many of the good events.
fn after(events: usize) -> Bench {
    let mut b = Bench::fresh();
    assert_eq!(b.run(&tape(&GOOD[..events])), ended(0, events));
    b
}
