//! One session with its memory on both sides, and where the two differ.

use std::fmt::Debug;

use model::{Ended, Fed, Machine, Session};
use naszeptan::raw;

use crate::lent::Lent;
use crate::pair::{same_machine, to_raw};
use crate::sides::Side;

/// What stands beside the lent memory, and beside the lent answers.
const KEPT: u64 = 0x5AFE_5AFE_5AFE_5AFE;
const KEPT_BYTE: u8 = 0x5A;

/// A session and its memory, on both sides. Each side keeps its own form from
/// piece to piece.
pub struct Desk {
    model: Session,
    memory: Lent<u64>,
    raw: raw::Session,
    lent: Lent<u64>,
}

impl Desk {
    /// The machine opened on both sides, or where these differ.
    pub fn open(side: &dyn Side, m: &Machine, memory: &[u64]) -> Result<Desk, String> {
        let len = memory.len();
        let mut desk = Desk::of(Session::open(m.clone(), len), memory);
        desk.raw = side.open(&to_raw(m), len);
        desk.agree("open").map(|()| desk)
    }

    /// This value, whatever it is, handed to both sides.
    pub fn of(session: Session, memory: &[u64]) -> Desk {
        let memory = Lent::new(memory, KEPT);
        Desk {
            raw: to_raw_session(&session),
            model: session,
            lent: memory.clone(),
            memory,
        }
    }

    /// The model's session.
    pub fn session(&self) -> &Session {
        &self.model
    }

    /// How long the memory is.
    fn len(&mut self) -> usize {
        self.memory.lent().len()
    }

    /// The proved side's machine and memory.
    pub fn proved(&mut self) -> (&raw::Machine, &[u64]) {
        (&self.raw.machine, self.lent.lent())
    }

    /// The same session with another count on both sides.
    pub fn set_count(&mut self, count: u64) {
        self.model.count = count;
        self.raw.count = count;
    }

    /// One piece on both sides, with a copy of this buffer: what was given and
    /// the buffer after it, or where they differ.
    pub fn feed(
        &mut self,
        side: &dyn Side,
        piece: &[u8],
        answers: &[u8],
    ) -> Result<(Fed, Vec<u8>), String> {
        let mut ours = Lent::new(answers, KEPT_BYTE);
        let mut theirs = ours.clone();
        let right = self.model.feed(self.memory.lent(), piece, ours.lent());
        let given = side.feed(&mut self.raw, self.lent.lent(), piece, theirs.lent());
        equal("feed", right, given)?;
        if let Some(what) = ours.difference(&theirs) {
            return Err(format!("feed, answers {what}"));
        }
        self.agree("feed")?;
        Ok((right, ours.lent().to_vec()))
    }

    /// The close on both sides, or where they differ.
    pub fn close(&mut self, side: &dyn Side) -> Result<Ended, String> {
        let len = self.len();
        let right = self.model.close(len);
        let (given, machine) = side.close(&self.raw, len);
        equal("close", right, given)?;
        same_machine(&self.model.machine, &machine).map_err(|what| format!("close, {what}"))?;
        Ok(right)
    }

    /// Whether both sides are equal in everything.
    fn agree(&self, call: &str) -> Result<(), String> {
        same_session(&self.model, &self.raw).map_err(|what| format!("{call}, {what}"))?;
        match self.memory.difference(&self.lent) {
            Some(what) => Err(format!("{call}, memory {what}")),
            None => Ok(()),
        }
    }
}

/// A difference, unless what was given is what is right.
pub fn equal<T: PartialEq + Debug>(what: &str, right: T, given: T) -> Result<(), String> {
    match right == given {
        true => Ok(()),
        false => Err(format!("{what}: model {right:?}, proved {given:?}")),
    }
}

/// Whether the values are equal in everything, or where they differ first.
fn same_session(ours: &Session, theirs: &raw::Session) -> Result<(), String> {
    equal("count", ours.count, theirs.count)?;
    equal("held", ours.held, theirs.held)?;
    equal("session's answer", ours.answer, theirs.answer)?;
    equal("bytes", ours.bytes, theirs.bytes)?;
    same_machine(&ours.machine, &theirs.machine)
}

/// A session of the model as the header has it.
pub fn to_raw_session(s: &Session) -> raw::Session {
    raw::Session {
        machine: to_raw(&s.machine),
        count: s.count,
        held: s.held,
        answer: s.answer,
        bytes: s.bytes,
    }
}
