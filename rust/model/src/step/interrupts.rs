//! What the system does: events 16 to 19, an interrupt, the host's PR and TM, and
//! the two ways back.

use super::failures::cause;
use super::Went;
use crate::answer;
use crate::machine::State::{self, N, S, T};
use crate::machine::{Msr, Thread};

/// Where an interrupt goes on (rule E16).
const HANDLER: u64 = 0x500;

/// What is done: the state and TM after it. None is a Bad Thing.
type Done = Option<(State, bool)>;

const N0: Done = Some((N, false));
const N1: Done = Some((N, true));
const S0: Done = Some((S, false));
const S1: Done = Some((S, true));
const T1: Done = Some((T, true));
const BAD: Done = None;

/// The table of rule E0.11. A row is the state and TM before: N, 0; N, 1; S, 0;
/// S, 1. A column is the TS and TM that are asked: TS = 0, 1, 2, 3 (N, S, T and
/// no state), and of each TM = 0, 1.
#[rustfmt::skip]
static TABLE: [[Done; 8]; 4] = [
    [N0,  N1,  BAD, BAD, BAD, BAD, BAD, BAD],
    [N0,  N1,  BAD, BAD, BAD, BAD, BAD, BAD],
    [S0,  BAD, S0,  S1,  BAD, T1,  BAD, BAD],
    [BAD, BAD, S0,  S1,  BAD, T1,  BAD, BAD],
];

impl Thread {
    /// The machine state that an interrupt saves.
    fn msr(&self) -> Msr {
        Msr {
            ts: self.state.ts(),
            tm: self.tm,
            pr: self.pr,
        }
    }

    /// Event 16.
    #[inline]
    pub(super) fn interrupt(&mut self) -> Went {
        self.srr0 = self.nia;
        self.srr1 = self.msr().bits();
        if self.state == T {
            self.state = S;
        }
        self.pr = false;
        self.tm = false;
        self.nia = HANDLER;
        Went::DONE
    }

    /// Event 17.
    #[inline]
    pub(super) fn host(&mut self, pr: bool, tm: bool) -> Went {
        self.pr = pr;
        self.tm = tm;
        Went::DONE
    }

    /// Event 18.
    pub(super) fn rfid(&mut self) -> Result<Went, u8> {
        self.become_asked(Msr::of(self.srr1), self.srr0 & !3)
    }

    /// Event 19.
    pub(super) fn mtmsrd(&mut self, asked: Msr) -> Result<Went, u8> {
        self.become_asked(asked, self.nia.wrapping_add(4))
    }

    /// Rule E0.11; `nia` is where it goes on if it does.
    fn become_asked(&mut self, asked: Msr, nia: u64) -> Result<Went, u8> {
        let row = match self.state {
            N => usize::from(self.tm),
            S => 2 + usize::from(self.tm),
            T => return Ok(self.fail_in_t(cause::DISALLOWED)),
        };
        let column = 2 * usize::from(asked.ts & 3) + usize::from(asked.tm);
        let (state, tm) = TABLE[row][column].ok_or(answer::BAD_THING)?;
        self.pr = asked.pr;
        self.tm = tm;
        if state == T && self.doomed {
            return Ok(self.handle());
        }
        self.state = state;
        self.nia = nia;
        Ok(Went::DONE)
    }
}
