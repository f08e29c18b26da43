//! Failure: its causes, recording and handling.

use super::Went;
use crate::machine::{texasr, LineSet, State, Thread};

/// Causes of failure: the upper half of TEXASR.
pub(super) mod cause {
    pub const DISALLOWED: u32 = 0x0080_0000;
    pub const NESTING: u32 = 0x0040_0000;
    pub const FOOTPRINT: u32 = 0x0020_0000;
    pub const SELF_INDUCED: u32 = 0x0010_0000;
    pub const NON_TRANSACTIONAL: u32 = 0x0008_0000;
    pub const TRANSACTION: u32 = 0x0004_0000;
    pub const TRANSLATION: u32 = 0x0002_0000;
    pub const ABORT: u32 = 0x0000_0001;
}

impl Thread {
    /// Empties sets and log; unused places of the log are zero.
    #[inline]
    pub(super) fn empty(&mut self) {
        self.reads = LineSet::EMPTY;
        self.writes = LineSet::EMPTY;
        for e in self.log.iter_mut().take(self.count) {
            // Field by field: a place at once becomes a call that clears bytes, which
            // is slower for the few places that most logs have.
            (e.index, e.marks, e.value) = (0, 0, 0);
        }
        self.count = 0;
    }

    /// Recording. NIA has not moved yet, so it is the address in both cases:
    /// the thread's own instruction, or where another thread's event met it.
    /// It is exact for the thread's own event, but for its own tlbie (rule F4).
    /// Gives whether it was recorded, which rule H8 tells: with FS = 0 the
    /// transaction was live, and now it is not.
    pub(super) fn record(&mut self, cause: u32, exact: bool) -> bool {
        if self.failed() {
            return false;
        }
        let flag = |on: bool, bit: u64| if on { bit } else { 0 };
        self.texasr = u64::from(cause) << 32
            | flag(self.state == State::S, texasr::SUSPENDED)
            | flag(self.pr, texasr::PR)
            | texasr::FS
            | flag(exact, texasr::EXACT)
            | self.texasr & (texasr::ROT | texasr::TL);
        self.tfiar = self.nia & !3 | u64::from(self.pr);
        self.doomed = true;
        self.empty();
        true
    }

    /// Handling.
    pub(super) fn handle(&mut self) -> Went {
        self.live = self.checkpoint;
        self.cr0 = 0b1010;
        self.nia = self.tfhar;
        self.state = State::N;
        self.doomed = false;
        Went::HANDLED
    }

    /// A failure of its own in T: recorded and handled in the same event.
    pub(super) fn fail_in_t(&mut self, cause: u32) -> Went {
        self.record(cause, true);
        self.handle()
    }

    /// A failure by another thread's event: handled at once only in T.
    pub(super) fn fail_by_other(&mut self, cause: u32) {
        self.record(cause, false);
        if self.state == State::T {
            self.handle();
        }
    }

    /// Event 15.
    #[inline]
    pub(super) fn disallowed(&mut self) -> Went {
        if self.state == State::T {
            self.fail_in_t(cause::DISALLOWED)
        } else {
            self.next()
        }
    }
}
