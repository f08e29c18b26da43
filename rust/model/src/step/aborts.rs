//! Events 3 to 5: tabort. and its conditional forms.

use super::failures::cause;
use super::Went;
use crate::machine::{State, Thread};

/// Whether a comparison chosen by TO holds between doublewords.
#[inline]
fn holds(to: u8, a: u64, b: u64) -> bool {
    let (sa, sb) = (a as i64, b as i64);
    (to & 16 != 0 && sa < sb)
        || (to & 8 != 0 && sa > sb)
        || (to & 4 != 0 && a == b)
        || (to & 2 != 0 && a < b)
        || (to & 1 != 0 && a > b)
}

/// Whether a comparison chosen by TO holds between the low words. Extending
/// the sign keeps both orders and equality.
#[inline]
fn holds_word(to: u8, a: u64, b: u64) -> bool {
    let extend = |x: u64| x as i32 as i64 as u64;
    holds(to, extend(a), extend(b))
}

impl Thread {
    /// The cause of tabort. and treclaim.: RA = 0 means no register.
    #[inline]
    pub(super) fn abort_cause(&self, ra: u8) -> u32 {
        if ra == 0 {
            cause::ABORT
        } else {
            (self.gpr(ra) as u32) << 24 | cause::ABORT
        }
    }

    /// Event 3.
    #[inline]
    pub(super) fn tabort(&mut self, ra: u8) -> Went {
        self.abort(self.abort_cause(ra))
    }

    /// Event 4.
    #[inline]
    pub(super) fn tabortwc(&mut self, to: u8, ra: u8, rb: u8) -> Went {
        self.abort_if(holds_word(to, self.gpr(ra), self.gpr(rb)))
    }

    /// Event 5.
    #[inline]
    pub(super) fn tabortdc(&mut self, to: u8, ra: u8, rb: u8) -> Went {
        self.abort_if(holds(to, self.gpr(ra), self.gpr(rb)))
    }

    fn abort(&mut self, cause: u32) -> Went {
        self.cr0_from_state();
        match self.state {
            State::N => self.next(),
            State::T => self.fail_in_t(cause),
            State::S => {
                let recorded = self.record(cause, true);
                self.next();
                Went::in_s(recorded)
            }
        }
    }

    #[inline]
    fn abort_if(&mut self, holds: bool) -> Went {
        if holds {
            self.abort(cause::ABORT)
        } else {
            self.cr0_from_state();
            self.next()
        }
    }
}
