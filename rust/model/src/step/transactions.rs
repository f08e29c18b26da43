//! The events of the facility that move a thread between N, T and S: 1, 2, 6, 8
//! and 9; and event 7, which tells where it is.

use super::failures::cause;
use super::Went;
use crate::machine::{texasr, State, Thread, MAX_LEVEL};

impl Thread {
    #[inline]
    pub(super) fn cr0_from_state(&mut self) {
        self.cr0 = self.state.ts() << 1;
    }

    /// Event 1. Nested, R = 0 turns ROT off until the outer end, and R = 1
    /// leaves it; at the highest level neither is looked at.
    pub(super) fn tbegin(&mut self, r: bool) -> Went {
        self.cr0_from_state();
        match self.state {
            State::N => {
                self.checkpoint = self.live;
                self.state = State::T;
                self.tfhar = self.nia.wrapping_add(4);
                self.texasr = if r { texasr::ROT | 1 } else { 1 };
            }
            State::T if self.level() == MAX_LEVEL => return self.fail_in_t(cause::NESTING),
            State::T => {
                let kept = if r { !0 } else { !texasr::ROT };
                self.texasr = (self.texasr & kept).wrapping_add(1);
            }
            State::S => {}
        }
        self.next()
    }

    /// Event 2.
    pub(super) fn tend(&mut self, a: bool, mem: &mut [u64]) -> Went {
        self.cr0_from_state();
        if self.state == State::T {
            if a || self.level() == 1 {
                self.commit(mem);
            } else {
                self.texasr = self.texasr.wrapping_sub(1);
            }
        }
        self.next()
    }

    #[inline]
    fn commit(&mut self, mem: &mut [u64]) {
        for e in self.log.iter().take(self.count) {
            if let Some(doubleword) = mem.get_mut(e.index as usize) {
                *doubleword = e.over(*doubleword);
            }
        }
        self.texasr &= !texasr::TL;
        self.empty();
        self.state = State::N;
    }

    /// Event 6.
    pub(super) fn tsr(&mut self, l: bool) -> Went {
        self.cr0_from_state();
        match (l, self.state) {
            (false, State::T) => self.state = State::S,
            (true, State::S) if self.doomed => return self.handle(),
            (true, State::S) => self.state = State::T,
            _ => {}
        }
        self.next()
    }

    /// Event 7.
    pub(super) fn tcheck(&mut self, bf: u8) -> Went {
        let field = u8::from(self.doomed) << 3 | self.state.ts() << 1;
        match bf.checked_sub(1) {
            None => self.cr0 = field,
            Some(n) => {
                if let Some(f) = self.live.cr.get_mut(usize::from(n)) {
                    *f = field;
                }
            }
        }
        self.next()
    }

    /// Event 8. The code is read before the registers come back. The answer is
    /// 0 also where a failure is recorded; rule H8 tells it all the same.
    pub(super) fn treclaim(&mut self, ra: u8) -> Went {
        self.cr0_from_state();
        let own = self.record(self.abort_cause(ra), true);
        self.live = self.checkpoint;
        self.state = State::N;
        self.doomed = false;
        self.empty();
        let went = self.next();
        Went {
            own: u8::from(own),
            ..went
        }
    }

    /// Event 9.
    pub(super) fn trechkpt(&mut self) -> Went {
        self.checkpoint = self.live;
        self.cr0 = 0;
        self.state = State::S;
        self.doomed = true;
        self.next()
    }
}
