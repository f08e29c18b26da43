//! The tests of rule N2 that an event can fail. Those of a thread
//! give the thread where they hold, so that one can follow another.

use crate::answer;
use crate::machine::{State, Thread, LINE, PAGE};

/// What a test gives: the number where it does not hold.
type Test<T> = Result<T, u8>;

#[inline(always)]
pub(super) fn test(holds: bool, number: u8) -> Test<()> {
    if holds {
        Ok(())
    } else {
        Err(number)
    }
}

/// Test 4 for a register and an index.
#[inline(always)]
pub(super) fn access(r: u8, index: u32, mem: &[u64]) -> Test<()> {
    test(r <= 31 && (index as usize) < mem.len(), answer::OPERAND)
}

/// Test 4 for a register and a byte address, which is a multiple of the width. It
/// is below 8 x the length where its doubleword is below the length.
#[inline(always)]
pub(super) fn narrow_access(r: u8, address: u32, width: u32, mem: &[u64]) -> Test<()> {
    test(address % width == 0, answer::OPERAND)?;
    access(r, address / 8, mem)
}

/// Test 4 for a page: its first doubleword is in memory (rule M16). The product
/// has 41 bits at the most, so that it does not wrap.
#[inline(always)]
pub(super) fn page_in_memory(page: u32, mem: &[u64]) -> Test<()> {
    let first = u64::from(page) * (PAGE * LINE) as u64;
    test(first < mem.len() as u64, answer::OPERAND)
}

impl Thread {
    #[inline(always)]
    fn test(&mut self, holds: bool, number: u8) -> Test<&mut Thread> {
        test(holds, number).map(|()| self)
    }

    /// Test 4 for a register.
    #[inline(always)]
    pub(super) fn register(&mut self, r: u8) -> Test<&mut Thread> {
        self.test(r <= 31, answer::OPERAND)
    }

    /// Test 4 for TO and its two registers.
    #[inline(always)]
    pub(super) fn comparison(&mut self, to: u8, ra: u8, rb: u8) -> Test<&mut Thread> {
        self.test(to <= 31 && ra <= 31 && rb <= 31, answer::OPERAND)
    }

    /// Test 4 for BF.
    #[inline(always)]
    pub(super) fn field(&mut self, bf: u8) -> Test<&mut Thread> {
        self.test(bf <= 7, answer::OPERAND)
    }

    /// Test 4 for SPR and a register.
    #[inline(always)]
    pub(super) fn special(&mut self, spr: u8, r: u8) -> Test<&mut Thread> {
        self.test(
            matches!(spr, 26 | 27 | 128..=131) && r <= 31,
            answer::OPERAND,
        )
    }

    /// Test 5.
    #[inline(always)]
    pub(super) fn host_may(&mut self) -> Test<&mut Thread> {
        self.test(self.state != State::T, answer::HOST_IN_T)
    }

    /// Test 11.
    #[inline(always)]
    pub(super) fn facility(&mut self) -> Test<&mut Thread> {
        self.test(self.tm, answer::FACILITY_OFF)
    }

    /// Test 12.
    #[inline(always)]
    pub(super) fn privileged(&mut self) -> Test<&mut Thread> {
        self.test(!self.pr, answer::PRIVILEGED)
    }

    /// Tests 11 and 12 for an SPR: SRR0 and SRR1 are privileged and no part of
    /// the facility, the others the other way round (rule E0.6).
    #[inline(always)]
    pub(super) fn may_name(&mut self, spr: u8) -> Test<&mut Thread> {
        match spr {
            26 | 27 => self.privileged(),
            _ => self.facility(),
        }
    }

    /// Test 13 for mtspr (rule E10).
    #[inline(always)]
    pub(super) fn may_set(&mut self, spr: u8) -> Test<&mut Thread> {
        match spr {
            26 | 27 => self.not_in(State::T),
            _ => self.only_in_n(),
        }
    }

    /// Test 13 for an event that is a Bad Thing in this state.
    #[inline(always)]
    pub(super) fn not_in(&mut self, state: State) -> Test<&mut Thread> {
        self.test(self.state != state, answer::BAD_THING)
    }

    /// Test 13 for an event that is a Bad Thing but in N.
    #[inline(always)]
    pub(super) fn only_in_n(&mut self) -> Test<&mut Thread> {
        self.test(self.state == State::N, answer::BAD_THING)
    }

    /// Test 13 for trechkpt.
    #[inline(always)]
    pub(super) fn failed_in_n(&mut self) -> Test<&mut Thread> {
        let holds = self.state == State::N && self.failed();
        self.test(holds, answer::BAD_THING)
    }
}
