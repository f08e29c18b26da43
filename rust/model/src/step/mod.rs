//! Doing one event: rules E1 to E26 and A0 to A7, and the tests of an event, rule
//! N2. Who failed in it, rule H8, is noted where the failure is recorded
//! or handled.
//!
//! The tests of an event stand in `attempt`; the function that does it is in
//! the file of its group.

mod aborts;
mod access;
mod failures;
mod interrupts;
mod pages;
mod refusals;
mod registers;
mod transactions;

use crate::answer;
use crate::machine::State::{N, S};
use crate::machine::{valid, Machine, Msr, THREADS};
use crate::Event;
use access::{load, narrow_load, narrow_store, store, Bytes};
use pages::tlbie;
use refusals::{access, page_in_memory, test};

/// What an event gives: its answer, and by rule H8 who failed in it, thread v
/// by bit v from the lowest on.
#[derive(Clone, Copy, PartialEq, Eq, Debug)]
pub struct Done {
    pub answer: u8,
    pub failed: u8,
}

impl Done {
    /// A refused event fails no one.
    pub const fn refused(answer: u8) -> Done {
        Done { answer, failed: 0 }
    }
}

/// What an event did that was not refused: its answer, whether its own thread
/// failed (1, else 0) and which others did. As a bool `own` would make a run of
/// mixed events one hundredth slower.
#[derive(Clone, Copy)]
struct Went {
    answer: u8,
    own: u8,
    others: u8,
}

impl Went {
    const DONE: Went = Went {
        answer: answer::DONE,
        own: 0,
        others: 0,
    };
    const HANDLED: Went = Went {
        answer: answer::HANDLED,
        own: 1,
        others: 0,
    };
    const RECORDED: Went = Went {
        answer: answer::RECORDED,
        own: 1,
        others: 0,
    };

    /// A failure of its own in S, where FS may have kept it from being
    /// recorded.
    #[inline(always)]
    fn in_s(recorded: bool) -> Went {
        if recorded {
            Went::RECORDED
        } else {
            Went::DONE
        }
    }
}

/// Does one event of one thread and gives its answer. A refused event leaves
/// the machine and the memory as they were.
pub fn step(m: &mut Machine, mem: &mut [u64], thread: u8, e: Event) -> u8 {
    step_with_failed(m, mem, thread, e).answer
}

/// As [`step`], and also gives who failed (rule H8).
pub fn step_with_failed(m: &mut Machine, mem: &mut [u64], thread: u8, e: Event) -> Done {
    if !m.shape_fits(mem.len()) {
        return Done::refused(answer::SHAPE);
    }
    if !valid(m, mem.len()) {
        return Done::refused(answer::INVALID);
    }
    match attempt(m, mem, thread, e) {
        // No bit is lost: the thread is below the count, at most 4.
        Ok(went) => Done {
            answer: went.answer,
            failed: went.others | went.own << (thread & 7),
        },
        Err(refusal) => Done::refused(refusal),
    }
}

/// As [`step`], for a machine known to be valid with this memory: the numbers
/// 1 and 2 are not tested. With another machine the outcome is unspecified,
/// but there is no panic.
#[inline(always)]
pub fn step_trusted(m: &mut Machine, mem: &mut [u64], thread: u8, e: Event) -> u8 {
    match attempt(m, mem, thread, e) {
        Ok(went) => went.answer,
        Err(refusal) => refusal,
    }
}

/// Tests 3, 4, 5, 11, 12 and 13, each kind those that it can fail, in that
/// order and before anything is changed; then does the event. Gives what the
/// event did, or the number that refuses it.
#[inline(always)]
fn attempt(m: &mut Machine, mem: &mut [u64], thread: u8, e: Event) -> Result<Went, u8> {
    let me = usize::from(thread);
    test(me < m.count.min(THREADS), answer::NO_THREAD)?;
    let t = &mut m.threads[me];
    Ok(match e {
        Event::Tbegin { r } => t.facility()?.tbegin(r),
        Event::Tend { a } => t.facility()?.not_in(S)?.tend(a, mem),
        Event::Tabort { ra } => t.register(ra)?.facility()?.tabort(ra),
        Event::Tabortwc { to, ra, rb } => {
            t.comparison(to, ra, rb)?.facility()?.tabortwc(to, ra, rb)
        }
        Event::Tabortdc { to, ra, rb } => {
            t.comparison(to, ra, rb)?.facility()?.tabortdc(to, ra, rb)
        }
        Event::Tsr { l } => t.facility()?.tsr(l),
        Event::Tcheck { bf } => t.field(bf)?.facility()?.tcheck(bf),
        Event::Treclaim { ra } => {
            let t = t.register(ra)?.facility()?.privileged()?;
            t.not_in(N)?.treclaim(ra)
        }
        Event::Trechkpt => t.facility()?.privileged()?.failed_in_n()?.trechkpt(),
        Event::Mtspr { spr, ra } => {
            let t = t.special(spr, ra)?.may_name(spr)?;
            t.may_set(spr)?.mtspr(spr, ra)
        }
        Event::Mfspr { rt, spr } => t.special(spr, rt)?.may_name(spr)?.mfspr(rt, spr),
        Event::Ld { rt, index } => {
            access(rt, index, mem)?;
            load(m, mem, me, rt, Bytes::all(index))
        }
        Event::Std { ra, index } => {
            access(ra, index, mem)?;
            store(m, mem, me, ra, Bytes::all(index))
        }
        Event::Addi { rt, ra, si } => t.register(rt)?.register(ra)?.addi(rt, ra, si),
        Event::Disallowed => t.disallowed(),
        Event::Interrupt => t.interrupt(),
        Event::Host { pr, tm } => t.host_may()?.host(pr, tm),
        Event::Rfid => t.privileged()?.rfid()?,
        Event::Mtmsrd { ts, tm, pr } => t.privileged()?.mtmsrd(Msr { ts, tm, pr })?,
        Event::Lbz { rt, address } => narrow_load(m, mem, me, rt, address, 1)?,
        Event::Lhz { rt, address } => narrow_load(m, mem, me, rt, address, 2)?,
        Event::Lwz { rt, address } => narrow_load(m, mem, me, rt, address, 4)?,
        Event::Stb { ra, address } => narrow_store(m, mem, me, ra, address, 1)?,
        Event::Sth { ra, address } => narrow_store(m, mem, me, ra, address, 2)?,
        Event::Stw { ra, address } => narrow_store(m, mem, me, ra, address, 4)?,
        Event::Tlbie { page } => {
            page_in_memory(page, mem)?;
            t.privileged()?;
            tlbie(m, me, page)
        }
    })
}
