//! Rule H8: who failed in an event.

use super::*;
use crate::{gen, step_with_failed, Done};

impl Bench {
    /// Does an event that is to give this answer and to fail these threads.
    fn fails(&mut self, thread: u8, e: Event, answer: u8, failed: u8) -> &mut Bench {
        let done = step_with_failed(&mut self.m, &mut self.mem, thread, e);
        assert_eq!(done, Done { answer, failed }, "thread {thread}, {e:?}");
        self
    }

    /// Makes a thread privileged.
    fn may(&mut self, thread: usize) -> &mut Bench {
        self.m.threads[thread].pr = false;
        self
    }
}

const TRECLAIM: Event = Event::Treclaim { ra: 0 };

#[test]
fn a_refused_event_fails_no_one() {
    let mut b = Bench::begun();
    b.fails(0, ld(32, 0), 4, 0).fails(4, TABORT, 3, 0);
    b.fails(0, TRECLAIM, 12, 0);
    b.m.threads[0].tm = false;
    b.fails(0, TABORT, 11, 0);
    b.m.threads[0].nia = 1;
    b.fails(0, TABORT, 2, 0);
    b.m.count = 5;
    b.fails(0, TABORT, 1, 0);
}

#[test]
fn its_own_failure_handled() {
    let each = Event::Tabortdc {
        to: 4,
        ra: 1,
        rb: 1,
    };
    for e in [TABORT, each, Event::Disallowed] {
        let mut b = Bench::fresh();
        b.fails(2, TBEGIN, 0, 0).fails(2, e, 20, 0b0100);
        // Outside a transaction there is nothing to fail.
        b.fails(2, e, 0, 0);
    }
}

#[test]
fn its_own_level_and_overflow() {
    let mut b = Bench::fresh();
    b.fails(1, TBEGIN, 0, 0).at_level(1, MAX_LEVEL - 1);
    b.fails(1, TBEGIN, 0, 0).fails(1, TBEGIN, 20, 0b0010);
    // An overflow fails its own thread alone, though another has the line.
    b.done_by(0, TBEGIN).done_by(0, std(1, 3200));
    b.done_by(3, TBEGIN);
    for line in 0..32 {
        b.fails(3, ld(1, line * 16), 0, 0);
    }
    b.fails(3, std(1, 3200), 20, 0b1000);
}

#[test]
fn its_own_failure_recorded_and_told_again_when_handled() {
    let mut b = Bench::begun();
    b.done(ld(1, 5)).done(TSUSPEND);
    b.fails(0, std(1, 5), 21, 0b0001);
    // With FS = 1 nothing more is recorded, so nothing is told.
    b.fails(0, TABORT, 0, 0).fails(0, std(1, 5), 0, 0);
    b.fails(1, std(1, 5), 0, 0);
    b.fails(0, TRESUME, 20, 0b0001);
    let mut b = Bench::suspended();
    b.fails(0, TABORT, 21, 0b0001);
}

#[test]
fn others_are_told_in_t_and_in_s() {
    let mut b = Bench::fresh();
    b.done_by(0, TBEGIN).done_by(0, ld(1, 64));
    b.done_by(2, TBEGIN).done_by(2, ld(1, 65));
    b.done_by(2, TSUSPEND);
    b.fails(1, std(1, 66), 0, 0b0101);
    b.fails(1, std(1, 66), 0, 0);
    // A load fails the one that writes the line, and no reader.
    b.done_by(3, TBEGIN).done_by(3, std(1, 80));
    b.fails(1, ld(1, 81), 0, 0b1000);
}

#[test]
fn its_own_failure_and_all_others() {
    let mut b = Bench::fresh();
    for thread in 0..4 {
        b.done_by(thread, TBEGIN).done_by(thread, ld(1, 64));
    }
    b.done_by(3, TSUSPEND);
    b.fails(3, std(1, 70), 21, 0b1111);
}

#[test]
fn a_commit_is_no_failure() {
    let mut b = Bench::begun();
    b.done(TBEGIN).done(std(1, 7));
    b.fails(0, TEND, 0, 0).fails(0, TEND, 0, 0).is(State::N);
    let mut b = Bench::begun();
    b.done(TBEGIN);
    b.fails(0, Event::Tend { a: true }, 0, 0).is(State::N);
    // Nor does it touch another transaction.
    let mut b = Bench::begun();
    b.done_by(1, TBEGIN).done_by(1, ld(1, 7)).done(std(1, 64));
    b.fails(0, TEND, 0, 0);
}

#[test]
fn a_reclaim_is_told_of_a_live_transaction_alone() {
    Bench::begun().may(0).fails(0, TRECLAIM, 0, 0b0001);
    Bench::suspended().may(0).fails(0, TRECLAIM, 0, 0b0001);
    let mut b = Bench::doomed();
    b.may(0).fails(0, TRECLAIM, 0, 0);
    b.fails(0, Event::Trechkpt, 0, 0);
    b.fails(0, TRESUME, 20, 0b0001);
}

#[test]
fn leaving_t_is_no_failure() {
    Bench::begun().fails(0, TSUSPEND, 0, 0);
    Bench::begun().fails(0, Event::Interrupt, 0, 0);
    Bench::suspended().fails(0, TRESUME, 0, 0);
    let mut b = Bench::begun();
    b.done(Event::Interrupt).fails(0, Event::Rfid, 0, 0);
}

/// rfid and mtmsrd tell what they fail in T, and what they handle, after
/// trechkpt. too.
#[test]
fn rfid_and_mtmsrd_tell_what_they_handle() {
    let to_t = mtmsrd(2 + 4);
    for e in [Event::Rfid, to_t] {
        Bench::begun().may(0).fails(0, e, 20, 0b0001);
        let mut b = Bench::begun();
        b.done(ld(1, 5)).done(Event::Interrupt);
        b.fails(1, std(1, 5), 0, 0b0001).fails(0, e, 20, 0b0001);
    }
    let mut b = Bench::privileged();
    b.m.threads[0].texasr = texasr::FS;
    b.fails(0, Event::Trechkpt, 0, 0).fails(0, to_t, 20, 0b0001);
    // What asks for no T handles nothing, and what is refused neither.
    let mut b = Bench::doomed();
    b.may(0).fails(0, mtmsrd(1), 0, 0);
    b.fails(0, mtmsrd(2), 13, 0).is(State::S);
}

#[test]
fn a_tlbie_tells_its_victims_and_itself() {
    let mut b = Bench::fresh();
    for thread in 0..3 {
        b.done_by(thread, TBEGIN).done_by(thread, ld(1, 64));
    }
    b.done_by(1, TSUSPEND).done_by(2, TSUSPEND).may(2).may(3);
    b.clone().fails(3, tlbie(0), 0, 0b0111);
    b.clone().fails(3, tlbie(1), 0, 0);
    b.fails(2, tlbie(0), 21, 0b0111).fails(2, tlbie(0), 0, 0);
    b.done_by(3, TBEGIN).fails(3, tlbie(0), 20, 0b1000);
}

/// The bit of a thread by the rule's own sentence, from before and after.
fn told(before: &Bench, after: &Bench, v: usize, own: bool, e: Event, answer: u8) -> bool {
    let ended = before.thread(v).is_live() && !after.thread(v).is_live();
    let commits = own && matches!(e, Event::Tend { .. });
    answer::is_done(answer) && (own && answer == 20 || ended && !commits)
}

#[test]
fn what_is_noted_is_what_the_rule_says() {
    seeds(30_000, |rng| {
        let (m, mem) = gen::valid_machine(rng);
        let mut b = Bench { m, mem };
        for _ in 0..8 {
            let before = b.clone();
            let (thread, e) = gen::event(rng, &b.m, b.mem.len());
            let done = step_with_failed(&mut b.m, &mut b.mem, thread, e);
            for v in 0..8 {
                let noted = done.failed >> v & 1 != 0;
                let own = usize::from(thread) == v;
                let right = v < b.m.count && told(&before, &b, v, own, e, done.answer);
                assert_eq!(noted, right, "thread {v} in {thread}'s {e:?}: {done:?}");
            }
        }
    });
}

#[test]
fn a_broken_machine_fails_no_one() {
    seeds(2_000, |rng| {
        let (mut m, mut mem) = gen::broken_machine(rng);
        let (thread, e) = gen::event(rng, &m, mem.len());
        let done = step_with_failed(&mut m, &mut mem, thread, e);
        assert_eq!(done.failed, 0, "{e:?}: {done:?}");
    });
}
