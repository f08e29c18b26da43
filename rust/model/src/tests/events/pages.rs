//! Rules E26 and A6: a tlbie, and who fails in it.

use super::*;
use crate::machine::LineSet;

#[test]
fn the_lines_of_a_page() {
    for page in 0..8 {
        let lines = LineSet::page(page);
        for l in 0..256 {
            assert_eq!(lines.contains(l), l / 32 == page, "page {page}, line {l}");
        }
    }
    assert!(LineSet::page(8).is_empty() && LineSet::page(usize::MAX).is_empty());
}

/// Nothing but NIA moves where no one is met.
#[test]
fn in_n_only_nia_moves() {
    let mut b = Bench::privileged();
    b.m.threads[0].tm = false;
    b.m.threads[0].cr0 = 0b0111;
    b.m.threads[0].nia = u64::MAX - 3;
    b.makes(tlbie(0), |t| Thread { nia: 0, ..t });
}

/// Thread 0, privileged, suspended with line 1 read and line 40 written.
fn own() -> Bench {
    let mut b = Bench::privileged();
    b.done(addi(5, 0, 9)).done(TBEGIN).done(addi(5, 0, 1));
    b.done(ld(1, 17)).done(std(1, 640)).done(TSUSPEND);
    b
}

#[test]
fn its_own_suspended_transaction() {
    for (page, meets) in [(0, true), (1, true), (2, false), (7, false)] {
        let mut b = own();
        let old = b.thread(0).clone();
        if !meets {
            b.makes(tlbie(page), |t| Thread {
                nia: old.nia + 4,
                ..t
            });
            continue;
        }
        b.gives(tlbie(page), 21);
        let failed = Thread {
            nia: old.nia + 4,
            doomed: true,
            texasr: 0x0002_0000_8800_0001,
            tfiar: old.nia,
            reads: LineSet::EMPTY,
            writes: LineSet::EMPTY,
            count: 0,
            log: Thread::ZERO.log,
            ..old
        };
        assert_eq!(*b.thread(0), failed, "page {page}");
        // The registers wait for tresume.
        assert_eq!(b.thread(0).live.gpr[5], 1);
        b.gives(TRESUME, 20);
        assert_eq!(b.thread(0).live.gpr[5], 9);
    }
}

/// Once it is doomed another tlbie records nothing, whatever doomed it.
#[test]
fn its_own_doomed_transaction() {
    for first in [TABORT, tlbie(0), std(1, 17)] {
        let mut b = own();
        b.gives(first, 21);
        let nia = b.thread(0).nia + 4;
        b.makes(tlbie(0), |t| Thread { nia, ..t });
    }
}

/// Every thread against every page: who fails is who has a line of it.
#[test]
fn every_page_and_thread() {
    // Lines 31 and 32, at the border of pages 0 and 1, the last of all, and one
    // that thread 3 only wrote.
    let begun = |suspended: bool| {
        let mut b = Bench::fresh();
        for (thread, e) in [ld(1, 511), ld(1, 512), ld(1, 4095), std(1, 1600)]
            .into_iter()
            .enumerate()
        {
            let thread = thread as u8;
            b.done_by(thread, TBEGIN).done_by(thread, e);
            if suspended {
                b.done_by(thread, TSUSPEND);
            }
        }
        b
    };
    let pages = [0, 1, 7, 3];
    for (page, issuer) in (0..8).flat_map(|page| (0..4).map(move |issuer| (page, issuer))) {
        for suspended in [false, true] {
            let mut b = begun(suspended);
            b.m.threads[issuer].pr = false;
            if !suspended {
                b.done_by(issuer as u8, TSUSPEND);
            }
            let own = pages[issuer] == page;
            assert_eq!(b.step(issuer as u8, tlbie(page)), if own { 21 } else { 0 });
            for (n, its_page) in pages.into_iter().enumerate() {
                let failed = b.thread(n).failed();
                assert_eq!(failed, its_page == page, "thread {n}, page {page}");
                assert_eq!(b.thread(n).is_live(), !failed);
                let waits = suspended || n == issuer;
                assert_eq!(b.thread(n).doomed, failed && waits);
            }
        }
    }
}

/// A load that joined before ROT went on has its line; one under ROT has not.
#[test]
fn loads_under_rot_are_spared() {
    let mut b = Bench::fresh();
    b.privilege(1).done(TBEGIN_ROT).done(ld(1, 17));
    b.done(std(1, 600)).done(TBEGIN).done(ld(1, 1100));
    b.done_by(1, tlbie(0)).is(State::T);
    b.clone().done_by(1, tlbie(1)).is(State::N);
    b.done_by(1, tlbie(2)).is(State::N);
    assert_eq!(b.thread(0).texasr, 0x0002_0000_1800_0002);
}

/// The last page may end past the memory; its lines that are there count.
#[test]
fn a_last_page_that_ends_past_the_memory() {
    let mut b = Bench::fresh();
    b.mem.resize(528, 0);
    b.privilege(1).done(TBEGIN).done(ld(1, 527));
    b.clone().done_by(1, tlbie(0)).is(State::T);
    b.done_by(1, tlbie(1)).is(State::N);
    assert_eq!(b.step(1, tlbie(2)), 4);
}

/// In T it fails by 8's bit whatever its page has in it, its own lines too.
#[test]
fn in_t_it_is_disallowed() {
    for page in 0..8 {
        let mut b = Bench::privileged();
        b.done(TBEGIN).done(ld(1, 17)).done(TBEGIN);
        b.done_by(1, TBEGIN).done_by(1, ld(1, 18));
        let (nia, other) = (b.thread(0).nia, b.thread(1).clone());
        b.gives(tlbie(page), 20).is(State::N);
        let t = b.thread(0);
        assert_eq!((t.texasr, t.tfiar), (0x0080_0000_0C00_0002, nia));
        assert_eq!(*b.thread(1), other);
    }
}

/// The first cause stays: a conflict is not overwritten by a tlbie.
#[test]
fn a_recorded_cause_stays() {
    let mut b = Bench::fresh();
    b.privilege(1).done(TBEGIN).done(ld(1, 17)).done(TSUSPEND);
    b.done_by(1, std(1, 17));
    let first = b.thread(0).clone();
    b.done_by(1, tlbie(0));
    assert_eq!(*b.thread(0), first);
}
