//! Rules S1 to S7: slips to keep out.

use super::*;

#[test]
fn cr0_is_not_restored() {
    let mut b = Bench::fresh();
    b.m.threads[0].cr0 = 0b0111;
    b.m.threads[0].live.cr = [1, 2, 3, 4, 5, 6, 7];
    b.done(TBEGIN);
    b.done(Event::Tcheck { bf: 7 })
        .done(Event::Tcheck { bf: 1 });
    assert_eq!(b.thread(0).live.cr, [0b0100, 2, 3, 4, 5, 6, 0b0100]);
    b.gives(TABORT, 20);
    assert_eq!(b.thread(0).cr0, 0b1010);
    assert_eq!(b.thread(0).live.cr, [1, 2, 3, 4, 5, 6, 7]);
}

#[test]
fn a_second_failure_does_not_overwrite_the_first() {
    let mut b = Bench::fresh();
    b.m.threads[0].live.gpr[3] = 0x77;
    b.done(TBEGIN).done(std(3, 5)).done(TSUSPEND);
    b.done_by(1, std(0, 5));
    let first = b.thread(0).clone();
    assert_eq!(first.texasr, 0x0008_0000_9800_0001);
    assert_eq!(first.tfiar, 12 | 1);
    b.done(Event::Tabort { ra: 3 })
        .done(std(3, 5))
        .done_by(1, std(0, 5));
    b.done(Event::Tabortdc {
        to: 4,
        ra: 1,
        rb: 1,
    });
    let t = b.thread(0);
    assert_eq!((t.texasr, t.tfiar), (first.texasr, first.tfiar));
    // The code of treclaim. is lost too.
    b.m.threads[0].pr = false;
    b.done(Event::Treclaim { ra: 3 });
    assert_eq!(b.thread(0).texasr, first.texasr);
    assert_eq!(b.thread(0).tfiar, first.tfiar);
}

#[test]
fn no_handling_in_s() {
    let mut b = Bench::fresh();
    b.done(TBEGIN).done(std(0, 5)).done(TSUSPEND);
    b.done(addi(9, 0, 9));
    // A failure by another thread waits.
    b.done_by(1, ld(1, 5));
    let t = b.thread(0);
    assert_eq!((t.state, t.doomed, t.nia), (State::S, true, 16));
    assert_eq!((t.live.gpr[9], t.cr0), (9, 0b0100));
    assert!(t.reads.is_empty() && t.writes.is_empty() && t.count == 0);
    b.gives(TRESUME, 20);
    let t = b.thread(0);
    assert_eq!((t.state, t.doomed, t.nia), (State::N, false, 4));
    assert_eq!((t.live.gpr[9], t.cr0), (0, 0b1010));
    // One's own too.
    let mut b = Bench::fresh();
    b.done(TBEGIN).done(TSUSPEND).done(addi(9, 0, 9));
    b.gives(TABORT, 21);
    let t = b.thread(0);
    assert_eq!((t.state, t.doomed, t.nia), (State::S, true, 16));
    assert_eq!((t.live.gpr[9], t.cr0), (9, 0b0010));
    assert_eq!(t.texasr, 0x0000_0001_9C00_0001);
}

#[test]
fn own_overflow_comes_before_others_fail() {
    // Thread 1 has line 200 in its write set; thread 0 overflows at it.
    for e in [ld(1, 3200), std(1, 3200)] {
        let mut b = Bench::fresh();
        b.done_by(1, TBEGIN).done_by(1, std(0, 3200));
        b.done(TBEGIN);
        for line in 0..32 {
            b.done(ld(1, line * 16));
        }
        let other = b.thread(1).clone();
        b.gives(e, 20);
        assert_eq!(*b.thread(1), other);
        assert_eq!(b.mem[3200], 0);
    }
    // The same with the log full: thread 1 reads a line that thread 0 would
    // write with a 65th place.
    let mut b = Bench::fresh();
    b.done_by(1, TBEGIN).done_by(1, ld(0, 3200));
    b.done(TBEGIN);
    for i in 0..64 {
        b.done(std(1, i));
    }
    let other = b.thread(1).clone();
    b.gives(std(1, 3200), 20);
    assert_eq!(b.thread(0).texasr, 0x0020_0000_1C00_0001);
    assert_eq!(*b.thread(1), other);
}

#[test]
fn a_logged_doubleword_keeps_its_place() {
    let mut b = Bench::fresh();
    b.done(TBEGIN);
    for i in 0..64 {
        b.done(addi(1, 0, i as u16 + 1)).done(std(1, 63 - i));
    }
    // With the log full a store to a logged doubleword is done.
    b.done(addi(1, 0, 1000)).done(std(1, 20));
    let t = b.thread(0);
    assert_eq!(t.count, 64);
    let mut seen = 0;
    for (n, e) in t.log.iter().enumerate() {
        assert_eq!(e.index, 63 - n as u32, "in order of first store");
        assert_eq!(e.value, if e.index == 20 { 1000 } else { n as u64 + 1 });
        seen += 1;
    }
    assert_eq!(seen, 64);
    b.done(ld(2, 20)).done(TEND);
    assert_eq!(b.thread(0).live.gpr[2], 1000);
    assert_eq!(b.mem[20], 1000);
    assert_eq!(b.mem[63], 1);
}

#[test]
fn a_tlbie_is_held_against_lines_only_read() {
    for (e, hit) in [(ld(1, 17), tlbie(0)), (std(1, 17), tlbie(0))] {
        let mut b = Bench::begun();
        b.done(e).privilege(1).done_by(1, hit).is(State::N);
    }
}

#[test]
fn a_commit_leaves_the_bytes_that_were_not_stored() {
    let mut b = Bench::fresh();
    b.mem[5] = 0x1111_1111_1111_1111;
    b.with(3, 0xAB).done(TBEGIN).done(stb(3, 43)).done(ld(4, 5));
    assert_eq!(b.reg(4), 0x1111_11AB_1111_1111);
    assert_eq!(b.place(0), (5, 0x10, 0x0000_00AB_0000_0000));
    b.done(TEND);
    assert_eq!(b.mem[5], 0x1111_11AB_1111_1111);
    // Were the whole doubleword written, what memory has become would be lost.
    let mut b = Bench::begun();
    b.with(3, 0xAB).done(stb(3, 43));
    b.mem[5] = u64::MAX;
    b.done(TEND);
    assert_eq!(b.mem[5], 0xFFFF_FFAB_FFFF_FFFF);
}
