//! Rules A1, A2 and A4: one thread's accesses.

use super::*;

#[test]
fn loads_and_stores_in_n() {
    let mut b = Bench::fresh();
    b.mem[9] = 99;
    b.done(ld(1, 9)).done(std(1, 10));
    assert_eq!(b.mem[10], 99);
    let t = b.thread(0);
    assert!(t.reads.is_empty() && t.writes.is_empty() && t.count == 0);
}

#[test]
fn a_transaction_sees_its_own_log() {
    let mut b = Bench::fresh();
    b.mem[9] = 99;
    b.mem[10] = 100;
    b.done(TBEGIN).done(addi(1, 0, 7)).done(std(1, 9));
    b.done(ld(2, 9)).done(ld(3, 10));
    assert_eq!(b.thread(0).live.gpr[2..4], [7, 100]);
    assert_eq!(b.mem[9], 99);
    // In S too, where a load joins no set.
    b.done(TSUSPEND).done(ld(4, 9)).done(ld(5, 10));
    b.done(ld(6, 2000));
    assert_eq!(b.thread(0).live.gpr[4..6], [7, 100]);
    assert!(!b.thread(0).reads.contains(125));
    // A store in S to a line of no set goes to memory.
    b.done(std(1, 2001));
    assert_eq!(b.mem[2001], 7);
    assert_eq!(b.thread(0).count, 1);
    b.is(State::S);
    // Once doomed, memory alone is seen.
    b.gives(TABORT, 21).done(ld(4, 9));
    assert_eq!(b.thread(0).live.gpr[4], 99);
}

#[test]
fn rot_loads_join_no_set() {
    let mut b = Bench::fresh();
    b.done(TBEGIN_ROT);
    for line in 0..64 {
        b.done(ld(1, line * 16));
    }
    assert!(b.thread(0).reads.is_empty());
    // Another thread's store does not fail it, and its stores are tracked.
    b.done_by(1, std(1, 0)).is(State::T);
    for line in 0..32 {
        b.done(std(1, line * 16));
    }
    b.done(ld(1, 1000)).gives(std(1, 1000), 20);
    assert_eq!(b.thread(0).texasr, 0x0020_0000_1E00_0001);
    // But its load fails a writer.
    let mut b = Bench::fresh();
    b.done_by(1, TBEGIN).done_by(1, std(1, 0));
    b.done(TBEGIN_ROT).done(ld(1, 15));
    assert_eq!(b.thread(1).texasr, 0x0004_0000_1800_0001);
}

/// From the nested tbegin. with R = 0 on, loads are tracked and may overflow;
/// those before it are not tracked after it either.
#[test]
fn loads_are_tracked_once_rot_is_off() {
    let mut b = Bench::fresh();
    b.done(TBEGIN_ROT).done(ld(1, 0)).done(std(1, 16));
    b.done(TBEGIN);
    assert!(b.thread(0).reads.is_empty());
    assert_eq!(b.thread(0).footprint(), 1);
    for line in 2..33 {
        b.done(ld(1, line * 16));
    }
    assert_eq!(b.thread(0).footprint(), 32);
    // Line 0, which was loaded under ROT, is new to the sets.
    b.gives(ld(1, 0), 20);
    assert_eq!(b.thread(0).texasr, 0x0020_0000_1C00_0002);
    // With R = 1 the same load is done, and is not tracked.
    let mut b = Bench::fresh();
    b.done(TBEGIN_ROT);
    for line in 1..33 {
        b.done(std(1, line * 16));
    }
    b.done(TBEGIN_ROT).done(ld(1, 0));
    assert!(b.thread(0).reads.is_empty());
}

#[test]
fn a_line_of_either_set_is_not_new() {
    let mut b = Bench::begun();
    for line in 0..16 {
        b.done(ld(1, line * 16));
    }
    for line in 16..32 {
        b.done(std(1, line * 16));
    }
    b.done(std(1, 0)).done(ld(1, 16 * 16));
    assert!(b.thread(0).writes.contains(0) && b.thread(0).reads.contains(16));
    assert_eq!(b.thread(0).footprint(), 32);
    b.gives(ld(1, 512), 20);
}

#[test]
fn log_overflow() {
    let mut b = Bench::begun();
    for i in 0..64 {
        b.done(std(1, i));
    }
    let mut other = b.clone();
    // A load still goes on, of a new line too.
    other.done(ld(1, 640)).done(std(1, 63));
    b.done(ld(1, 4000)).gives(std(1, 64), 20);
    assert_eq!(b.thread(0).texasr, 0x0020_0000_1C00_0001);
    // In a line that is already written too.
    let mut b = Bench::begun();
    for i in 0..64 {
        b.done(std(1, i + 8));
    }
    b.gives(std(1, 0), 20);
    assert_eq!(b.mem[8], 0);
}
