//! Rules M17, E20 to E25, A4 and A7: accesses of 1, 2 and 4 bytes.

use super::*;
use crate::machine::mask;

const WORD: u64 = 0x0123_4567_89AB_CDEF;

/// The places in a doubleword that an access of this width can have.
fn places(width: u32) -> impl Iterator<Item = usize> {
    (0..8).step_by(width as usize)
}

/// The number that so many bytes of a doubleword make, from byte k on.
fn number(doubleword: u64, k: usize, width: u32) -> u64 {
    let bytes = doubleword.to_be_bytes();
    let some = &bytes[k..k + width as usize];
    some.iter().fold(0, |n, &byte| 256 * n + u64::from(byte))
}

/// A doubleword with the low bytes of a register from byte k on.
fn replaced(doubleword: u64, k: usize, width: u32, register: u64) -> u64 {
    let mut bytes = doubleword.to_be_bytes();
    let width = width as usize;
    bytes[k..k + width].copy_from_slice(&register.to_be_bytes()[8 - width..]);
    u64::from_be_bytes(bytes)
}

/// The marks of so many bytes from byte k on.
fn marked(k: usize, width: u32) -> u8 {
    (k..k + width as usize).map(|k| 0x80 >> k).sum()
}

#[test]
fn the_bits_of_marks() {
    for marks in 0..=255u8 {
        let bytes = std::array::from_fn(|k| if marks << k & 0x80 != 0 { 0xFF } else { 0 });
        assert_eq!(mask(marks), u64::from_be_bytes(bytes), "{marks:#x}");
    }
}

/// Each load at each place of a doubleword, in every state: nothing is in the log.
#[test]
fn loads_of_memory() {
    for mut b in [
        Bench::fresh(),
        Bench::begun(),
        Bench::suspended(),
        Bench::doomed(),
    ] {
        (b.mem[4], b.mem[5], b.mem[6]) = (u64::MAX, WORD, u64::MAX);
        for (width, load) in LOADS {
            for k in places(width) {
                b.with(7, u64::MAX).done(load(7, 40 + k as u32));
                assert_eq!(b.reg(7), number(WORD, k, width), "{width} at {k}");
            }
        }
    }
}

/// Each store at each place, in N and S: those bytes of memory and no others.
#[test]
fn stores_to_memory() {
    for b in [Bench::fresh(), Bench::suspended(), Bench::doomed()] {
        for (width, store) in STORES {
            for k in places(width) {
                let mut b = b.clone();
                (b.mem[4], b.mem[5], b.mem[6]) = (7, 0xFEED_FACE_0000_0001, 9);
                let mut right = b.mem.clone();
                right[5] = replaced(right[5], k, width, WORD);
                let before = b.thread(0).clone();
                b.with(7, WORD).done(store(7, 40 + k as u32));
                assert_eq!(b.mem, right, "{width} at {k}");
                let t = b.thread(0);
                assert_eq!((t.reads, t.writes), (before.reads, before.writes));
                assert_eq!(
                    (t.count, t.cr0, t.nia),
                    (before.count, before.cr0, before.nia + 4)
                );
            }
        }
    }
}

/// Each store at each place in T: a place with its marks, memory as it was until
/// the commit, which changes its bytes alone.
#[test]
fn stores_to_the_log() {
    for (width, store) in STORES {
        for k in places(width) {
            let mut b = Bench::begun();
            b.mem[5] = !WORD;
            b.with(7, WORD).done(store(7, 40 + k as u32));
            let value = replaced(0, k, width, WORD);
            assert_eq!(b.place(0), (5, marked(k, width), value));
            assert_eq!((b.thread(0).count, b.mem[5]), (1, !WORD));
            assert!(b.thread(0).writes.contains(0) && b.thread(0).reads.is_empty());
            b.done(TEND);
            assert_eq!(b.mem[5], replaced(!WORD, k, width, WORD), "{width} at {k}");
        }
    }
}

/// Every two stores to one doubleword, of all widths and places, 8 bytes too: the
/// later one wins where they meet, the marks are joined, and each load sees both.
#[test]
fn two_stores_merge() {
    let wide: [(u32, fn(u8, u32) -> Event); 1] = [(8, |ra, at| std(ra, at / 8))];
    let stores = || {
        let each = STORES.into_iter().chain(wide);
        each.flat_map(|(width, store)| places(width).map(move |k| (width, k, store)))
    };
    for (first, second) in stores().flat_map(|a| stores().map(move |b| (a, b))) {
        let mut b = Bench::begun();
        b.mem[5] = 0x5555_5555_5555_5555;
        b.with(7, WORD).with(8, !WORD);
        let (mut value, mut marks, mut seen) = (0, 0, b.mem[5]);
        for (ra, (width, k, store)) in [(7, first), (8, second)] {
            let register = b.reg(ra);
            b.done(store(ra as u8, 40 + k as u32));
            value = replaced(value, k, width, register);
            seen = replaced(seen, k, width, register);
            marks |= marked(k, width);
        }
        assert_eq!((b.place(0), b.thread(0).count), ((5, marks, value), 1));
        b.done(ld(9, 5));
        assert_eq!(b.reg(9), seen);
        for (width, load) in LOADS {
            for k in places(width) {
                b.done(load(9, 40 + k as u32));
                assert_eq!(b.reg(9), number(seen, k, width));
            }
        }
        b.done(TEND);
        assert_eq!(b.mem[5], seen);
    }
}

/// A load in S sees the log's bytes over memory as it is by then, and so does one
/// in T after it.
#[test]
fn memory_under_the_log() {
    let mut b = Bench::begun();
    b.with(3, 0xAAAA).done(sth(3, 42)).done(TSUSPEND);
    b.mem[5] = WORD;
    b.done(ld(4, 5))
        .done(lwz(5, 40))
        .done(TRESUME)
        .done(ld(6, 5));
    let seen = 0x0123_AAAA_89AB_CDEF;
    assert_eq!((b.reg(4), b.reg(5), b.reg(6)), (seen, 0x0123_AAAA, seen));
    // Once doomed, memory alone is seen.
    b.done(TSUSPEND).gives(TABORT, 21).done(lwz(4, 40));
    assert_eq!(b.reg(4), 0x0123_4567);
}

/// A failure drops what was stored in part; what other bytes memory has stay.
#[test]
fn a_failure_drops_narrow_stores() {
    for suspended in [false, true] {
        let mut b = Bench::fresh();
        b.mem[5] = WORD;
        b.with(3, u64::MAX).done(TBEGIN);
        b.done(stb(3, 40)).done(sth(3, 42)).done(stw(3, 44));
        if suspended {
            b.done(TSUSPEND).gives(TABORT, 21);
            assert_eq!((b.thread(0).count, b.place(0)), (0, (0, 0, 0)));
            b.gives(TRESUME, 20);
        } else {
            b.gives(TABORT, 20);
        }
        assert_eq!((b.thread(0).count, b.place(0)), (0, (0, 0, 0)));
        assert_eq!(b.mem[5], WORD);
    }
}

/// A register is read before a failure puts another value back, and a load into
/// the register of the next store goes round.
#[test]
fn registers_of_an_access() {
    let mut b = Bench::fresh();
    b.with(3, 1)
        .done(TBEGIN)
        .done(ld(5, 5))
        .with(3, 0x1234_5678);
    b.done(TSUSPEND).gives(stw(3, 44), 21);
    assert_eq!(b.mem[5], 0x1234_5678);
    // RT = 0 and RA = 0 name register 0 (rule E0.8).
    b.done(lhz(0, 46)).done(stb(0, 40));
    assert_eq!((b.reg(0), b.mem[5]), (0x5678, 0x7800_0000_1234_5678));
}

/// Under ROT a narrow load joins no set and does not overflow; a narrow store does.
#[test]
fn under_rot() {
    let mut b = Bench::fresh();
    b.done(TBEGIN_ROT);
    for line in 0..40 {
        b.done(lbz(1, 128 * line + 3)).done(lhz(1, 128 * line + 2));
    }
    assert!(b.thread(0).reads.is_empty());
    for line in 0..32 {
        b.done(stb(1, 128 * line + 127));
    }
    b.done(lwz(1, 128 * 32)).gives(sth(1, 128 * 32), 20);
    assert_eq!(b.thread(0).texasr, 0x0020_0000_1E00_0001);
}

/// Rule A1: by lines for every width, and by places only for a new doubleword.
#[test]
fn overflow_of_each_width() {
    for (_, access) in LOADS.into_iter().chain(STORES) {
        let mut b = Bench::begun();
        for line in 0..32 {
            b.done(access(1, 128 * line + 64));
        }
        b.done(access(1, 128 * 31 + 124));
        b.gives(access(1, 128 * 32), 20);
        assert_eq!(b.thread(0).texasr, 0x0020_0000_1C00_0001);
    }
    for (width, store) in STORES {
        let mut b = Bench::begun();
        for place in 0..64 {
            b.done(store(1, 8 * place));
        }
        b.done(store(1, 8 * 20 + 4)).done(std(1, 21));
        assert_eq!(b.place(20).1, marked(0, width) | marked(4, width));
        assert_eq!(b.place(21).1, 0xFF);
        b.done(lbz(1, 600)).gives(store(1, 512), 20);
    }
}

/// Rule A3: by the line, whatever the bytes; loads hit writers, stores all.
#[test]
fn conflicts_of_each_width() {
    for (_, access) in LOADS.into_iter().chain(STORES) {
        let store = access(0, 0).kind() >= 23;
        for (victim, has) in [(stb(1, 255), true), (lbz(1, 255), store)] {
            for state in [State::N, State::T] {
                let mut b = Bench::fresh();
                b.done_by(1, TBEGIN).done_by(1, victim);
                if state == State::T {
                    b.done(TBEGIN);
                }
                b.done(access(1, 128));
                let cause = if state == State::T { 4 } else { 8 };
                assert_eq!(b.thread(1).failed(), has);
                if has {
                    let texasr = cause << 48 | 0x1800_0001;
                    assert_eq!(b.thread(1).texasr, texasr);
                }
                // The lines beside it are others.
                let mut b = Bench::fresh();
                b.done_by(1, TBEGIN).done_by(1, victim);
                b.done(access(1, 124)).done(access(1, 256));
                assert!(!b.thread(1).failed());
            }
        }
    }
}

/// Rule A2: a store in S to other bytes of an own line, and to another line.
#[test]
fn own_conflict_of_each_width() {
    for (width, store) in STORES {
        for own in [lbz(1, 3), stb(1, 3)] {
            let mut b = Bench::begun();
            b.done(own).done(TSUSPEND).with(7, WORD);
            b.clone().done(store(7, 128));
            b.gives(store(7, 120), 21);
            assert_eq!(b.thread(0).texasr, 0x0010_0000_9C00_0001);
            assert_eq!(b.mem[15], replaced(0, 0, width, WORD));
            b.done(store(7, 8));
            assert_eq!(b.mem[1], replaced(0, 0, width, WORD));
        }
    }
}

/// Whatever PR and TM are, they are done; CR0 stays.
#[test]
fn neither_privileged_nor_of_the_facility() {
    for (_, access) in LOADS.into_iter().chain(STORES) {
        let mut b = Bench::fresh();
        (b.m.threads[0].tm, b.m.threads[0].cr0) = (false, 0b0111);
        b.done(access(1, 0));
        assert_eq!((b.thread(0).cr0, b.thread(0).nia), (0b0111, 4));
    }
}
