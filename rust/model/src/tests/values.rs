//! Rules K1 to K36: the bench values.

use super::*;

#[test]
fn k1_tabort() {
    let mut b = Bench::fresh();
    b.m.threads[0].nia = 0x1000;
    b.done(TBEGIN).done(addi(5, 0, 1)).gives(TABORT, 20);
    let t = b.thread(0);
    assert_eq!(t.texasr, 0x0000_0001_1C00_0001);
    assert_eq!(t.tfiar, 0x1009);
    assert_eq!(t.tfhar, 0x1004);
    assert_eq!(t.cr0, 10);
    assert_eq!(t.nia, 0x1004);
    assert_eq!(t.live.gpr[5], 0);
}

#[test]
fn k2_tabort_with_a_code() {
    let mut b = Bench::fresh();
    b.m.threads[0].nia = 0x1000;
    b.m.threads[0].live.gpr[3] = 0x1A5;
    b.done(TBEGIN)
        .done(addi(5, 0, 1))
        .gives(Event::Tabort { ra: 3 }, 20);
    let t = b.thread(0);
    assert_eq!(t.texasr, 0xA500_0001_1C00_0001);
    assert_eq!(t.tfiar, 0x1009);
    assert_eq!(t.tfhar, 0x1004);
    assert_eq!(t.cr0, 10);
}

#[test]
fn k3_disallowed() {
    let mut b = Bench::privileged();
    b.done(TBEGIN).done(TBEGIN).gives(Event::Disallowed, 20);
    assert_eq!(b.thread(0).texasr, 0x0080_0000_0C00_0002);
    assert_eq!(b.thread(0).tfiar, 8);
}

#[test]
fn k4_store_of_another_thread() {
    for (e, index) in [(ld(1, 40), 47), (std(1, 40), 40)] {
        let mut b = Bench::fresh();
        b.done(TBEGIN).done(e).done_by(1, std(2, index));
        let t = b.thread(0);
        assert_eq!(t.texasr, 0x0008_0000_1800_0001);
        assert_eq!(t.tfiar, 8 | 1);
        assert_eq!((t.state, t.cr0, t.nia), (State::N, 10, 4));
    }
}

#[test]
fn k5_own_store_in_s() {
    for e in [ld(1, 40), std(1, 40)] {
        let mut b = Bench::fresh();
        b.m.threads[0].live.gpr[2] = 77;
        b.done(TBEGIN).done(e).done(TSUSPEND).gives(std(2, 41), 21);
        let t = b.thread(0);
        assert_eq!(t.texasr, 0x0010_0000_9C00_0001);
        assert_eq!(t.tfiar, 12 | 1);
        assert_eq!((t.state, t.doomed, t.nia), (State::S, true, 16));
        assert_eq!(b.mem[41], 77);
    }
}

#[test]
fn k6_the_33rd_line() {
    for e in [ld(1, 32 * 16), std(1, 32 * 16)] {
        let mut b = Bench::privileged();
        b.done(TBEGIN);
        for line in 0..32 {
            b.done(if line % 2 == 0 {
                ld(1, line * 16)
            } else {
                std(1, line * 16 + 3)
            });
        }
        assert_eq!(b.thread(0).footprint(), 32);
        b.gives(e, 20);
        assert_eq!(b.thread(0).texasr, 0x0020_0000_0C00_0001);
    }
}

#[test]
fn k7_nesting() {
    let mut b = Bench::begun();
    b.at_level(0, MAX_LEVEL - 1).done(TBEGIN);
    assert_eq!(b.thread(0).texasr, 0xFFF);
    b.gives(TBEGIN, 20);
    assert_eq!(b.thread(0).texasr, 0x0040_0000_1C00_0FFF);
}

#[test]
fn k8_rot() {
    let mut b = Bench::fresh();
    b.done(TBEGIN_ROT);
    assert_eq!(b.thread(0).texasr, 0x0200_0001);
}

#[test]
fn k9_last_address() {
    let mut b = Bench::fresh();
    b.m.threads[0].nia = u64::MAX - 3;
    b.done(TBEGIN);
    assert_eq!(b.thread(0).tfhar, 0);
    assert_eq!(b.thread(0).nia, 0);
}

#[test]
fn k10_word_and_doubleword() {
    for (e, number) in [
        (
            Event::Tabortwc {
                to: 16,
                ra: 3,
                rb: 0,
            },
            20,
        ),
        (
            Event::Tabortdc {
                to: 16,
                ra: 3,
                rb: 0,
            },
            0,
        ),
    ] {
        let mut b = Bench::fresh();
        b.m.threads[0].live.gpr[3] = 0xFFFF_FFFF;
        b.done(TBEGIN).gives(e, number);
    }
}

#[test]
fn k11_a_load_before_rot_went_off() {
    let mut b = Bench::fresh();
    b.done(TBEGIN_ROT).done(ld(1, 17)).done(TBEGIN);
    assert_eq!(b.thread(0).texasr, 0x0000_0002);
    b.done_by(1, std(2, 16)).is(State::T);
    assert_eq!(b.thread(0).texasr, 0x0000_0002);
}

#[test]
fn k12_a_load_after_rot_went_off() {
    let mut b = Bench::fresh();
    b.done(TBEGIN_ROT).done(TBEGIN).done(ld(1, 17));
    b.done_by(1, std(2, 16)).is(State::N);
    assert_eq!(b.thread(0).texasr, 0x0008_0000_1800_0002);
}

#[test]
fn k13_the_highest_level_leaves_rot() {
    let mut b = Bench::fresh();
    b.done(TBEGIN_ROT).at_level(0, MAX_LEVEL - 1);
    b.done(TBEGIN_ROT);
    assert_eq!(b.thread(0).texasr, 0x0200_0FFF);
    b.gives(TBEGIN, 20);
    assert_eq!(b.thread(0).texasr, 0x0040_0000_1E00_0FFF);
}

/// Thread 0 at 0x1000 after tbegin., the events and kind 16.
fn interrupted(events: &[Event]) -> Bench {
    let mut b = Bench::fresh();
    b.m.threads[0].nia = 0x1000;
    b.done(TBEGIN);
    for &e in events {
        b.done(e);
    }
    b.done(Event::Interrupt);
    b
}

#[test]
fn k14_an_interrupt_and_back() {
    let mut b = interrupted(&[]);
    let t = b.thread(0);
    assert_eq!((t.srr0, t.srr1), (0x1004, 0x0000_0005_0000_4000));
    assert_eq!(
        (t.state, t.pr, t.tm, t.nia),
        (State::S, false, false, 0x500)
    );
    b.done(Event::Rfid);
    let t = b.thread(0);
    assert_eq!((t.state, t.pr, t.tm, t.nia), (State::T, true, true, 0x1004));
    assert_eq!(t.cr0, 0b0000);
}

#[test]
fn k15_doomed_meanwhile() {
    let mut b = interrupted(&[ld(1, 17)]);
    b.done_by(1, std(2, 17));
    let t = b.thread(0);
    assert_eq!((t.texasr, t.tfiar), (0x0008_0000_8800_0001, 0x500));
    b.gives(Event::Rfid, 20);
    let t = b.thread(0);
    assert_eq!((t.state, t.pr, t.tm), (State::N, true, true));
    assert_eq!((t.nia, t.tfhar, t.cr0), (0x1004, 0x1004, 0b1010));
    assert_eq!((t.texasr, t.tfiar), (0x0008_0000_8800_0001, 0x500));
}

#[test]
fn k16_in_t() {
    let host = Event::Host {
        pr: false,
        tm: true,
    };
    let rfid = [Event::Rfid];
    for e in rfid.into_iter().chain((0..16).map(mtmsrd)) {
        let mut b = Bench::fresh();
        b.done(host).done(TBEGIN).gives(e, 20);
        assert_eq!(b.thread(0).texasr, 0x0080_0000_0C00_0001);
    }
}

#[test]
fn k17_what_is_saved() {
    let mut b = Bench::suspended();
    b.done(Event::Interrupt);
    assert_eq!(b.thread(0).srr1, 0x0000_0003_0000_4000);
    let mut b = Bench::fresh();
    b.done(Event::Host {
        pr: false,
        tm: false,
    });
    b.m.threads[0].srr1 = u64::MAX;
    b.done(Event::Interrupt);
    assert_eq!(b.thread(0).srr1, 0);
}

#[test]
fn k18_s_is_asked_for_n() {
    let mut b = Bench::suspended();
    let t = &mut b.m.threads[0];
    (t.pr, t.tm) = (false, false);
    let mut on = b.clone();
    b.done(mtmsrd(8)).is(State::S);
    assert_eq!((b.thread(0).tm, b.thread(0).pr), (false, true));
    on.m.threads[0].tm = true;
    on.refused(mtmsrd(8), 13);
}

/// Thread 0 privileged, and suspended after a load of doubleword 17.
fn suspended_with_line_1() -> Bench {
    let mut b = Bench::fresh();
    b.privilege(0).done(TBEGIN).done(ld(1, 17)).done(TSUSPEND);
    b
}

#[test]
fn k19_tlbie_of_ones_own_page() {
    let mut b = suspended_with_line_1();
    b.gives(tlbie(0), 21).is(State::S);
    let t = b.thread(0);
    assert_eq!((t.texasr, t.tfiar), (0x0002_0000_8800_0001, 0x000C));
    assert!(t.doomed && t.reads.is_empty() && t.writes.is_empty() && t.count == 0);
    assert_eq!((t.nia, t.cr0), (0x0010, 0b0100));
    b.gives(TRESUME, 20).is(State::N);
    assert_eq!(b.thread(0).nia, 0x0004);
}

#[test]
fn k20_tlbie_of_another_page() {
    let mut b = suspended_with_line_1();
    b.done(tlbie(1));
    let t = b.thread(0);
    assert_eq!((t.texasr, t.tfiar, t.doomed), (0x0000_0001, 0, false));
    assert!(t.reads.contains(1) && t.footprint() == 1);
    assert_eq!(t.nia, 0x0010);
    b.done(TRESUME).is(State::T);
}

/// Thread 1 is privileged; thread 0 has done these, by its first page.
fn before_tlbie(events: &[Event]) -> Bench {
    let mut b = Bench::fresh();
    b.privilege(1);
    for &e in events {
        b.done(e);
    }
    b
}

#[test]
fn k21_tlbie_against_t() {
    let mut b = before_tlbie(&[TBEGIN, ld(1, 17)]);
    b.done_by(1, tlbie(0)).is(State::N);
    let t = b.thread(0);
    assert_eq!((t.texasr, t.tfiar), (0x0002_0000_1800_0001, 0x0009));
    assert_eq!((t.nia, t.cr0), (0x0004, 0b1010));
}

#[test]
fn k22_tlbie_against_s() {
    let mut b = before_tlbie(&[TBEGIN, ld(1, 17), TSUSPEND]);
    b.done_by(1, tlbie(0)).is(State::S);
    let t = b.thread(0);
    assert_eq!((t.texasr, t.tfiar), (0x0002_0000_9800_0001, 0x000D));
    assert_eq!((t.doomed, t.nia, t.cr0), (true, 0x000C, 0b0100));
}

#[test]
fn k23_tlbie_spares_loads_under_rot() {
    let mut b = before_tlbie(&[TBEGIN_ROT, ld(1, 17)]);
    b.done_by(1, tlbie(0)).is(State::T);
    assert_eq!(b.thread(0).texasr, 0x0200_0001);
    let mut b = before_tlbie(&[TBEGIN_ROT, std(1, 17)]);
    b.done_by(1, tlbie(0)).is(State::N);
    assert_eq!(b.thread(0).texasr, 0x0002_0000_1A00_0001);
}

#[test]
fn k24_the_border_of_a_page() {
    let mut b = before_tlbie(&[TBEGIN, ld(1, 511)]);
    b.done_by(1, tlbie(1)).is(State::T);
    let mut b = before_tlbie(&[TBEGIN, ld(1, 512)]);
    b.done_by(1, tlbie(1)).is(State::N);
    assert_eq!(b.thread(0).texasr, 0x0002_0000_1800_0001);
}

#[test]
fn k25_tlbie_in_t() {
    let mut b = Bench::fresh();
    b.privilege(0).done_by(1, TBEGIN).done_by(1, ld(1, 17));
    let other = b.thread(1).clone();
    b.done(TBEGIN).gives(tlbie(0), 20);
    assert_eq!(b.thread(0).texasr, 0x0080_0000_0C00_0001);
    assert_eq!(*b.thread(1), other);
}

#[test]
fn k26_the_last_page() {
    for (len, last) in [(1040, 2), (1024, 1), (4096, 7)] {
        let mut b = Bench::fresh();
        b.mem.resize(len, 0);
        b.privilege(0).done(tlbie(last)).refused(tlbie(last + 1), 4);
    }
}

#[test]
fn k27_stores_in_n() {
    let mut b = Bench::fresh();
    b.with(3, 0x1122_3344_5566_7788).done(stb(3, 8));
    assert_eq!(b.mem[1], 0x8800_0000_0000_0000);
    b.done(sth(3, 10));
    assert_eq!(b.mem[1], 0x8800_7788_0000_0000);
    b.done(stw(3, 12));
    assert_eq!(b.mem[1], 0x8800_7788_5566_7788);
    assert_eq!(b.mem.iter().filter(|&&word| word != 0).count(), 1);
}

#[test]
fn k28_loads_in_n() {
    let mut b = Bench::fresh();
    b.mem[1] = 0x1122_3344_5566_7788;
    for (e, number) in [
        (lbz(3, 8), 0x11),
        (lbz(3, 15), 0x88),
        (lhz(3, 10), 0x3344),
        (lwz(3, 12), 0x5566_7788),
    ] {
        b.with(3, u64::MAX).done(e);
        assert_eq!(b.reg(3), number, "{e:?}");
    }
}

#[test]
fn k29_two_words_of_one_place() {
    let mut b = Bench::begun();
    b.with(3, 1).done(stw(3, 4));
    assert_eq!(b.place(0), (0, 0x0F, 1));
    b.with(4, 2).done(stw(4, 0));
    assert_eq!(b.place(0), (0, 0xFF, 0x0000_0002_0000_0001));
    assert_eq!(b.thread(0).count, 1);
}

#[test]
fn k30_the_log_over_memory() {
    let mut b = Bench::fresh();
    b.mem[2] = 0x1111_1111_1111_1111;
    b.with(3, 0xABCD)
        .done(TBEGIN)
        .done(sth(3, 18))
        .done(ld(4, 2));
    assert_eq!(b.reg(4), 0x1111_ABCD_1111_1111);
    let t = b.thread(0);
    assert!(t.reads.contains(0) && t.writes.contains(0) && t.footprint() == 1);
    for (e, number) in [
        (lbz(4, 18), 0xAB),
        (lwz(4, 16), 0x1111_ABCD),
        (lwz(4, 20), 0x1111_1111),
    ] {
        b.done(e);
        assert_eq!(b.reg(4), number, "{e:?}");
    }
}

#[test]
fn k31_half_a_doubleword_is_committed() {
    let mut b = Bench::fresh();
    b.mem[0] = 0xAAAA_AAAA_0000_0000;
    b.with(3, 7).done(TBEGIN).done(stw(3, 4)).done(TEND);
    assert_eq!(b.mem[0], 0xAAAA_AAAA_0000_0007);
}

#[test]
fn k32_number_4() {
    let mut b = Bench::fresh();
    b.refused(lhz(3, 1), 4).refused(lwz(3, 2), 4);
    b.refused(stw(3, 6), 4);
    b.mem.resize(16, 0);
    b.done(lbz(3, 127)).refused(lbz(3, 128), 4);
    b.done(stw(3, 124)).refused(stw(3, 128), 4);
    b.refused(ld(3, 16), 4).done(lbz(3, 16));
}

#[test]
fn k33_a_conflict_by_line() {
    for (address, state) in [(127, State::N), (128, State::T)] {
        let mut b = Bench::begun();
        b.done(lbz(3, 0)).done_by(1, stb(3, address)).is(state);
        if state == State::N {
            assert_eq!(b.thread(0).texasr, 0x0008_0000_1800_0001);
        }
    }
}

#[test]
fn k34_a_byte_in_s() {
    let mut b = Bench::fresh();
    b.with(3, 0xFF).done(TBEGIN).done(stb(3, 0)).done(TSUSPEND);
    b.done(lbz(4, 0));
    assert_eq!(b.reg(4), 0xFF);
    b.gives(stb(3, 9), 21);
    assert_eq!(b.thread(0).texasr, 0x0010_0000_9C00_0001);
    assert_eq!((b.mem[0], b.mem[1]), (0, 0x00FF_0000_0000_0000));
}

#[test]
fn k35_the_65th_place() {
    let mut b = Bench::begun();
    for address in (0..=504).step_by(8) {
        b.done(stb(3, address));
    }
    assert_eq!(b.thread(0).count, 64);
    b.done(stb(3, 505));
    assert_eq!((b.thread(0).count, b.place(63).1), (64, 0xC0));
    b.gives(stb(3, 512), 20);
    // The thread's own event, so exact is 1 (rule F4).
    assert_eq!(b.thread(0).texasr, 0x0020_0000_1C00_0001);
}

/// Thread 0 up to its tend.: a lock of 4 bytes is read, a counter beside it counted.
fn counted() -> Bench {
    let mut b = Bench::begun();
    b.done(lwz(4, 0)).done(lwz(5, 4));
    assert_eq!(b.reg(4), 0);
    b.done(addi(5, 5, 1)).done(stw(5, 4));
    b
}

#[test]
fn k36_a_lock_and_a_counter() {
    let mut b = counted();
    assert_eq!(b.place(0), (0, 0x0F, 1));
    b.done(TEND);
    assert_eq!(b.mem[0], 0x0000_0000_0000_0001);
    let mut b = counted();
    b.m.threads[1].live.gpr[6] = 1;
    b.done_by(1, stw(6, 0)).is(State::N);
    assert_eq!(b.thread(0).texasr, 0x0008_0000_1800_0001);
    assert_eq!(b.mem[0], 0x0000_0001_0000_0000);
}
