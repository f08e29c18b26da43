//! Events 10, 11 and 14: registers.

use super::*;

#[test]
fn mtspr() {
    let mut b = Bench::fresh();
    for ra in [0, 7] {
        b.m.threads[0].live.gpr[ra as usize] = 0xFEDC_BA98_7654_3213;
        b.done(Event::Mtspr { spr: 128, ra });
        assert_eq!(b.thread(0).tfhar, 0xFEDC_BA98_7654_3210);
        b.done(Event::Mtspr { spr: 129, ra });
        assert_eq!(b.thread(0).tfiar, 0xFEDC_BA98_7654_3213);
        b.done(Event::Mtspr { spr: 130, ra });
        assert_eq!(b.thread(0).texasr, 0xFEDC_BA98_7654_3213);
        b.m.threads[0].live.gpr[ra as usize] = 0xAAAA_AAAA_0102_0304;
        b.done(Event::Mtspr { spr: 131, ra });
        assert_eq!(b.thread(0).texasr, 0x0102_0304_7654_3213);
    }
}

#[test]
fn mfspr() {
    for (pr, tfiar, read) in [
        (true, 0x1001, 0x1001),
        (true, 0x1000, 0),
        (true, 0x1003, 0x1003),
        (true, 0x1002, 0),
        (false, 0x1000, 0x1000),
        (false, 0x1001, 0x1001),
    ] {
        for mut b in [Bench::fresh(), Bench::suspended(), Bench::doomed()] {
            let t = &mut b.m.threads[0];
            t.pr = pr;
            t.tfiar = tfiar;
            t.tfhar = 0x88;
            let texasr = t.texasr;
            t.live.gpr[6] = 1;
            for (spr, value) in [(128, 0x88), (129, read), (130, texasr), (131, texasr >> 32)] {
                for rt in [0, 6] {
                    b.done(Event::Mfspr { rt, spr });
                    assert_eq!(b.thread(0).live.gpr[rt as usize], value);
                }
            }
        }
    }
}

/// SRR0 and SRR1 are stored and read whole, in N and in S, with TM = 0 too.
#[test]
fn srr0_and_srr1() {
    for mut b in [Bench::fresh(), Bench::suspended(), Bench::doomed()] {
        for (tm, ra) in [(false, 0), (true, 7)] {
            let t = &mut b.m.threads[0];
            (t.pr, t.tm) = (false, tm);
            t.live.gpr[ra as usize] = 0xFEDC_BA98_7654_3213;
            (t.srr0, t.srr1) = (1, 2);
            b.makes(Event::Mtspr { spr: 26, ra }, |before| Thread {
                srr0: 0xFEDC_BA98_7654_3213,
                nia: before.nia + 4,
                ..before
            });
            b.makes(Event::Mtspr { spr: 27, ra }, |before| Thread {
                srr1: 0xFEDC_BA98_7654_3213,
                nia: before.nia + 4,
                ..before
            });
        }
    }
    for mut b in [Bench::fresh(), Bench::begun(), Bench::doomed()] {
        for tm in [false, true] {
            let t = &mut b.m.threads[0];
            (t.pr, t.tm) = (false, tm);
            (t.srr0, t.srr1) = (0x1003, u64::MAX);
            for (spr, value) in [(26, 0x1003), (27, u64::MAX)] {
                b.done(Event::Mfspr { rt: 9, spr });
                assert_eq!(b.thread(0).live.gpr[9], value);
            }
        }
    }
}

#[test]
fn add_immediate() {
    let mut b = Bench::fresh();
    b.m.threads[0].live.gpr[0] = 1000;
    b.m.threads[0].live.gpr[1] = 5;
    for (rt, ra, si, sum) in [
        (2, 0, 7, 7),
        (2, 1, 7, 12),
        (2, 1, 0xFFFF, 4),
        (2, 0, 0x8000, 0xFFFF_FFFF_FFFF_8000),
        (2, 1, 0x7FFF, 0x8004),
        (2, 2, 0x7FFF, 0x1_0003),
        (0, 0, 0xFFFF, u64::MAX),
        (1, 1, 0xFFFB, 0),
        (1, 1, 0xFFFF, u64::MAX),
        (1, 1, 1, 0),
    ] {
        b.done(addi(rt, ra, si));
        assert_eq!(b.thread(0).live.gpr[rt as usize], sum);
    }
    assert_eq!(b.thread(0).nia, 40);
}
