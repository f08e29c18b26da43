//! Events 1, 2 and 6 to 9: the states, and what a checkpoint keeps.

use super::*;

#[test]
fn tbegin_in_n() {
    let mut b = Bench::fresh();
    let t = &mut b.m.threads[0];
    t.live.gpr = std::array::from_fn(|n| n as u64 + 100);
    t.live.cr = [1, 2, 3, 4, 5, 6, 7];
    t.cr0 = 15;
    t.nia = 0x2000;
    t.texasr = u64::MAX;
    t.tfiar = 0x55;
    b.makes(TBEGIN_ROT, |before| Thread {
        cr0: 0,
        checkpoint: before.live,
        nia: 0x2004,
        state: State::T,
        tfhar: 0x2004,
        texasr: texasr::ROT | 1,
        ..before
    });
}

/// What outer and inner R are.
const RS: [(bool, bool); 4] = [(false, false), (false, true), (true, false), (true, true)];

/// Nested, TL goes up, R = 0 turns ROT off, and all else of the thread stays:
/// checkpoint, TFHAR, sets, log and the other bits of TEXASR.
#[test]
fn tbegin_nested() {
    for (outer, inner) in RS {
        let mut b = Bench::fresh();
        b.done(Event::Tbegin { r: outer });
        b.done(ld(2, 100)).done(std(2, 200));
        let t = &mut b.m.threads[0];
        t.live.gpr[1] = 9;
        t.texasr |= !(texasr::ROT | texasr::FS | texasr::TL);
        let rot = if outer && inner { texasr::ROT } else { 0 };
        b.makes(Event::Tbegin { r: inner }, |before| Thread {
            cr0: 0b0100,
            nia: before.nia + 4,
            texasr: !(texasr::ROT | texasr::FS | texasr::TL) | rot | 2,
            ..before
        });
    }
}

/// Every level goes up by one and down again, and no other bit of TEXASR is
/// touched by a carry. The highest one goes down alone.
#[test]
fn each_level_up_and_down() {
    let others = !(texasr::FS | texasr::ROT | texasr::TL);
    for level in 1..MAX_LEVEL {
        let mut b = Bench::begun();
        b.m.threads[0].texasr = others | level;
        b.makes(TBEGIN, |before| Thread {
            cr0: 0b0100,
            nia: before.nia + 4,
            texasr: others | (level + 1),
            ..before
        });
        b.makes(TEND, |before| Thread {
            nia: before.nia + 4,
            texasr: others | level,
            ..before
        });
    }
}

/// In S it sets CR0 alone, and with R = 0 leaves ROT.
#[test]
fn tbegin_in_s() {
    for (outer, inner) in RS {
        for fails in [false, true] {
            let mut b = Bench::fresh();
            b.done(Event::Tbegin { r: outer }).done(TSUSPEND);
            if fails {
                b.gives(TABORT, 21);
            }
            b.makes(Event::Tbegin { r: inner }, |before| Thread {
                cr0: 0b0010,
                nia: before.nia + 4,
                ..before
            });
            assert_eq!(b.thread(0).rot(), outer);
        }
    }
}

/// ROT stays off once it is: after an inner tend., and with R = 1.
#[test]
fn rot_does_not_come_back() {
    let mut b = Bench::fresh();
    b.done(TBEGIN_ROT).done(TBEGIN_ROT).done(TBEGIN);
    assert_eq!(b.thread(0).texasr, 3);
    b.done(TEND);
    assert_eq!(b.thread(0).texasr, 2);
    b.done(TBEGIN_ROT);
    assert_eq!(b.thread(0).texasr, 3);
    b.done(TSUSPEND).done(TRESUME).done(ld(1, 40));
    assert!(b.thread(0).reads.contains(2));
    b.done(Event::Tend { a: true });
    assert_eq!(b.thread(0).texasr, 0);
    // The next transaction begins as its own tbegin. says.
    b.done(TBEGIN_ROT);
    assert_eq!(b.thread(0).texasr, texasr::ROT | 1);
}

/// A failure after ROT went off records it off, and one before records it on.
#[test]
fn a_failure_records_rot_as_it_is() {
    let mut b = Bench::fresh();
    b.done(TBEGIN_ROT).done(TBEGIN).gives(TABORT, 20);
    assert_eq!(b.thread(0).texasr, 0x0000_0001_1C00_0002);
    let mut b = Bench::fresh();
    b.done(TBEGIN_ROT).done(TBEGIN_ROT).gives(TABORT, 20);
    assert_eq!(b.thread(0).texasr, 0x0000_0001_1E00_0002);
}

#[test]
fn tend_commits() {
    for a in [false, true] {
        let mut b = Bench::fresh();
        b.done(TBEGIN_ROT);
        b.m.threads[0].live.gpr[1] = 11;
        b.m.threads[0].live.gpr[2] = 22;
        b.m.threads[0].texasr |= 0xA5 << 56;
        if a {
            b.done(TBEGIN_ROT).done(TBEGIN_ROT);
        }
        b.done(std(1, 7)).done(std(2, 300)).done(ld(3, 500));
        assert_eq!((b.mem[7], b.mem[300]), (0, 0));
        b.done(Event::Tend { a });
        assert_eq!((b.mem[7], b.mem[300]), (11, 22));
        let t = b.thread(0);
        assert_eq!(t.state, State::N);
        assert_eq!(t.cr0, 0b0100);
        // The rest of TEXASR stays, ROT too.
        assert_eq!(t.texasr, 0xA5 << 56 | texasr::ROT);
        assert_eq!((t.count, t.log[0].index), (0, 0));
        assert!(t.reads.is_empty() && t.writes.is_empty());
    }
}

#[test]
fn tend_nested_and_in_n() {
    let mut b = Bench::fresh();
    b.done(TBEGIN).done(TBEGIN).done(std(1, 7)).done(TEND);
    assert_eq!(b.thread(0).texasr, 1);
    assert_eq!((b.thread(0).count, b.thread(0).cr0), (1, 0b0100));
    b.is(State::T).done(TEND).is(State::N);
    assert_eq!(b.thread(0).texasr, 0);
    b.makes(TEND, |before| Thread {
        cr0: 0,
        nia: before.nia + 4,
        ..before
    });
}

#[test]
fn tsr() {
    let mut b = Bench::fresh();
    b.m.threads[0].cr0 = 15;
    b.done(TSUSPEND).is(State::N).done(TRESUME).is(State::N);
    assert_eq!(b.thread(0).cr0, 0);
    b.done(TBEGIN).done(TRESUME).is(State::T);
    assert_eq!(b.thread(0).cr0, 0b0100);
    b.done(std(1, 5)).done(TSUSPEND).is(State::S);
    assert_eq!(b.thread(0).cr0, 0b0100);
    b.done(TSUSPEND).is(State::S);
    assert_eq!(b.thread(0).cr0, 0b0010);
    let nia = b.thread(0).nia;
    b.done(TRESUME).is(State::T);
    assert_eq!((b.thread(0).cr0, b.thread(0).nia), (0b0010, nia + 4));
    assert_eq!(b.thread(0).count, 1);
    // Suspending a doomed thread changes nothing more.
    let mut b = Bench::doomed();
    b.done(TSUSPEND).is(State::S);
    assert!(b.thread(0).doomed);
    b.gives(TRESUME, 20).is(State::N);
}

#[test]
fn tcheck() {
    let mut n = Bench::fresh();
    let mut t = Bench::fresh();
    t.done(TBEGIN);
    for (b, field) in [
        (&mut n, 0b0000),
        (&mut t, 0b0100),
        (&mut Bench::suspended(), 0b0010),
        (&mut Bench::doomed(), 0b1010),
    ] {
        for bf in 0..8 {
            let mut b = b.clone();
            b.m.threads[0].cr0 = 5;
            b.m.threads[0].live.cr = [5; 7];
            b.done(Event::Tcheck { bf });
            let t = b.thread(0);
            let mut cr = [5; 8];
            cr[bf as usize] = field;
            assert_eq!(t.cr0, cr[0]);
            assert_eq!(t.live.cr, cr[1..]);
        }
    }
}

#[test]
fn treclaim() {
    for (doom, suspend) in [(false, false), (false, true), (true, true)] {
        let mut b = Bench::privileged();
        b.m.threads[0].live.gpr[3] = 1;
        b.m.threads[0].live.cr[0] = 9;
        b.done(TBEGIN).done(ld(3, 50)).done(std(3, 60));
        b.m.threads[0].live.gpr[3] = 0x5A;
        b.m.threads[0].live.cr[0] = 3;
        if suspend {
            b.done(TSUSPEND);
        }
        if doom {
            b.gives(TABORT, 21);
        }
        let before = b.thread(0).clone();
        b.done(Event::Treclaim { ra: 3 });
        let t = b.thread(0);
        let texasr = match (doom, suspend) {
            (true, _) => before.texasr,
            // The code is the live register's, not the checkpoint's.
            (_, false) => 0x5A00_0001_0C00_0001,
            (_, true) => 0x5A00_0001_8C00_0001,
        };
        assert_eq!(t.texasr, texasr);
        let tfiar = if doom { before.tfiar } else { before.nia };
        assert_eq!(t.tfiar, tfiar);
        assert_eq!((t.live.gpr[3], t.live.cr[0]), (1, 9));
        assert_eq!(t.cr0, if suspend { 0b0010 } else { 0b0100 });
        assert_eq!((t.state, t.doomed, t.count), (State::N, false, 0));
        assert!(t.reads.is_empty() && t.writes.is_empty());
        assert_eq!(t.nia, before.nia + 4);
        assert_eq!(b.mem[60], 0);
    }
    let mut b = Bench::privileged();
    b.m.threads[0].live.gpr[0] = 0x5A;
    b.done(TBEGIN).done(Event::Treclaim { ra: 0 });
    assert_eq!(b.thread(0).texasr, 0x0000_0001_0C00_0001);
}

#[test]
fn trechkpt() {
    let mut b = Bench::privileged();
    let t = &mut b.m.threads[0];
    t.texasr = 0x1234_5678_0800_0FFF;
    t.live.gpr[4] = 44;
    t.live.cr[2] = 2;
    t.cr0 = 15;
    t.tfhar = 0x400;
    t.tfiar = 0x33;
    b.makes(Event::Trechkpt, |before| Thread {
        checkpoint: before.live,
        cr0: 0,
        state: State::S,
        doomed: true,
        nia: 4,
        ..before
    });
    b.done(addi(4, 0, 1)).gives(TRESUME, 20);
    assert_eq!(b.thread(0).live.gpr[4], 44);
    assert_eq!(b.thread(0).nia, 0x400);
}
