//! Numbers 1 to 3: the machine, the memory lent and the thread.

use super::*;

#[test]
fn number_1_shape() {
    for len in [0, 1, 15, 17, 24, 4095, 4097, 4112] {
        for e in EACH {
            let mut b = Bench::fresh();
            b.mem.resize(len, 0);
            b.refused(e, 1);
        }
        let mut b = Bench::fresh();
        b.mem.resize(len, 0);
        let before = b.clone();
        for tape in [&[] as &[u8], &[9], &[9; 16], &[9; 40]] {
            assert_eq!(b.run(tape), bad(1, 0), "1 comes before 6 and 7");
        }
        assert_eq!(b, before);
    }
    for count in [0, 5, 256, usize::MAX] {
        for e in EACH {
            let mut b = Bench::fresh();
            b.m.count = count;
            b.refused(e, 1);
            // 1 comes before 2 and 3.
            b.m.threads[0].nia = 1;
            b.refused(e, 1);
        }
        let mut b = Bench::fresh();
        b.m.count = count;
        assert_eq!(b.run(&[]), bad(1, 0));
    }
    for len in [16, 32, 4080, 4096] {
        let mut b = Bench::fresh();
        b.mem.resize(len, 0);
        b.done(ld(1, len as u32 - 1));
    }
}

#[test]
fn number_2_not_valid() {
    for e in EACH {
        let mut b = Bench::fresh();
        b.m.threads[3].nia = 2;
        b.refused(e, 2);
        // 2 comes before 3 and 4.
        let before = b.clone();
        assert_eq!(step(&mut b.m, &mut b.mem, 9, e), 2);
        assert_eq!(step(&mut b.m, &mut b.mem, 0, ld(99, 9999)), 2);
        // The tests of the whole come first, also where there is no record.
        for tape in [&[] as &[u8], &[9], &[9; 16], &[9; 40]] {
            assert_eq!(b.run(tape), bad(2, 0), "2 comes before 6 and 7");
        }
        assert_eq!(b, before);
    }
}

#[test]
fn number_3_no_such_thread() {
    for count in 1..=4 {
        for e in EACH {
            let mut b = Bench::fresh();
            b.m.count = count;
            for t in &mut b.m.threads[count..] {
                *t = Thread::ZERO;
            }
            let before = b.clone();
            for thread in count as u8..=255 {
                assert_eq!(step(&mut b.m, &mut b.mem, thread, e), 3);
                // 3 comes before 4.
                assert_eq!(step(&mut b.m, &mut b.mem, thread, ld(99, 9999)), 3);
            }
            assert_eq!(b, before);
            assert_ne!(step(&mut b.m, &mut b.mem, count as u8 - 1, e), 3);
        }
    }
}
