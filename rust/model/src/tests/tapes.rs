//! Rules T1 to T7: records, and the tapes that the generator makes.

use super::*;
use crate::gen::{self, Rng};
use crate::tape::encode;
use crate::{read, run, step_trusted, write};

#[test]
fn bytes_of_a_std() {
    let bytes = [
        0xE3, 0x0D, 0x00, 0x00, 0x03, 0x00, 0x00, 0x00, 0x00, 0x00, 0x00, 0x11, 0x00, 0x00, 0x00,
        0x00,
    ];
    let mut buf = [0x55; 20];
    assert_eq!(write(0, std(3, 17), &mut buf), 0);
    assert_eq!(buf[..16], bytes);
    assert_eq!(buf[16..], [0x55; 4]);
    assert_eq!(read(&bytes), Ok((0, std(3, 17))));
}

/// Operands of the events below, each told from the others by its value.
const A: u8 = 0xA1;
const B: u8 = 0xB2;
const C: u8 = 0xC3;

/// Events, each with its kind, the three operands X, RA and RB, and the flags.
/// They are bytes 1 and 3 to 6 of its record; the others are the same for all.
type Bytes = (Event, [u8; 5]);

pub(super) const KINDS_1_TO_9: [Bytes; 9] = [
    (Event::Tbegin { r: true }, [1, 0, 0, 0, 1]),
    (Event::Tend { a: true }, [2, 0, 0, 0, 1]),
    (Event::Tabort { ra: A }, [3, 0, A, 0, 0]),
    (
        Event::Tabortwc {
            to: C,
            ra: A,
            rb: B,
        },
        [4, C, A, B, 0],
    ),
    (
        Event::Tabortdc {
            to: C,
            ra: A,
            rb: B,
        },
        [5, C, A, B, 0],
    ),
    (Event::Tsr { l: true }, [6, 0, 0, 0, 1]),
    (Event::Tcheck { bf: C }, [7, C, 0, 0, 0]),
    (Event::Treclaim { ra: A }, [8, 0, A, 0, 0]),
    (Event::Trechkpt, [9, 0, 0, 0, 0]),
];

pub(super) const KINDS_10_TO_17: [Bytes; 9] = [
    (Event::Mtspr { spr: C, ra: A }, [10, C, A, 0, 0]),
    (Event::Mfspr { rt: A, spr: C }, [11, C, A, 0, 0]),
    (ld(C, 0), [12, C, 0, 0, 0]),
    (std(A, 0), [13, 0, A, 0, 0]),
    (addi(C, A, 0), [14, C, A, 0, 0]),
    (Event::Disallowed, [15, 0, 0, 0, 0]),
    (Event::Interrupt, [16, 0, 0, 0, 0]),
    (
        Event::Host {
            pr: true,
            tm: false,
        },
        [17, 0, 0, 0, 1],
    ),
    (
        Event::Host {
            pr: false,
            tm: true,
        },
        [17, 0, 0, 0, 2],
    ),
];

/// Edition two has not these.
pub(super) const KINDS_FROM_18: [Bytes; 13] = [
    (Event::Rfid, [18, 0, 0, 0, 0]),
    (mtmsrd(1), [19, 0, 0, 0, 1]),
    (mtmsrd(2), [19, 0, 0, 0, 2]),
    (mtmsrd(4), [19, 0, 0, 0, 4]),
    (mtmsrd(8), [19, 0, 0, 0, 8]),
    (mtmsrd(15), [19, 0, 0, 0, 15]),
    (lbz(C, 0), [20, C, 0, 0, 0]),
    (lhz(C, 0), [21, C, 0, 0, 0]),
    (lwz(C, 0), [22, C, 0, 0, 0]),
    (stb(A, 0), [23, 0, A, 0, 0]),
    (sth(A, 0), [24, 0, A, 0, 0]),
    (stw(A, 0), [25, 0, A, 0, 0]),
    (tlbie(0), [26, 0, 0, 0, 0]),
];

#[test]
fn bytes_of_each_kind() {
    let kinds = KINDS_1_TO_9.into_iter().chain(KINDS_10_TO_17);
    for (e, [kind, x, ra, rb, flags]) in kinds.chain(KINDS_FROM_18) {
        let bytes = [
            0xE3, kind, 0xD4, x, ra, rb, flags, 0, 0, 0, 0, 0, 0, 0, 0, 0,
        ];
        assert_eq!(encode(0xD4, e), bytes);
        assert_eq!(read(&bytes), Ok((0xD4, e)));
        assert_eq!(e.kind(), kind);
    }
}

/// TS + 4 x TM + 8 x PR.
#[test]
fn flags_of_mtmsrd() {
    let (ts, tm, pr) = (1, false, true);
    assert_eq!(encode(0, Event::Mtmsrd { ts, tm, pr })[6], 9);
    for flags in 0..16 {
        assert_eq!(encode(0, mtmsrd(flags))[6], flags);
    }
}

#[test]
fn bytes_of_an_index_and_an_immediate() {
    assert_eq!(
        encode(1, ld(2, 0x0102_0304)),
        [0xE3, 12, 1, 2, 0, 0, 0, 0, 1, 2, 3, 4, 0, 0, 0, 0]
    );
    assert_eq!(
        encode(1, tlbie(0x0102_0304)),
        [0xE3, 26, 1, 0, 0, 0, 0, 0, 1, 2, 3, 4, 0, 0, 0, 0]
    );
    for (kind, (_, load)) in (20..).zip(LOADS) {
        assert_eq!(
            encode(1, load(2, 0x0102_0304)),
            [0xE3, kind, 1, 2, 0, 0, 0, 0, 1, 2, 3, 4, 0, 0, 0, 0]
        );
    }
    for (kind, (_, store)) in (23..).zip(STORES) {
        assert_eq!(
            encode(1, store(2, 0x0102_0304)),
            [0xE3, kind, 1, 0, 2, 0, 0, 0, 1, 2, 3, 4, 0, 0, 0, 0]
        );
    }
    assert_eq!(
        encode(1, addi(2, 3, 0x0506)),
        [0xE3, 14, 1, 2, 3, 0, 0, 0, 0, 0, 0, 0, 5, 6, 0, 0]
    );
}

#[test]
fn round_trips() {
    seeds(20_000, |rng| {
        let (thread, e) = gen::any_event(rng);
        let mut buf = [rng.byte(); 16];
        assert_eq!(write(thread, e, &mut buf), 0);
        assert_eq!(read(&buf), Ok((thread, e)));
        // And back: a record that is read is written as it was.
        let record = gen::record(rng);
        if let Ok((thread, e)) = read(&record) {
            assert_eq!(encode(thread, e), record);
        }
    });
}

#[test]
fn any_bytes_are_read() {
    seeds(20_000, |rng| {
        let bytes: Vec<u8> = (0..rng.below(40)).map(|_| rng.byte()).collect();
        let _ = read(&bytes);
        let mut record = [0; 16];
        for b in &mut record {
            *b = rng.byte() & rng.byte() & rng.byte();
        }
        record[0] = 0xE3;
        if let Ok((thread, e)) = read(&record) {
            assert_eq!(encode(thread, e), record);
        }
    });
}

#[test]
fn long_tapes_go_far() {
    // The generator's tapes are to reach deep, or the tests above test little.
    let fresh = Bench::fresh();
    let mut rng = Rng::new(5);
    let mut done = 0;
    for _ in 0..20 {
        let tape = gen::tape(&mut rng, &fresh.m, &fresh.mem, 400);
        let mut b = fresh.clone();
        done += b.run(&tape).count;
    }
    assert!(done > 20 * 100, "{done}");
}

#[test]
fn short_transactions_commit() {
    let tape = gen::short_transactions(100_000);
    let mut b = Bench::fresh();
    assert_eq!(b.run(&tape), ended(0, 100_000));
    assert_eq!(b.mem.iter().sum::<u64>(), 20_000);
    assert!(b.m.threads.iter().all(|t| t.state == State::N));
}

#[test]
fn no_panic_on_any_machine() {
    // The trusted step is given machines it should not be given.
    seeds(4000, |rng| {
        let (mut m, mut mem) = gen::broken_machine(rng);
        for _ in 0..40 {
            let (thread, e) = if rng.one_in(8) {
                gen::any_event(rng)
            } else {
                gen::event(rng, &m, mem.len())
            };
            let _ = step_trusted(&mut m, &mut mem, thread, e);
        }
        let tape: Vec<u8> = (0..4).flat_map(|_| gen::record(rng)).collect();
        let _ = run(&mut m, &mut mem, &tape);
    });
}
