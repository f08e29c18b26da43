//! Events 3 to 5 and 15: a thread fails its own transaction.

use super::*;

#[test]
fn tabort_reads_register_0_as_no_register() {
    let mut b = Bench::fresh();
    b.m.threads[0].live.gpr[0] = 0xFF;
    b.done(TBEGIN).gives(Event::Tabort { ra: 0 }, 20);
    assert_eq!(b.thread(0).texasr >> 32, 1);
    b.m.threads[0].live.gpr[9] = 0xFFFF_FFFF_FFFF_FF00;
    b.done(TBEGIN).gives(Event::Tabort { ra: 9 }, 20);
    assert_eq!(b.thread(0).texasr >> 32, 1);
    // In N it sets CR0 alone.
    b.makes(Event::Tabort { ra: 9 }, |before| Thread {
        cr0: 0,
        nia: before.nia + 4,
        ..before
    });
}

/// Two numbers, what holds for them as doublewords and what as words, in the
/// bits of TO.
type Compared = (u64, u64, u8, u8);

const MINUS_ONE: u64 = u64::MAX;

const COMPARED: [Compared; 8] = [
    (5, 5, 4, 4),
    (1, 2, 16 | 2, 16 | 2),
    (2, 1, 8 | 1, 8 | 1),
    (MINUS_ONE, 1, 16 | 1, 16 | 1),
    (1, MINUS_ONE, 8 | 2, 8 | 2),
    (0xFFFF_FFFF, 0, 8 | 1, 16 | 1),
    (0x1_0000_0000, 0, 8 | 1, 4),
    (0x8000_0000, 0x7FFF_FFFF, 8 | 1, 16 | 1),
];

#[test]
fn conditional_aborts() {
    for compared in COMPARED {
        with_each_to(compared);
    }
}

fn with_each_to(compared: Compared) {
    for to in 0..32 {
        // Register 0 is read like any other.
        aborts_as_compared(compared, to, 3, 4);
        aborts_as_compared(compared, to, 0, 4);
        aborts_as_compared(compared, to, 3, 0);
    }
}

/// Both conditional aborts in T, the numbers in these registers.
fn aborts_as_compared((x, y, double, word): Compared, to: u8, ra: u8, rb: u8) {
    let mut b = Bench::fresh();
    b.m.threads[0].live.gpr[ra as usize] = x;
    b.m.threads[0].live.gpr[rb as usize] = y;
    b.done(TBEGIN);
    let mut w = b.clone();
    let number = |holds: u8| if to & holds != 0 { 20 } else { 0 };
    b.gives(Event::Tabortdc { to, ra, rb }, number(double));
    w.gives(Event::Tabortwc { to, ra, rb }, number(word));
    aborted_or_went_on(&b);
    aborted_or_went_on(&w);
}

fn aborted_or_went_on(b: &Bench) {
    let t = b.thread(0);
    if t.state == State::N {
        // The code is that of RA = 0.
        assert_eq!(t.texasr, 0x0000_0001_1C00_0001);
    } else {
        assert_eq!((t.cr0, t.nia), (0b0100, 8));
    }
}

#[test]
fn conditional_aborts_outside_t() {
    let always = Event::Tabortdc {
        to: 4,
        ra: 1,
        rb: 1,
    };
    let never = Event::Tabortdc {
        to: 27,
        ra: 1,
        rb: 1,
    };
    Bench::suspended().done(never).gives(always, 21);
    Bench::doomed().done(never).done(always);
    Bench::fresh().done(never).done(always);
}

#[test]
fn disallowed_outside_t() {
    for mut b in [Bench::fresh(), Bench::suspended(), Bench::doomed()] {
        b.makes(Event::Disallowed, |before| Thread {
            nia: before.nia + 4,
            ..before
        });
    }
}

#[test]
fn a_failed_transaction_leaves_memory_alone() {
    let mut b = Bench::fresh();
    b.done(TBEGIN).done(addi(1, 0, 3)).done(std(1, 3));
    b.gives(Event::Disallowed, 20).done(TEND);
    assert_eq!(b.mem[3], 0);
    assert_eq!(b.thread(0).live.gpr[1], 0);
}
