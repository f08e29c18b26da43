//! Events 16 to 19: an interrupt, the host's PR and TM, and rule E0.11, cell by
//! cell.

use super::*;

const HOST: Event = Event::Host { pr: true, tm: true };

#[test]
fn an_interrupt_and_the_host() {
    let mut b = Bench::fresh();
    b.done(TBEGIN).done(std(1, 5));
    b.makes(Event::Interrupt, |before| Thread {
        state: State::S,
        pr: false,
        tm: false,
        srr0: 8,
        srr1: 0x5_0000_4000,
        nia: 0x500,
        ..before
    });
    b.refused(TRESUME, 11);
    b.makes(HOST, |before| Thread {
        pr: true,
        tm: true,
        ..before
    });
    b.done(TRESUME).is(State::T);
}

/// What is saved is from before the event, in each state with each PR and TM;
/// what SRR0 and SRR1 were is gone.
#[test]
fn an_interrupt_saves_where_the_thread_was() {
    let states = [
        (Bench::fresh(), 0),
        (Bench::begun(), 1 << 34),
        (Bench::suspended(), 1 << 33),
        (Bench::doomed(), 1 << 33),
    ];
    for (start, ts) in states {
        for (pr, tm) in [(false, false), (false, true), (true, false), (true, true)] {
            let mut b = start.clone();
            let t = &mut b.m.threads[0];
            (t.pr, t.tm, t.nia) = (pr, tm, 0xFFFF_FFFF_FFFF_FFFC);
            (t.srr0, t.srr1) = (u64::MAX, u64::MAX);
            let saved = ts + (u64::from(tm) << 32) + (u64::from(pr) << 14);
            b.makes(Event::Interrupt, |before| Thread {
                state: match before.state {
                    State::T => State::S,
                    state => state,
                },
                pr: false,
                tm: false,
                srr0: 0xFFFF_FFFF_FFFF_FFFC,
                srr1: saved,
                nia: 0x500,
                ..before
            });
        }
    }
}

/// The table of rule E0.11: for the state and TM before, what each TS and TM
/// that are asked gives. "13" is a Bad Thing.
const TABLE: [(&str, [&str; 8]); 4] = [
    ("N0", ["N0", "N1", "13", "13", "13", "13", "13", "13"]),
    ("N1", ["N0", "N1", "13", "13", "13", "13", "13", "13"]),
    ("S0", ["S0", "13", "S0", "S1", "13", "T1", "13", "13"]),
    ("S1", ["13", "13", "S0", "S1", "13", "T1", "13", "13"]),
];

/// The TS and TM of each column.
const ASKED: [(u8, bool); 8] = [
    (0b00, false),
    (0b00, true),
    (0b01, false),
    (0b01, true),
    (0b10, false),
    (0b10, true),
    (0b11, false),
    (0b11, true),
];

/// A state and TM by their name.
fn named(name: &str) -> (State, bool) {
    let state = match &name[..1] {
        "N" => State::N,
        "T" => State::T,
        _ => State::S,
    };
    (state, &name[1..] == "1")
}

/// Privileged, with registers that tell whether they come back.
fn start(state: State, tm: bool, doomed: bool) -> Bench {
    let mut b = match (state, doomed) {
        (State::N, _) => Bench::fresh(),
        (State::T, _) => Bench::begun(),
        (State::S, false) => Bench::suspended(),
        (State::S, true) => Bench::doomed(),
    };
    let t = &mut b.m.threads[0];
    (t.pr, t.tm) = (false, tm);
    t.cr0 = 0b0101;
    t.live.gpr[3] = 7;
    t.live.cr[2] = 9;
    t.nia = 0x504;
    t.tfhar = 0x2000;
    t.srr0 = 0x3003;
    b
}

/// One cell for one kind, with this PR asked.
fn cell(b: &Bench, e: Event, becomes: &str, pr: bool) {
    let mut b = b.clone();
    if becomes == "13" {
        b.refused(e, 13);
        return;
    }
    let (state, tm) = named(becomes);
    let before = b.thread(0).clone();
    if state == State::T && before.doomed {
        b.gives(e, 20);
        let handled = Thread {
            live: before.checkpoint,
            cr0: 0b1010,
            nia: 0x2000,
            state: State::N,
            doomed: false,
            pr,
            tm,
            ..before
        };
        assert_eq!(*b.thread(0), handled, "{e:?}");
        return;
    }
    let nia = if e == Event::Rfid { 0x3000 } else { 0x508 };
    b.makes(e, |before| Thread {
        state,
        tm,
        pr,
        nia,
        ..before
    });
}

/// A row, with all that can be asked by both kinds.
fn row(b: &Bench, becomes: [&str; 8]) {
    for ((ts, tm), becomes) in ASKED.into_iter().zip(becomes) {
        for pr in [false, true] {
            cell(b, Event::Mtmsrd { ts, tm, pr }, becomes, pr);
            let asked = u64::from(ts) << 33 | u64::from(tm) << 32 | u64::from(pr) << 14;
            // The bits that mean nothing are 0, or 1.
            for junk in [0, 0xFFFF_FFF8_FFFF_BFFF] {
                let mut b = b.clone();
                b.m.threads[0].srr1 = asked | junk;
                cell(&b, Event::Rfid, becomes, pr);
            }
        }
    }
}

#[test]
fn every_cell_of_the_table() {
    for (before, becomes) in TABLE {
        let (state, tm) = named(before);
        row(&start(state, tm, false), becomes);
        if state == State::S {
            row(&start(state, tm, true), becomes);
        }
    }
}

/// In T both fail, whatever is asked, with TM = 0 too. PR, TM, SRR0 and SRR1
/// stay, and the store is lost.
#[test]
fn in_t_both_are_disallowed() {
    for tm in [false, true] {
        let mut b = start(State::T, true, false);
        b.done(std(3, 40));
        b.m.threads[0].tm = tm;
        for flags in 0..16 {
            let mut b = b.clone();
            let (ts, asks_tm, pr) = (flags & 3, flags >> 2 & 1, flags >> 3);
            let asked = u64::from(ts) << 33 | u64::from(asks_tm) << 32 | u64::from(pr) << 14;
            b.m.threads[0].srr1 = asked;
            for e in [Event::Rfid, mtmsrd(flags)] {
                let mut b = b.clone();
                let before = b.thread(0).clone();
                b.gives(e, 20);
                let failed = Thread {
                    live: before.checkpoint,
                    cr0: 0b1010,
                    nia: 0x2000,
                    state: State::N,
                    texasr: 0x0080_0000_0C00_0001,
                    tfiar: 0x508,
                    writes: Thread::ZERO.writes,
                    count: 0,
                    log: Thread::ZERO.log,
                    ..before
                };
                assert_eq!(*b.thread(0), failed, "{e:?}");
                assert_eq!(b.mem[40], 0);
            }
        }
    }
}

#[test]
fn addresses_wrap() {
    let mut b = Bench::privileged();
    b.m.threads[0].nia = u64::MAX - 3;
    b.m.threads[0].srr0 = u64::MAX;
    b.done(mtmsrd(4));
    assert_eq!(b.thread(0).nia, 0);
    b.done(Event::Rfid);
    assert_eq!(b.thread(0).nia, u64::MAX - 3);
}

/// A live transaction goes through an interrupt and back: sets, log and level
/// stay, and its store commits.
#[test]
fn a_transaction_survives_an_interrupt() {
    let mut b = Bench::fresh();
    b.done(TBEGIN).done(addi(3, 0, 7)).done(std(3, 40));
    let before = b.thread(0).clone();
    b.done(Event::Interrupt)
        .done(addi(4, 0, 1))
        .done(std(4, 80));
    b.done(Event::Rfid).is(State::T);
    let after = b.thread(0).clone();
    assert_eq!((after.nia, after.pr, after.tm), (before.nia, true, true));
    assert_eq!((after.writes, after.log), (before.writes, before.log));
    b.done(TEND);
    assert_eq!((b.mem[40], b.mem[80]), (7, 1));
}

/// An interrupt in an interrupt's handler, which keeps SRR0 and SRR1 and puts
/// them back.
#[test]
fn an_interrupt_within_a_handler() {
    let mut b = Bench::begun();
    b.done(Event::Interrupt);
    b.done(Event::Mfspr { rt: 10, spr: 26 });
    b.done(Event::Mfspr { rt: 11, spr: 27 });
    b.done(Event::Interrupt);
    let t = b.thread(0);
    assert_eq!((t.srr0, t.srr1), (0x508, 1 << 33));
    // Back into the outer handler, S with TM = 0 and PR = 0.
    b.done(Event::Rfid).is(State::S);
    assert_eq!(b.thread(0).nia, 0x508);
    b.done(Event::Mtspr { spr: 26, ra: 10 });
    b.done(Event::Mtspr { spr: 27, ra: 11 });
    b.done(Event::Rfid).is(State::T);
    let t = b.thread(0);
    assert_eq!((t.nia, t.pr, t.tm), (4, true, true));
}
