//! A machine in short: what it shows, and that nothing is hidden.

use std::collections::HashSet;

use naszeptan::{Entry, Event, Machine, State, Tape, Texasr, Thread, ALL_MARKS, MEMORY, PLACES};

/// The machine after README's elision, and thread 2 in a transaction.
fn used() -> Machine {
    let mut tape = Tape::new();
    let (rt, ra) = (3, 0);
    tape.push(0, Event::Addi { rt, ra, si: 42 })
        .push(0, Event::Tbegin { r: false })
        .push(0, Event::Ld { rt: 4, index: 0 })
        .push(0, Event::Std { ra: 3, index: 16 })
        .push(1, Event::Addi { rt: 5, ra, si: 1 })
        .push(1, Event::Std { ra: 5, index: 0 })
        .push(2, Event::Addi { rt, ra, si: 7 })
        .push(2, Event::Tbegin { r: false })
        .push(2, Event::Ld { rt: 4, index: 99 })
        .push(2, Event::Std { ra: 3, index: 32 })
        .push(2, Event::Std { ra: 4, index: 33 })
        .push(2, Event::Tcheck { bf: 7 });
    let mut machine = Machine::fresh();
    let ended = machine.run(&mut [0; MEMORY], &tape);
    assert_eq!(ended.count, tape.len());
    machine
}

#[test]
fn what_is_not_zero() {
    let expected = "\
4 threads
thread 0: N PR TM, NIA 0x8, CR0 1010
    r3 0x2A
    checkpoint: r3 0x2A
    TFHAR 0x8, TFIAR 0x11, TEXASR 0x0008000018000001 (non-transactional conflict, level 1, exact=0, suspended=0, PR=1, ROT=0, code 0x00)
thread 1: N PR TM, NIA 0x8
    r5 0x1
thread 2: T PR TM, NIA 0x18
    r3 0x7, cr7 0100
    checkpoint: r3 0x7
    TFHAR 0x8, TEXASR 0x0000000000000001 (no failure, level 1, ROT=0)
    reads 6, writes 2, log of 2: 32=0x7 33=0x0
thread 3: N PR TM";
    assert_eq!(used().to_string(), expected);
}

#[test]
fn the_fresh_machine() {
    let expected = "4 threads\nthread 0: N PR TM\nthread 1: N PR TM\nthread 2: N PR TM\n\
                    thread 3: N PR TM";
    assert_eq!(Machine::fresh().to_string(), expected);
}

/// What is broken shows too: a record that should not be there.
#[test]
fn past_the_count() {
    let mut machine = Machine::fresh();
    machine.count = 1;
    machine.threads[1] = Thread::default();
    machine.threads[2] = Thread::default();
    let expected = "1 threads\nthread 0: N PR TM\nrecord 3, past the count: N PR TM";
    assert_eq!(machine.to_string(), expected);
}

/// Each field of a thread, changed.
fn changed(thread: &Thread) -> Vec<Thread> {
    let mut all = Vec::new();
    let mut with = |change: &dyn Fn(&mut Thread)| {
        let mut other = thread.clone();
        change(&mut other);
        all.push(other);
    };
    for n in 0..32 {
        with(&|t| t.live.gpr[n] ^= 0x100);
        with(&|t| t.checkpoint.gpr[n] ^= 0x100);
    }
    for n in 0..7 {
        with(&|t| t.live.cr[n] ^= 0x81);
        with(&|t| t.checkpoint.cr[n] ^= 0x81);
    }
    with(&|t| t.cr0 ^= 0x81);
    with(&|t| t.control.nia ^= 1);
    with(&|t| t.control.pr ^= true);
    with(&|t| t.control.tm ^= true);
    with(&|t| t.control.doomed ^= true);
    with(&|t| t.control.state = State::S);
    with(&|t| t.control.tfhar ^= 1 << 63);
    with(&|t| t.control.tfiar ^= 1 << 63);
    for n in 0..64 {
        with(&|t| t.control.srr0 ^= 1 << n);
        with(&|t| t.control.srr1 ^= 1 << n);
        with(&|t| t.control.texasr = Texasr(t.control.texasr.0 ^ 1 << n));
        with(&|t| t.transaction.reads.words[n / 16] ^= 1 << n);
        with(&|t| t.transaction.writes.words[n / 16] ^= 1 << n);
    }
    for n in 0..PLACES {
        with(&|t| t.transaction.log[n].index ^= 8);
        with(&|t| t.transaction.log[n].marks ^= 8);
        with(&|t| t.transaction.log[n].marks ^= 0xFF);
        with(&|t| t.transaction.log[n].value ^= 8);
    }
    with(&|t| t.transaction.count += 1);
    with(&|t| t.transaction.count = usize::MAX);
    all
}

/// No two of these machines look alike, so no field is left out.
#[test]
fn each_field_is_shown() {
    for base in [Machine::fresh(), used()] {
        let mut all = vec![base.clone()];
        for n in 0..base.threads.len() {
            for thread in changed(&base.threads[n]) {
                let mut machine = base.clone();
                machine.threads[n] = thread;
                all.push(machine);
            }
        }
        all.extend([0, 3, 5].map(|count| Machine {
            count,
            ..base.clone()
        }));
        let texts: HashSet<_> = all.iter().map(Machine::to_string).collect();
        let machines: HashSet<_> = all.iter().collect();
        assert_eq!(machines.len(), all.len());
        assert_eq!(texts.len(), all.len());
    }
}

/// A place that is used and zero differs from one that is not used.
#[test]
fn used_places_are_counted() {
    let mut thread = Thread::default();
    assert_eq!(thread.to_string(), "N");
    thread.transaction.count = 1;
    let unmarked = "N\n    log of 1: 0=0x0 (marks 0x00)";
    assert_eq!(thread.to_string(), unmarked);
    let (index, marks, value) = (5, ALL_MARKS, 6);
    thread.transaction.log[1] = Entry {
        index,
        marks,
        value,
    };
    assert_eq!(thread.to_string(), format!("{unmarked} 5=0x6"));
}

/// Marks are shown where not all eight bytes were stored.
#[test]
fn bytes_that_were_stored() {
    let (mut machine, mut memory) = (Machine::fresh(), [0; 16]);
    machine.threads[0].live.gpr[3] = 0x1122;
    for event in [
        Event::Tbegin { r: false },
        Event::Std { ra: 3, index: 1 },
        Event::Stb { ra: 3, address: 23 },
        Event::Sth { ra: 3, address: 4 },
        Event::Stw { ra: 3, address: 0 },
        Event::Stw { ra: 3, address: 12 },
    ] {
        assert!(machine.step(&mut memory, 0, event).is_done());
    }
    let text = machine.threads[0].to_string();
    let log = "writes 0, log of 3: 1=0x1122 2=0x22 (marks 0x01) \
               0=0x112211220000 (marks 0xFC)";
    assert_eq!(text.lines().last(), Some(format!("    {log}").as_str()));
}

/// SRR1 with what it asks for.
#[test]
fn what_an_interrupt_saved() {
    let (mut machine, mut memory) = (Machine::fresh(), [0; 16]);
    for event in [Event::Tbegin { r: false }, Event::Interrupt] {
        assert!(machine.step(&mut memory, 0, event).is_done());
    }
    let expected = "\
S, NIA 0x500
    TFHAR 0x4, TEXASR 0x0000000000000001 (no failure, level 1, ROT=0)
    SRR0 0x4, SRR1 0x0000000500004000 (T PR TM)";
    assert_eq!(machine.threads[0].to_string(), expected);
    let mut thread = Thread::default();
    for (srr1, words) in [
        (0x0000_0002_0000_0000, "S"),
        (0x0000_0006_0000_0000, "no state"),
        (0x0000_0001_0000_0000, "N TM"),
        (0x8000_0000_0000_4001, "N PR"),
    ] {
        thread.control.srr1 = srr1;
        let expected = format!("N\n    SRR1 0x{srr1:016X} ({words})");
        assert_eq!(thread.to_string(), expected);
    }
}

#[test]
fn flags_by_their_names() {
    let mut thread = Thread::default();
    thread.control.state = State::S;
    thread.control.doomed = true;
    assert_eq!(thread.to_string(), "S TDOOMED");
    thread.control.tm = true;
    assert_eq!(thread.to_string(), "S TM TDOOMED");
}
