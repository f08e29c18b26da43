//! Steps, runs and validity through the archive, and each number by which
//! they refuse.

use std::collections::HashSet;

use naszeptan::{raw, Answer, Ended, Entry, Event, Machine, State, Tape, Texasr};
use naszeptan::{ALL_MARKS, LEVELS, MEMORY, VERSION};
use naszeptan::{SPR_SRR0, SPR_SRR1, SPR_TEXASR, SPR_TEXASRU, SPR_TFHAR, SPR_TFIAR};

/// Steps a clone, which must be left as it was.
fn refused(machine: &Machine, len: usize, thread: u8, event: Event, answer: Answer) {
    let (mut after, mut memory) = (machine.clone(), vec![5; len]);
    assert_eq!(after.step(&mut memory, thread, event), answer, "{event}");
    assert_eq!(after, *machine, "{event}");
    assert!(memory.iter().all(|&word| word == 5), "{event}");
}

/// A fresh machine with thread 0 in a transaction.
fn begun() -> (Machine, Vec<u64>) {
    let (mut machine, mut memory) = (Machine::fresh(), vec![0; MEMORY]);
    let answer = naszeptan::step(&mut machine, &mut memory, 0, Event::Tbegin { r: false });
    assert_eq!(answer, Answer::Done);
    (machine, memory)
}

#[test]
fn version() {
    assert_eq!(naszeptan::version(), VERSION);
    // Cargo's version and the rules' in docs/RULES.md are the same story.
    let (version, requests) = (VERSION >> 16, VERSION & 0xFFFF);
    let ours = format!("{version}.{requests}.");
    assert!(env!("CARGO_PKG_VERSION").starts_with(&ours), "{ours}");
    let rules = include_str!("../../../docs/RULES.md");
    assert!(rules.contains(&format!("Version of the rules: {version}.{requests}, ")));
    let header = include_str!("../../../include/naszeptan.h");
    assert!(header.contains(&format!("NASZEPTAN_VERSION UINT32_C(0x{VERSION:08X})")));
    assert!(header.contains(&format!("#define NASZEPTAN_LEVELS {LEVELS} ")));
    assert!(header.contains(&format!("#define NASZEPTAN_ALL_MARKS 0x{ALL_MARKS:X} ")));
}

#[test]
fn fresh() {
    let machine = Machine::fresh();
    assert_eq!(machine, Machine::default());
    assert_eq!(machine.count, 4);
    for mut thread in machine.threads.clone() {
        assert!(thread.control.pr && thread.control.tm);
        thread.control.pr = false;
        thread.control.tm = false;
        assert_eq!(thread, Default::default());
    }
    assert_eq!(raw::Machine::from(&machine), raw::fresh());
}

#[test]
fn valid() {
    let mut machine = Machine::fresh();
    for len in [16, 32, 4080, 4096] {
        assert_eq!(machine.valid(len), Ok(()));
    }
    for len in [0, 1, 15, 17, 4095, 4112, usize::MAX, usize::MAX - 15] {
        assert_eq!(machine.valid(len), Err(Answer::Size));
    }
    machine.threads[3].control.nia = 2;
    assert_eq!(machine.valid(16), Err(Answer::NoMachine));
    for count in [0, 5, usize::MAX] {
        machine.count = count;
        assert_eq!(machine.valid(16), Err(Answer::Size));
    }
}

#[test]
fn threads_past_the_count() {
    let mut machine = Machine::fresh();
    machine.count = 2;
    assert_eq!(machine.valid(16), Err(Answer::NoMachine));
    machine.threads[2] = Default::default();
    machine.threads[3] = Default::default();
    assert_eq!(machine.valid(16), Ok(()));
    refused(&machine, 16, 2, Event::Disallowed, Answer::NoThread);
}

#[test]
fn refusals_before_the_event_is_looked_at() {
    let fresh = Machine::fresh();
    refused(&fresh, 0, 9, Event::Disallowed, Answer::Size);
    refused(&fresh, 24, 9, Event::Disallowed, Answer::Size);
    let mut broken = fresh.clone();
    broken.threads[1].cr0 = 16;
    refused(&broken, 16, 9, Event::Disallowed, Answer::NoMachine);
    refused(&fresh, 16, 4, Event::Tcheck { bf: 8 }, Answer::NoThread);
}

#[test]
fn refusals_of_operands() {
    let out_of_range = [
        Event::Tcheck { bf: 8 },
        Event::Tabort { ra: 32 },
        Event::Ld { rt: 0, index: 16 },
        Event::Std { ra: 32, index: 0 },
        Event::Lbz { rt: 32, address: 0 },
        Event::Lbz {
            rt: 0,
            address: 128,
        },
        Event::Lhz { rt: 0, address: 1 },
        Event::Lwz { rt: 0, address: 2 },
        Event::Stb {
            ra: 0,
            address: u32::MAX,
        },
        Event::Sth { ra: 32, address: 2 },
        Event::Stw { ra: 0, address: 6 },
        Event::Mfspr { rt: 0, spr: 132 },
        Event::Mtspr { spr: 127, ra: 0 },
        Event::Mtspr { spr: 25, ra: 0 },
        Event::Mfspr { rt: 0, spr: 28 },
        Event::Mfspr { rt: 32, spr: 26 },
    ];
    for event in out_of_range {
        refused(&Machine::fresh(), 16, 0, event, Answer::Operand);
    }
}

#[test]
fn refusals_by_the_thread_s_state() {
    let reclaim = Event::Treclaim { ra: 0 };
    let mut machine = Machine::fresh();
    refused(&machine, 16, 0, reclaim, Answer::Privileged);
    machine.threads[0].control.tm = false;
    refused(&machine, 16, 0, reclaim, Answer::FacilityOff);
    machine.threads[0].control.pr = false;
    machine.threads[0].control.tm = true;
    refused(&machine, 16, 0, reclaim, Answer::BadThing);
    let (begun, _) = begun();
    let (pr, tm) = (false, false);
    refused(&begun, 16, 0, Event::Host { pr, tm }, Answer::HostInT);
    let set = Event::Mtspr { spr: 128, ra: 0 };
    refused(&begun, 16, 0, set, Answer::BadThing);
}

/// An event that is refused by 9 unless something before it refuses.
const UNUSED_SET: raw::Event = raw::Event {
    kind: 15,
    thread: 9,
    x: 0,
    ra: 0,
    rb: 1,
    flags: 0,
    index: 0,
    si: 0,
};

/// Kind and fields are tested before the thread.
#[test]
fn raw_events_that_are_none() {
    let step = |event| raw::step(raw::fresh(), &mut [5; 16], event).answer;
    for kind in [0, 27, 255] {
        assert_eq!(step(raw::Event { kind, ..UNUSED_SET }), 8);
    }
    assert_eq!(step(UNUSED_SET), 9);
    let (kind, rb, flags) = (1, 0, 2);
    let too_big = raw::Event {
        kind,
        rb,
        flags,
        ..UNUSED_SET
    };
    assert_eq!(step(too_big), 9);
    let flags = 1;
    assert_eq!(step(raw::Event { flags, ..too_big }), 3);
}

#[test]
fn raw_machines_that_are_none() {
    type Byte = fn(&mut raw::Control) -> &mut u8;
    let bytes: [Byte; 4] = [
        |control| &mut control.pr,
        |control| &mut control.tm,
        |control| &mut control.state,
        |control| &mut control.doomed,
    ];
    let mut memory = [5; 16];
    for byte in bytes {
        let mut machine = raw::fresh();
        *byte(&mut machine.threads[3].control) = 3;
        assert_eq!(raw::valid(machine, 16), 2);
        assert_eq!(raw::valid(machine, 17), 1);
        assert_eq!(Machine::try_from(&machine), Err(Answer::NoMachine));
        let done = raw::step(machine, &mut memory, UNUSED_SET);
        assert_eq!((done.answer, done.machine), (2, machine));
        for tape in [&[0u8; 3] as &[u8], &[0; 16], &[0; 40]] {
            let ended = raw::run(machine, &mut memory, tape);
            assert_eq!((ended.answer, ended.count, ended.index), (2, 0, 0));
            assert_eq!(ended.machine, machine);
        }
        assert_eq!(memory, [5; 16]);
    }
}

/// Runs a tape that is to be refused as a whole.
fn not_run(machine: &Machine, len: usize, bytes: &[u8], answer: Answer, index: usize) -> Ended {
    let (mut after, mut memory) = (machine.clone(), vec![5; len]);
    let ended = naszeptan::run(&mut after, &mut memory, bytes);
    let count = 0;
    let expected = Ended {
        answer,
        count,
        index,
    };
    assert_eq!(ended, expected);
    assert_eq!(after, *machine);
    assert!(memory.iter().all(|&word| word == 5));
    ended
}

/// Bytes of a record that make it none, each with its place and the answer.
const SPOILT: [(usize, u8, Answer); 3] = [
    (0, 0xE2, Answer::BadFirstByte),
    (1, 0, Answer::NoKind),
    (15, 1, Answer::Field),
];

#[test]
fn bad_records_of_a_run() {
    let (rt, ra) = (3, 3);
    let good = Event::Addi { rt, ra, si: 1 };
    for (place, byte, answer) in SPOILT {
        let mut bytes = Tape::from_iter([(0, good); 4]).into_bytes();
        bytes[32 + place] = byte;
        let ended = not_run(&Machine::fresh(), 16, &bytes, answer, 2);
        assert_eq!(ended.bad_record(), Some((2, answer)));
        let text = format!("record 2: {}, {answer}", answer.number());
        assert_eq!(ended.to_string(), text);
        let tape = Tape::from_bytes(bytes.clone());
        assert_eq!(tape.records().nth(2), Some(Err(answer)));
        // The first of two counts.
        bytes[48] = 0;
        not_run(&Machine::fresh(), 16, &bytes, answer, 2);
    }
}

/// An event that would be refused does not hide a bad record behind it.
#[test]
fn bad_records_behind_refused_events() {
    let mut machine = Machine::fresh();
    machine.threads[0].control.pr = false;
    let reclaim = Event::Treclaim { ra: 0 };
    for (thread, refused) in [(0, Answer::BadThing), (4, Answer::NoThread)] {
        for (place, byte, answer) in SPOILT {
            let mut bytes = Tape::from_iter([(thread, reclaim); 2]).into_bytes();
            let (mut memory, stop) = ([0; 16], (refused, 0, 0));
            let ended = machine.clone().run(&mut memory, &bytes);
            assert_eq!((ended.answer, ended.count, ended.index), stop);
            assert_eq!(ended.bad_record(), None);
            bytes[16 + place] = byte;
            not_run(&machine, 16, &bytes, answer, 1);
        }
    }
}

#[test]
fn a_run_up_to_a_refused_event() {
    let (mut machine, mut memory) = (Machine::fresh(), [0; 16]);
    let (rt, ra) = (3, 3);
    let good = Event::Addi { rt, ra, si: 1 };
    let tape = Tape::from_iter([(0, good), (0, good), (9, good), (0, good)]);
    let ended = machine.run(&mut memory, &tape);
    assert_eq!((ended.count, ended.index), (2, 2));
    assert_eq!(ended.to_string(), "record 2: 3, no such thread");
    assert_eq!(machine.threads[0].live.gpr[3], 2);
    let ended = machine.run(&mut memory, &tape.as_bytes()[..32]);
    assert_eq!((ended.answer, ended.index), (Answer::Done, 2));
    assert_eq!(ended.bad_record(), None);
    assert_eq!(ended.to_string(), "2 records done");
}

#[test]
fn refusals_of_a_whole_run() {
    let mut machine = Machine::fresh();
    // A good record and a bad one, and what is cut off.
    let mut bytes = Tape::from_iter([(0, Event::Disallowed); 3]).into_bytes();
    bytes[16] = 0;
    for (len, whole) in [(1, 0), (15, 0), (17, 1), (31, 1), (47, 2)] {
        let ended = not_run(&machine, 16, &bytes[..len], Answer::TapeLength, whole);
        assert_eq!(ended.bad_record(), Some((whole, Answer::TapeLength)));
        let text = "the tape: 6, the length is not a multiple of 16 bytes";
        assert_eq!(ended.to_string(), text);
    }
    not_run(&machine, 16, &[], Answer::Done, 0);
    // 1 and 2 come before the tape is read.
    machine.threads[0].control.tfhar = 1;
    for tape in [&bytes[..0], &bytes[..17], &bytes] {
        not_run(&Machine::fresh(), 17, tape, Answer::Size, 0);
        not_run(&machine, 17, tape, Answer::Size, 0);
        let ended = not_run(&machine, 16, tape, Answer::NoMachine, 0);
        assert_eq!(ended.bad_record(), None);
        assert_eq!(ended.to_string(), "the machine: 2, not a valid machine");
    }
}

#[test]
fn a_machine_set_by_hand() {
    let (mut machine, mut memory) = begun();
    let thread = &mut machine.threads[0];
    thread.transaction.reads.insert(2);
    thread.transaction.writes.insert(1);
    thread.transaction.log[0] = Entry {
        index: 17,
        marks: ALL_MARKS,
        value: 9,
    };
    thread.transaction.count = 1;
    assert_eq!(machine.valid(MEMORY), Ok(()));
    assert_eq!(
        machine.step(&mut memory, 0, Event::Tend { a: false }),
        Answer::Done
    );
    assert_eq!(memory[17], 9);
    let thread = &machine.threads[0];
    assert_eq!(thread.control.state, State::N);
    assert_eq!(thread.control.texasr, Texasr(0));
    assert_eq!(thread.transaction, Default::default());
    assert_eq!(thread.cr(0), 0b0100);
}

/// A used place has some mark, and bytes without one are 0; a place that is not
/// used has none (docs/RULES.md, V2 and V15).
#[test]
fn marks_of_a_valid_machine() {
    let (mut machine, _) = begun();
    machine.threads[0].transaction.writes.insert(1);
    machine.threads[0].transaction.count = 1;
    let held = |place: usize, marks, value| {
        let index = if place == 0 { 17 } else { 0 };
        let mut machine = machine.clone();
        let log = &mut machine.threads[0].transaction.log;
        (log[0].index, log[0].marks) = (17, ALL_MARKS);
        log[place] = Entry {
            index,
            marks,
            value,
        };
        machine.valid(MEMORY)
    };
    let none = Err(Answer::NoMachine);
    for byte in 0..8 {
        let (mark, value) = (0x80 >> byte, 1 << (56 - 8 * byte));
        assert_eq!(held(0, mark, value), Ok(()));
        assert_eq!(held(0, mark, value << 7), Ok(()));
        assert_eq!(held(0, !mark, value), none);
        assert_eq!(held(0, !mark, value << 7), none);
        assert_eq!(held(0, !mark, 0), Ok(()));
        assert_eq!(held(0, ALL_MARKS, value), Ok(()));
        assert_eq!(held(0, 0, value), none);
        assert_eq!(held(1, mark, 0), none);
        assert_eq!(held(63, mark, 0), none);
    }
    assert_eq!(held(0, 0, 0), none);
    assert_eq!(held(1, 0, 0), Ok(()));
}

/// A place set by hand, some of whose bytes are stored: these are what a commit
/// changes, and what [`Entry::over`] says.
#[test]
fn a_commit_changes_the_marked_bytes() {
    let memory_before = 0x1122_3344_5566_7788;
    for marks in 1..=ALL_MARKS {
        let bytes: [u8; 8] = std::array::from_fn(|k| match marks & 0x80 >> k {
            0 => 0,
            _ => 0xA0 + k as u8,
        });
        let place = Entry {
            index: 17,
            marks,
            value: u64::from_be_bytes(bytes),
        };
        let (mut machine, mut memory) = begun();
        memory[17] = memory_before;
        let transaction = &mut machine.threads[0].transaction;
        transaction.writes.insert(1);
        transaction.log[0] = place;
        transaction.count = 1;
        assert_eq!(transaction.logged(17), Some(&place));
        let answer = machine.step(&mut memory, 0, Event::Ld { rt: 3, index: 17 });
        assert_eq!(answer, Answer::Done);
        let answer = machine.step(&mut memory, 0, Event::Tend { a: false });
        assert_eq!(answer, Answer::Done);
        let right: [u8; 8] = std::array::from_fn(|k| match bytes[k] {
            0 => memory_before.to_be_bytes()[k],
            stored => stored,
        });
        assert_eq!(memory[17].to_be_bytes(), right, "{marks:08b}");
        assert_eq!(place.over(memory_before), memory[17]);
        assert_eq!(machine.threads[0].live.gpr[3], memory[17]);
        let stored: Vec<u8> = (0..=255).filter(|&k| place.is_stored(k)).collect();
        assert!(stored.iter().all(|&k| bytes[usize::from(k)] != 0));
        assert_eq!(stored.len(), marks.count_ones() as usize);
        assert_eq!(place.is_whole(), stored.len() == 8);
    }
}

/// A live transaction has some level, and any but 0 (docs/RULES.md, V9).
#[test]
fn levels() {
    let (mut machine, memory) = begun();
    for level in 0..=LEVELS {
        machine.threads[0].control.texasr = Texasr(level.into());
        let right = match level {
            0 => Err(Answer::NoMachine),
            _ => Ok(()),
        };
        assert_eq!(machine.valid(memory.len()), right, "{level}");
    }
}

#[test]
fn answers() {
    let numbers: Vec<_> = (0..=255).filter_map(|n| Answer::try_from(n).ok()).collect();
    assert_eq!(numbers, Answer::ALL);
    let done = Answer::ALL.into_iter().filter(|a| a.is_done());
    assert_eq!(done.map(Answer::number).collect::<Vec<_>>(), [0, 20, 21]);
    let texts: HashSet<_> = Answer::ALL.iter().map(Answer::to_string).collect();
    assert_eq!(texts.len(), Answer::ALL.len());
}

/// The SPRs by their names, by what mfspr gives.
#[test]
fn special_registers() {
    let (mut machine, mut memory) = (Machine::fresh(), vec![0; MEMORY]);
    let control = &mut machine.threads[0].control;
    control.tfhar = 0x10;
    control.tfiar = 0x21;
    control.texasr = Texasr(0x0008_0000_1800_0001);
    control.srr0 = 0x1003;
    control.srr1 = u64::MAX - 7;
    let texasr = control.texasr.0;
    for (spr, value) in [
        (SPR_TFHAR, 0x10),
        (SPR_TFIAR, 0x21),
        (SPR_TEXASR, texasr),
        (SPR_TEXASRU, texasr >> 32),
        (SPR_SRR0, 0x1003),
        (SPR_SRR1, u64::MAX - 7),
    ] {
        let get = Event::Mfspr { rt: 9, spr };
        machine.threads[0].control.pr = !get.is_privileged();
        let answer = machine.step(&mut memory, 0, get);
        assert_eq!(answer, Answer::Done);
        assert_eq!(machine.threads[0].live.gpr[9], value);
    }
}

/// SRR0 and SRR1 are privileged, and no part of the facility; mtspr of them is
/// a Bad Thing in T (docs/RULES.md, E10 and E11).
#[test]
fn srr0_and_srr1() {
    for spr in [SPR_SRR0, SPR_SRR1] {
        let (set, get) = (Event::Mtspr { spr, ra: 3 }, Event::Mfspr { rt: 3, spr });
        for tm in [false, true] {
            let (mut machine, mut memory) = begun();
            machine.threads[0].control.tm = tm;
            refused(&machine, 16, 0, set, Answer::Privileged);
            refused(&machine, 16, 0, get, Answer::Privileged);
            machine.threads[0].control.pr = false;
            refused(&machine, 16, 0, set, Answer::BadThing);
            assert_eq!(machine.step(&mut memory, 0, get), Answer::Done);
            machine.threads[0].control.state = State::S;
            machine.threads[0].live.gpr[3] = 0x1003;
            assert_eq!(machine.step(&mut memory, 0, set), Answer::Done);
            let control = &machine.threads[0].control;
            let value = match spr {
                SPR_SRR0 => control.srr0,
                _ => control.srr1,
            };
            assert_eq!(value, 0x1003);
        }
    }
}

/// A record past the count has zeros in SRR0 and SRR1; in a thread they may be
/// anything.
#[test]
fn srr0_and_srr1_of_a_valid_machine() {
    let mut machine = Machine::fresh();
    machine.count = 3;
    machine.threads[3] = Default::default();
    machine.threads[2].control.srr0 = u64::MAX;
    machine.threads[2].control.srr1 = u64::MAX;
    assert_eq!(machine.valid(16), Ok(()));
    for (srr0, srr1) in [(1, 0), (0, 1), (1 << 63, 0), (0, 1 << 63)] {
        let control = &mut machine.threads[3].control;
        (control.srr0, control.srr1) = (srr0, srr1);
        assert_eq!(machine.valid(16), Err(Answer::NoMachine));
    }
}
