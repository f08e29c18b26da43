//! Which threads failed in a step, through the archive (docs/RULES.md, H8).

use naszeptan::{raw, Answer, Done, Event, Machine, ThreadSet, Ts, MEMORY};

const TBEGIN: Event = Event::Tbegin { r: false };
const TABORT: Event = Event::Tabort { ra: 0 };
const TSUSPEND: Event = Event::Tsr { l: false };
const TRESUME: Event = Event::Tsr { l: true };
const TRECLAIM: Event = Event::Treclaim { ra: 0 };
const TEND: Event = Event::Tend { a: false };

/// A machine with its memory.
struct Desk {
    machine: Machine,
    memory: Vec<u64>,
}

impl Desk {
    /// A fresh machine whose thread 0 is privileged.
    fn new() -> Desk {
        let mut machine = Machine::fresh();
        machine.threads[0].control.pr = false;
        let memory = vec![0; MEMORY];
        Desk { machine, memory }
    }

    /// The event gives this answer and fails these threads; a plain step and
    /// the raw one give the same.
    fn fails(&mut self, thread: u8, event: Event, answer: Answer, threads: &[u8]) -> &mut Desk {
        let (mut plain, mut memory) = (self.machine.clone(), self.memory.clone());
        let raw = raw::step((&plain).into(), &mut memory.clone(), event.to_raw(thread));
        let Done { answer: is, failed } =
            self.machine
                .step_with_failed(&mut self.memory, thread, event);
        let failed_threads: Vec<u8> = failed.iter().collect();
        assert_eq!((is, &failed_threads[..]), (answer, threads), "{event}");
        assert_eq!(failed.bits(), raw.failed, "{event}");
        assert_eq!(plain.step(&mut memory, thread, event), answer, "{event}");
        assert_eq!((&plain, &memory), (&self.machine, &self.memory), "{event}");
        self
    }

    /// The event is done and fails no one.
    fn spares(&mut self, thread: u8, event: Event) -> &mut Desk {
        self.fails(thread, event, Answer::Done, &[])
    }
}

fn load(index: u32) -> Event {
    Event::Ld { rt: 4, index }
}

fn store(index: u32) -> Event {
    Event::Std { ra: 5, index }
}

#[test]
fn a_refused_event_fails_no_one() {
    let mut desk = Desk::new();
    desk.spares(0, TBEGIN).spares(0, load(0));
    desk.fails(0, load(9999), Answer::Operand, &[]);
    desk.fails(4, store(0), Answer::NoThread, &[]);
    desk.machine.threads[3].control.nia = 2;
    desk.fails(1, store(0), Answer::NoMachine, &[]);
}

#[test]
fn its_own_failure() {
    let mut desk = Desk::new();
    desk.spares(2, TBEGIN);
    desk.fails(2, TABORT, Answer::Handled, &[2]);
    desk.spares(0, TBEGIN).spares(0, TSUSPEND);
    desk.fails(0, TABORT, Answer::Recorded, &[0]);
    desk.spares(0, TABORT);
    desk.fails(0, TRESUME, Answer::Handled, &[0]);
}

#[test]
fn others() {
    let mut desk = Desk::new();
    for thread in [0, 2, 3] {
        desk.spares(thread, TBEGIN).spares(thread, load(16));
    }
    desk.spares(2, TSUSPEND);
    desk.fails(1, store(17), Answer::Done, &[0, 2, 3]);
    desk.spares(1, store(17));
}

/// Accesses of some bytes conflict by the line, as those of a doubleword do.
#[test]
fn others_by_bytes() {
    for store in [
        Event::Stb {
            ra: 5,
            address: 255,
        },
        Event::Sth {
            ra: 5,
            address: 254,
        },
        Event::Stw {
            ra: 5,
            address: 128,
        },
    ] {
        let mut desk = Desk::new();
        desk.spares(0, TBEGIN).spares(
            0,
            Event::Lbz {
                rt: 4,
                address: 129,
            },
        );
        desk.spares(2, TBEGIN).spares(
            2,
            Event::Lwz {
                rt: 4,
                address: 252,
            },
        );
        desk.spares(3, TBEGIN).spares(
            3,
            Event::Lhz {
                rt: 4,
                address: 256,
            },
        );
        desk.spares(2, TSUSPEND);
        desk.fails(1, store, Answer::Done, &[0, 2]);
        desk.spares(1, store);
    }
}

#[test]
fn itself_and_others() {
    let mut desk = Desk::new();
    for thread in 0..4 {
        desk.spares(thread, TBEGIN).spares(thread, load(16));
    }
    desk.spares(1, TSUSPEND);
    desk.fails(1, store(16), Answer::Recorded, &[0, 1, 2, 3]);
}

#[test]
fn a_commit_fails_no_one() {
    for (levels, a) in [(1, false), (3, true)] {
        let mut desk = Desk::new();
        for _ in 0..levels {
            desk.spares(0, TBEGIN);
        }
        desk.spares(0, store(0)).spares(0, Event::Tend { a });
        assert!(desk.machine.threads[0].transaction.entries().is_empty());
        desk.spares(0, TEND);
    }
}

#[test]
fn a_reclaim_is_told_of_a_live_transaction_alone() {
    let mut desk = Desk::new();
    desk.spares(0, TBEGIN);
    desk.fails(0, TRECLAIM, Answer::Done, &[0]);
    desk.spares(0, TBEGIN).spares(0, TSUSPEND);
    desk.fails(0, TRECLAIM, Answer::Done, &[0]);
    desk.spares(0, TBEGIN).spares(0, TSUSPEND);
    desk.fails(0, TABORT, Answer::Recorded, &[0]);
    desk.spares(0, TRECLAIM);
}

/// The set of these threads, by a store to what each has read; 3 stores.
fn failed(threads: &[u8]) -> ThreadSet {
    let mut desk = Desk::new();
    for &thread in threads {
        desk.spares(thread, TBEGIN).spares(thread, load(0));
    }
    let done = desk.machine.step_with_failed(&mut desk.memory, 3, store(0));
    done.failed
}

#[test]
fn a_set_in_words() {
    assert_eq!(failed(&[]).to_string(), "none");
    assert_eq!(failed(&[1]).to_string(), "thread 1");
    assert_eq!(failed(&[2, 0]).to_string(), "threads 0 and 2");
    assert_eq!(failed(&[0, 1, 2]).to_string(), "threads 0, 1 and 2");
    assert_eq!(format!("[{:>6}]", failed(&[])), "[  none]");
    assert_eq!(format!("{:?}", failed(&[0, 2])), "{0, 2}");
}

#[test]
fn a_set_by_its_members() {
    let set = failed(&[0, 2]);
    let contains: Vec<u8> = (0..=u8::MAX).filter(|&n| set.contains(n)).collect();
    assert_eq!(contains, [0, 2]);
    assert_eq!((set.bits(), set.len(), set.is_empty()), (0b101, 2, false));
    let none = failed(&[]);
    assert_eq!((none.bits(), none.len(), none.is_empty()), (0, 0, true));
    assert_eq!(none, ThreadSet::default());
}

/// rfid and mtmsrd tell what fails in T, and what they handle.
#[test]
fn rfid_and_mtmsrd() {
    let (ts, tm, pr) = (Ts::T, true, false);
    for event in [Event::Rfid, Event::Mtmsrd { ts, tm, pr }] {
        let mut desk = Desk::new();
        desk.spares(0, TBEGIN)
            .fails(0, event, Answer::Handled, &[0]);
        desk.spares(0, TBEGIN)
            .spares(0, load(0))
            .spares(0, Event::Interrupt);
        desk.fails(1, store(0), Answer::Done, &[0]);
        desk.fails(0, event, Answer::Handled, &[0]);
        let mut desk = Desk::new();
        desk.spares(0, TBEGIN)
            .spares(0, Event::Interrupt)
            .spares(0, event);
    }
}
