//! The two sides, each with a machine and a memory of its own. The archive is
//! called as `compare` calls it.

use compare::pair::to_raw;
use compare::sides::{self, Archive, Side as _};
use model::machine::{Machine, MAX_MEMORY};
use model::tape::RECORD;
use model::{Ended, Event};
use naszeptan::raw;

/// What both sides start from.
pub struct Start {
    /// The machine.
    pub machine: Machine,
    /// The memory.
    pub memory: Vec<u64>,
}

impl Start {
    /// The fresh machine.
    pub fn fresh() -> Start {
        Start {
            machine: Machine::fresh(),
            memory: vec![0; MAX_MEMORY],
        }
    }

    /// The start that these events lead to; none of them may be refused.
    pub fn after(mut self, thread: u8, events: impl IntoIterator<Item = Event>) -> Start {
        for e in events {
            let answer = model::step(&mut self.machine, &mut self.memory, thread, e);
            assert_eq!(answer, 0, "{e:?}");
        }
        self
    }
}

/// What is timed of a side.
pub trait Side {
    /// An event with its thread, as the side takes it.
    type Event: Copy;
    fn new(start: &Start) -> Self;
    fn event(thread: u8, e: Event) -> Self::Event;
    /// How the run ended. The whole tape is read before it is done.
    fn run(&mut self, tape: &[u8]) -> Ended;
    /// The lone step, which tests the machine first.
    fn step(&mut self, e: Self::Event) -> u8;
    /// That test alone: 0 for a valid machine.
    fn valid(&self) -> u8;
}

/// The second model.
pub struct Rust(Start);

impl Side for Rust {
    type Event = (u8, Event);

    fn new(start: &Start) -> Rust {
        Rust(Start {
            machine: start.machine.clone(),
            memory: start.memory.clone(),
        })
    }

    fn event(thread: u8, e: Event) -> (u8, Event) {
        (thread, e)
    }

    fn run(&mut self, tape: &[u8]) -> Ended {
        model::run(&mut self.0.machine, &mut self.0.memory, tape)
    }

    fn step(&mut self, (thread, e): (u8, Event)) -> u8 {
        model::step(&mut self.0.machine, &mut self.0.memory, thread, e)
    }

    fn valid(&self) -> u8 {
        sides::model_valid(&self.0.machine, self.0.memory.len())
    }
}

/// The proved machine.
pub struct Proved {
    machine: raw::Machine,
    memory: Vec<u64>,
}

impl Side for Proved {
    type Event = raw::Event;

    fn new(start: &Start) -> Proved {
        Proved {
            machine: to_raw(&start.machine),
            memory: start.memory.clone(),
        }
    }

    fn event(thread: u8, e: Event) -> raw::Event {
        sides::event(thread, e)
    }

    fn run(&mut self, tape: &[u8]) -> Ended {
        Archive.run(&mut self.machine, &mut self.memory, tape)
    }

    fn step(&mut self, e: raw::Event) -> u8 {
        Archive.step(&mut self.machine, &mut self.memory, e).answer
    }

    fn valid(&self) -> u8 {
        Archive.valid(&self.machine, self.memory.len())
    }
}

impl Proved {
    /// The end of a session that is fed the tape in pieces of so many bytes,
    /// with room for each record's answer.
    pub fn session(&mut self, tape: &[u8], piece: usize) -> Ended {
        let len = self.memory.len();
        let mut answers = vec![0; piece.min(tape.len()) / RECORD + 1];
        let mut session = Archive.open(&self.machine, len);
        for piece in tape.chunks(piece) {
            Archive.feed(&mut session, &mut self.memory, piece, &mut answers);
        }
        let (ended, machine) = Archive.close(&session, len);
        self.machine = machine;
        ended
    }
}

/// Holds both sides equal in everything.
pub fn hold_equal(rust: &Rust, proved: &Proved) {
    assert_eq!(rust.0.memory, proved.memory, "memory");
    assert!(to_raw(&rust.0.machine) == proved.machine, "machine");
}
