//! A lock library's retry policy over the model. Thread 0 elides a lock: it
//! runs its section as a transaction, and where that fails it reads the cause
//! and tries again or takes the lock. Thread 1 gets in its way.
//!
//! The host plays the branches of thread 0's program: it looks at the state
//! where the program would look at CR0 behind its tbegin. `c/retry.c` is the
//! same host in C, and `c/retry.txt` is what both write.

use std::fmt::Write;

use naszeptan::{Answer, Cause, Event, Failure, Machine, State, LINE, MEMORY};

/// The lock, a doubleword of its own line.
const LOCK: u32 = 0;
/// What the lock guards.
const DATA: u32 = 16;
/// Transactions before the lock is taken.
const TRIES: u32 = 3;
/// The library's own code: someone has the lock. It passes.
const HELD: u8 = 0x0A;
/// Lines of a section that is too wide (docs/RULES.md, A1).
const WIDE: u32 = 33;

/// What thread 1 and the section do to one attempt to elide.
struct Scene {
    name: &'static str,
    /// Thread 1 has the lock at first.
    held: bool,
    /// In so many tries thread 1 stores to the data meanwhile.
    strikes: u32,
    /// Lines that the section reads.
    lines: u32,
}

/// A scene whose section reads one line.
const fn narrow(name: &'static str, held: bool, strikes: u32) -> Scene {
    Scene {
        name,
        held,
        strikes,
        lines: 1,
    }
}

const SCENES: [Scene; 5] = [
    narrow("no one else", false, 0),
    narrow("a conflict that passes", false, 1),
    narrow("the lock is held", true, 0),
    narrow("a conflict each time", false, TRIES),
    Scene {
        lines: WIDE,
        ..narrow("a section that is too wide", false, 0)
    },
];

/// What to do after a failure.
enum Move {
    Again,
    Wait,
    Take,
}

impl Move {
    /// The policy. Bit 7 alone would not do: docs/RULES.md, X5.
    fn after(failure: Failure, tries: u32) -> Move {
        match (failure.cause, failure.code) {
            _ if failure.persistent_by_isa() || tries == TRIES => Move::Take,
            (Cause::Abort, HELD) => Move::Wait,
            _ => Move::Again,
        }
    }

    fn words(&self) -> &'static str {
        match self {
            Move::Again => "again",
            Move::Wait => "wait for the lock",
            Move::Take => "take the lock",
        }
    }
}

/// A machine with its memory, and what has been said so far.
struct Desk {
    machine: Machine,
    memory: Vec<u64>,
    said: String,
}

impl Desk {
    fn new(scene: &Scene) -> Desk {
        let mut desk = Desk {
            machine: Machine::fresh(),
            memory: vec![0; MEMORY],
            said: format!("{}\n", scene.name),
        };
        desk.memory[LOCK as usize] = u64::from(scene.held);
        desk.machine.threads[0].live.gpr[5] = u64::from(HELD);
        desk.machine.threads[1].live.gpr[7] = 100;
        desk
    }

    /// One event. A refused one is a mistake in this file.
    fn does(&mut self, thread: u8, event: Event) {
        let answer = self.machine.step(&mut self.memory, thread, event);
        assert!(
            matches!(answer, Answer::Done | Answer::Handled),
            "{event}: {answer}"
        );
    }

    fn in_state(&self, state: State) -> bool {
        self.machine.threads[0].control.state == state
    }

    /// Thread 0's next event, if the transaction has not failed: it is then
    /// elsewhere.
    fn goes_on(&mut self, state: State, event: Event) {
        if self.in_state(state) {
            self.does(0, event);
        }
    }

    /// The section: reads its lines and adds 1 to the data.
    fn section(&mut self, scene: &Scene, struck: bool, state: State) {
        for line in (0..scene.lines).rev() {
            let index = DATA + line * LINE as u32;
            self.goes_on(state, Event::Ld { rt: 3, index });
        }
        if struck {
            let (ra, index) = (7, DATA);
            self.does(1, Event::Std { ra, index });
        }
        let (rt, ra, si) = (3, 3, 1);
        self.goes_on(state, Event::Addi { rt, ra, si });
        self.goes_on(state, Event::Std { ra, index: DATA });
    }

    /// One try. True if it has committed.
    fn elides(&mut self, scene: &Scene, struck: bool) -> bool {
        self.does(0, Event::Tbegin { r: false });
        self.does(0, Event::Ld { rt: 4, index: LOCK });
        if self.machine.threads[0].live.gpr[4] != 0 {
            self.does(0, Event::Tabort { ra: 5 });
            return false;
        }
        self.section(scene, struck, State::T);
        let lives = self.in_state(State::T);
        self.goes_on(State::T, Event::Tend { a: false });
        lives
    }

    fn locked(&mut self, scene: &Scene) {
        for taken in [1, 0] {
            let (rt, ra, si) = (8, 0, taken);
            self.does(0, Event::Addi { rt, ra, si });
            self.does(
                0,
                Event::Std {
                    ra: rt,
                    index: LOCK,
                },
            );
            if taken == 1 {
                self.section(scene, false, State::N);
            }
        }
    }

    /// Says why a try failed, and what comes next.
    fn moves(&mut self, tries: u32) -> Move {
        let texasr = self.machine.threads[0].control.texasr;
        let failure = texasr.failure().expect("the try has failed");
        let next = Move::after(failure, tries);
        // Writing to a string does not fail.
        let _ = writeln!(self.said, "  try {tries}: {texasr}");
        let _ = writeln!(
            self.said,
            "         bit 7 is {}, by the Power ISA {}: {}",
            u8::from(failure.persistent()),
            u8::from(failure.persistent_by_isa()),
            next.words()
        );
        next
    }

    fn passes(&mut self, scene: &Scene) -> &'static str {
        for tries in 1.. {
            if self.elides(scene, tries <= scene.strikes) {
                return "by a transaction";
            }
            match self.moves(tries) {
                Move::Again => {}
                Move::Take => break,
                // Thread 1 lets go.
                Move::Wait => self.does(1, Event::Std { ra: 0, index: LOCK }),
            }
        }
        self.locked(scene);
        "under the lock"
    }
}

/// All scenes, one after the other.
pub fn report() -> String {
    let mut all = String::new();
    for scene in &SCENES {
        let mut desk = Desk::new(scene);
        let how = desk.passes(scene);
        let (data, lock) = (desk.memory[DATA as usize], desk.memory[LOCK as usize]);
        all += &desk.said;
        let _ = writeln!(all, "  {how}: data {data}, lock {lock}");
    }
    all
}

// Unused where the test takes this file in.
#[allow(dead_code)]
fn main() {
    print!("{}", report());
}
