//! Tests. What they share is here.

mod editions;
mod events;
mod failed;
mod literal;
mod machines;
mod program;
mod properties;
mod refusals;
mod runs;
mod sessions;
mod slips;
mod tapes;
mod values;

use crate::gen::Rng;
use crate::machine::{texasr, MAX_LEVEL};
use crate::tape::encode;
use crate::{answer, step, valid, Ended, Event, Machine, State, Thread};

/// Prints the seed of a property test that fails.
struct Seed(u64);

impl Drop for Seed {
    fn drop(&mut self) {
        if std::thread::panicking() {
            eprintln!("failed with seed {}", self.0);
        }
    }
}

/// Runs a property over seeds 0, 1, 2, ...
fn seeds(n: u64, property: impl Fn(&mut Rng)) {
    for seed in 0..n {
        let printed = Seed(seed);
        property(&mut Rng::new(seed));
        drop(printed);
    }
}

/// The records of these events, one after another.
fn tape(events: &[(u8, Event)]) -> Vec<u8> {
    events
        .iter()
        .flat_map(|&(thread, e)| encode(thread, e))
        .collect()
}

/// Records that are none, each with the number that says why.
fn bad_records() -> [([u8; 16], u8); 3] {
    let (mut mark, mut kind, mut field) = ([encode(0, TBEGIN); 3]).into();
    mark[0] = 0;
    kind[1] = 0;
    field[15] = 1;
    [(mark, 7), (kind, 8), (field, 9)]
}

/// A run that ended so after this many records.
fn ended(answer: u8, count: usize) -> Ended {
    Ended {
        answer,
        count,
        index: count,
    }
}

/// A tape of which nothing was run, for what is at this index.
fn bad(answer: u8, index: usize) -> Ended {
    Ended {
        answer,
        count: 0,
        index,
    }
}

/// A machine and its memory, stepped by hand.
#[derive(Clone, PartialEq, Debug)]
struct Bench {
    m: Machine,
    mem: Vec<u64>,
}

impl Bench {
    fn fresh() -> Bench {
        Bench {
            m: Machine::fresh(),
            mem: vec![0; 4096],
        }
    }

    /// A fresh machine whose thread 0 is privileged.
    fn privileged() -> Bench {
        let mut b = Bench::fresh();
        b.m.threads[0].pr = false;
        b
    }

    /// Thread 0 in T.
    fn begun() -> Bench {
        let mut b = Bench::fresh();
        b.done(TBEGIN);
        b
    }

    /// Thread 0 suspended with a live transaction.
    fn suspended() -> Bench {
        let mut b = Bench::begun();
        b.done(TSUSPEND);
        b
    }

    /// Thread 0 suspended and doomed.
    fn doomed() -> Bench {
        let mut b = Bench::suspended();
        b.gives(TABORT, 21);
        b
    }

    /// Runs a tape.
    fn run(&mut self, tape: &[u8]) -> Ended {
        crate::run(&mut self.m, &mut self.mem, tape)
    }

    /// Does kind 17 with PR = 0 and TM = 1 by a thread.
    fn privilege(&mut self, thread: u8) -> &mut Bench {
        let (pr, tm) = (false, true);
        self.done_by(thread, Event::Host { pr, tm })
    }

    /// A register of thread 0.
    fn reg(&self, r: usize) -> u64 {
        self.thread(0).live.gpr[r]
    }

    /// A place of thread 0's log: index, marks and value.
    fn place(&self, n: usize) -> (u32, u8, u64) {
        let e = self.thread(0).log[n];
        (e.index, e.marks, e.value)
    }

    fn thread(&self, n: usize) -> &Thread {
        &self.m.threads[n]
    }

    fn step(&mut self, thread: u8, e: Event) -> u8 {
        let number = step(&mut self.m, &mut self.mem, thread, e);
        assert!(valid(&self.m, self.mem.len()), "not valid after {e:?}");
        number
    }

    /// Does an event of thread 0 that is to give 0.
    fn done(&mut self, e: Event) -> &mut Bench {
        self.done_by(0, e)
    }

    /// Does an event that is to give 0.
    fn done_by(&mut self, thread: u8, e: Event) -> &mut Bench {
        assert_eq!(self.step(thread, e), answer::DONE, "{e:?}");
        self
    }

    /// Puts a value into a register of thread 0.
    fn with(&mut self, r: usize, value: u64) -> &mut Bench {
        self.m.threads[0].live.gpr[r] = value;
        self
    }

    /// Does an event of thread 0 and checks its answer.
    fn gives(&mut self, e: Event, number: u8) -> &mut Bench {
        assert_eq!(self.step(0, e), number, "{e:?}");
        self
    }

    /// Does an event of thread 0 that is to give 0 and to change its record
    /// to this one alone.
    fn makes(&mut self, e: Event, expected: impl FnOnce(Thread) -> Thread) -> &mut Bench {
        let expected = expected(self.thread(0).clone());
        self.done(e);
        assert_eq!(*self.thread(0), expected, "{e:?}");
        self
    }

    /// An event of thread 0 that is to be refused with this number, on the
    /// machine as it is, with nothing changed.
    fn refused(&mut self, e: Event, number: u8) -> &mut Bench {
        let before = self.clone();
        assert_eq!(
            step(&mut self.m, &mut self.mem, 0, e),
            number,
            "{e:?} refused"
        );
        assert_eq!(*self, before, "{e:?} changed something");
        self
    }

    /// Puts a thread that is in T at this level, as that many tbegin. would.
    fn at_level(&mut self, thread: usize, level: u64) -> &mut Bench {
        let t = &mut self.m.threads[thread];
        t.texasr = t.texasr & !texasr::TL | level;
        assert!(valid(&self.m, self.mem.len()), "not valid at level {level}");
        self
    }

    /// Thread 0's state is to be this.
    fn is(&mut self, state: State) -> &mut Bench {
        assert_eq!(self.thread(0).state, state);
        self
    }
}

const TBEGIN: Event = Event::Tbegin { r: false };
const TBEGIN_ROT: Event = Event::Tbegin { r: true };
const TEND: Event = Event::Tend { a: false };
const TABORT: Event = Event::Tabort { ra: 0 };
const TSUSPEND: Event = Event::Tsr { l: false };
const TRESUME: Event = Event::Tsr { l: true };

/// By the flags of its record.
const fn mtmsrd(flags: u8) -> Event {
    Event::Mtmsrd {
        ts: flags & 3,
        tm: flags & 4 != 0,
        pr: flags & 8 != 0,
    }
}

const fn ld(rt: u8, index: u32) -> Event {
    Event::Ld { rt, index }
}

const fn std(ra: u8, index: u32) -> Event {
    Event::Std { ra, index }
}

const fn lbz(rt: u8, address: u32) -> Event {
    Event::Lbz { rt, address }
}

const fn lhz(rt: u8, address: u32) -> Event {
    Event::Lhz { rt, address }
}

const fn lwz(rt: u8, address: u32) -> Event {
    Event::Lwz { rt, address }
}

const fn stb(ra: u8, address: u32) -> Event {
    Event::Stb { ra, address }
}

const fn sth(ra: u8, address: u32) -> Event {
    Event::Sth { ra, address }
}

const fn stw(ra: u8, address: u32) -> Event {
    Event::Stw { ra, address }
}

/// The loads and stores of 1, 2 and 4 bytes, each with its width.
type Narrow = (u32, fn(u8, u32) -> Event);
const LOADS: [Narrow; 3] = [(1, lbz), (2, lhz), (4, lwz)];
const STORES: [Narrow; 3] = [(1, stb), (2, sth), (4, stw)];

const fn tlbie(page: u32) -> Event {
    Event::Tlbie { page }
}

const fn addi(rt: u8, ra: u8, si: u16) -> Event {
    Event::Addi { rt, ra, si }
}
