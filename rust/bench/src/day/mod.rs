//! A lock library's day: four threads with critical sections under eight
//! locks, which they elide by transactions and take by stores where that
//! fails. Each thread is a small program with a plan of events; a machine of
//! the second model goes along, and tells a program how its transaction ended,
//! as CR0 and TEXASR tell a real one. So no record is refused, and any first
//! part of the tape is a tape.

mod section;
mod system;

use std::collections::VecDeque;

use model::gen::Rng;
use model::machine::{LINE, MAX_MEMORY, PAGE, THREADS};
use model::tape::{encode, RECORD};
use model::{answer, step_trusted, Event, Machine, State};
use section::Section;

/// The failures after which a section is no longer elided.
const TRIES: u32 = 3;
/// The causes that come again however often it is tried: disallowed, nesting
/// overflow, footprint overflow.
const LASTING: u64 = 0x00E0_0000 << 32;
/// This register has 1 from the first event on, to store in a lock's word.
const ONE: u8 = 8;
/// One event in so many is an interrupt.
const INTERRUPTS: usize = 500;
/// The pages of the largest memory.
const PAGES: usize = MAX_MEMORY / (PAGE * LINE);

/// The tape of a day; the same seed gives the same one.
pub fn tape(records: usize, seed: u64) -> Vec<u8> {
    let mut day = Day::new(seed);
    while day.tape.len() < records * RECORD {
        let thread = day.rng.below(THREADS);
        for _ in 0..1 + day.rng.below(4) {
            day.turn(thread);
        }
    }
    day.tape.truncate(records * RECORD);
    day.tape
}

/// What a program waits for.
#[derive(Clone, Copy, PartialEq)]
enum Phase {
    /// For nothing: the plan is done to its end, and then comes the next one.
    Free,
    /// For the end of its transaction.
    Inside,
    /// For the system, which has reclaimed its transaction.
    Reclaimed,
    /// For its lock, to elide it again or to take it.
    Waiting,
}

/// The program of one thread.
struct Worker {
    phase: Phase,
    plan: VecDeque<Event>,
    section: Section,
    failures: u32,
}

impl Worker {
    fn new() -> Worker {
        let one = Event::Addi {
            rt: ONE,
            ra: 0,
            si: 1,
        };
        Worker {
            phase: Phase::Free,
            plan: VecDeque::from([one]),
            section: Section::default(),
            failures: 0,
        }
    }

    /// What comes once the lock is waited for: another look at it while it is
    /// held, then the section, elided or with the lock taken.
    fn next_try(&mut self, lock: u32, held: bool) {
        if held {
            self.plan.extend(section::another_look(lock));
            return;
        }
        self.phase = Phase::Free;
        if self.failures < TRIES {
            self.plan.extend(&self.section.events);
        } else {
            let store = |ra| Event::Std { ra, index: lock };
            self.plan.push_back(store(ONE));
            self.plan.extend(self.section.plain());
            self.plan.push_back(store(0));
        }
    }

    /// Learns that its transaction has failed, with this TEXASR.
    fn failed(&mut self, rng: &mut Rng, texasr: u64) {
        self.failures = match texasr & LASTING {
            0 => self.failures + 1,
            _ => TRIES,
        };
        self.phase = match self.section.lock {
            Some(_) => Phase::Waiting,
            None => Phase::Free,
        };
        self.plan = section::diagnosis(rng).into();
    }
}

/// A day so far.
struct Day {
    rng: Rng,
    machine: Machine,
    memory: Vec<u64>,
    workers: [Worker; THREADS],
    tape: Vec<u8>,
}

impl Day {
    fn new(seed: u64) -> Day {
        Day {
            rng: Rng::new(seed),
            machine: Machine::fresh(),
            memory: vec![0; MAX_MEMORY],
            workers: std::array::from_fn(|_| Worker::new()),
            tape: Vec::new(),
        }
    }

    /// One event of a thread's program.
    fn turn(&mut self, thread: usize) {
        let t = &self.machine.threads[thread];
        // With PR = 0 the system runs already.
        if t.pr && self.rng.one_in(INTERRUPTS) {
            let worker = &mut self.workers[thread];
            if t.state != State::N && self.rng.one_in(3) {
                worker.plan = system::reclaim(thread).into();
            } else {
                let by_rfid = self.rng.flag();
                let page = self.rng.one_in(3).then(|| self.rng.below(PAGES) as u32);
                let pause = system::pause(thread, t.state, by_rfid, page);
                worker.plan = pause.into_iter().chain(worker.plan.drain(..)).collect();
            }
        }
        let event = self.next(thread);
        self.put(thread, event);
    }

    /// The next event of the plan; an empty plan is filled first.
    fn next(&mut self, thread: usize) -> Event {
        let worker = &mut self.workers[thread];
        while worker.plan.is_empty() {
            match (worker.phase, worker.section.lock) {
                (Phase::Waiting, Some(lock)) => {
                    worker.next_try(lock, self.memory[lock as usize] != 0);
                }
                (Phase::Free, _) => {
                    worker.section = Section::draw(&mut self.rng, thread);
                    worker.failures = 0;
                    worker.plan.extend(&worker.section.events);
                }
                _ => unreachable!("a plan ends with the transaction that it begins"),
            }
        }
        worker.plan.pop_front().expect("the plan was filled")
    }

    /// Does the event, and tells every program what has become of it.
    fn put(&mut self, thread: usize, event: Event) {
        let number = thread as u8;
        let given = step_trusted(&mut self.machine, &mut self.memory, number, event);
        assert!(answer::is_done(given), "{event:?} is refused by {given}");
        self.tape.extend(encode(number, event));
        match event {
            Event::Treclaim { .. } => self.workers[thread].phase = Phase::Reclaimed,
            Event::Tbegin { .. } | Event::Trechkpt => self.workers[thread].phase = Phase::Inside,
            _ => {}
        }
        for (worker, t) in self.workers.iter_mut().zip(&self.machine.threads) {
            if worker.phase == Phase::Inside && t.state == State::N {
                if t.failed() {
                    worker.failed(&mut self.rng, t.texasr);
                } else {
                    worker.phase = Phase::Free;
                }
            }
        }
    }
}

#[cfg(test)]
mod tests {
    use super::*;
    use crate::tapes::kinds;
    use model::run;
    use naszeptan::KINDS;

    fn ended(tape: &[u8]) -> (u8, usize) {
        let ended = run(&mut Machine::fresh(), &mut vec![0; MAX_MEMORY], tape);
        (ended.answer, ended.count)
    }

    #[test]
    fn same_seed_same_tape() {
        assert_eq!(tape(20_000, 7), tape(20_000, 7));
        assert_ne!(tape(20_000, 7), tape(20_000, 8));
        // A shorter day is the first part of a longer one.
        assert_eq!(tape(999, 7), tape(20_000, 7)[..999 * RECORD]);
    }

    #[test]
    fn a_day_runs_to_its_end() {
        for seed in 0..20 {
            assert_eq!(ended(&tape(50_000, seed)), (0, 50_000), "seed {seed}");
        }
    }

    /// Every kind but 20 to 25, the narrow accesses, which have a tape of their
    /// own.
    #[test]
    fn every_kind_occurs() {
        for seed in 0..20 {
            let counts = kinds(&tape(50_000, seed));
            for (row, count) in KINDS.iter().zip(counts) {
                let right = match row.number {
                    20..=25 => count == 0,
                    _ => count >= 10,
                };
                assert!(right, "seed {seed}: {} {count}", row.name);
            }
        }
    }

    /// As in a library that is worth its while: most transactions commit, and
    /// some fail.
    #[test]
    fn most_transactions_commit() {
        let mut day = Day::new(1);
        let (mut begun, mut failed) = (0, 0);
        for n in 0..100_000 {
            let thread = n % THREADS;
            let before = day.workers.each_ref().map(|w| (w.phase, w.failures));
            day.turn(thread);
            for (worker, (phase, failures)) in day.workers.iter().zip(before) {
                let outside = matches!(phase, Phase::Free | Phase::Waiting);
                begun += usize::from(outside && worker.phase == Phase::Inside);
                failed += usize::from(phase == Phase::Inside && worker.failures > failures);
            }
        }
        assert!(begun > 5_000, "{begun} begun");
        assert!(
            failed * 4 < begun && failed * 20 > begun,
            "{failed} of {begun}"
        );
    }
}
