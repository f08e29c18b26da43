//! Properties of every event from random valid machines, and a count of what
//! the generators reach.

mod frames;
mod reach;

use super::*;
use crate::gen;

#[test]
fn every_event_keeps_the_machine_valid() {
    seeds(30_000, |rng| {
        let (m, mem) = gen::valid_machine(rng);
        let mut b = Bench { m, mem };
        for _ in 0..6 {
            let (thread, e) = if rng.one_in(16) {
                gen::any_event(rng)
            } else {
                gen::event(rng, &b.m, b.mem.len())
            };
            let before = b.clone();
            let number = step(&mut b.m, &mut b.mem, thread, e);
            assert!(valid(&b.m, b.mem.len()), "after {e:?}: {number}");
            match number {
                0 | 20 | 21 => {}
                3 | 4 | 5 | 11 | 12 | 13 => assert_eq!(b, before, "{e:?} refused"),
                _ => panic!("{e:?} gives {number}"),
            }
        }
    });
}

#[test]
fn a_broken_machine_is_left_alone() {
    seeds(10_000, |rng| {
        let (m, mem) = gen::broken_machine(rng);
        let before = Bench { m, mem };
        let (thread, e) = gen::event(rng, &before.m, before.mem.len());
        let mut b = before.clone();
        let number = step(&mut b.m, &mut b.mem, thread, e);
        assert!(matches!(number, 1 | 2));
        let shape = b.m.shape_fits(b.mem.len());
        assert_eq!(number, if shape { 2 } else { 1 });
        assert_eq!(b, before);
        for tape in [&[] as &[u8], &[0; 7], &[0; 16]] {
            assert_eq!(b.run(tape), bad(number, 0));
        }
        assert_eq!(b, before);
    });
}

/// An event on a random valid machine, and what came of it.
struct Stepped {
    before: Bench,
    after: Bench,
    /// There may be no such thread.
    thread: usize,
    e: Event,
    number: u8,
}

impl Stepped {
    fn draw(rng: &mut Rng) -> Stepped {
        let (m, mem) = gen::valid_machine(rng);
        let before = Bench { m, mem };
        let (thread, e) = gen::event(rng, &before.m, before.mem.len());
        let mut after = before.clone();
        let number = step(&mut after.m, &mut after.mem, thread, e);
        Stepped {
            before,
            after,
            thread: usize::from(thread),
            e,
            number,
        }
    }

    /// The event's thread before and after, where the event was done.
    fn own(&self) -> (&Thread, &Thread) {
        self.each(self.thread)
    }

    /// A thread before and after.
    fn each(&self, n: usize) -> (&Thread, &Thread) {
        (self.before.thread(n), self.after.thread(n))
    }

    /// The other threads.
    fn others(&self) -> impl Iterator<Item = usize> + '_ {
        (0..self.before.m.count).filter(|&n| n != self.thread)
    }
}
