//! Rules E1 to E26 and A0 to A7 once more, in plain values: sets of line
//! numbers, a log that is a list of single bytes, no words and no short cuts. It is
//! slow and follows the sentences; the real step must agree with it.

mod access;
mod plain;
mod rules;

use super::*;
use crate::gen;
use plain::Plain;
use rules::literal;

/// The literal outcome on a valid machine.
fn expected(b: &Bench, thread: u8, e: Event) -> (u8, Bench) {
    let mut after = b.clone();
    if usize::from(thread) >= b.m.count {
        return (3, after);
    }
    let mut threads: Vec<Plain> = b.m.threads[..b.m.count].iter().map(Plain::from).collect();
    let number = literal(&mut threads, &mut after.mem, usize::from(thread), e);
    for (to, from) in after.m.threads.iter_mut().zip(&threads) {
        *to = from.join();
    }
    (number, after)
}

#[test]
fn one_event_from_any_valid_machine() {
    seeds(30_000, |rng| {
        let (m, mem) = gen::valid_machine(rng);
        let b = Bench { m, mem };
        for _ in 0..8 {
            let (thread, e) = gen::event(rng, &b.m, b.mem.len());
            let mut stepped = b.clone();
            let number = step(&mut stepped.m, &mut stepped.mem, thread, e);
            let (expected, after) = expected(&b, thread, e);
            assert_eq!(number, expected, "thread {thread}, {e:?}");
            assert_eq!(stepped, after, "thread {thread}, {e:?}");
        }
    });
}

#[test]
fn many_events_in_a_row() {
    seeds(400, |rng| {
        let (m, mem) = gen::valid_machine(rng);
        let mut b = if rng.flag() {
            Bench::fresh()
        } else {
            Bench { m, mem }
        };
        for _ in 0..200 {
            let (thread, e) = gen::event(rng, &b.m, b.mem.len());
            let (number, after) = expected(&b, thread, e);
            assert_eq!(step(&mut b.m, &mut b.mem, thread, e), number, "{e:?}");
            assert_eq!(b, after, "thread {thread}, {e:?}");
            // Let no thread stay without the facility for long.
            for t in &mut b.m.threads {
                if *t != Thread::ZERO && !t.tm && rng.one_in(4) {
                    t.tm = true;
                }
            }
        }
    });
}
