//! Records and tapes.

use super::events::{any_event, event};
use super::rng::Rng;
use crate::machine::{Machine, State, THREADS};
use crate::step::step_trusted;
use crate::tape::{encode, MARK, RECORD};
use crate::{answer, Event};

/// A record near the right form: often one byte away from a good one.
pub fn record(rng: &mut Rng) -> [u8; RECORD] {
    let (thread, e) = any_event(rng);
    let mut record = encode(thread, e);
    let any = rng.byte();
    match rng.below(4) {
        0 => {}
        1 => {
            record[rng.below(RECORD)] = rng.pick([
                0, 1, 2, 3, 4, 15, 16, 17, 18, 19, 20, 25, 26, 27, MARK, 255, any,
            ])
        }
        2 => record[rng.below(RECORD)] ^= 1 << rng.below(8),
        _ => {
            let (a, b) = (rng.below(RECORD), rng.below(RECORD));
            record.swap(a, b);
            record[1] = rng.below(29) as u8;
        }
    }
    record
}

/// A tape of up to `records` records that mostly go on from this machine: a
/// refused event is kept only now and then, and ends the run there, though
/// not the tape.
pub fn tape(rng: &mut Rng, m: &Machine, mem: &[u64], records: usize) -> Vec<u8> {
    let mut m = m.clone();
    let mut mem = mem.to_vec();
    let mut tape = Vec::with_capacity(records * RECORD);
    for _ in 0..records {
        if rng.one_in(2000) {
            tape.extend(record(rng));
            continue;
        }
        // Keep an event that is done, of a few that are tried.
        for _ in 0..4 {
            let (thread, e) = event(rng, &m, mem.len());
            // An interrupt leaves the facility off: have a host mend it soon.
            let e = match m.threads.get(usize::from(thread)) {
                Some(t) if !t.tm && t.state != State::T && rng.one_in(3) => Event::Host {
                    pr: rng.flag(),
                    tm: true,
                },
                _ => e,
            };
            if answer::is_done(step_trusted(&mut m, &mut mem, thread, e)) || rng.one_in(1000) {
                tape.extend(encode(thread, e));
                break;
            }
        }
    }
    tape
}

/// The tape of short transactions by which a run is timed: the threads in
/// turn do tbegin., ld, addi, std, tend., each thread with lines of its own,
/// moving on by one doubleword each time. `records` is cut down to a multiple
/// of 5, so every transaction ends.
pub fn short_transactions(records: usize) -> Vec<u8> {
    let mut tape = Vec::with_capacity(records * RECORD);
    for n in 0..records / 5 {
        let thread = n % THREADS;
        let place = (n / THREADS) % 1024;
        let index = (thread * 1024 + place) as u32;
        for e in [
            Event::Tbegin { r: false },
            Event::Ld { rt: 3, index },
            Event::Addi {
                rt: 3,
                ra: 3,
                si: 1,
            },
            Event::Std { ra: 3, index },
            Event::Tend { a: false },
        ] {
            tape.extend(encode(thread as u8, e));
        }
    }
    tape
}
