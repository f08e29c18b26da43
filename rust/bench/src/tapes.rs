//! The five tapes. Each is for the fresh machine, has just the records asked
//! for, and every record is done.

use crate::{day, ledger};
use model::gen;
use model::machine::{LINE, LOG, MAX_MEMORY, THREADS};
use model::tape::{encode, RECORD};
use model::Event;
use naszeptan::KINDS;

/// A tape, its name and what it does.
pub struct Tape {
    /// The name in the table.
    pub name: &'static str,
    /// One line about it.
    pub about: &'static str,
    /// The records.
    pub bytes: Vec<u8>,
}

/// The name of the tape that has every kind but the narrow accesses.
pub const DAY: &str = "a lock library's day";
/// The name of the tape of narrow accesses.
pub const NARROW: &str = "narrow";
/// The seed of the day that is timed.
const SEED: u64 = 1;

/// All five.
pub fn all(records: usize) -> [Tape; 5] {
    [
        Tape {
            name: "short transactions",
            about: "the threads in turn: tbegin., ld, addi, std, tend.",
            bytes: filled(gen::short_transactions(records), records),
        },
        Tape {
            name: "full logs",
            about: "the threads in turn: tbegin., 64 stores, tend.",
            bytes: repeated(records, THREADS, full_log),
        },
        Tape {
            name: "one line",
            about:
                "the threads in turn on one line: tbegin., ld, std; each load fails the last thread",
            bytes: repeated(records, THREADS, conflict),
        },
        Tape {
            name: DAY,
            about: "events of all kinds but narrow accesses, by four programs that elide eight locks, and take them where that fails",
            bytes: day::tape(records, SEED),
        },
        Tape {
            name: NARROW,
            about: "a ledger in words of four bytes, the threads in turn: tbegin., lwz of a lock, lwz, addi, stw of a balance, some notes of other widths, tend.",
            bytes: repeated(records, THREADS, ledger::booking),
        },
    ]
}

/// Fills up with records that do next to nothing.
fn filled(mut tape: Vec<u8>, records: usize) -> Vec<u8> {
    let nothing = Event::Addi {
        rt: 0,
        ra: 0,
        si: 0,
    };
    while tape.len() < records * RECORD {
        tape.extend(encode(0, nothing));
    }
    tape
}

/// How often each kind occurs, in the order of [`KINDS`].
pub fn kinds(tape: &[u8]) -> [usize; KINDS.len()] {
    let mut counts = [0; KINDS.len()];
    for record in tape.chunks(RECORD) {
        let row = KINDS.iter().position(|kind| kind.number == record[1]);
        counts[row.expect("a kind")] += 1;
    }
    counts
}

/// As many whole turns as fit, the nth by thread n modulo the thread count.
pub fn repeated(records: usize, threads: usize, turn: impl Fn(usize) -> Vec<Event>) -> Vec<u8> {
    let mut tape = Vec::with_capacity(records * RECORD);
    for n in 0.. {
        let events = turn(n);
        if tape.len() + events.len() * RECORD > records * RECORD {
            break;
        }
        for e in events {
            tape.extend(encode((n % threads) as u8, e));
        }
    }
    filled(tape, records)
}

/// A transaction that fills its log and commits it: four lines, which move on
/// through the thread's quarter of memory.
pub fn full_log(n: usize) -> Vec<Event> {
    let quarter = MAX_MEMORY / THREADS;
    let first = n / THREADS * LOG % quarter;
    let stores = (0..LOG).map(|place| Event::Std {
        ra: (place % 32) as u8,
        index: (n % THREADS * quarter + first + place) as u32,
    });
    std::iter::once(Event::Tbegin { r: false })
        .chain(stores)
        .chain([Event::Tend { a: false }])
        .collect()
}

/// A transaction on line 0 that the next thread fails by its load.
fn conflict(n: usize) -> Vec<Event> {
    let index = (n % LINE) as u32;
    vec![
        Event::Tbegin { r: false },
        Event::Ld { rt: 3, index },
        Event::Std { ra: 3, index },
    ]
}

#[cfg(test)]
mod tests {
    use super::*;
    use model::{run, Machine};

    #[test]
    fn every_record_is_done() {
        for records in [1, 5, 67, 1000] {
            for tape in all(records) {
                let mut m = Machine::fresh();
                let mut memory = vec![0; MAX_MEMORY];
                let ended = run(&mut m, &mut memory, &tape.bytes);
                assert_eq!((ended.answer, ended.count), (0, records), "{}", tape.name);
            }
        }
    }

    /// FNV-1a over the bytes.
    fn sum(bytes: &[u8]) -> u64 {
        bytes.iter().fold(0xCBF2_9CE4_8422_2325, |sum, &byte| {
            (sum ^ u64::from(byte)).wrapping_mul(0x0000_0100_0000_01B3)
        })
    }

    /// So that figures of different versions are of the same tapes. A tape that
    /// is meant to change gets a new sum.
    #[test]
    fn tapes_stay_as_they_are() {
        let sums = all(20_000).map(|tape| (tape.name, sum(&tape.bytes)));
        let right = [
            ("short transactions", 0x1918_577D_095E_7365),
            ("full logs", 0x7FED_5815_0EDC_3164),
            ("one line", 0x5D9C_61F2_7D43_0844),
            (DAY, 0x7D49_A94B_53CF_AFE5),
            (NARROW, 0x31CB_838B_30B1_ACF1),
        ];
        assert_eq!(sums, right);
    }

    #[test]
    fn full_logs_are_full() {
        let tape = all(65).into_iter().nth(1).expect("five tapes");
        let begun: Vec<u8> = full_log(0)[..65]
            .iter()
            .flat_map(|&e| encode(0, e))
            .collect();
        let mut m = Machine::fresh();
        run(&mut m, &mut vec![0; MAX_MEMORY], &begun);
        assert_eq!(m.threads[0].count, LOG);
        assert_eq!(tape.bytes.len(), 65 * RECORD);
    }

    #[test]
    fn every_load_but_the_first_fails_a_thread() {
        let mut m = Machine::fresh();
        let mut memory = vec![0; MAX_MEMORY];
        for n in 0..20 {
            for e in conflict(n) {
                model::step(&mut m, &mut memory, (n % THREADS) as u8, e);
            }
            let live = m.threads.iter().filter(|t| t.is_live()).count();
            assert_eq!(live, 1);
        }
        assert!(m.threads[2].failed());
    }
}
