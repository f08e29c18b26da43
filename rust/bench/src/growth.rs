//! Whether a record costs more where there is more of something: memory, log
//! places, lines, threads. And what a step costs that a host makes by itself.

use model::machine::{Thread, LINE, LOG, MAX_FOOTPRINT, THREADS};
use model::tape::encode;
use model::{Event, Machine};

use crate::measure::{self, each, Times};
use crate::setting::Setting;
use crate::sides::Start;
use crate::tapes;

const BEGIN: Event = Event::Tbegin { r: false };

/// Prints all tables.
pub fn print(setting: &Setting) {
    heading("memory, doublewords", "record");
    for len in [16, 64, 256, 1024, 4096] {
        let start = Start {
            machine: Machine::fresh(),
            memory: vec![0; len],
        };
        over(
            setting,
            len,
            &start,
            &short_transactions(setting.records, 1),
        );
    }
    heading("log places used", "record");
    for places in [0, 16, 32, LOG] {
        let (start, tape) = one_doubleword(setting.records, places);
        over(setting, places, &start, &tape);
    }
    heading("lines in footprint", "record");
    for lines in [0, 8, 16, MAX_FOOTPRINT as usize] {
        let (start, tape) = known_lines(setting.records, lines);
        over(setting, lines, &start, &tape);
    }
    heading("threads", "record");
    for count in 1..=THREADS {
        let tape = short_transactions(setting.records, count);
        over(setting, count, &threads(count), &tape);
    }
    lone_calls(setting);
    println!("\nmemory and threads: short transactions, each thread on a line of its own;");
    println!("log: one doubleword is stored to again and again, in a transaction, and its");
    println!("place is the last that is used (at 0 its first store takes one); footprint:");
    println!("loads from the lines that are in it, in turn (at 0 in a rollback-only");
    println!("transaction, whose loads add none); step: addi by thread 0, the machine tested");
    println!("first on both sides; test: that test alone.");
}

fn heading(of: &str, each: &str) {
    let (proved, rust) = (format!("proved, ns/{each}"), format!("Rust, ns/{each}"));
    println!("\n{of:24}{proved:>18}{rust:>16}{:>9}", "ratio");
}

fn row(name: &str, many: usize, times: &Times) {
    println!(
        "{name:24}{:>18.1}{:>16.1}{:>9.1}",
        each(times.proved.clock, many),
        each(times.rust.clock, many),
        times.ratio(),
    );
}

/// The row of one tape.
fn over(setting: &Setting, at: usize, start: &Start, tape: &[u8]) {
    let times = measure::tape(start, tape, setting.rounds);
    row(&at.to_string(), setting.records, &times);
}

/// Short transactions by the first threads in turn, each on one line.
fn short_transactions(records: usize, threads: usize) -> Vec<u8> {
    tapes::repeated(records, threads, |n| {
        let index = (n % threads * LINE + n / threads % LINE) as u32;
        let (r, si) = (3, 1);
        vec![
            BEGIN,
            Event::Ld { rt: r, index },
            Event::Addi { rt: r, ra: r, si },
            Event::Std { ra: r, index },
            Event::Tend { a: false },
        ]
    })
}

/// The fresh machine with fewer threads.
fn threads(count: usize) -> Start {
    let mut start = Start::fresh();
    start.machine.count = count;
    start.machine.threads[count..].fill(Thread::ZERO);
    start
}

/// A log with so many places used, and stores to the doubleword of the last.
fn one_doubleword(records: usize, places: usize) -> (Start, Vec<u8>) {
    let store = |place: usize| Event::Std {
        ra: 3,
        index: place as u32,
    };
    let start = Start::fresh()
        .after(0, [BEGIN])
        .after(0, (0..places).map(store));
    let again = encode(0, store(places.max(1) - 1));
    (start, again.repeat(records))
}

/// A read set of so many lines, and loads from these.
fn known_lines(records: usize, lines: usize) -> (Start, Vec<u8>) {
    let load = |line: usize| Event::Ld {
        rt: 3,
        index: (line * LINE) as u32,
    };
    let start = Start::fresh()
        .after(0, [Event::Tbegin { r: lines == 0 }])
        .after(0, (0..lines).map(load));
    let tape = (0..records).flat_map(|n| encode(0, load(n % lines.max(1))));
    (start, tape.collect())
}

/// Four transactions, each with a full log.
fn full_logs() -> Start {
    (0..THREADS).fold(Start::fresh(), |start, thread| {
        let events = tapes::full_log(thread).into_iter().take(1 + LOG);
        start.after(thread as u8, events)
    })
}

/// The step and the test by themselves. They are slow, so there are fewer.
fn lone_calls(setting: &Setting) {
    let many = (setting.records / 10).max(1);
    let (r, si) = (3, 1);
    let addi = Event::Addi { rt: r, ra: r, si };
    heading("lone calls", "call");
    for (of, start) in [("fresh", Start::fresh()), ("full logs", full_logs())] {
        let times = measure::steps(&start, 0, addi, many, setting.rounds);
        row(&format!("step, {of}"), many, &times);
        let times = measure::tests(&start, many, setting.rounds);
        row(&format!("test, {of}"), many, &times);
    }
}

#[cfg(test)]
mod tests {
    use super::*;

    fn runs(start: Start, tape: &[u8], records: usize) -> Machine {
        let (mut machine, mut memory) = (start.machine, start.memory);
        let ended = model::run(&mut machine, &mut memory, tape);
        assert_eq!((ended.answer, ended.count), (0, records));
        machine
    }

    #[test]
    fn the_log_stays_as_it_is() {
        for places in [0, 1, 16, LOG] {
            let (start, tape) = one_doubleword(100, places);
            assert_eq!(start.machine.threads[0].count, places);
            let after = runs(start, &tape, 100);
            assert_eq!(after.threads[0].count, places.max(1));
        }
    }

    #[test]
    fn the_footprint_stays_as_it_is() {
        for lines in [0, 1, 8, MAX_FOOTPRINT as usize] {
            let (start, tape) = known_lines(100, lines);
            let after = runs(start, &tape, 100);
            assert_eq!(after.threads[0].footprint() as usize, lines);
        }
    }

    #[test]
    fn fewer_threads_and_less_memory_do() {
        for count in 1..=THREADS {
            let tape = short_transactions(103, count);
            runs(threads(count), &tape, 103);
        }
        let start = Start {
            machine: Machine::fresh(),
            memory: vec![0; LINE],
        };
        runs(start, &short_transactions(103, 1), 103);
    }

    #[test]
    fn four_logs_are_full() {
        let start = full_logs();
        assert!(start.machine.threads.iter().all(|t| t.count == LOG));
    }
}
