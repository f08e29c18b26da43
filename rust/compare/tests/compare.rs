//! The comparison. NASZEPTAN_EVENTS gives the number of events and
//! NASZEPTAN_SEED the seed; else both are fixed, so that the same is compared
//! each time. Every cell that can be met must be; of fewer than a million events
//! that is not asked.

use std::process::ExitCode;
use std::time::Instant;

use compare::counts::ALL_MET_FROM;
use compare::pair::to_raw;
use compare::sides::Archive;
use compare::workers;
use model::Machine;
use naszeptan::raw;

const EVENTS: u64 = 1_000_000;
const SEED: u64 = 1;

/// A number from the environment, or this one if it is not set.
fn number(name: &str, otherwise: u64) -> Result<u64, String> {
    match std::env::var(name) {
        Ok(text) => text
            .replace('_', "")
            .parse()
            .map_err(|_| format!("{name} is no number: {text}")),
        Err(_) => Ok(otherwise),
    }
}

fn main() -> ExitCode {
    match run() {
        Ok(()) => ExitCode::SUCCESS,
        Err(why) => {
            println!("{why}");
            ExitCode::FAILURE
        }
    }
}

fn run() -> Result<(), String> {
    if raw::version() != raw::VERSION {
        return Err(format!("the archive is of version {:#x}", raw::version()));
    }
    if raw::fresh() != to_raw(&Machine::fresh()) {
        return Err("the fresh machines differ".to_string());
    }
    let events = number("NASZEPTAN_EVENTS", EVENTS)?;
    let seed = number("NASZEPTAN_SEED", SEED)?;
    if workers::work(&Archive, seed, events) {
        return Ok(());
    }
    let workers = std::thread::available_parallelism().map_or(1, usize::from);
    println!("seed {seed}, {events} events, {workers} workers");
    let started = Instant::now();
    let outcome = workers::all(&Archive, seed, events, workers)?;
    let seconds = started.elapsed().as_secs_f64();
    let counts = outcome.counts;
    print!("{}", counts.tables());
    println!(
        "\n{} events compared after each, {} records done by runs, in {seconds:.1} s",
        counts.events(),
        counts.records
    );
    if let Some((_, failure)) = outcome.failure {
        return Err(format!("FAILED: seed {seed}, {failure}"));
    }
    let wrong = counts.wrong(events);
    if !wrong.is_empty() {
        return Err(format!("FAILED: seed {seed}\n{}", wrong.join("\n")));
    }
    match counts.unmet().len() {
        0 => println!("ok: the sides agree; every cell that can be met was, and no other"),
        unmet => println!(
            "ok: the sides agree, and no cell was met that cannot be; {unmet} were not met, \
             which is asked for from {ALL_MET_FROM} events on"
        ),
    }
    Ok(())
}
