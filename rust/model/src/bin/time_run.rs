//! Times a run over a million records on the fresh machine: the best and the
//! middle of many rounds by the clock and, where the system tells it, the mean
//! time on the processor, which other work on the computer does not stretch.

use std::hint::black_box;
use std::io::Write;
use std::time::{Duration, Instant};

use model::gen::{self, Rng};
use model::{run, Machine};

const RECORDS: usize = 1_000_000;
const ROUNDS: u32 = 40;

/// The time that this thread has been on a processor so far.
fn on_processor() -> Option<Duration> {
    let text = std::fs::read_to_string("/proc/thread-self/schedstat").ok()?;
    let nanos = text.split_whitespace().next()?.parse().ok()?;
    Some(Duration::from_nanos(nanos))
}

fn millis(time: Duration) -> f64 {
    time.as_secs_f64() * 1e3
}

fn time(name: &str, tape: &[u8]) -> std::io::Result<()> {
    let mut times = Vec::new();
    let mut outcome = None;
    let start = on_processor();
    for _ in 0..ROUNDS {
        let mut m = Machine::fresh();
        let mut mem = [0u64; 4096];
        let start = Instant::now();
        outcome = Some(black_box(run(&mut m, &mut mem, black_box(tape))));
        times.push(start.elapsed());
    }
    let end = on_processor();
    times.sort();
    let (answer, done) = outcome.map_or((0, 0), |ended| (ended.answer, ended.count));
    let mut out = std::io::stdout();
    write!(
        out,
        "{name}: answer {answer}, {done} records done, best {:.3} ms, middle {:.3} ms",
        millis(times[0]),
        millis(times[times.len() / 2]),
    )?;
    if let (Some(start), Some(end)) = (start, end) {
        let mean = end.saturating_sub(start) / ROUNDS;
        write!(out, ", mean on the processor {:.3} ms", millis(mean))?;
    }
    writeln!(out)
}

fn main() -> std::io::Result<()> {
    time("short transactions", &gen::short_transactions(RECORDS))?;
    // Events of all kinds that are all done, with failures among them.
    let mut rng = Rng::new(1);
    let mut tape = Vec::new();
    let (mut m, mut mem) = (Machine::fresh(), vec![0u64; 4096]);
    while tape.len() < RECORDS * 16 {
        let piece = gen::tape(&mut rng, &m, &mem, 1000);
        let done = run(&mut m, &mut mem, &piece).count;
        tape.extend_from_slice(&piece[..done * 16]);
    }
    tape.truncate(RECORDS * 16);
    time("mixed events", &tape)
}
