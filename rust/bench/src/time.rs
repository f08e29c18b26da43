//! Time by the clock, and time on the processor, which other work on the
//! computer does not stretch.

use std::time::{Duration, Instant};

/// The least time on the processor that is told, of all rounds together: the
/// system counts it in ticks of some milliseconds.
const LEAST: Duration = Duration::from_millis(50);

/// A running watch.
pub struct Watch {
    clock: Instant,
    processor: Option<Duration>,
}

impl Watch {
    /// Starts it.
    pub fn start() -> Watch {
        Watch {
            processor: on_processor(),
            clock: Instant::now(),
        }
    }

    /// What has passed since.
    pub fn spent(&self) -> Spent {
        let clock = self.clock.elapsed();
        let processor = self
            .processor
            .and_then(|start| on_processor()?.checked_sub(start));
        Spent { clock, processor }
    }
}

/// The time that this thread has been on a processor so far, where the system
/// tells it.
fn on_processor() -> Option<Duration> {
    let text = std::fs::read_to_string("/proc/thread-self/schedstat").ok()?;
    let nanos = text.split_whitespace().next()?.parse().ok()?;
    Some(Duration::from_nanos(nanos))
}

/// The time of one run, or what stands for many.
#[derive(Clone, Copy)]
pub struct Spent {
    /// By the clock.
    pub clock: Duration,
    /// On the processor, if it is told.
    pub processor: Option<Duration>,
}

impl Spent {
    /// What stands for some runs, of which there is one at least: the median
    /// by the clock, and the mean on the processor, for the ticks of one run
    /// may be too coarse.
    pub fn typical(runs: &[Spent]) -> Spent {
        let processor: Option<Duration> = runs.iter().map(|run| run.processor).sum();
        Spent {
            clock: median(runs.iter().map(|run| run.clock).collect()),
            processor: processor
                .filter(|&all| all >= LEAST)
                .map(|all| all / runs.len() as u32),
        }
    }
}

fn median(mut times: Vec<Duration>) -> Duration {
    times.sort();
    times[times.len() / 2]
}
