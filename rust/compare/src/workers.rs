//! The shares of the comparison, each in a process of its own. Threads would
//! do on x86-64, but an emulator on a machine with weaker ordering of memory
//! slows all of a process down as soon as it has two threads.

use std::io;
use std::process::{Child, Command, Stdio};

use crate::batch::{compare, Failure};
use crate::counts::Counts;
use crate::sides::Side;

/// Names a worker's share: its number and how many there are.
const SHARE: &str = "NASZEPTAN_SHARE";
/// The program by which cargo has been told to run what it builds.
const RUNNER: &str = "CARGO_TARGET_X86_64_UNKNOWN_LINUX_GNU_RUNNER";

/// What all workers met, and the failure of the lowest batch, as text.
pub struct Outcome {
    /// What was met.
    pub counts: Counts,
    /// The batch's number and the failure.
    pub failure: Option<(u64, String)>,
}

impl Outcome {
    fn of((counts, failure): (Counts, Option<Failure>)) -> Outcome {
        let failure = failure.map(|f| (f.batch, f.to_string()));
        Outcome { counts, failure }
    }

    /// As a worker tells it: the numbers on one line, and then the failure.
    fn told(&self) -> String {
        let numbers: Vec<String> = self.counts.numbers().iter().map(u64::to_string).collect();
        let numbers = numbers.join(" ");
        match &self.failure {
            Some((batch, text)) => format!("{numbers}\n{batch}\n{text}"),
            None => format!("{numbers}\n"),
        }
    }

    /// Adds what a worker has told. False if that is no such text.
    fn add(&mut self, told: &str) -> bool {
        let mut lines = told.splitn(3, '\n');
        let numbers: Result<Vec<u64>, _> = lines
            .next()
            .unwrap_or_default()
            .split(' ')
            .map(str::parse)
            .collect();
        match numbers {
            Ok(numbers) if numbers.len() == self.counts.numbers().len() => {
                self.counts.add(numbers);
            }
            _ => return false,
        }
        let batch = lines.next().and_then(|line| line.parse().ok());
        if let (Some(batch), Some(text)) = (batch, lines.next()) {
            if self.failure.as_ref().is_none_or(|(n, _)| batch < *n) {
                self.failure = Some((batch, text.to_string()));
            }
        }
        true
    }
}

/// Does the share that this process is given by [`all`], if it is one of its
/// workers, and tells the outcome on standard output.
pub fn work(side: &dyn Side, seed: u64, events: u64) -> bool {
    let Ok(share) = std::env::var(SHARE) else {
        return false;
    };
    let numbers = share
        .split_once(' ')
        .and_then(|(n, of)| Some((n.parse().ok()?, of.parse().ok()?)));
    if let Some(share) = numbers {
        let outcome = Outcome::of(compare(side, seed, events, share));
        print!("{}", outcome.told());
    }
    true
}

/// This program once more, as one worker.
fn spawn(share: usize, shares: usize) -> io::Result<Child> {
    let this = std::env::current_exe()?;
    let runner = std::env::var(RUNNER).unwrap_or_default();
    let mut words = runner.split_whitespace();
    let mut command = match words.next() {
        Some(program) => {
            let mut command = Command::new(program);
            command.args(words).arg(this);
            command
        }
        None => Command::new(this),
    };
    command
        .env(SHARE, format!("{share} {shares}"))
        .stdout(Stdio::piped())
        .spawn()
}

/// All batches for this many events by this many workers, which are this
/// program once more and must call [`work`] first. Where the program cannot be
/// started from itself, all is done here.
pub fn all(side: &dyn Side, seed: u64, events: u64, workers: usize) -> Result<Outcome, String> {
    let first = match workers {
        0 | 1 => None,
        _ => spawn(0, workers).ok(),
    };
    let Some(first) = first else {
        return Ok(Outcome::of(compare(side, seed, events, (0, 1))));
    };
    let mut children = vec![first];
    for share in 1..workers {
        children.push(spawn(share, workers).map_err(|e| e.to_string())?);
    }
    let mut outcome = Outcome {
        counts: Counts::default(),
        failure: None,
    };
    for child in children {
        let output = child.wait_with_output().map_err(|e| e.to_string())?;
        let told = String::from_utf8_lossy(&output.stdout);
        if !output.status.success() || !outcome.add(&told) {
            return Err(format!("a worker ended by {}", output.status));
        }
    }
    Ok(outcome)
}
