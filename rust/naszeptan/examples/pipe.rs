//! Runs a tape that comes down a pipe, in pieces of up to 64 KiB, on the fresh
//! machine, and says how it ended:
//!
//! `cat a.tape b.tape | tools/cargo run -p naszeptan --example pipe`
//!
//! Where standard error is a terminal the count of records done is shown there
//! while it runs. The status is 0 where the tape ended, 1 where a record or an
//! unfinished end was refused, and 2 where a read failed.

use std::io::{self, IsTerminal, Write};
use std::process::ExitCode;
use std::time::{Duration, Instant};

use naszeptan::{Answer, Machine, Session, MEMORY};

/// How often the count is shown.
const EVERY: Duration = Duration::from_millis(200);

/// The count of a session, shown now and then on one line of standard error.
struct Shown {
    on_terminal: bool,
    last: Instant,
}

impl Shown {
    fn new() -> Shown {
        Shown {
            on_terminal: io::stderr().is_terminal(),
            last: Instant::now(),
        }
    }

    fn watch(&mut self, session: &Session) {
        if self.on_terminal && self.last.elapsed() >= EVERY {
            self.last = Instant::now();
            eprint!("\r{} records", session.count());
            // It is only shown: what cannot be written does no harm.
            let _ = io::stderr().flush();
        }
    }

    /// Clears the line for what follows.
    fn end(&self) {
        if self.on_terminal {
            eprint!("\r\x1B[K");
        }
    }
}

fn main() -> ExitCode {
    let mut memory = vec![0; MEMORY];
    let mut session =
        Session::open(&Machine::fresh(), &mut memory).expect("the fresh machine is valid");
    let mut shown = Shown::new();
    let read = session.read_to_end(io::stdin().lock(), |session| shown.watch(session));
    shown.end();
    if let Err(why) = read {
        eprintln!("pipe: standard input: {why}");
        return ExitCode::from(2);
    }
    let ended = session.close();
    println!("{ended}");
    match ended.answer {
        Answer::Done => ExitCode::SUCCESS,
        _ => ExitCode::FAILURE,
    }
}
