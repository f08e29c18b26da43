//! The machine of docs/RULES.md in ordinary Rust: state changed in place, no
//! allocation on the way of an event, no dependencies.
//!
//! Comments name the rules of docs/RULES.md that a piece of code follows.
//!
//! - [`machine`]: the state and what makes it valid.
//! - [`event`]: the twenty-six events.
//! - [`step`](mod@step): doing one event.
//! - [`tape`]: reading and writing records.
//! - [`edition_two`]: the same for records of edition two.
//! - [`edition`]: both editions, and tapes of one converted into the other.
//! - [`run`](mod@run): running a tape, and the program.
//! - [`session`]: running a tape that comes in pieces.
//! - [`gen`]: random machines, events and tapes for tests.

#![forbid(unsafe_code)]

pub mod answer;
pub mod edition;
pub mod edition_two;
pub mod event;
pub mod gen;
pub mod machine;
pub mod run;
pub mod session;
pub mod step;
pub mod tape;

pub use edition::Edition;
pub use event::Event;
pub use machine::{valid, Entry, LineSet, Machine, Msr, Registers, State, Thread};
pub use run::{program, run, run_with_answers, Ended};
pub use session::{Fed, Session};
pub use step::{step, step_trusted, step_with_failed, Done};
pub use tape::{read, write};

#[cfg(test)]
mod tests;
