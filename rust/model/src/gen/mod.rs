//! Random machines, events and tapes for tests, from a small deterministic
//! generator. The weights make every kind of event meet every state, both
//! overflows, the nesting limit, conflicts, every cell of rule E0.11 and every
//! refusal.

mod editions;
mod events;
mod flaws;
mod machines;
mod put;
mod rng;
mod tapes;

pub use editions::{damaged_tape, good_record, good_tape, later_record, near_record};
pub use events::{any_event, event, event_of};
pub use flaws::{broken_machine, flawed_machine, shaken_machine, Flaw};
pub use machines::{length, machine, memory, valid_machine};
pub use rng::{marks, msr, srr1, value, Rng};
pub use tapes::{record, short_transactions, tape};
