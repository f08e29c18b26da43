//! Naszeptan for Rust hosts: a model of POWER's transactional memory, proved
//! in Rattle.
//!
//! A [`Machine`] of one to four threads and a lent memory take [`Event`]s, one
//! at a time or from a [`Tape`]. After each, registers, log, memory and
//! [`Texasr`] are those that the project's rules, docs/RULES.md, give, bit for
//! bit. An event that is not allowed is refused with an [`Answer`] and changes
//! nothing.
//!
//! The work is done by the proved archive. This crate gives it types; it adds
//! no rules. The archive is x86-64 code. It keeps no state, so several threads
//! of a program may call it at once.
//!
//! # A lock that is elided, and fails
//!
//! Thread 0 runs a critical section as a transaction. It reads the lock, so
//! that the lock's line is in its read set, and stores its data. Then thread 1
//! takes the lock by a plain store.
//!
//! ```
//! use naszeptan::{Answer, Cause, Event, Machine, State, Tape, MEMORY};
//!
//! const LOCK: u32 = 0; // line 0
//! const DATA: u32 = 16; // line 1
//!
//! let mut tape = Tape::new();
//! tape.push(0, Event::Addi { rt: 3, ra: 0, si: 42 })
//!     .push(0, Event::Tbegin { r: false })
//!     .push(0, Event::Ld { rt: 4, index: LOCK })
//!     .push(0, Event::Std { ra: 3, index: DATA })
//!     .push(1, Event::Addi { rt: 5, ra: 0, si: 1 })
//!     .push(1, Event::Std { ra: 5, index: LOCK });
//!
//! let mut machine = Machine::fresh();
//! let mut memory = vec![0; MEMORY];
//! let ended = machine.run(&mut memory, &tape);
//! assert_eq!(ended.answer, Answer::Done);
//! assert_eq!(ended.count, 6);
//!
//! // Thread 0 has failed. It is back behind its tbegin., which is the second
//! // instruction, with CR0 = 0b1010 to tell it so.
//! let thread = &machine.threads[0];
//! assert_eq!(thread.control.state, State::N);
//! assert_eq!(thread.control.nia, 8);
//! assert_eq!(thread.cr0, 0b1010);
//!
//! // TEXASR says why: another thread's access, outside a transaction.
//! let texasr = thread.control.texasr;
//! assert_eq!(texasr.0, 0x0008_0000_1800_0001);
//! assert_eq!(texasr.cause(), Cause::NonTransactionalConflict);
//! assert_eq!(
//!     texasr.to_string(),
//!     "non-transactional conflict, level 1, exact=0, suspended=0, PR=1, ROT=0, code 0x00"
//! );
//!
//! // Memory shows thread 1's store and nothing of thread 0's.
//! assert_eq!(memory[LOCK as usize], 1);
//! assert_eq!(memory[DATA as usize], 0);
//! ```
//!
//! # What stands where
//!
//! - [`Machine`], [`Thread`], [`Control`], [`Registers`], [`Transaction`],
//!   [`LineSet`], [`Entry`]: the state. Every field may be read and set.
//! - [`Machine::step`] and [`Machine::run`], also as the functions [`step`]
//!   and [`run`].
//! - [`Ended`], [`Ended::bad_record`]: how a run ended, and the first record
//!   that is none. A tape that has one is not run.
//! - [`Session`], [`Answers`]: a tape that comes in pieces, from any reader.
//! - [`Machine::step_with_failed`], [`Done`], [`ThreadSet`]: which threads failed
//!   in an event, others than its own too.
//! - [`Edition`], [`Tape::convert`], [`Event::read_in`], [`Event::write_in`]:
//!   tapes of edition two.
//! - [`KINDS`], [`Kind`], [`Operand`]: what all events of one kind have in
//!   common, one row for each kind.
//! - [`Texasr`], [`Failure`], [`Cause`]: what a failure left behind.
//! - [`Profile`], [`Shown`], [`Verdict`], [`Compared`]: what a POWER processor
//!   shows for a failure, and a verdict on registers that were read on one.
//! - [`Report`], [`Row`]: all failures of a tape, ready to be compared.
//! - `{}` of a [`Machine`] or a [`Thread`]: what is not zero. `{:?}` has every
//!   field.
//! - [`raw`]: the C header, for bits that the types do not allow.

#![deny(missing_docs, unsafe_code)]

pub mod raw;

mod answer;
mod edition;
mod ended;
mod event;
mod hardware;
mod kind;
mod machine;
mod report;
mod session;
mod show;
#[allow(unsafe_code)]
mod sys;
mod tape;
mod texasr;
mod threads;
mod transaction;

pub use answer::{Answer, NoAnswer};
pub use edition::{Edition, NotConverted};
pub use ended::Ended;
pub use event::{Event, Ts};
pub use hardware::{bit_names, Compared, FailureRegisters, NoProfile, Profile, Shown, Verdict};
pub use kind::{Kind, Operand, KINDS};
pub use machine::{Control, Done, Machine, State, Thread};
#[doc(inline)]
pub use raw::{version, Entry, Lines as LineSet, Registers, Transaction};
pub use raw::{
    ALL_MARKS, FIRST_BYTE, GPRS, HELD, LEVELS, LINE, MEMORY, PAGE, PLACES, RECORD_SIZE, THREADS,
    VERSION,
};
pub use raw::{SPR_SRR0, SPR_SRR1, SPR_TEXASR, SPR_TEXASRU, SPR_TFHAR, SPR_TFIAR};
pub use report::{Count, NotReported, Report, Row};
pub use session::{Answers, Session, PIECE};
pub use tape::{Records, Tape};
pub use texasr::{Cause, Failure, Texasr};
pub use threads::ThreadSet;

/// Does one event by a thread: [`Machine::step`].
#[must_use = "the event may have been refused"]
pub fn step(machine: &mut Machine, memory: &mut [u64], thread: u8, event: Event) -> Answer {
    machine.step(memory, thread, event)
}

/// Runs a tape: [`Machine::run`].
#[must_use = "a record may have been refused"]
pub fn run(machine: &mut Machine, memory: &mut [u64], tape: impl AsRef<[u8]>) -> Ended {
    machine.run(memory, tape)
}

/// The Rust host that README shows, tested.
#[cfg(doctest)]
#[doc = include_str!("../../../README.md")]
struct Readme;
