//! The proved machine held to the second model. Random machines and random
//! events go to both sides; after every event the answer, the threads that
//! failed, the memory and every field of the machine are compared.
//!
//! - [`sides`]: the two sides, and an event of the header as the model's.
//! - [`pair`]: a machine on both sides, and where the two differ.
//! - [`start`]: the machines that a sequence starts from.
//! - [`plan`]: which event comes next.
//! - [`cells`]: which answers can be met where, by hand from docs/RULES.md.
//! - [`masks`]: who can fail in which event, by hand from there too.
//! - [`accesses`]: a load or a store of any width, by its bytes.
//! - [`sights`]: situations that must be met beside those.
//! - [`past`]: what of a transaction's past they need.
//! - [`marks`]: machines that are refused for the marks of their logs.
//! - [`returns`]: rfid, mtmsrd, SRR0 and SRR1, cell by cell.
//! - [`counts`]: how often each was met, and what was not.
//! - [`batch`]: a numbered piece of the comparison, and a worker's share.
//! - [`workers`]: the shares, each in a process of its own.
//! - [`runs`]: tapes, those too of which nothing may be run.
//! - [`sessions`]: tapes in pieces, and bits that are no session.
//! - [`calls`]: valid, read and write, and bits that are no machine.
//! - [`editions`]: edition two, and the converters between the editions.
//! - [`lent`]: what is lent to a call, and what beside it must stay.
//! - [`shrink`]: the shortest tape that still shows a difference.

#![forbid(unsafe_code)]
#![deny(missing_docs)]

pub mod accesses;
pub mod batch;
pub mod calls;
pub mod cells;
pub mod counts;
pub mod editions;
pub mod lent;
pub mod marks;
pub mod masks;
pub mod pair;
pub mod past;
pub mod plan;
pub mod returns;
pub mod runs;
pub mod sessions;
pub mod shrink;
pub mod sides;
pub mod sights;
pub mod start;
pub mod workers;
