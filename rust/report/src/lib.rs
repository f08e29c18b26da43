//! The report of a tape's failures, as text for people and as JSON for tools,
//! and values that were read on hardware judged against it. docs/REPORT.md
//! describes what is written and what is read.

#![forbid(unsafe_code)]

pub mod asked;
pub mod command;
pub mod json;
pub mod read;
pub mod sheet;
pub mod text;

pub use asked::Asked;
pub use read::Read;
pub use sheet::Sheet;
