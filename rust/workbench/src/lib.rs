//! A workbench for lock writers: tapes written by hand, read, watched and seen.
//!
//! These are the verbs of the command, `./naszeptan VERB ..`. All that a machine
//! does is the proved archive's doing; nothing here is a rule.

#![deny(missing_docs, unsafe_code)]

pub mod changes;
pub mod check;
pub mod failed;
pub mod files;
pub mod json;
pub mod nearest;
pub mod play;
pub mod run;
pub mod show;
pub mod story;
pub mod timeline;
pub mod told;
pub mod verbs;
pub mod words;
