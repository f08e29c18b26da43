//! Rules E1 to E26 and A0 to A7: each rule once, by hand.

mod aborts;
mod access;
mod bytes;
mod conflicts;
mod interrupts;
mod pages;
mod registers;
mod transactions;

use super::*;
use crate::machine::texasr;
