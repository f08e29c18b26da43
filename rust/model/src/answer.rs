//! Rule N1: the numbers given back.

/// Done.
pub const DONE: u8 = 0;
/// Done, and this event handled a failure of its own thread.
pub const HANDLED: u8 = 20;
/// Done, and this event recorded a failure of its own thread in S.
pub const RECORDED: u8 = 21;

/// Memory length or thread count.
pub const SHAPE: u8 = 1;
/// Machine not valid, or no session.
pub const INVALID: u8 = 2;
/// No such thread.
pub const NO_THREAD: u8 = 3;
/// An operand out of range.
pub const OPERAND: u8 = 4;
/// Event 17 in T.
pub const HOST_IN_T: u8 = 5;
/// Tape length not a multiple of 16.
pub const RAGGED: u8 = 6;
/// A record's first byte is wrong.
pub const MARK: u8 = 7;
/// A record's kind is not 1 to 26.
pub const KIND: u8 = 8;
/// A field that must be 0 is not, or flags too big.
pub const FIELD: u8 = 9;
/// The writer's buffer is too short.
pub const BUFFER: u8 = 10;
/// A TM instruction with the facility off.
pub const FACILITY_OFF: u8 = 11;
/// A privileged instruction in problem state.
pub const PRIVILEGED: u8 = 12;
/// Bad Thing.
pub const BAD_THING: u8 = 13;

/// Whether the answer is that of an event that was done.
pub const fn is_done(answer: u8) -> bool {
    matches!(answer, DONE | HANDLED | RECORDED)
}
