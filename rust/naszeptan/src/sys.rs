//! The functions of the archive. All `unsafe` of the crate is here.
//!
//! The header asks one thing of a caller: that a pointer with its length
//! names elements which the call may use alone. A Rust slice is just that, and
//! any other bits may be handed in; so each function here is safe.

use crate::raw::{
    Compared, Converted, Done, Ended, Event, Failure, Fed, Machine, Profile, Record, Session, Shown,
};

extern "C" {
    fn naszeptan_version() -> u32;
    fn naszeptan_fresh() -> Machine;
    fn naszeptan_valid(machine: Machine, len: usize) -> u8;
    fn naszeptan_step(machine: Machine, memory: *mut u64, len: usize, event: Event) -> Done;
    fn naszeptan_run(
        machine: Machine,
        memory: *mut u64,
        len: usize,
        tape: *const u8,
        bytes: usize,
    ) -> Ended;
    fn naszeptan_open(machine: Machine, len: usize) -> Session;
    fn naszeptan_feed(
        session: Session,
        memory: *mut u64,
        len: usize,
        piece: *const u8,
        bytes: usize,
        answers: *mut u8,
        room: usize,
    ) -> Fed;
    fn naszeptan_close(session: Session, len: usize) -> Ended;
    fn naszeptan_read(record: *const u8, bytes: usize) -> Record;
    fn naszeptan_write(event: Event, buffer: *mut u8, bytes: usize) -> u8;
    fn naszeptan_read_two(record: *const u8, bytes: usize) -> Record;
    fn naszeptan_write_two(event: Event, buffer: *mut u8, bytes: usize) -> u8;
    fn naszeptan_two_to_three(
        tape: *const u8,
        bytes: usize,
        buffer: *mut u8,
        room: usize,
    ) -> Converted;
    fn naszeptan_three_to_two(
        tape: *const u8,
        bytes: usize,
        buffer: *mut u8,
        room: usize,
    ) -> Converted;
    fn naszeptan_on_hardware(profile: Profile, texasr: u64) -> Shown;
    fn naszeptan_compare(profile: Profile, model: Failure, hardware: Failure) -> Compared;
}

pub(crate) fn version() -> u32 {
    // SAFETY: takes nothing, touches no memory of ours.
    unsafe { naszeptan_version() }
}

pub(crate) fn fresh() -> Machine {
    // SAFETY: takes nothing; every field of the answer is an integer.
    unsafe { naszeptan_fresh() }
}

pub(crate) fn valid(machine: Machine, len: usize) -> u8 {
    // SAFETY: takes its machine by value, and any bits may be a machine's.
    unsafe { naszeptan_valid(machine, len) }
}

pub(crate) fn step(machine: Machine, memory: &mut [u64], event: Event) -> Done {
    // SAFETY: pointer and length are those of one slice, borrowed for the
    // call by it alone; machine and event go by value and may be any bits.
    unsafe { naszeptan_step(machine, memory.as_mut_ptr(), memory.len(), event) }
}

pub(crate) fn run(machine: Machine, memory: &mut [u64], tape: &[u8]) -> Ended {
    // SAFETY: as for `step`; the tape is a slice of its own, only read, and
    // cannot overlap the memory, which is borrowed by the call alone.
    unsafe {
        naszeptan_run(
            machine,
            memory.as_mut_ptr(),
            memory.len(),
            tape.as_ptr(),
            tape.len(),
        )
    }
}

pub(crate) fn open(machine: Machine, len: usize) -> Session {
    // SAFETY: as for `valid`; every field of the answer is an integer.
    unsafe { naszeptan_open(machine, len) }
}

pub(crate) fn feed(session: Session, memory: &mut [u64], piece: &[u8], answers: &mut [u8]) -> Fed {
    // SAFETY: as for `run`; the session goes by value and may be any bits, and
    // the answers are a slice of their own, borrowed by the call alone.
    unsafe {
        naszeptan_feed(
            session,
            memory.as_mut_ptr(),
            memory.len(),
            piece.as_ptr(),
            piece.len(),
            answers.as_mut_ptr(),
            answers.len(),
        )
    }
}

pub(crate) fn close(session: Session, len: usize) -> Ended {
    // SAFETY: takes its session by value, and any bits may be a session's.
    unsafe { naszeptan_close(session, len) }
}

pub(crate) fn read(record: &[u8]) -> Record {
    // SAFETY: pointer and length are those of one slice, only read.
    unsafe { naszeptan_read(record.as_ptr(), record.len()) }
}

pub(crate) fn write(event: Event, buffer: &mut [u8]) -> u8 {
    // SAFETY: pointer and length are those of one slice, borrowed for the
    // call by it alone; the event goes by value and may be any bits.
    unsafe { naszeptan_write(event, buffer.as_mut_ptr(), buffer.len()) }
}

pub(crate) fn read_two(record: &[u8]) -> Record {
    // SAFETY: as for `read`.
    unsafe { naszeptan_read_two(record.as_ptr(), record.len()) }
}

pub(crate) fn write_two(event: Event, buffer: &mut [u8]) -> u8 {
    // SAFETY: as for `write`.
    unsafe { naszeptan_write_two(event, buffer.as_mut_ptr(), buffer.len()) }
}

pub(crate) fn two_to_three(tape: &[u8], buffer: &mut [u8]) -> Converted {
    // SAFETY: each pointer and length are those of one slice. The tape is only
    // read, and cannot overlap the buffer, which is borrowed by the call alone.
    unsafe { naszeptan_two_to_three(tape.as_ptr(), tape.len(), buffer.as_mut_ptr(), buffer.len()) }
}

pub(crate) fn three_to_two(tape: &[u8], buffer: &mut [u8]) -> Converted {
    // SAFETY: as for `two_to_three`.
    unsafe { naszeptan_three_to_two(tape.as_ptr(), tape.len(), buffer.as_mut_ptr(), buffer.len()) }
}

pub(crate) fn on_hardware(profile: Profile, texasr: u64) -> Shown {
    // SAFETY: takes numbers by value, which may be any; every field of the
    // answer is an integer.
    unsafe { naszeptan_on_hardware(profile, texasr) }
}

pub(crate) fn compare(profile: Profile, model: Failure, hardware: Failure) -> Compared {
    // SAFETY: as for `on_hardware`.
    unsafe { naszeptan_compare(profile, model, hardware) }
}
