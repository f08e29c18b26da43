//! Machines that are not valid, or of a wrong shape, and the ways to be so.

use super::machines::{level, line, valid_machine};
use super::rng::{marks, value, Rng};
use crate::machine::{mask, texasr, Entry, Machine, State, Thread, LINE, LOG, THREADS};

/// One way in which a machine is not valid, or in which its shape is wrong.
#[derive(Clone, Copy, PartialEq, Eq, Debug)]
pub enum Flaw {
    /// A wrong thread count (the number 1).
    ThreadCount,
    /// A wrong memory length (the number 1).
    MemoryLength,
    /// More than 64 log places in use.
    LogCount,
    /// An unused log place that is not zero.
    UnusedPlace,
    /// A thread record past the count that is not zero.
    PastCount,
    NiaLowBits,
    TfharLowBits,
    Cr0Big,
    LiveCrBig,
    CheckpointCrBig,
    DoomedInN,
    DoomedInT,
    /// A read set where there is no live transaction.
    ReadsNotLive,
    /// A write set and its log where there is no live transaction.
    WritesNotLive,
    /// A log with no write set where there is no live transaction.
    LogNotLive,
    /// FS = 1 in a live transaction.
    FailedLive,
    /// Level 0 in a live transaction. TL can say every other level, and each
    /// is one that a transaction may have.
    LevelLive,
    /// More than 32 lines in a live transaction.
    FootprintLive,
    /// FS = 0 in S with TDOOMED = 1.
    DoomedNotFailed,
    /// A log index, and its line, out of memory.
    IndexOutside,
    /// A line of the read set out of memory.
    LineOutside,
    /// Two log places with the same index.
    SameIndex,
    /// A line in the write set with no index in the log.
    LineNotLogged,
    /// An index in the log whose line is not in the write set.
    IndexNotWritten,
    /// A line written by one thread and read by another.
    WriteAgainstRead,
    /// A line written by two threads.
    WriteAgainstWrite,
    /// A used log place without a mark.
    NoMark,
    /// A used log place with a byte that is not marked and not 0.
    UnmarkedByte,
    /// An unused log place with a mark and nothing else.
    UnusedMark,
}

impl Flaw {
    pub const ALL: [Flaw; 29] = [
        Flaw::ThreadCount,
        Flaw::MemoryLength,
        Flaw::LogCount,
        Flaw::UnusedPlace,
        Flaw::PastCount,
        Flaw::NiaLowBits,
        Flaw::TfharLowBits,
        Flaw::Cr0Big,
        Flaw::LiveCrBig,
        Flaw::CheckpointCrBig,
        Flaw::DoomedInN,
        Flaw::DoomedInT,
        Flaw::ReadsNotLive,
        Flaw::WritesNotLive,
        Flaw::LogNotLive,
        Flaw::FailedLive,
        Flaw::LevelLive,
        Flaw::FootprintLive,
        Flaw::DoomedNotFailed,
        Flaw::IndexOutside,
        Flaw::LineOutside,
        Flaw::SameIndex,
        Flaw::LineNotLogged,
        Flaw::IndexNotWritten,
        Flaw::WriteAgainstRead,
        Flaw::WriteAgainstWrite,
        Flaw::NoMark,
        Flaw::UnmarkedByte,
        Flaw::UnusedMark,
    ];

    /// Whether the flaw is one of shape: number 1, not 2.
    pub fn is_shape(self) -> bool {
        matches!(self, Flaw::ThreadCount | Flaw::MemoryLength)
    }
}

/// A machine with this flaw, and its memory.
pub fn flawed_machine(rng: &mut Rng, flaw: Flaw) -> (Machine, Vec<u64>) {
    loop {
        let (mut m, mut mem) = valid_machine(rng);
        if flaw.put(rng, &mut m, &mut mem) {
            return (m, mem);
        }
    }
}

/// A machine that is not valid, or of a wrong shape, and its memory.
pub fn broken_machine(rng: &mut Rng) -> (Machine, Vec<u64>) {
    let flaw = rng.pick(Flaw::ALL);
    flawed_machine(rng, flaw)
}

/// A valid machine with a few fields overwritten: it may or may not be valid.
pub fn shaken_machine(rng: &mut Rng) -> (Machine, Vec<u64>) {
    let (mut m, mem) = valid_machine(rng);
    for _ in 0..1 + rng.below(3) {
        shake(rng, &mut m, mem.len());
    }
    (m, mem)
}

/// Overwrites a field of some thread record.
fn shake(rng: &mut Rng, m: &mut Machine, len: usize) {
    let l = line(rng, len / LINE + 1) & 255;
    let index = rng.below(len + 2) as u32;
    let word = value(rng);
    let tidy = rng.flag();
    let level = if tidy { level(rng) } else { 0 };
    let address = if tidy { word & !3 } else { word };
    let t = &mut m.threads[rng.below(THREADS)];
    match rng.below(21) {
        0 => t.live.gpr[rng.below(32)] = word,
        1 => t.live.cr[rng.below(7)] = rng.byte() & 31,
        2 => t.checkpoint.cr[rng.below(7)] = rng.byte() & 31,
        3 => t.cr0 = rng.byte() & 31,
        4 => t.nia = address,
        5 => t.tfhar = address,
        6 => t.pr = !t.pr,
        7 => t.state = rng.pick([State::N, State::T, State::S]),
        8 => t.doomed = !t.doomed,
        9 => t.texasr = word,
        10 => t.texasr = t.texasr & !texasr::TL | level,
        11 => t.texasr ^= texasr::FS,
        12 => t.reads.insert(l),
        13 => t.writes.insert(l),
        14 => t.srr0 = word,
        15 => t.srr1 = word,
        16 => {
            let marks = marks(rng);
            let value = if tidy { word & mask(marks) } else { word };
            let entry = Entry {
                index,
                marks,
                value,
            };
            add_place(t, entry, tidy);
        }
        17 => mark_place(rng, t, tidy),
        18 => t.log[rng.below(LOG)].marks = rng.byte(),
        19 => t.log[rng.below(LOG)].value = word,
        _ => drop_place(t, tidy),
    }
}

/// Adds a place to the log, if it is not full; a tidy one has its line in the
/// write set.
fn add_place(t: &mut Thread, entry: Entry, tidy: bool) {
    if let Some(place) = t.log.get_mut(t.count) {
        *place = entry;
        t.count += 1;
        if tidy {
            t.writes.insert(entry.index as usize / LINE);
        }
    }
}

/// Gives a used place other marks; a tidy one keeps no byte without a mark.
fn mark_place(rng: &mut Rng, t: &mut Thread, tidy: bool) {
    let at = rng.below(t.count.min(LOG));
    let entry = &mut t.log[at];
    let any = rng.byte();
    entry.marks = if tidy { marks(rng) } else { any };
    if tidy {
        entry.value &= mask(entry.marks);
    }
}

/// Takes the last place from the log; a tidy one is left zero.
fn drop_place(t: &mut Thread, tidy: bool) {
    t.count = t.count.saturating_sub(1);
    if let Some(place) = t.log.get_mut(t.count).filter(|_| tidy) {
        *place = Entry::ZERO;
    }
}
