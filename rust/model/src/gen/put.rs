//! Putting a flaw into a valid machine.

use super::flaws::Flaw;
use super::rng::Rng;
use crate::machine::{
    mask, texasr, valid, Entry, LineSet, Machine, State, Thread, ALL_BYTES, LINE, LOG,
    MAX_FOOTPRINT,
};

impl Flaw {
    /// Puts the flaw, as alone as can be, into a valid machine. False, and
    /// nothing changed, if this machine gives no place for it.
    pub fn put(self, rng: &mut Rng, m: &mut Machine, mem: &mut Vec<u64>) -> bool {
        if !valid(m, mem.len()) {
            return false;
        }
        let len = mem.len();
        let at = Spot::draw(rng, m, len);
        let small = 1 + rng.below(3) as u64;
        let big = rng.pick([16, 17, 31, 32, 128, 240, 255]);
        let t = &mut m.threads[at.me];
        match self {
            Flaw::ThreadCount => m.count = rng.pick([0, 5, 6, 255, 256, 1 << 32, usize::MAX]),
            Flaw::MemoryLength => wrong_length(rng, mem),
            Flaw::LogCount => return log_count(rng, t),
            Flaw::UnusedPlace => return unused_place(rng, t, len),
            Flaw::PastCount => return past_count(rng, m),
            Flaw::NiaLowBits => t.nia |= small,
            Flaw::TfharLowBits => t.tfhar |= small,
            Flaw::Cr0Big => t.cr0 = big,
            Flaw::LiveCrBig => t.live.cr[rng.below(7)] = big,
            Flaw::CheckpointCrBig => t.checkpoint.cr[rng.below(7)] = big,
            Flaw::DoomedInN => return doomed(t, State::N),
            Flaw::DoomedInT => return doomed(t, State::T),
            Flaw::ReadsNotLive => return reads_not_live(t, at.free),
            Flaw::WritesNotLive => return log_not_live(t, at.free, true),
            Flaw::LogNotLive => return log_not_live(t, at.free, false),
            Flaw::FailedLive => return failed_live(t),
            Flaw::LevelLive => return level_live(t),
            Flaw::FootprintLive => return footprint_live(t, &at, len / LINE),
            Flaw::DoomedNotFailed => return doomed_not_failed(t),
            Flaw::IndexOutside => return index_outside(rng, t, len),
            Flaw::LineOutside => return line_outside(rng, t, len / LINE),
            Flaw::SameIndex => return same_index(rng, t),
            Flaw::LineNotLogged => return line_not_logged(t, at.free),
            Flaw::IndexNotWritten => return index_not_written(rng, t, at.free),
            Flaw::WriteAgainstRead => return write_against(rng, m, &at, false),
            Flaw::WriteAgainstWrite => return write_against(rng, m, &at, true),
            Flaw::NoMark => return no_mark(rng, t),
            Flaw::UnmarkedByte => return unmarked_byte(rng, t),
            Flaw::UnusedMark => return unused_mark(rng, t),
        }
        true
    }
}

/// Where a flaw goes.
struct Spot {
    me: usize,
    other: usize,
    /// The lines that any thread has.
    held: LineSet,
    /// A line that no thread has.
    free: Option<usize>,
}

impl Spot {
    fn draw(rng: &mut Rng, m: &Machine, len: usize) -> Spot {
        let lines = len / LINE;
        let me = rng.below(m.count);
        let other = rng.below(m.count);
        let held = m.threads.iter().fold(LineSet::EMPTY, |set, t| {
            set.union(&t.reads).union(&t.writes)
        });
        let free = (0..lines)
            .map(|l| (l + me * 7) % lines)
            .find(|&l| !held.contains(l));
        Spot {
            me,
            other,
            held,
            free,
        }
    }
}

fn wrong_length(rng: &mut Rng, mem: &mut Vec<u64>) {
    let ragged = mem.len() + 1 + rng.below(LINE - 1);
    let len = rng.pick([0, 1, 8, 15, 17, ragged, 4095, 4097, 4112, 8192]);
    mem.resize(len, 7);
}

fn log_count(rng: &mut Rng, t: &mut Thread) -> bool {
    // From a full log, mostly: there every used place is sound.
    if t.count < LOG && !rng.one_in(16) {
        return false;
    }
    t.count = rng.pick([65, 66, 128, 256, 1 << 32, usize::MAX]);
    true
}

fn unused_place(rng: &mut Rng, t: &mut Thread, len: usize) -> bool {
    let Some(e) = last_or_any(rng, &mut t.log[t.count..]) else {
        return false;
    };
    match rng.below(3) {
        0 => e.index = 1 + rng.below(len) as u32,
        1 => e.value = rng.bits() | 1,
        _ => e.value = 1 << rng.below(64),
    }
    true
}

fn unused_mark(rng: &mut Rng, t: &mut Thread) -> bool {
    let Some(e) = last_or_any(rng, &mut t.log[t.count..]) else {
        return false;
    };
    e.marks = rng.pick([1, 0x80, 0x0F, ALL_BYTES]);
    true
}

fn no_mark(rng: &mut Rng, t: &mut Thread) -> bool {
    let Some(e) = last_or_any(rng, &mut t.log[..t.count]) else {
        return false;
    };
    (e.marks, e.value) = (0, 0);
    true
}

fn unmarked_byte(rng: &mut Rng, t: &mut Thread) -> bool {
    let Some(e) = last_or_any(rng, &mut t.log[..t.count]) else {
        return false;
    };
    // Take one mark away where there is none missing.
    if e.marks == ALL_BYTES {
        e.marks ^= 1 << rng.below(8);
        e.value &= mask(e.marks);
    }
    let unmarked: Vec<u64> = (0..64)
        .map(|n| 1 << n)
        .filter(|bit| bit & mask(e.marks) == 0)
        .collect();
    e.value |= unmarked[rng.below(unmarked.len())];
    true
}

/// A place that is sound in itself.
fn sound_place(index: usize) -> Entry {
    Entry {
        index: index as u32,
        marks: ALL_BYTES,
        value: 5,
    }
}

fn past_count(rng: &mut Rng, m: &mut Machine) -> bool {
    let Some(t) = last_or_any(rng, &mut m.threads[m.count..]) else {
        return false;
    };
    taint(rng, t);
    true
}

fn doomed(t: &mut Thread, state: State) -> bool {
    if t.state != state {
        return false;
    }
    t.doomed = true;
    if state == State::N {
        // A doomed S would have FS = 1: let the state alone decide.
        t.texasr |= texasr::FS;
    }
    true
}

fn reads_not_live(t: &mut Thread, free: Option<usize>) -> bool {
    let Some(l) = free.filter(|_| !t.is_live()) else {
        return false;
    };
    t.reads.insert(l);
    true
}

fn log_not_live(t: &mut Thread, free: Option<usize>, with_its_line: bool) -> bool {
    let Some(l) = free.filter(|_| !t.is_live()) else {
        return false;
    };
    t.count = 1;
    t.log[0] = sound_place(l * LINE);
    if with_its_line {
        t.writes.insert(l);
    }
    true
}

fn failed_live(t: &mut Thread) -> bool {
    if !t.is_live() {
        return false;
    }
    t.texasr |= texasr::FS;
    true
}

fn level_live(t: &mut Thread) -> bool {
    if !t.is_live() {
        return false;
    }
    t.texasr &= !texasr::TL;
    true
}

fn footprint_live(t: &mut Thread, at: &Spot, lines: usize) -> bool {
    if !t.is_live() {
        return false;
    }
    let before = t.reads;
    for l in 0..lines {
        if t.footprint() <= MAX_FOOTPRINT && !at.held.contains(l) {
            t.reads.insert(l);
        }
    }
    if t.footprint() <= MAX_FOOTPRINT {
        t.reads = before;
        return false;
    }
    true
}

fn doomed_not_failed(t: &mut Thread) -> bool {
    if t.state != State::S || !t.doomed {
        return false;
    }
    t.texasr &= !texasr::FS;
    true
}

fn index_outside(rng: &mut Rng, t: &mut Thread, len: usize) -> bool {
    if !t.is_live() || t.count >= LOG || t.footprint() >= MAX_FOOTPRINT {
        return false;
    }
    let i = len + rng.pick([0, 1, 16, 4096, 1 << 20]);
    let i = rng.pick([i as u32, i as u32, u32::MAX]);
    t.log[t.count] = sound_place(i as usize);
    t.count += 1;
    t.writes.insert(i as usize / LINE);
    true
}

fn line_outside(rng: &mut Rng, t: &mut Thread, lines: usize) -> bool {
    if !t.is_live() || lines >= 256 || t.footprint() >= MAX_FOOTPRINT {
        return false;
    }
    let any = lines + rng.below(256 - lines);
    t.reads.insert(rng.pick([lines, 255, any]));
    true
}

fn same_index(rng: &mut Rng, t: &mut Thread) -> bool {
    if t.count == 0 || t.count >= LOG {
        return false;
    }
    let i = t.log[rng.below(t.count)].index;
    t.log[t.count] = sound_place(i as usize);
    t.count += 1;
    true
}

fn line_not_logged(t: &mut Thread, free: Option<usize>) -> bool {
    let Some(l) = free.filter(|_| t.is_live() && t.footprint() < MAX_FOOTPRINT) else {
        return false;
    };
    t.writes.insert(l);
    true
}

fn index_not_written(rng: &mut Rng, t: &mut Thread, free: Option<usize>) -> bool {
    let Some(l) = free.filter(|_| t.is_live() && t.count < LOG) else {
        return false;
    };
    t.log[t.count] = sound_place(l * LINE + rng.below(LINE));
    t.count += 1;
    true
}

/// Gives a line that one thread writes to another, which reads or writes it.
fn write_against(rng: &mut Rng, m: &mut Machine, at: &Spot, write: bool) -> bool {
    let t = &m.threads[at.me];
    let Some(l) = (0..256).find(|&l| t.writes.contains(l)) else {
        return false;
    };
    let o = &mut m.threads[at.other];
    if at.other == at.me || !o.is_live() || o.count >= LOG || o.footprint() >= MAX_FOOTPRINT {
        return false;
    }
    if write {
        o.log[o.count] = sound_place(l * LINE + rng.below(LINE));
        o.count += 1;
        o.writes.insert(l);
    } else {
        o.reads.insert(l);
    }
    true
}

fn last_or_any<'a, T>(rng: &mut Rng, from: &'a mut [T]) -> Option<&'a mut T> {
    let n = from.len();
    let i = if rng.flag() {
        rng.below(n)
    } else {
        n.saturating_sub(1)
    };
    from.get_mut(i)
}

/// Puts something other than zero into one field of a zero record.
fn taint(rng: &mut Rng, t: &mut Thread) {
    let bit = 1 << rng.below(64);
    let byte = 1 << rng.below(8);
    match rng.below(22) {
        0 => t.live.gpr[rng.below(32)] = bit,
        1 => t.live.cr[rng.below(7)] = byte,
        2 => t.cr0 = byte,
        3 => t.checkpoint.gpr[rng.below(32)] = bit,
        4 => t.checkpoint.cr[rng.below(7)] = byte,
        5 => t.nia = bit,
        6 => t.pr = true,
        7 => t.tm = true,
        8 => t.state = State::T,
        9 => t.state = State::S,
        10 => t.doomed = true,
        11 => t.tfhar = bit,
        12 => t.tfiar = bit,
        13 => t.texasr = bit,
        14 => t.srr0 = bit,
        15 => t.srr1 = bit,
        16 => t.reads.0[rng.below(4)] = bit,
        17 => t.writes.0[rng.below(4)] = bit,
        18 => t.count = rng.pick([1, 64, 65, usize::MAX]),
        19 => t.log[rng.below(LOG)].index = 1 << rng.below(32),
        20 => t.log[rng.below(LOG)].marks = byte,
        _ => t.log[rng.below(LOG)].value = bit,
    }
}
