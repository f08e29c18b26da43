//! Valid machines and their memories.

use super::rng::{marks, srr1, value, Rng};
use crate::machine::{
    mask, texasr, Entry, LineSet, Machine, Registers, State, Thread, LINE, LOG, MAX_FOOTPRINT,
    MAX_LEVEL, MAX_MEMORY, PAGE, THREADS,
};

/// An instruction address: a multiple of 4.
fn address(rng: &mut Rng) -> u64 {
    let any = value(rng);
    rng.pick([0, 0x1000, 0x1008, u64::MAX, any]) & !3
}

fn registers(rng: &mut Rng) -> Registers {
    Registers {
        gpr: std::array::from_fn(|_| value(rng)),
        cr: std::array::from_fn(|_| rng.byte() & 15),
    }
}

/// A memory length that a machine may have.
pub fn length(rng: &mut Rng) -> usize {
    let any = LINE * (1 + rng.below(MAX_MEMORY / LINE));
    rng.pick([
        LINE,
        2 * LINE,
        8 * LINE,
        PAGE * LINE,
        33 * LINE,
        64 * LINE,
        MAX_MEMORY,
        MAX_MEMORY,
        any,
    ])
}

/// A memory of this length.
pub fn memory(rng: &mut Rng, len: usize) -> Vec<u64> {
    (0..len).map(|_| value(rng)).collect()
}

/// A line of a memory, often one of the first few, so that threads meet.
pub(super) fn line(rng: &mut Rng, lines: usize) -> usize {
    if rng.flag() {
        rng.below(lines.min(6))
    } else {
        rng.below(lines)
    }
}

/// The last line of a page, or the first of the next, if they are in memory.
fn line_at_border(rng: &mut Rng, lines: usize) -> usize {
    let border = PAGE * (1 + rng.below(lines.div_ceil(PAGE)));
    (border - rng.below(2)).min(lines - 1)
}

/// Gives a live transaction its sets. `held` and `written` are the lines that
/// other threads have, and those that they write.
fn fill_sets(rng: &mut Rng, t: &mut Thread, len: usize, held: &LineSet, written: &LineSet) {
    let lines = len / LINE;
    let some = rng.below(MAX_FOOTPRINT as usize + 1);
    let full = MAX_FOOTPRINT as usize;
    // Now and then a transaction has a few lines at the borders of pages alone.
    let at_borders = rng.one_in(5);
    let goal = match at_borders {
        true => 1 + rng.below(3),
        false => rng.pick([0, 1, 2, 3, 6, some, full - 1, full, full, full, full]),
    } as u32;
    let writing = rng.pick([0, 1, 1, 2, 3, 4]);
    let draw = if at_borders { line_at_border } else { line };
    for _ in 0..400 {
        let l = draw(rng, lines);
        let mine = t.reads.contains(l) || t.writes.contains(l);
        if !mine && t.footprint() >= goal {
            // Keep trying: a line may still join its other set.
            if rng.one_in(8) {
                break;
            }
            continue;
        }
        if rng.below(4) < writing && !held.contains(l) {
            t.writes.insert(l);
        } else if !written.contains(l) {
            t.reads.insert(l);
        }
    }
}

/// Gives a live transaction a log that fits its write set.
fn fill_log(rng: &mut Rng, t: &mut Thread, lines: usize) {
    let written: Vec<usize> = (0..lines).filter(|&l| t.writes.contains(l)).collect();
    let mut indices: Vec<usize> = written
        .iter()
        .map(|&l| l * LINE + rng.below(LINE))
        .collect();
    if !written.is_empty() {
        let some = rng.below(LOG + 1);
        let goal = rng
            .pick([0, 0, some, LOG - 1, LOG, LOG])
            .min(LINE * written.len());
        while indices.len() < goal {
            let i = written[rng.below(written.len())] * LINE + rng.below(LINE);
            if !indices.contains(&i) {
                indices.push(i);
            }
        }
    }
    // Any order may be that of first stores.
    for i in (1..indices.len()).rev() {
        indices.swap(i, rng.below(i + 1));
    }
    t.count = indices.len();
    for (place, i) in t.log.iter_mut().zip(indices) {
        let marks = marks(rng);
        *place = Entry {
            index: i as u32,
            marks,
            value: value(rng) & mask(marks),
        };
    }
}

/// A thread in N with TEXASR zero.
fn thread_in_n(rng: &mut Rng) -> Thread {
    Thread {
        live: registers(rng),
        cr0: rng.byte() & 15,
        checkpoint: registers(rng),
        nia: address(rng),
        pr: rng.flag(),
        tm: !rng.one_in(8),
        tfhar: address(rng),
        tfiar: value(rng),
        srr0: value(rng),
        srr1: srr1(rng),
        ..Thread::ZERO
    }
}

/// Takes a thread in N to any of N, T, S live and S doomed, with a TEXASR,
/// sets and a log that are valid there. `held` and `written` are as above.
fn put_state(rng: &mut Rng, t: &mut Thread, len: usize, held: &LineSet, written: &LineSet) {
    let bits = value(rng);
    let any = rng.pick([0, 0, bits]);
    match rng.below(4) {
        0 => {
            let failed = rng.flag();
            t.texasr = if failed { any | texasr::FS } else { any };
        }
        1 => {
            t.state = State::S;
            t.doomed = true;
            t.texasr = any | texasr::FS;
        }
        class => {
            t.state = if class == 2 { State::T } else { State::S };
            t.texasr = live_texasr(rng, any);
            fill_sets(rng, t, len, held, written);
            fill_log(rng, t, len / LINE);
        }
    }
    // An interrupt leaves T for S and turns the facility off.
    if t.state == State::S && rng.one_in(3) {
        t.tm = false;
    }
}

/// The level of a live transaction: often the highest or near it, where a
/// tbegin. overflows or just does not (rule E1), and often 1 or 2, where a
/// tend. commits or just does not (rule E2). Else one from which a tbegin.
/// carries up to the next power of two, or any.
pub(super) fn level(rng: &mut Rng) -> u64 {
    let near = MAX_LEVEL - 2 - rng.below(4) as u64;
    let carries = MAX_LEVEL >> rng.below(12);
    let any = 1 + rng.below(MAX_LEVEL as usize) as u64;
    let some = rng.pick([carries, any]);
    let top = MAX_LEVEL;
    rng.pick([1, 1, 1, 1, 2, top, top, top - 1, near, some])
}

/// The TEXASR of a live transaction, its other bits from `any`.
fn live_texasr(rng: &mut Rng, any: u64) -> u64 {
    let level = level(rng);
    let rot = rng.pick([0, 0, texasr::ROT]);
    any & !(texasr::FS | texasr::ROT | texasr::TL) | rot | level
}

/// A valid machine for a memory of this length, which is one that a machine
/// may have.
pub fn machine(rng: &mut Rng, len: usize) -> Machine {
    let count = rng.pick([1, 2, 2, 3, 4, 4]);
    let mut m = Machine {
        count,
        threads: [Thread::ZERO; THREADS],
    };
    let mut held = LineSet::EMPTY;
    let mut written = LineSet::EMPTY;
    // The threads take lines in turn; any of them may be first.
    let first = rng.below(count);
    for turn in 0..count {
        let t = &mut m.threads[(first + turn) % count];
        *t = thread_in_n(rng);
        put_state(rng, t, len, &held, &written);
        held = held.union(&t.reads).union(&t.writes);
        written = written.union(&t.writes);
    }
    m
}

/// A valid machine and its memory.
pub fn valid_machine(rng: &mut Rng) -> (Machine, Vec<u64>) {
    let len = length(rng);
    let m = machine(rng, len);
    let mem = memory(rng, len);
    (m, mem)
}
