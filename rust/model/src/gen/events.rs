//! Events for a machine, and events with any operands.

use super::machines::line;
use super::rng::{msr, Rng};
use crate::machine::{Machine, Msr, Thread, ALL_BYTES, LINE, LOG, PAGE, THREADS};
use crate::tape::LAST_KIND;
use crate::Event;

fn register(rng: &mut Rng) -> u8 {
    let any = rng.byte();
    if rng.one_in(64) {
        rng.pick([32, 33, 64, 255, any])
    } else {
        rng.pick([0, 0, 1, 2, 3, 31, any & 31, any & 31])
    }
}

/// Some line of the thread's sets.
fn line_of(rng: &mut Rng, t: &Thread, lines: usize) -> Option<usize> {
    let both = t.reads.union(&t.writes);
    let from = rng.below(lines);
    (from..lines).chain(0..from).find(|&l| both.contains(l))
}

/// An index for an access by this thread: in its log, its lines, another
/// thread's lines, anywhere, and sometimes out of memory.
fn index(rng: &mut Rng, m: &Machine, len: usize, thread: u8) -> u32 {
    let lines = (len / LINE).max(1);
    let count = m.count.clamp(1, THREADS);
    let me = usize::from(thread) % count;
    let t = &m.threads[me];
    let o = &m.threads[(me + 1 + rng.below(count)) % count];
    let within = rng.below(LINE);
    let i = match rng.below(16) {
        0..=2 => {
            let used = &t.log[..t.count.min(LOG)];
            used.get(rng.below(used.len()))
                .map(|e| e.index as usize)
                .unwrap_or(within)
        }
        3..=5 => line_of(rng, t, lines).unwrap_or(0) * LINE + within,
        6..=8 => line_of(rng, o, lines).unwrap_or(0) * LINE + within,
        9..=10 => line(rng, lines) * LINE + within,
        11..=14 => rng.below(len),
        _ => {
            let any = rng.bits() as usize;
            rng.pick([
                len.saturating_sub(1),
                0,
                len,
                len + 1,
                u32::MAX as usize,
                any,
            ])
        }
    };
    i as u32
}

/// A byte address for an access of this width by this thread: mostly a multiple
/// of the width in the doubleword of an index as above, often in a place of the
/// log that is stored in part; now and then no multiple, and around the end of the
/// memory, in bytes and in doublewords.
fn address(rng: &mut Rng, m: &Machine, len: usize, thread: u8, width: u32) -> u32 {
    let partly = part_stored(rng, m, thread);
    let index = match partly.filter(|_| rng.one_in(4)) {
        Some(index) => index,
        None => index(rng, m, len, thread),
    };
    let within = rng.below(8) as u32;
    let any = index.wrapping_mul(8) | within;
    let end = (8 * len) as u32;
    match rng.below(32) {
        0 => any,
        1 => rng.pick([
            end.wrapping_sub(width),
            end.wrapping_sub(1),
            end,
            end.wrapping_add(width),
            len as u32,
            u32::MAX - width + 1,
            u32::MAX,
            any | 1 << 31,
        ]),
        _ => any - any % width,
    }
}

/// A doubleword that the thread's log has in part.
fn part_stored(rng: &mut Rng, m: &Machine, thread: u8) -> Option<u32> {
    let t = m.threads.get(usize::from(thread))?;
    let used = &t.log[..t.count.min(LOG)];
    let from = rng.below(used.len());
    let mut around = used[from..].iter().chain(&used[..from]);
    around.find(|e| e.marks != ALL_BYTES).map(|e| e.index)
}

/// The page beside one of the thread's lines that is at a border of its own.
fn page_beside(rng: &mut Rng, t: &Thread, lines: usize) -> Option<usize> {
    let both = t.reads.union(&t.writes);
    let from = rng.below(lines);
    let mut around = (from..lines).chain(0..from).filter(|&l| both.contains(l));
    around.find_map(|l| match l % PAGE {
        0 if l > 0 => Some(l / PAGE - 1),
        last if last == PAGE - 1 && l + 1 < lines => Some(l / PAGE + 1),
        _ => None,
    })
}

/// A page for a tlbie by this thread: one where a thread that is there, itself
/// or another, has a line, one beside it, any, the last, the first past the
/// memory, and ones whose first doubleword would be in memory if it wrapped.
fn page(rng: &mut Rng, m: &Machine, len: usize, thread: u8) -> u32 {
    let lines = (len / LINE).max(1);
    let pages = lines.div_ceil(PAGE);
    let count = m.count.clamp(1, THREADS);
    let me = usize::from(thread) % count;
    let own = line_of(rng, &m.threads[me], lines).unwrap_or(0) / PAGE;
    let other = &m.threads[(me + 1 + rng.below(count)) % count];
    let theirs = line_of(rng, other, lines).unwrap_or(0) / PAGE;
    let page = match rng.below(20) {
        0..=3 => own,
        4..=7 => theirs,
        8..=12 => page_beside(rng, &m.threads[me], lines).unwrap_or(own),
        13..=15 => page_beside(rng, other, lines).unwrap_or(theirs),
        16..=17 => rng.below(pages),
        18 => pages - 1,
        _ => {
            let any = rng.bits() as usize;
            let wraps = any << 23 | rng.below(pages);
            rng.pick([pages, pages, pages + 1, 8, wraps, u32::MAX as usize, any])
        }
    };
    page as u32
}

/// An event for this machine with a memory of `len`: mostly of a thread that
/// is there, with operands in range.
pub fn event(rng: &mut Rng, m: &Machine, len: usize) -> (u8, Event) {
    let count = m.count.clamp(1, THREADS);
    let any = rng.byte();
    let thread = if rng.one_in(48) {
        rng.pick([count as u8, 4, 255, any])
    } else {
        rng.below(count) as u8
    };
    let kind = rng.pick([
        1, 2, 3, 4, 5, 6, 7, 8, 9, 10, 11, 12, 13, 14, 15, 16, 17, 18, 19, 20, 21, 22, 23, 24, 25,
        26, 1, 2, 2, 6, 10, 12, 12, 13, 13, 13, 18, 18, 19, 19, 20, 21, 22, 23, 24, 25, 26, 26,
    ]);
    (thread, event_of(rng, m, len, thread, kind))
}

/// The operands that are no registers.
struct Fields {
    to: u8,
    bf: u8,
    spr: u8,
}

impl Fields {
    /// Mostly all in range, and now and then none of them surely so.
    fn draw(rng: &mut Rng) -> Fields {
        let any = rng.byte();
        if rng.one_in(48) {
            Fields {
                to: rng.pick([32, 33, 64, 255, any]),
                bf: rng.pick([8, 9, 255, any]),
                spr: rng.pick([0, 1, 25, 28, 127, 132, 255, any]),
            }
        } else {
            Fields {
                to: rng.pick([16, 8, 4, 2, 1, 0, 31, any & 31, any & 31]),
                bf: any & 7,
                spr: match any & 7 {
                    low @ 0..=1 => 26 + low,
                    low => 128 + (low & 3),
                },
            }
        }
    }
}

/// An event of this kind, 1 to 26, for this machine; other numbers give 26.
pub fn event_of(rng: &mut Rng, m: &Machine, len: usize, thread: u8, kind: u8) -> Event {
    // Drawn whatever the kind: coverage tables rest on the order of the draws.
    let Fields { to, bf, spr } = Fields::draw(rng);
    match kind {
        1 => Event::Tbegin { r: rng.flag() },
        2 => Event::Tend { a: rng.flag() },
        3 => Event::Tabort { ra: register(rng) },
        4 | 5 => conditional_abort(rng, to, kind == 5),
        6 => Event::Tsr { l: rng.flag() },
        7 => Event::Tcheck { bf },
        8 => Event::Treclaim { ra: register(rng) },
        9 => Event::Trechkpt,
        10 | 11 => special_register(rng, spr, kind == 11),
        12 | 13 => access(rng, m, len, thread, kind == 13),
        14 => addi(rng),
        15 => Event::Disallowed,
        16 => Event::Interrupt,
        17 => Event::Host {
            pr: rng.flag(),
            tm: rng.flag() || rng.flag(),
        },
        18 => Event::Rfid,
        19 => {
            let Msr { ts, tm, pr } = msr(rng);
            Event::Mtmsrd { ts, tm, pr }
        }
        20..=25 => narrow_access(rng, m, len, thread, kind),
        _ => Event::Tlbie {
            page: page(rng, m, len, thread),
        },
    }
}

/// tabortwc. or tabortdc.
fn conditional_abort(rng: &mut Rng, to: u8, doublewords: bool) -> Event {
    let ra = register(rng);
    let rb = register(rng);
    if doublewords {
        Event::Tabortdc { to, ra, rb }
    } else {
        Event::Tabortwc { to, ra, rb }
    }
}

/// mtspr or mfspr.
fn special_register(rng: &mut Rng, spr: u8, from: bool) -> Event {
    let r = register(rng);
    if from {
        Event::Mfspr { rt: r, spr }
    } else {
        Event::Mtspr { spr, ra: r }
    }
}

/// ld or std.
fn access(rng: &mut Rng, m: &Machine, len: usize, thread: u8, store: bool) -> Event {
    let r = register(rng);
    let index = index(rng, m, len, thread);
    if store {
        Event::Std { ra: r, index }
    } else {
        Event::Ld { rt: r, index }
    }
}

/// lbz, lhz, lwz, stb, sth or stw.
fn narrow_access(rng: &mut Rng, m: &Machine, len: usize, thread: u8, kind: u8) -> Event {
    let r = register(rng);
    let width = match kind {
        20 | 23 => 1,
        21 | 24 => 2,
        _ => 4,
    };
    narrow(kind, r, address(rng, m, len, thread, width))
}

/// The access of this kind, 20 to 25; other numbers give 25.
fn narrow(kind: u8, r: u8, address: u32) -> Event {
    match kind {
        20 => Event::Lbz { rt: r, address },
        21 => Event::Lhz { rt: r, address },
        22 => Event::Lwz { rt: r, address },
        23 => Event::Stb { ra: r, address },
        24 => Event::Sth { ra: r, address },
        _ => Event::Stw { ra: r, address },
    }
}

fn addi(rng: &mut Rng) -> Event {
    let si = rng.bits() as u16;
    Event::Addi {
        rt: register(rng),
        ra: register(rng),
        si: rng.pick([0, 1, 0x7FFF, 0x8000, 0xFFFF, si]),
    }
}

/// An event with any operands at all.
pub fn any_event(rng: &mut Rng) -> (u8, Event) {
    let [ra, x, rb, one, two, thread, ..] = rng.bits().to_be_bytes();
    let index = rng.bits() as u32;
    let si = rng.bits() as u16;
    let one = one & 1 != 0;
    let two = two & 1 != 0;
    let e = match 1 + rng.below(usize::from(LAST_KIND)) as u8 {
        1 => Event::Tbegin { r: one },
        2 => Event::Tend { a: one },
        3 => Event::Tabort { ra },
        4 => Event::Tabortwc { to: x, ra, rb },
        5 => Event::Tabortdc { to: x, ra, rb },
        6 => Event::Tsr { l: one },
        7 => Event::Tcheck { bf: x },
        8 => Event::Treclaim { ra },
        9 => Event::Trechkpt,
        10 => Event::Mtspr { spr: x, ra },
        11 => Event::Mfspr { rt: ra, spr: x },
        12 => Event::Ld { rt: ra, index },
        13 => Event::Std { ra, index },
        14 => Event::Addi { rt: ra, ra: x, si },
        15 => Event::Disallowed,
        16 => Event::Interrupt,
        17 => Event::Host { pr: one, tm: two },
        18 => Event::Rfid,
        19 => Event::Mtmsrd {
            ts: x & 3,
            tm: one,
            pr: two,
        },
        kind @ 20..=25 => narrow(kind, ra, index),
        _ => Event::Tlbie { page: index },
    };
    (thread, e)
}
