//! Rules A0 to A5 and A7: events 12, 13 and 20 to 25.

use super::failures::cause;
use super::refusals::narrow_access;
use super::Went;
use crate::machine::{Entry, Machine, State, Thread, ALL_BYTES, LINE, LOG, MAX_FOOTPRINT, THREADS};

/// The bytes of an access: some of one doubleword (rule M17).
#[derive(Clone, Copy)]
pub(super) struct Bytes {
    index: u32,
    marks: u8,
    /// The largest number that they can make.
    most: u64,
    /// The weight of that number's bit 1 in the doubleword, as a power of two.
    shift: u32,
}

impl Bytes {
    /// All eight of a doubleword.
    #[inline(always)]
    pub(super) fn all(index: u32) -> Bytes {
        Bytes {
            index,
            marks: ALL_BYTES,
            most: u64::MAX,
            shift: 0,
        }
    }

    /// 1, 2 or 4 at a byte address that is a multiple of that.
    #[inline(always)]
    fn at(address: u32, width: u32) -> Bytes {
        let after = 8 - width - address % 8;
        Bytes {
            index: address / 8,
            marks: ALL_BYTES >> (8 - width) << after,
            most: u64::MAX >> (64 - 8 * width),
            shift: 8 * after,
        }
    }

    #[inline(always)]
    fn line(self) -> usize {
        self.index as usize / LINE
    }

    /// The number that they make in a doubleword.
    #[inline(always)]
    fn of(self, doubleword: u64) -> u64 {
        doubleword >> self.shift & self.most
    }

    /// The doubleword with the low bytes of a register in their place.
    #[inline(always)]
    fn put(self, doubleword: u64, register: u64) -> u64 {
        doubleword & !(self.most << self.shift) | (register & self.most) << self.shift
    }
}

impl Thread {
    /// The place of the log that holds this doubleword. A line not in the
    /// write set has none.
    #[inline]
    fn place(&self, line: usize, index: u32) -> Option<usize> {
        if self.writes.contains(line) {
            self.log
                .iter()
                .take(self.count)
                .position(|e| e.index == index)
        } else {
            None
        }
    }

    /// Whether the line is in either of the thread's sets.
    #[inline]
    fn has_line(&self, line: usize) -> bool {
        self.reads.contains(line) || self.writes.contains(line)
    }

    /// Whether adding this line to a set would overflow the footprint.
    #[inline]
    fn line_overflows(&self, line: usize) -> bool {
        !self.has_line(line) && self.footprint() >= MAX_FOOTPRINT
    }

    /// A4 for a store in T: to its place in the log, or to a new one.
    #[inline(always)]
    fn log_store(&mut self, place: Option<usize>, bytes: Bytes, register: u64) {
        match place {
            Some(i) => {
                let e = &mut self.log[i];
                e.value = bytes.put(e.value, register);
                e.marks |= bytes.marks;
            }
            None => {
                if let Some(e) = self.log.get_mut(self.count) {
                    *e = Entry {
                        index: bytes.index,
                        marks: bytes.marks,
                        value: bytes.put(0, register),
                    };
                    self.count += 1;
                    self.writes.insert(bytes.line());
                }
            }
        }
    }
}

/// A3: the accessor wins. Gives who failed, a bit for each thread.
#[inline(always)]
fn fail_others(threads: &mut [Thread; THREADS], me: usize, line: usize, store: bool) -> u8 {
    let cause = match threads[me].state {
        State::T => cause::TRANSACTION,
        _ => cause::NON_TRANSACTIONAL,
    };
    let mut failed = 0;
    for (i, t) in threads.iter_mut().enumerate() {
        let hit = t.writes.contains(line) || store && t.reads.contains(line);
        if hit && i != me && t.is_live() {
            t.fail_by_other(cause);
            failed |= 1 << i;
        }
    }
    failed
}

/// A load, by A1, A3, A4. With all eight bytes it is event 12, and what it does
/// with shifts and masks falls away.
#[inline(always)]
pub(super) fn load(m: &mut Machine, mem: &[u64], me: usize, rt: u8, bytes: Bytes) -> Went {
    let line = bytes.line();
    let t = &mut m.threads[me];
    let joins = t.state == State::T && !t.rot();
    if joins && t.line_overflows(line) {
        return t.fail_in_t(cause::FOOTPRINT);
    }
    let others = fail_others(&mut m.threads, me, line, false);
    let t = &mut m.threads[me];
    let doubleword = mem.get(bytes.index as usize).copied().unwrap_or(0);
    let seen = match t.place(line, bytes.index) {
        Some(i) => t.log[i].over(doubleword),
        None => doubleword,
    };
    if joins {
        t.reads.insert(line);
    }
    t.set_gpr(rt, bytes.of(seen));
    let went = t.next();
    Went { others, ..went }
}

/// A store, by A1 to A4. With all eight bytes it is event 13.
#[inline(always)]
pub(super) fn store(m: &mut Machine, mem: &mut [u64], me: usize, ra: u8, bytes: Bytes) -> Went {
    let line = bytes.line();
    let t = &mut m.threads[me];
    let register = t.gpr(ra);
    if t.state == State::T {
        let place = t.place(line, bytes.index);
        if t.line_overflows(line) || place.is_none() && t.count >= LOG {
            return t.fail_in_t(cause::FOOTPRINT);
        }
        let others = fail_others(&mut m.threads, me, line, true);
        let t = &mut m.threads[me];
        t.log_store(place, bytes, register);
        let went = t.next();
        return Went { others, ..went };
    }
    let recorded = t.state == State::S && t.has_line(line) && t.record(cause::SELF_INDUCED, true);
    let others = fail_others(&mut m.threads, me, line, true);
    if let Some(doubleword) = mem.get_mut(bytes.index as usize) {
        *doubleword = bytes.put(*doubleword, register);
    }
    m.threads[me].next();
    let went = Went::in_s(recorded);
    Went { others, ..went }
}

/// Events 20 to 22: a load of 1, 2 or 4 bytes, or 4.
#[inline(never)]
pub(super) fn narrow_load(
    m: &mut Machine,
    mem: &[u64],
    me: usize,
    rt: u8,
    address: u32,
    width: u32,
) -> Result<Went, u8> {
    narrow_access(rt, address, width, mem)?;
    Ok(load(m, mem, me, rt, Bytes::at(address, width)))
}

/// Events 23 to 25: a store of 1, 2 or 4 bytes, or 4.
#[inline(never)]
pub(super) fn narrow_store(
    m: &mut Machine,
    mem: &mut [u64],
    me: usize,
    ra: u8,
    address: u32,
    width: u32,
) -> Result<Went, u8> {
    narrow_access(ra, address, width, mem)?;
    Ok(store(m, mem, me, ra, Bytes::at(address, width)))
}
