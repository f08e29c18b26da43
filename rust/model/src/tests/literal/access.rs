//! The sentences of rules A0 to A7, on threads in plain values.

use super::plain::Plain;
use super::rules::own_failure;
use crate::{Event, State};

pub fn access(threads: &mut [Plain], mem: &mut [u64], me: usize, e: Event, cia: u64) -> u8 {
    let Access {
        store,
        r,
        at,
        width,
    } = Access::of(e).expect("an access");
    let index = at / 8;
    let line = index as u32 / 16;
    let mut number = 0;
    // A1
    if overflows(&threads[me], store, index) {
        return own_failure(&mut threads[me], 0x0020_0000, cia);
    }
    // A2
    if threads[me].state == State::S && store && threads[me].lines().contains(&line) {
        number = own_failure(&mut threads[me], 0x0010_0000, cia);
    }
    // A3
    fail_others(threads, me, store, line);
    // A4
    if store {
        store_bytes(&mut threads[me], mem, r, at, width);
    } else {
        load_bytes(&mut threads[me], mem, r, at, width);
    }
    number
}

/// A load or a store with its register: so many bytes from a byte address on.
pub struct Access {
    pub store: bool,
    pub r: u8,
    /// A doubleword's index names its first byte, which may be past all addresses.
    pub at: u64,
    pub width: u64,
}

impl Access {
    pub fn of(e: Event) -> Option<Access> {
        let (store, r, at, width) = match e {
            Event::Ld { rt, index } => (false, rt, 8 * u64::from(index), 8),
            Event::Lbz { rt, address } => (false, rt, u64::from(address), 1),
            Event::Lhz { rt, address } => (false, rt, u64::from(address), 2),
            Event::Lwz { rt, address } => (false, rt, u64::from(address), 4),
            Event::Std { ra, index } => (true, ra, 8 * u64::from(index), 8),
            Event::Stb { ra, address } => (true, ra, u64::from(address), 1),
            Event::Sth { ra, address } => (true, ra, u64::from(address), 2),
            Event::Stw { ra, address } => (true, ra, u64::from(address), 4),
            _ => return None,
        };
        let access = Access {
            store,
            r,
            at,
            width,
        };
        Some(access)
    }
}

/// A byte of memory.
fn byte_of(mem: &[u64], at: u64) -> u8 {
    mem[(at / 8) as usize].to_be_bytes()[(at % 8) as usize]
}

/// Replaces one byte of memory.
pub fn put_byte(mem: &mut [u64], at: u64, byte: u8) {
    let doubleword = &mut mem[(at / 8) as usize];
    let mut bytes = doubleword.to_be_bytes();
    bytes[(at % 8) as usize] = byte;
    *doubleword = u64::from_be_bytes(bytes);
}

/// Event 26: in T disallowed, else A6 and the thread's own transaction.
pub fn tlbie(threads: &mut [Plain], me: usize, page: u32, cia: u64) -> u8 {
    if threads[me].state == State::T {
        return own_failure(&mut threads[me], 0x0080_0000, cia);
    }
    let has = |t: &Plain| t.lines().iter().any(|line| line / 32 == page);
    for n in 0..threads.len() {
        let t = &mut threads[n];
        if n != me && t.live_transaction() && has(t) {
            t.record(0x0002_0000, false, t.nia);
            if t.state == State::T {
                t.handle();
            }
        }
    }
    let t = &mut threads[me];
    if t.state == State::S && !t.doomed && has(t) {
        t.record(0x0002_0000, false, cia);
        return 21;
    }
    0
}

/// A1: the access needs a line or a place in the log that is not there.
fn overflows(t: &Plain, store: bool, index: u64) -> bool {
    if t.state != State::T {
        return false;
    }
    let adds_line = store || !t.lower.rot;
    let new_line = adds_line && !t.lines().contains(&(index as u32 / 16));
    let new_place = store && t.logged(index as u32).is_none();
    new_line && t.lines().len() == 32 || new_place && t.log.len() == 64
}

/// A3: the other threads whose transactions the access fails.
fn fail_others(threads: &mut [Plain], me: usize, store: bool, line: u32) {
    let in_t = threads[me].state == State::T;
    for (n, t) in threads.iter_mut().enumerate() {
        if n == me || !t.live_transaction() {
            continue;
        }
        if t.writes.contains(&line) || store && t.reads.contains(&line) {
            let address = t.nia;
            t.record(if in_t { 0x0004_0000 } else { 0x0008_0000 }, false, address);
            if t.state == State::T {
                t.handle();
            }
        }
    }
}

/// A4 for a store: byte by byte, the last one is the register's lowest.
fn store_bytes(t: &mut Plain, mem: &mut [u64], ra: u8, at: u64, width: u64) {
    let register = t.live.gpr[ra as usize];
    let bytes = (0..width).map(|n| (at + n, (register >> (8 * (width - 1 - n))) as u8));
    if t.state != State::T {
        for (at, byte) in bytes {
            put_byte(mem, at, byte);
        }
        return;
    }
    let index = (at / 8) as u32;
    let place = t.logged(index).unwrap_or_else(|| {
        t.log.push((index, [None; 8]));
        t.log.len() - 1
    });
    for (at, byte) in bytes {
        t.log[place].1[(at % 8) as usize] = Some(byte);
    }
    t.writes.insert(index / 16);
}

/// A4 for a load: each byte is the log's if it was stored there, else memory's.
fn load_bytes(t: &mut Plain, mem: &[u64], rt: u8, at: u64, width: u64) {
    let index = (at / 8) as u32;
    let place = t.logged(index);
    let mut number: u64 = 0;
    for at in at..at + width {
        let logged = place.and_then(|i| t.log[i].1[(at % 8) as usize]);
        number = number << 8 | u64::from(logged.unwrap_or_else(|| byte_of(mem, at)));
    }
    t.live.gpr[rt as usize] = number;
    if t.state == State::T && !t.lower.rot {
        t.reads.insert(index / 16);
    }
}
