//! A thread in plain values, from a thread record and back.

use std::collections::BTreeSet;

use crate::machine::{Entry, LineSet, Registers};
use crate::{State, Thread};

#[derive(Clone)]
pub struct Plain {
    pub live: Registers,
    pub cr0: u8,
    pub checkpoint: Registers,
    pub nia: u64,
    pub pr: bool,
    pub tm: bool,
    pub state: State,
    pub doomed: bool,
    pub tfhar: u64,
    pub tfiar: u64,
    pub srr0: u64,
    pub srr1: u64,
    pub cause: u32,
    pub lower: Lower,
    pub reads: BTreeSet<u32>,
    pub writes: BTreeSet<u32>,
    pub log: Vec<(u32, Bytes)>,
}

/// Eight bytes, byte 0 the highest; of a log place those that were stored.
pub type Bytes = [Option<u8>; 8];

/// The lower half of TEXASR in parts; `rest` is what no rule names.
#[derive(Clone)]
pub struct Lower {
    pub suspended: bool,
    pub pr: bool,
    pub fs: bool,
    pub exact: bool,
    pub rot: bool,
    pub tl: u32,
    pub rest: u32,
}

/// Bit `n` of TEXASR, 32 to 63, in its lower half.
fn at(n: u32) -> u32 {
    1 << (63 - n)
}

impl Lower {
    pub fn from(x: u32) -> Lower {
        let named = at(32) | at(35) | at(36) | at(37) | at(38) | 0xFFF;
        Lower {
            suspended: x & at(32) != 0,
            pr: x & at(35) != 0,
            fs: x & at(36) != 0,
            exact: x & at(37) != 0,
            rot: x & at(38) != 0,
            tl: x & 0xFFF,
            rest: x & !named,
        }
    }

    pub fn join(&self) -> u32 {
        let mut x = self.rest | self.tl;
        for (on, bit) in [
            (self.suspended, 32),
            (self.pr, 35),
            (self.fs, 36),
            (self.exact, 37),
            (self.rot, 38),
        ] {
            if on {
                x |= at(bit);
            }
        }
        x
    }
}

fn lines(set: &LineSet) -> BTreeSet<u32> {
    let mut lines = BTreeSet::new();
    for l in 0..256u32 {
        if set.0[l as usize / 64] & (1 << (l % 64)) != 0 {
            lines.insert(l);
        }
    }
    lines
}

fn set(lines: &BTreeSet<u32>) -> LineSet {
    let mut words = [0u64; 4];
    for &l in lines {
        words[l as usize / 64] |= 1 << (l % 64);
    }
    LineSet(words)
}

/// The bytes of a log place that have a mark.
fn stored(e: &Entry) -> Bytes {
    let mut bytes = [None; 8];
    for (k, byte) in e.value.to_be_bytes().into_iter().enumerate() {
        let weight = 2u32.pow(7 - k as u32);
        if u32::from(e.marks) / weight % 2 == 1 {
            bytes[k] = Some(byte);
        }
    }
    bytes
}

/// The log place with these bytes; those that were not stored are 0.
fn entry(index: u32, bytes: &Bytes) -> Entry {
    let (mut marks, mut value) = (0, 0);
    for (k, byte) in bytes.iter().enumerate() {
        if let Some(byte) = *byte {
            marks += 2u8.pow(7 - k as u32);
            value += u64::from(byte) * 2u64.pow(56 - 8 * k as u32);
        }
    }
    Entry {
        index,
        marks,
        value,
    }
}

impl Plain {
    pub fn from(t: &Thread) -> Plain {
        Plain {
            live: t.live,
            cr0: t.cr0,
            checkpoint: t.checkpoint,
            nia: t.nia,
            pr: t.pr,
            tm: t.tm,
            state: t.state,
            doomed: t.doomed,
            tfhar: t.tfhar,
            tfiar: t.tfiar,
            srr0: t.srr0,
            srr1: t.srr1,
            cause: (t.texasr >> 32) as u32,
            lower: Lower::from(t.texasr as u32),
            reads: lines(&t.reads),
            writes: lines(&t.writes),
            log: t.log[..t.count]
                .iter()
                .map(|e| (e.index, stored(e)))
                .collect(),
        }
    }

    pub fn join(&self) -> Thread {
        let mut log = [Entry::ZERO; 64];
        for (place, (index, bytes)) in log.iter_mut().zip(&self.log) {
            *place = entry(*index, bytes);
        }
        Thread {
            live: self.live,
            cr0: self.cr0,
            checkpoint: self.checkpoint,
            nia: self.nia,
            pr: self.pr,
            tm: self.tm,
            state: self.state,
            doomed: self.doomed,
            tfhar: self.tfhar,
            tfiar: self.tfiar,
            srr0: self.srr0,
            srr1: self.srr1,
            texasr: u64::from(self.cause) << 32 | u64::from(self.lower.join()),
            reads: set(&self.reads),
            writes: set(&self.writes),
            count: self.log.len(),
            log,
        }
    }

    pub fn ts(&self) -> (u8, u8) {
        match self.state {
            State::N => (0, 0),
            State::T => (1, 0),
            State::S => (0, 1),
        }
    }

    pub fn empty(&mut self) {
        self.reads.clear();
        self.writes.clear();
        self.log.clear();
    }

    pub fn live_transaction(&self) -> bool {
        self.state == State::T || (self.state == State::S && !self.doomed)
    }

    pub fn record(&mut self, cause: u32, own: bool, address: u64) -> bool {
        if self.lower.fs {
            return false;
        }
        self.cause = cause;
        self.lower = Lower {
            suspended: self.state == State::S,
            pr: self.pr,
            fs: true,
            exact: own,
            rot: self.lower.rot,
            tl: self.lower.tl,
            rest: 0,
        };
        self.tfiar = address / 4 * 4 + if self.pr { 1 } else { 0 };
        self.doomed = true;
        self.empty();
        true
    }

    pub fn handle(&mut self) {
        self.live.gpr = self.checkpoint.gpr;
        self.live.cr = self.checkpoint.cr;
        self.cr0 = 0b1010;
        self.nia = self.tfhar;
        self.state = State::N;
        self.doomed = false;
    }

    pub fn lines(&self) -> BTreeSet<u32> {
        self.reads.union(&self.writes).copied().collect()
    }

    pub fn logged(&self, index: u32) -> Option<usize> {
        self.log.iter().position(|&(i, _)| i == index)
    }
}
