//! Rules M1 to M17, the state, and V1 to V15, what makes it valid.

/// Doublewords in a line.
pub const LINE: usize = 16;
/// Lines in a page (rule M16).
pub const PAGE: usize = 32;
/// The longest memory, in doublewords.
pub const MAX_MEMORY: usize = 4096;
/// Thread records in a machine.
pub const THREADS: usize = 4;
/// Places in a log.
pub const LOG: usize = 64;
/// The marks of a doubleword of which every byte was stored (rule M11).
pub const ALL_BYTES: u8 = 0xFF;
/// The most lines in a live transaction's footprint.
pub const MAX_FOOTPRINT: u32 = 32;
/// The highest level of a transaction (rules V9 and E1): TL has 12 bits and
/// holds no more.
pub const MAX_LEVEL: u64 = 4095;

/// Fields of TEXASR; bit 0 is the top one.
pub mod texasr {
    /// Bit `n` counted from the highest.
    const fn bit(n: u32) -> u64 {
        1 << (63 - n)
    }
    pub const SUSPENDED: u64 = bit(32);
    pub const PR: u64 = bit(35);
    pub const FS: u64 = bit(36);
    pub const EXACT: u64 = bit(37);
    pub const ROT: u64 = bit(38);
    pub const TL: u64 = 0xFFF;
}

/// What SRR1 keeps of the machine state, and what rfid and mtmsrd ask for (rule
/// M15).
#[derive(Clone, Copy, PartialEq, Eq, Debug)]
pub struct Msr {
    /// The two bits TS as a number: 0 is N, 1 is S, 2 is T, and 3 is no state.
    pub ts: u8,
    pub tm: bool,
    pub pr: bool,
}

impl Msr {
    /// Bit 30, the lower one of TS.
    const TS: u32 = 63 - 30;
    const TM: u32 = 63 - 31;
    const PR: u32 = 63 - 49;

    /// What a value of SRR1 says. Its other bits mean nothing.
    #[inline]
    pub fn of(srr1: u64) -> Msr {
        Msr {
            ts: (srr1 >> Msr::TS & 3) as u8,
            tm: srr1 >> Msr::TM & 1 != 0,
            pr: srr1 >> Msr::PR & 1 != 0,
        }
    }

    /// The value of SRR1 that says this, its other bits 0.
    #[inline]
    pub fn bits(self) -> u64 {
        u64::from(self.ts) << Msr::TS
            | u64::from(self.tm) << Msr::TM
            | u64::from(self.pr) << Msr::PR
    }
}

/// The registers that a checkpoint keeps: CR field `n` is `cr[n - 1]`, for 1
/// to 7. CR0 is no part of it.
#[derive(Clone, Copy, PartialEq, Eq, Debug)]
pub struct Registers {
    pub gpr: [u64; 32],
    pub cr: [u8; 7],
}

impl Registers {
    pub const ZERO: Registers = Registers {
        gpr: [0; 32],
        cr: [0; 7],
    };
}

/// Non-transactional, transactional, suspended.
#[derive(Clone, Copy, PartialEq, Eq, Debug)]
pub enum State {
    N,
    T,
    S,
}

impl State {
    /// The two bits TS as a number (rule M7).
    #[inline]
    pub fn ts(self) -> u8 {
        match self {
            State::N => 0b00,
            State::T => 0b10,
            State::S => 0b01,
        }
    }
}

/// The bits of the marked bytes. The mark of byte k is bit 7 - k from the lowest
/// (rule M11), and the byte is 7 - k bytes from the lowest (rule M17): each bit of
/// the marks becomes the byte of its own place.
#[inline]
pub const fn mask(marks: u8) -> u64 {
    const EACH: u64 = 0x0101_0101_0101_0101;
    // A copy in each byte, of which byte n keeps bit n.
    let own = (marks as u64).wrapping_mul(EACH) & 0x8040_2010_0804_0201;
    // 0x7F more sets the highest bit of a byte that is not 0, and no carry leaves
    // it: a byte is at most 0x80.
    let highest = (own + 0x7F * EACH) & 0x80 * EACH;
    (highest >> 7) * 0xFF
}

/// One place of a log.
#[derive(Clone, Copy, PartialEq, Eq, Debug)]
pub struct Entry {
    pub index: u32,
    /// Which bytes were stored.
    pub marks: u8,
    pub value: u64,
}

impl Entry {
    pub const ZERO: Entry = Entry {
        index: 0,
        marks: 0,
        value: 0,
    };

    /// A doubleword of memory with the marked bytes of this place over it.
    #[inline]
    pub fn over(&self, doubleword: u64) -> u64 {
        if self.marks == ALL_BYTES {
            return self.value;
        }
        let mask = mask(self.marks);
        self.value & mask | doubleword & !mask
    }

    /// Rule V15: some byte was stored, and those that were not are 0.
    #[inline]
    fn is_well_marked(&self) -> bool {
        self.marks != 0 && self.value & !mask(self.marks) == 0
    }
}

/// One bit for each of 256 lines, line 0 the lowest bit of word 0.
#[derive(Clone, Copy, PartialEq, Eq, Debug)]
pub struct LineSet(pub [u64; 4]);

impl LineSet {
    pub const EMPTY: LineSet = LineSet([0; 4]);

    /// Whether the line, taken modulo 256, is in the set.
    #[inline]
    pub fn contains(&self, line: usize) -> bool {
        self.0[(line >> 6) & 3] >> (line & 63) & 1 != 0
    }

    /// Adds the line, taken modulo 256.
    #[inline]
    pub fn insert(&mut self, line: usize) {
        self.0[(line >> 6) & 3] |= 1 << (line & 63);
    }

    #[inline]
    pub fn is_empty(&self) -> bool {
        *self == LineSet::EMPTY
    }

    /// The number of lines in the set.
    #[inline]
    pub fn len(&self) -> u32 {
        self.0.iter().map(|w| w.count_ones()).sum()
    }

    #[inline]
    pub fn union(&self, other: &LineSet) -> LineSet {
        LineSet(std::array::from_fn(|i| self.0[i] | other.0[i]))
    }

    #[inline]
    pub fn meets(&self, other: &LineSet) -> bool {
        self.0.iter().zip(&other.0).any(|(a, b)| a & b != 0)
    }

    /// The set of the lines below `lines`.
    fn below(lines: usize) -> LineSet {
        LineSet(std::array::from_fn(|i| {
            match lines.saturating_sub(64 * i) {
                0 => 0,
                n @ 1..=63 => (1 << n) - 1,
                _ => u64::MAX,
            }
        }))
    }

    /// The lines of a page (rule M16); none past the last of 256.
    pub fn page(page: usize) -> LineSet {
        let mut lines = LineSet::EMPTY;
        for line in (0..256).filter(|line| line / PAGE == page) {
            lines.insert(line);
        }
        lines
    }

    #[inline]
    fn is_subset(&self, other: &LineSet) -> bool {
        self.0.iter().zip(&other.0).all(|(a, b)| a & !b == 0)
    }
}

/// One thread record. `count` is the number of log places in use.
#[derive(Clone, PartialEq, Eq, Debug)]
pub struct Thread {
    pub live: Registers,
    pub cr0: u8,
    pub checkpoint: Registers,
    pub nia: u64,
    pub pr: bool,
    pub tm: bool,
    pub state: State,
    pub doomed: bool,
    pub tfhar: u64,
    pub tfiar: u64,
    pub texasr: u64,
    pub srr0: u64,
    pub srr1: u64,
    pub reads: LineSet,
    pub writes: LineSet,
    pub count: usize,
    pub log: [Entry; LOG],
}

impl Thread {
    /// The record of a thread that is not there.
    pub const ZERO: Thread = Thread {
        live: Registers::ZERO,
        cr0: 0,
        checkpoint: Registers::ZERO,
        nia: 0,
        pr: false,
        tm: false,
        state: State::N,
        doomed: false,
        tfhar: 0,
        tfiar: 0,
        texasr: 0,
        srr0: 0,
        srr1: 0,
        reads: LineSet::EMPTY,
        writes: LineSet::EMPTY,
        count: 0,
        log: [Entry::ZERO; LOG],
    };

    /// The failure summary, FS.
    #[inline]
    pub fn failed(&self) -> bool {
        self.texasr & texasr::FS != 0
    }

    #[inline]
    pub fn rot(&self) -> bool {
        self.texasr & texasr::ROT != 0
    }

    /// The nesting level, TL.
    #[inline]
    pub fn level(&self) -> u64 {
        self.texasr & texasr::TL
    }

    /// Whether the thread has a live transaction.
    #[inline]
    pub fn is_live(&self) -> bool {
        match self.state {
            State::N => false,
            State::T => true,
            State::S => !self.doomed,
        }
    }

    /// How many lines the two sets have together.
    #[inline]
    pub fn footprint(&self) -> u32 {
        self.reads.union(&self.writes).len()
    }

    /// The clauses of a valid machine that speak of one thread.
    fn is_valid(&self, len: usize) -> bool {
        let Some((used, unused)) = self.log.split_at_checked(self.count) else {
            return false;
        };
        if unused.iter().any(|e| *e != Entry::ZERO) {
            return false;
        }
        if !used.iter().all(Entry::is_well_marked) {
            return false;
        }
        if self.nia & 3 != 0 || self.tfhar & 3 != 0 {
            return false;
        }
        let fields = self.live.cr.iter().chain(&self.checkpoint.cr);
        if self.cr0 > 15 || fields.into_iter().any(|&f| f > 15) {
            return false;
        }
        if self.is_live() {
            !self.doomed
                && !self.failed()
                && (1..=MAX_LEVEL).contains(&self.level())
                && self.footprint() <= MAX_FOOTPRINT
                && self.reads.is_subset(&LineSet::below(len / LINE))
                && lines_logged(used, len) == Some(self.writes)
        } else {
            self.reads.is_empty()
                && self.writes.is_empty()
                && self.count == 0
                && match self.state {
                    State::N => !self.doomed,
                    _ => self.failed(),
                }
        }
    }
}

/// The lines that have an index in the log, if the indices lie in memory and
/// are distinct.
fn lines_logged(log: &[Entry], len: usize) -> Option<LineSet> {
    let mut seen = [0u64; MAX_MEMORY / 64];
    let mut lines = LineSet::EMPTY;
    for e in log {
        let i = e.index as usize;
        if i >= len {
            return None;
        }
        let word = seen.get_mut(i / 64)?;
        let bit = 1 << (i % 64);
        if *word & bit != 0 {
            return None;
        }
        *word |= bit;
        lines.insert(i / LINE);
    }
    Some(lines)
}

/// A machine: `count` threads, the first of four records.
#[derive(Clone, PartialEq, Eq, Debug)]
pub struct Machine {
    pub count: usize,
    pub threads: [Thread; THREADS],
}

impl Machine {
    /// The fresh machine; its memory is 4,096 doublewords of zero.
    pub fn fresh() -> Machine {
        const FRESH: Thread = Thread {
            pr: true,
            tm: true,
            ..Thread::ZERO
        };
        Machine {
            count: THREADS,
            threads: [FRESH; THREADS],
        }
    }

    /// Whether the thread count and the memory length are ones that a machine
    /// may have (the number 1 of rule N1).
    #[inline]
    pub fn shape_fits(&self, len: usize) -> bool {
        (1..=THREADS).contains(&self.count) && (LINE..=MAX_MEMORY).contains(&len) && len % LINE == 0
    }
}

/// Whether the machine is valid with a memory of `len` doublewords. False too
/// where the memory length or the thread count is none that a machine has.
pub fn valid(m: &Machine, len: usize) -> bool {
    if !m.shape_fits(len) {
        return false;
    }
    let Some((threads, past)) = m.threads.split_at_checked(m.count) else {
        return false;
    };
    if past.iter().any(|t| *t != Thread::ZERO) {
        return false;
    }
    if !threads.iter().all(|t| t.is_valid(len)) {
        return false;
    }
    // No line written by one thread is in the sets of another. A line that
    // an earlier thread has, or that it writes, is gathered as we go.
    let mut held = LineSet::EMPTY;
    let mut written = LineSet::EMPTY;
    for t in threads {
        if t.writes.meets(&held) || t.reads.meets(&written) {
            return false;
        }
        held = held.union(&t.reads).union(&t.writes);
        written = written.union(&t.writes);
    }
    true
}
