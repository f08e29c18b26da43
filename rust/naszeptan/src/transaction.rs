//! What the line sets and the log of a transaction can be asked.

use std::fmt;

use crate::raw::{Entry, Lines, Transaction, ALL_MARKS, PLACES};
use crate::show::shown;

impl Lines {
    /// The set of no lines.
    pub const EMPTY: Lines = Lines { words: [0; 4] };

    /// Whether a line is in the set.
    pub const fn contains(&self, line: u8) -> bool {
        self.words[line as usize / 64] >> (line % 64) & 1 != 0
    }

    /// Adds a line.
    pub fn insert(&mut self, line: u8) {
        self.words[line as usize / 64] |= 1 << (line % 64);
    }

    /// Takes a line out.
    pub fn remove(&mut self, line: u8) {
        self.words[line as usize / 64] &= !(1 << (line % 64));
    }

    /// How many lines there are.
    pub fn len(&self) -> usize {
        self.words.iter().map(|w| w.count_ones() as usize).sum()
    }

    /// Whether there is no line.
    pub fn is_empty(&self) -> bool {
        self.words == [0; 4]
    }

    /// The lines, lowest first.
    pub fn iter(&self) -> impl Iterator<Item = u8> + '_ {
        (0..=u8::MAX).filter(|&line| self.contains(line))
    }

    /// The lines that are in this set, in the other or in both.
    pub fn union(&self, other: &Lines) -> Lines {
        Lines {
            words: std::array::from_fn(|i| self.words[i] | other.words[i]),
        }
    }
}

impl FromIterator<u8> for Lines {
    fn from_iter<I: IntoIterator<Item = u8>>(lines: I) -> Lines {
        let mut set = Lines::EMPTY;
        lines.into_iter().for_each(|line| set.insert(line));
        set
    }
}

impl fmt::Debug for Lines {
    fn fmt(&self, f: &mut fmt::Formatter<'_>) -> fmt::Result {
        f.debug_set().entries(self.iter()).finish()
    }
}

impl Entry {
    /// A place that is not used.
    pub const EMPTY: Entry = Entry {
        index: 0,
        marks: 0,
        value: 0,
    };

    /// Whether a byte of the doubleword was stored; byte 0 is the highest. There
    /// is none above 7.
    pub const fn is_stored(&self, byte: u8) -> bool {
        byte < 8 && self.marks << byte & 0x80 != 0
    }

    /// Whether all eight bytes were stored.
    pub const fn is_whole(&self) -> bool {
        self.marks == ALL_MARKS
    }

    /// What a load of the doubleword sees, and a commit leaves of it, where
    /// memory has this: the stored bytes over memory's.
    pub fn over(&self, memory: u64) -> u64 {
        let mut bytes = memory.to_be_bytes();
        for (byte, stored) in (0..).zip(self.value.to_be_bytes()) {
            if self.is_stored(byte) {
                bytes[usize::from(byte)] = stored;
            }
        }
        u64::from_be_bytes(bytes)
    }
}

impl Transaction {
    /// Empty sets and an empty log.
    pub const EMPTY: Transaction = Transaction {
        reads: Lines::EMPTY,
        writes: Lines::EMPTY,
        count: 0,
        log: [Entry::EMPTY; PLACES],
    };

    /// How many lines the two sets have together.
    pub fn footprint(&self) -> usize {
        self.reads.union(&self.writes).len()
    }

    /// The used places of the log, in order of first store.
    pub fn entries(&self) -> &[Entry] {
        &self.log[..self.count.min(PLACES)]
    }

    /// The place of the log that a doubleword has, if it has one. It tells which
    /// bytes were stored; [`Entry::over`] gives the doubleword as the thread sees
    /// it.
    pub fn logged(&self, index: u32) -> Option<&Entry> {
        self.entries().iter().find(|e| e.index == index)
    }
}

impl Default for Transaction {
    fn default() -> Transaction {
        Transaction::EMPTY
    }
}

/// Shows the log up to its last place that is used or not 0, so that no bit
/// of a broken one is hidden.
impl fmt::Debug for Transaction {
    fn fmt(&self, f: &mut fmt::Formatter<'_>) -> fmt::Result {
        f.debug_struct("Transaction")
            .field("reads", &self.reads)
            .field("writes", &self.writes)
            .field("count", &self.count)
            .field("log", &shown(self))
            .finish()
    }
}
