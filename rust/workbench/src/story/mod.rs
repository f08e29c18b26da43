//! The text form of a tape: one line a record.
//!
//! ```text
//! lock = 0                      # a doubleword, by a name
//! data = line 1                 # the first doubleword of a line
//!
//! begin: thread 0  tbegin. R=0  # a label, for people and for --from and --to
//! thread 0  ld r4, lock
//! thread 0  std r3, data+2
//! thread 1  li r5, 0x1          # addi r5, 0, 1
//! bytes E3 00                   # any bytes: a record that is none
//! ```
//!
//! `docs/STORIES.md` has all of it. What [`list`](list::list) writes is the
//! canonical form: no names, no labels, each flag, decimal numbers.

pub mod asm;
pub mod kinds;
pub mod line;
pub mod list;

use std::fmt;

use crate::nearest::meant;

/// A story that was read: the tape, and the names that people use for it.
#[derive(Clone, Debug, Default, PartialEq, Eq)]
pub struct Story {
    /// The tape's bytes.
    pub bytes: Vec<u8>,
    /// The names.
    pub names: Names,
}

/// Names of places in memory, and labels of records.
#[derive(Clone, Debug, Default, PartialEq, Eq)]
pub struct Names {
    /// A name, the doubleword that it stands for, and the line of the story
    /// that says so.
    pub places: Vec<(String, u32, usize)>,
    /// A label, the index of the record that it stands before, and its line.
    pub labels: Vec<(String, usize, usize)>,
}

impl Names {
    /// The doubleword of a name.
    pub fn place(&self, name: &str) -> Option<u32> {
        let mut places = self.places.iter();
        places
            .find(|(known, ..)| known == name)
            .map(|found| found.1)
    }

    /// The record of a label.
    pub fn label(&self, name: &str) -> Option<usize> {
        let mut labels = self.labels.iter();
        labels
            .find(|(known, ..)| known == name)
            .map(|found| found.1)
    }

    /// The labels of a record.
    pub fn labels_at(&self, index: usize) -> impl Iterator<Item = &str> {
        let labels = self.labels.iter();
        let here = labels.filter(move |(_, at, _)| *at == index);
        here.map(|(name, ..)| name.as_str())
    }

    /// The line of the story that defined a name or a label.
    fn line_of(&self, name: &str) -> Option<usize> {
        let places = self.places.iter().map(|(known, _, line)| (known, *line));
        let labels = self.labels.iter().map(|(known, _, line)| (known, *line));
        let mut all = places.chain(labels);
        all.find(|(known, _)| *known == name).map(|found| found.1)
    }

    /// The nearest name at or before a doubleword in its line, and how many
    /// doublewords behind that it is.
    pub fn near(&self, index: u32) -> Option<(&str, u32)> {
        let near = |place: u32| place <= index && place / LINE == index / LINE;
        let places = self.places.iter().filter(|(_, place, _)| near(*place));
        let (name, place, _) = places.max_by_key(|(_, place, line)| (*place, usize::MAX - line))?;
        Some((name, index - place))
    }

    /// What a doubleword is called: its name, or the nearest name before it in
    /// its line and how far behind, or nothing.
    pub fn called(&self, index: u32) -> Option<String> {
        self.near(index).map(|(name, behind)| counted(name, behind))
    }

    /// What a byte is called: as a doubleword, with the bytes behind the name.
    pub fn byte_called(&self, address: u32) -> Option<String> {
        let near = self.near(address / 8);
        near.map(|(name, behind)| counted(name, 8 * behind + address % 8))
    }

    /// What a line is called: the name of the first named doubleword in it.
    pub fn line_called(&self, line: u32) -> Option<&str> {
        let inside = self
            .places
            .iter()
            .filter(|(_, place, _)| place / LINE == line);
        let (name, ..) = inside.min_by_key(|(_, place, line)| (*place, *line))?;
        Some(name)
    }
}

/// A name, and how many behind it.
fn counted(name: &str, behind: u32) -> String {
    match behind {
        0 => name.to_string(),
        behind => format!("{name}+{behind}"),
    }
}

/// Doublewords of a line.
const LINE: u32 = naszeptan::LINE as u32;

/// What is wrong with a story, and where.
#[derive(Clone, Debug, PartialEq, Eq)]
pub struct Wrong {
    /// The line, from 1.
    pub line: usize,
    /// The column, in characters from 1.
    pub column: usize,
    /// What was expected there.
    pub expected: String,
    /// What stands there.
    pub found: String,
    /// What was meant, perhaps.
    pub hint: String,
}

impl Wrong {
    /// With the nearest of the words that could have stood there.
    pub fn near<'a>(mut self, all: impl IntoIterator<Item = &'a str>) -> Wrong {
        self.hint = meant(self.found.trim_matches('"'), all);
        self
    }
}

impl fmt::Display for Wrong {
    fn fmt(&self, f: &mut fmt::Formatter<'_>) -> fmt::Result {
        let Wrong {
            line,
            column,
            expected,
            found,
            hint,
        } = self;
        write!(
            f,
            "{line}:{column}: expected {expected}, found {found}{hint}"
        )
    }
}

impl std::error::Error for Wrong {}
