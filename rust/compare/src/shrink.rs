//! A tape on which the two sides differ, made as short as it goes.

use std::fmt;

use crate::pair::Pair;
use crate::sides::{fields, Side};
use crate::start::Start;

/// A record.
pub type Bytes = [u8; 16];

/// A start and a tape, to be given to both sides.
#[derive(Clone, PartialEq, Eq, Debug)]
pub struct Case {
    /// Where both sides start.
    pub start: Start,
    /// The records. A step takes their fields, a run their bytes.
    pub records: Vec<Bytes>,
    /// None for steps, compared after each; for a run, compared at its end,
    /// the bytes that follow the last whole record.
    pub tail: Option<Vec<u8>>,
}

impl Case {
    /// Whether the sides differ: how many records were tried, and in what.
    pub fn differs(&self, side: &dyn Side) -> Option<(usize, String)> {
        let mut pair = Pair::new(self.start);
        if let Some(tail) = &self.tail {
            let tape = [self.records.as_flattened(), tail].concat();
            let what = pair.run(side, &tape).err()?;
            return Some((self.records.len(), what));
        }
        for (n, &record) in self.records.iter().enumerate() {
            if let Err(what) = pair.step(side, fields(record)) {
                return Some((n + 1, what));
            }
        }
        None
    }

    /// A case as short as it goes on which the sides still differ, if they do
    /// on this one: records left out, the fresh machine for the start, bytes
    /// set to 0, and all of it again as long as that helps.
    pub fn shrunk(&self, side: &dyn Side) -> Case {
        let fails = |case: &Case| case.differs(side).is_some();
        let mut case = self.clone();
        if let Some((tried, _)) = case.differs(side) {
            case.records.truncate(tried);
        }
        loop {
            let before = case.clone();
            case = case.with_fewer(fails);
            let from_fresh = Case {
                start: Start::FRESH,
                ..case.clone()
            };
            if fails(&from_fresh) {
                case = from_fresh;
            }
            case = case.with_zeros(fails);
            if case == before {
                return case;
            }
        }
    }

    /// Leaves out records that are not needed.
    fn with_fewer(self, fails: impl Fn(&Case) -> bool) -> Case {
        let with = |records: &[Bytes]| Case {
            records: records.to_vec(),
            ..self.clone()
        };
        with(&fewer(&self.records, |records| fails(&with(records))))
    }

    /// Sets to 0 each byte after the kind that need not be other.
    fn with_zeros(mut self, fails: impl Fn(&Case) -> bool) -> Case {
        for n in 0..self.records.len() {
            for byte in 2..16 {
                let was = std::mem::take(&mut self.records[n][byte]);
                if was != 0 && !fails(&self) {
                    self.records[n][byte] = was;
                }
            }
        }
        self
    }
}

/// Leaves out pieces, half of all first and single ones last, as long as what
/// is left still fails. No single one can be left out of the answer.
pub(crate) fn fewer<T: Clone>(all: &[T], mut fails: impl FnMut(&[T]) -> bool) -> Vec<T> {
    let mut kept = all.to_vec();
    let mut size = kept.len().div_ceil(2).max(1);
    loop {
        let before = kept.len();
        let mut at = 0;
        while at < kept.len() {
            let end = (at + size).min(kept.len());
            let rest = [&kept[..at], &kept[end..]].concat();
            if fails(&rest) {
                kept = rest;
            } else {
                at = end;
            }
        }
        if size == 1 && kept.len() == before {
            return kept;
        }
        size = size.div_ceil(2);
    }
}

impl fmt::Display for Case {
    /// The start, the way, then each record as the model reads it and as
    /// bytes.
    fn fmt(&self, f: &mut fmt::Formatter) -> fmt::Result {
        let Start { kind, seed } = self.start;
        let way = match self.tail {
            None => "by steps",
            Some(_) => "as one run",
        };
        writeln!(f, "start {kind:?}, its seed {seed:#018x}; {way}")?;
        for (n, record) in self.records.iter().enumerate() {
            let listed = match model::read(record) {
                Ok((thread, e)) => format!("thread {thread} {e:?}"),
                Err(number) => format!("no event ({number})"),
            };
            write!(f, "{n:4}  {listed:50}")?;
            write_bytes(f, record)?;
        }
        match &self.tail {
            Some(tail) if !tail.is_empty() => {
                write!(f, "      {:50}", "then, no whole record")?;
                write_bytes(f, tail)
            }
            _ => Ok(()),
        }
    }
}

fn write_bytes(f: &mut fmt::Formatter, bytes: &[u8]) -> fmt::Result {
    for byte in bytes {
        write!(f, " {byte:02X}")?;
    }
    writeln!(f)
}

#[cfg(test)]
mod tests {
    use super::fewer;

    #[test]
    fn leaves_only_what_is_needed() {
        let all: Vec<u32> = (0..100).collect();
        let needs = |kept: &[u32]| [3, 50, 99].iter().all(|n| kept.contains(n));
        assert_eq!(fewer(&all, needs), [3, 50, 99]);
    }

    #[test]
    fn leaves_nothing_where_nothing_is_needed() {
        assert_eq!(fewer(&[1, 2, 3], |_| true), []);
        assert_eq!(fewer(&[0u8; 0], |_| true), []);
    }

    #[test]
    fn keeps_the_order() {
        let needs = |kept: &[u32]| kept.windows(2).any(|w| w == [7, 8]);
        assert_eq!(fewer(&(0..30).collect::<Vec<u32>>(), needs), [7, 8]);
    }
}
