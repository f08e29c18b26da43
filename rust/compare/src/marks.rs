//! Machines that are refused by 2 for the marks of their logs (rules V2 and V15),
//! and for nothing else.

use model::machine::{mask, valid, ALL_BYTES};
use model::Machine;

use crate::counts::Row;

/// Names of the ways in which marks are wrong.
const WAYS: [&str; 3] = [
    "a used place without a mark",
    "a byte without a mark that is not 0",
    "a place past the count with a mark",
];

/// How often each way was met, by a step and by valid.
#[derive(Clone, PartialEq, Eq, Default, Debug)]
pub struct Met([[u64; WAYS.len()]; 2]);

/// A call that refuses a machine.
#[derive(Clone, Copy, PartialEq, Eq, Debug)]
pub enum By {
    /// step.
    Step,
    /// valid.
    Valid,
}

const CALLS: [(By, &str); 2] = [(By::Step, "step"), (By::Valid, "valid")];

/// In which ways the marks are wrong in this machine, if it is valid but for them.
fn ways(m: &Machine, len: usize) -> [bool; WAYS.len()] {
    let mut mended = m.clone();
    let mut wrong = [false; WAYS.len()];
    for t in &mut mended.threads {
        for (place, e) in t.log.iter_mut().enumerate() {
            if place >= t.count {
                wrong[2] |= e.marks != 0;
                e.marks = 0;
            } else {
                wrong[0] |= e.marks == 0;
                wrong[1] |= e.marks != 0 && e.value & !mask(e.marks) != 0;
                e.marks = ALL_BYTES;
            }
        }
    }
    let alone = wrong.into_iter().any(|way| way) && valid(&mended, len);
    wrong.map(|way| way && alone)
}

impl Met {
    /// A machine that a call refused by 2.
    pub fn refused(&mut self, by: By, m: &Machine, len: usize) {
        let met = &mut self.0[by as usize];
        for (met, way) in met.iter_mut().zip(ways(m, len)) {
            *met += u64::from(way);
        }
    }

    pub(crate) fn numbers(&self) -> impl Iterator<Item = &u64> {
        self.0.as_flattened().iter()
    }

    pub(crate) fn numbers_mut(&mut self) -> impl Iterator<Item = &mut u64> {
        self.0.as_flattened_mut().iter_mut()
    }

    pub(crate) fn rows(&self) -> impl Iterator<Item = Row> + '_ {
        CALLS.into_iter().flat_map(|(by, call)| {
            let met = self.0[by as usize].into_iter().zip(WAYS);
            met.map(move |(met, way)| Row {
                met,
                name: format!("{call}, 2 for {way}"),
                why_not: None,
            })
        })
    }

    /// The table.
    pub fn table(&self) -> String {
        let rows = self
            .rows()
            .map(|row| format!("{:>9}  {}\n", row.met, row.name));
        let head = "\nmachines refused for their marks alone\n".to_string();
        rows.fold(head, |text, row| text + &row)
    }
}

#[cfg(test)]
mod tests {
    use super::*;
    use model::Entry;

    #[test]
    fn each_way_alone() {
        let (mut m, mut memory) = (Machine::fresh(), vec![0; 64]);
        model::step(&mut m, &mut memory, 0, model::Event::Tbegin { r: false });
        let store = model::Event::Stb { ra: 1, address: 9 };
        model::step(&mut m, &mut memory, 0, store);
        assert_eq!(ways(&m, 64), [false; 3]);
        let with = |place: usize, entry: Entry| {
            let mut m = m.clone();
            m.threads[0].log[place] = entry;
            m
        };
        let entry = |index, marks, value| Entry {
            index,
            marks,
            value,
        };
        assert_eq!(ways(&with(0, entry(1, 0, 0)), 64), [true, false, false]);
        assert_eq!(ways(&with(0, entry(1, 1, 256)), 64), [false, true, false]);
        assert_eq!(ways(&with(1, entry(0, 4, 0)), 64), [false, false, true]);
        // Something else is wrong too.
        assert_eq!(ways(&with(0, entry(99, 0, 0)), 64), [false; 3]);
        assert_eq!(ways(&with(1, entry(9, 4, 0)), 64), [false; 3]);
    }
}
