//! A load or a store of any width, by its bytes (rules M11 and M17): at each place
//! of a doubleword in each state, meeting what is stored of it in each way, and
//! refused by 4 for each reason.

use std::fmt::{self, Write};

use model::machine::{LINE, LOG};
use model::{Event, Machine, State, Thread};

use crate::cells::name;
use crate::counts::{write_cell, Row};

/// An access: so many bytes from a byte address on.
#[derive(Clone, Copy, PartialEq, Eq, Debug)]
pub struct Access {
    /// A store, not a load.
    pub store: bool,
    /// The byte address; 8 times its index for ld and std.
    pub address: u64,
    /// 1, 2, 4 or 8.
    pub width: u64,
}

impl Access {
    /// The access that an event makes, if it is one.
    pub fn of(e: Event) -> Option<Access> {
        let (store, address, width) = match e {
            Event::Ld { index, .. } => (false, 8 * u64::from(index), 8),
            Event::Lbz { address, .. } => (false, address.into(), 1),
            Event::Lhz { address, .. } => (false, address.into(), 2),
            Event::Lwz { address, .. } => (false, address.into(), 4),
            Event::Std { index, .. } => (true, 8 * u64::from(index), 8),
            Event::Stb { address, .. } => (true, address.into(), 1),
            Event::Sth { address, .. } => (true, address.into(), 2),
            Event::Stw { address, .. } => (true, address.into(), 4),
            _ => return None,
        };
        Some(Access {
            store,
            address,
            width,
        })
    }

    /// The doubleword.
    pub fn index(self) -> usize {
        (self.address / 8) as usize
    }

    /// The line.
    pub fn line(self) -> usize {
        self.index() / LINE
    }

    /// The place of its first byte in the doubleword.
    pub fn byte(self) -> u64 {
        self.address % 8
    }

    /// Its bytes as marks; of an address that is no multiple of the width, those
    /// that are in the doubleword.
    pub fn marks(self) -> u8 {
        let bytes = self.byte()..(self.byte() + self.width).min(8);
        bytes.fold(0, |marks, k| marks | 0x80 >> k)
    }
}

/// The kinds that make an access, and how many bytes each has.
const KINDS: [(u8, usize); 8] = [
    (12, 8),
    (13, 8),
    (20, 1),
    (21, 2),
    (22, 4),
    (23, 1),
    (24, 2),
    (25, 4),
];
/// The state before the event.
const STATES: [&str; 4] = ["N", "T", "S", "S, doomed"];
/// How an access meets what its own live transaction has stored of its doubleword.
const WAYS: [&str; 5] = [
    "no place",
    "beside it",
    "within it",
    "all of it and more",
    "across it",
];
/// Why a narrow access is refused by 4.
const REASONS: [&str; 4] = ["no multiple", "past the end", "both", "register alone"];

/// What an event is, if it is an access: told before it is done.
#[derive(Clone, Copy, PartialEq, Eq, Debug)]
pub struct Place {
    kind: usize,
    state: usize,
    byte: usize,
    way: Option<usize>,
    reason: usize,
}

/// The place of this event by this thread, with a memory of this length.
pub fn place(m: &Machine, len: usize, thread: u8, e: Event) -> Option<Place> {
    let access = Access::of(e)?;
    let threads = m.threads.get(..m.count)?;
    let t = threads.get(usize::from(thread))?;
    let odd = access.address % access.width != 0;
    let past = access.address >= 8 * len as u64;
    Some(Place {
        kind: KINDS.iter().position(|(kind, _)| *kind == e.kind())?,
        state: match (t.state, t.doomed) {
            (State::N, _) => 0,
            (State::T, _) => 1,
            (State::S, false) => 2,
            (State::S, true) => 3,
        },
        byte: access.byte() as usize,
        way: way(t, access),
        reason: match (odd, past) {
            (true, false) => 0,
            (false, true) => 1,
            (true, true) => 2,
            (false, false) => 3,
        },
    })
}

/// How an access meets its doubleword in the log of a live transaction.
fn way(t: &Thread, access: Access) -> Option<usize> {
    if !t.is_live() {
        return None;
    }
    let mut used = t.log[..t.count.min(LOG)].iter();
    let place = used.find(|e| e.index as usize == access.index());
    let stored = place.map_or(0, |e| e.marks);
    let marks = access.marks();
    Some(match (stored & marks, marks & !stored, stored & !marks) {
        _ if place.is_none() => 0,
        (0, _, _) => 1,
        (_, 0, _) => 2,
        (_, _, 0) => 3,
        _ => 4,
    })
}

/// How often each was met.
#[derive(Clone, PartialEq, Eq, Default, Debug)]
pub struct Met {
    /// Done, by kind, state and the first byte's place.
    bytes: [[[u64; 8]; STATES.len()]; KINDS.len()],
    /// Done in T and in S with a live transaction, by kind and way.
    ways: [[[u64; WAYS.len()]; 2]; KINDS.len()],
    /// Refused by 4, by kind and reason.
    reasons: [[u64; REASONS.len()]; KINDS.len()],
}

impl Met {
    /// An event on which both sides agreed.
    pub fn note(&mut self, place: Option<Place>, answer: u8) {
        let Some(place) = place else { return };
        if answer == 4 {
            self.reasons[place.kind][place.reason] += 1;
        }
        if !model::answer::is_done(answer) {
            return;
        }
        self.bytes[place.kind][place.state][place.byte] += 1;
        // An overflow meets nothing.
        if let Some(way) = place.way.filter(|_| answer != 20) {
            self.ways[place.kind][place.state - 1][way] += 1;
        }
    }

    pub(crate) fn numbers(&self) -> impl Iterator<Item = &u64> {
        let bytes = self.bytes.as_flattened().as_flattened().iter();
        let ways = self.ways.as_flattened().as_flattened();
        bytes.chain(ways).chain(self.reasons.as_flattened())
    }

    pub(crate) fn numbers_mut(&mut self) -> impl Iterator<Item = &mut u64> {
        let bytes = self.bytes.as_flattened_mut().as_flattened_mut().iter_mut();
        let ways = self.ways.as_flattened_mut().as_flattened_mut();
        bytes.chain(ways).chain(self.reasons.as_flattened_mut())
    }

    pub(crate) fn rows(&self) -> impl Iterator<Item = Row> + '_ {
        let bytes = each(&self.bytes).map(|((kind, width), state, byte, met)| Row {
            met,
            name: format!("{} at byte {byte}, {}", name(kind), STATES[state]),
            why_not: no_byte(width, byte),
        });
        let ways = each(&self.ways).map(|((kind, width), state, way, met)| Row {
            met,
            name: format!("{} in {}: {}", name(kind), STATES[state + 1], WAYS[way]),
            why_not: no_way(width, way),
        });
        let reasons = KINDS.into_iter().zip(&self.reasons);
        let reasons = reasons.flat_map(|((kind, width), met)| {
            (0..).zip(met).map(move |(reason, &met)| Row {
                met,
                name: format!("{}, 4: {}", name(kind), REASONS[reason]),
                why_not: no_reason(width, reason),
            })
        });
        bytes.chain(ways).chain(reasons)
    }

    /// The tables.
    pub fn tables(&self) -> String {
        let mut text = String::new();
        // Writing to a string does not fail.
        let _ = self.write_bytes(&mut text);
        let _ = self.write_ways(&mut text);
        let _ = self.write_reasons(&mut text);
        text
    }

    fn write_bytes(&self, text: &mut String) -> fmt::Result {
        let bytes: [String; 8] = std::array::from_fn(|byte| format!("byte {byte}"));
        head(
            text,
            "accesses done, by state before and first byte",
            &bytes,
        )?;
        for ((kind, width), states) in KINDS.into_iter().zip(&self.bytes) {
            for (state, met) in STATES.into_iter().zip(states) {
                write!(text, "{:28}", format!("{} {state}", name(kind)))?;
                row(text, met, |byte| no_byte(width, byte).is_none())?;
            }
        }
        Ok(())
    }

    fn write_ways(&self, text: &mut String) -> fmt::Result {
        let title = "accesses of a live transaction, by what it has stored of the doubleword";
        head(text, title, &WAYS)?;
        for ((kind, width), states) in KINDS.into_iter().zip(&self.ways) {
            for (state, met) in STATES[1..].iter().zip(states) {
                write!(text, "{:28}", format!("{} {state}", name(kind)))?;
                row(text, met, |way| no_way(width, way).is_none())?;
            }
        }
        Ok(())
    }

    fn write_reasons(&self, text: &mut String) -> fmt::Result {
        head(text, "accesses refused by 4", &REASONS)?;
        for ((kind, width), met) in KINDS.into_iter().zip(&self.reasons) {
            write!(text, "{:28}", name(kind))?;
            row(text, met, |reason| no_reason(width, reason).is_none())?;
        }
        Ok(())
    }
}

/// Each number of a table with its kind, its row there and its place in that.
fn each<const N: usize, const M: usize>(
    table: &[[[u64; N]; M]; KINDS.len()],
) -> impl Iterator<Item = ((u8, usize), usize, usize, u64)> + '_ {
    KINDS.into_iter().zip(table).flat_map(|(kind, rows)| {
        let places = rows.iter().enumerate().flat_map(|(row, met)| {
            let met = met.iter().enumerate();
            met.map(move |(place, &met)| (row, place, met))
        });
        places.map(move |(row, place, met)| (kind, row, place, met))
    })
}

/// Why an access of this width cannot begin at this byte.
fn no_byte(width: usize, byte: usize) -> Option<&'static str> {
    (byte % width != 0).then_some("4 refuses what is no multiple of the width")
}

/// Why it cannot meet what is stored in this way.
fn no_way(width: usize, way: usize) -> Option<&'static str> {
    match (width, way) {
        (1, 3 | 4) => Some("a byte is stored or is not"),
        (8, 1 | 4) => Some("a place has a mark, and these are all bytes"),
        _ => None,
    }
}

/// Why it cannot be refused by 4 for this.
fn no_reason(width: usize, reason: usize) -> Option<&'static str> {
    let of_multiples = matches!(reason, 0 | 2);
    (matches!(width, 1 | 8) && of_multiples).then_some("each of its addresses is a multiple")
}

fn head(text: &mut String, title: &str, columns: &[impl fmt::Display]) -> fmt::Result {
    write!(text, "\n{title}\n{:28}", "")?;
    for column in columns {
        write!(text, "{column:>19}")?;
    }
    writeln!(text)
}

fn row(text: &mut String, met: &[u64], can: impl Fn(usize) -> bool) -> fmt::Result {
    for (place, &met) in met.iter().enumerate() {
        write!(text, "{:11}", "")?;
        write_cell(text, met, can(place))?;
    }
    writeln!(text)
}

#[cfg(test)]
mod tests {
    use super::*;

    #[test]
    fn marks() {
        let marks = |e| Access::of(e).map(Access::marks);
        assert_eq!(marks(Event::Ld { rt: 1, index: 7 }), Some(0xFF));
        let address = 6;
        assert_eq!(marks(Event::Stb { ra: 1, address }), Some(0x02));
        assert_eq!(marks(Event::Lhz { rt: 1, address }), Some(0x03));
        let address = 8;
        assert_eq!(marks(Event::Stw { ra: 1, address }), Some(0xF0));
        assert_eq!(marks(Event::Rfid), None);
    }

    /// A place of which bytes 2 and 3 are stored, met in each way.
    #[test]
    fn ways() {
        let (mut m, mut memory) = (Machine::fresh(), vec![0; 64]);
        let store = Event::Sth { ra: 1, address: 10 };
        for e in [Event::Tbegin { r: false }, store] {
            model::step(&mut m, &mut memory, 0, e);
        }
        let way = |e| place(&m, 64, 0, e).and_then(|place| place.way);
        let rt = 1;
        assert_eq!(way(Event::Lbz { rt, address: 2 }), Some(0));
        assert_eq!(way(Event::Lbz { rt, address: 9 }), Some(1));
        assert_eq!(way(Event::Lbz { rt, address: 11 }), Some(2));
        assert_eq!(way(Event::Lhz { rt, address: 10 }), Some(2));
        assert_eq!(way(Event::Lwz { rt, address: 8 }), Some(3));
        assert_eq!(way(Event::Lwz { rt, address: 12 }), Some(1));
        assert_eq!(way(Event::Ld { rt, index: 1 }), Some(3));
        model::step(&mut m, &mut memory, 0, Event::Stb { ra: 1, address: 12 });
        let across = Event::Lwz { rt, address: 12 };
        let place = place(&m, 64, 0, across).expect("an access");
        assert_eq!((place.way, place.byte, place.state), (Some(4), 4, 1));
    }
}
