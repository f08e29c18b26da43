//! Rules T8, T12 and T13: the editions of the tape, and converting one into the
//! other.

use crate::tape::{self, RECORD};
use crate::{answer, edition_two, Event};

/// An edition. Nothing tells it from the bytes: who reads, writes or converts
/// names it.
#[derive(Clone, Copy, PartialEq, Eq, Hash, Debug)]
pub enum Edition {
    Two,
    Three,
}

impl Edition {
    /// Both, two first.
    pub const ALL: [Edition; 2] = [Edition::Two, Edition::Three];

    /// The edition into which this one is converted.
    pub fn other(self) -> Edition {
        match self {
            Edition::Two => Edition::Three,
            Edition::Three => Edition::Two,
        }
    }

    /// Reads one record: the thread and the event, or 6, 7, 8 or 9.
    pub fn read(self, record: &[u8]) -> Result<(u8, Event), u8> {
        match self {
            Edition::Two => edition_two::read(record),
            Edition::Three => tape::read(record),
        }
    }

    /// Writes one record into the first 16 bytes of the buffer and gives 0, or
    /// another number, and leaves the buffer as it is.
    pub fn write(self, thread: u8, e: Event, buf: &mut [u8]) -> u8 {
        match self {
            Edition::Two => edition_two::write(thread, e, buf),
            Edition::Three => tape::write(thread, e, buf),
        }
    }

    /// Converts a tape of this edition into the other: the number, and the
    /// index beside it. The buffer is written only where the number is 0.
    pub fn convert(self, tape: &[u8], buf: &mut [u8]) -> (u8, usize) {
        let records = tape.len() / RECORD;
        if tape.len() % RECORD != 0 {
            return (answer::RAGGED, records);
        }
        let Some(place) = buf.get_mut(..tape.len()) else {
            return (answer::BUFFER, 0);
        };
        let mut converted = Vec::with_capacity(tape.len());
        for (index, record) in tape.chunks_exact(RECORD).enumerate() {
            match self.convert_record(record) {
                Ok(record) => converted.extend(record),
                Err(number) => return (number, index),
            }
        }
        place.copy_from_slice(&converted);
        (answer::DONE, records)
    }

    /// A record in the other edition, or the number of the reader or writer
    /// that refuses it.
    fn convert_record(self, record: &[u8]) -> Result<[u8; RECORD], u8> {
        let (thread, e) = self.read(record)?;
        let mut converted = [0; RECORD];
        match self.other().write(thread, e, &mut converted) {
            answer::DONE => Ok(converted),
            number => Err(number),
        }
    }
}
