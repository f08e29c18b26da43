//! Rules T9 to T11: reading and writing one record of edition two.

use crate::tape::{Fields, RECORD};
use crate::{answer, Event};

/// The last kind of this edition. No later kind joins it.
pub const LAST_KIND: u8 = 17;
/// The last thread that a record of this edition can name.
pub const LAST_THREAD: u8 = 3;

/// Reads one record: the thread and the event, or 6, 7, 8 or 9.
pub fn read(record: &[u8]) -> Result<(u8, Event), u8> {
    let record: &[u8; RECORD] = record.try_into().map_err(|_| answer::RAGGED)?;
    let fields = fields(record);
    if fields.thread > LAST_THREAD {
        return Err(answer::MARK);
    }
    if !(1..=LAST_KIND).contains(&fields.kind) {
        return Err(answer::KIND);
    }
    let event = fields.event().ok_or(answer::KIND)?;
    // The event has what its kind uses. Whatever else is in the record, and is
    // not 0, is not in the record that the event has.
    match encode(fields.thread, event) == *record {
        true => Ok((fields.thread, event)),
        false => Err(answer::FIELD),
    }
}

/// Writes one record into the first 16 bytes of the buffer and gives 0, or
/// gives 3, 8 or 10 and leaves the buffer as it is.
pub fn write(thread: u8, e: Event, buf: &mut [u8]) -> u8 {
    if let Some(number) = refusal(thread, e.kind(), buf.len()) {
        return number;
    }
    buf[..RECORD].copy_from_slice(&encode(thread, e));
    answer::DONE
}

/// The number by which the writer refuses an event of this kind by this
/// thread, with so much room.
pub(crate) fn refusal(thread: u8, kind: u8, room: usize) -> Option<u8> {
    if thread > LAST_THREAD {
        Some(answer::NO_THREAD)
    } else if kind > LAST_KIND {
        Some(answer::KIND)
    } else if room < RECORD {
        Some(answer::BUFFER)
    } else {
        None
    }
}

/// The fields of a record, whether or not they are an event. The last four
/// bytes are none.
fn fields(record: &[u8; RECORD]) -> Fields {
    let &[thread, kind, x, ra, rb, flags, s0, s1, i0, i1, i2, i3, ..] = record;
    Fields {
        kind,
        thread,
        x,
        ra,
        rb,
        flags,
        index: u32::from_le_bytes([i0, i1, i2, i3]),
        si: u16::from_le_bytes([s0, s1]),
    }
}

/// The bytes of an event by a thread, whether or not the edition has it.
fn encode(thread: u8, e: Event) -> [u8; RECORD] {
    let f = Fields::of(thread, e);
    let [s0, s1] = f.si.to_le_bytes();
    let [i0, i1, i2, i3] = f.index.to_le_bytes();
    [
        thread, f.kind, f.x, f.ra, f.rb, f.flags, s0, s1, i0, i1, i2, i3, 0, 0, 0, 0,
    ]
}
