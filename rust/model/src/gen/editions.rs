//! Records and tapes of a named edition.

use super::events::any_event;
use super::rng::Rng;
use crate::edition_two::{LAST_KIND, LAST_THREAD};
use crate::tape::{encode, MARK, RECORD};
use crate::{Edition, Event};

/// An event with any operands of a kind that edition two has, or has not, by a
/// thread that it has.
fn event(rng: &mut Rng, in_two: bool) -> (u8, Event) {
    loop {
        let (thread, e) = any_event(rng);
        if (e.kind() <= LAST_KIND) == in_two {
            return (thread & LAST_THREAD, e);
        }
    }
}

/// A good record of this edition, which the other has too.
pub fn good_record(rng: &mut Rng, edition: Edition) -> [u8; RECORD] {
    let (thread, e) = event(rng, true);
    let mut record = [0; RECORD];
    edition.write(thread, e, &mut record);
    record
}

/// A good record of edition three whose kind edition two has not.
pub fn later_record(rng: &mut Rng) -> [u8; RECORD] {
    let (thread, e) = event(rng, false);
    encode(thread, e)
}

/// A record near the right form of this edition: often one byte away from a
/// good one.
pub fn near_record(rng: &mut Rng, edition: Edition) -> [u8; RECORD] {
    let mut record = good_record(rng, edition);
    let any = rng.byte();
    match rng.below(4) {
        0 => {}
        1 => {
            record[rng.below(RECORD)] = rng.pick([
                0, 1, 2, 3, 4, 15, 16, 17, 18, 19, 20, 25, 26, 27, MARK, 255, any,
            ])
        }
        2 => record[rng.below(RECORD)] ^= 1 << rng.below(8),
        _ => {
            let (a, b) = (rng.below(RECORD), rng.below(RECORD));
            record.swap(a, b);
            record[1] = rng.below(29) as u8;
        }
    }
    record
}

/// A tape of so many good records of this edition, which the other has too.
pub fn good_tape(rng: &mut Rng, edition: Edition, records: usize) -> Vec<u8> {
    (0..records)
        .flat_map(|_| good_record(rng, edition))
        .collect()
}

/// A tape of so many records, one of which is mostly refused by a converter
/// from this edition; now and then the tape is ragged.
pub fn damaged_tape(rng: &mut Rng, edition: Edition, records: usize) -> Vec<u8> {
    let mut tape = good_tape(rng, edition, records);
    let at = rng.below(records);
    if let Some(record) = tape.chunks_exact_mut(RECORD).nth(at) {
        record.copy_from_slice(&damaged_record(rng, edition));
    }
    if rng.one_in(8) {
        let tail = good_record(rng, edition);
        tape.extend(&tail[..1 + rng.below(RECORD - 1)]);
    }
    tape
}

/// A record that is mostly refused: of the other edition, of a kind that the
/// other has not, or by its first byte, its kind, its thread or a field, and now
/// and then by two of them.
fn damaged_record(rng: &mut Rng, edition: Edition) -> [u8; RECORD] {
    if rng.one_in(6) {
        return good_record(rng, edition.other());
    }
    let mut record = good_record(rng, edition);
    if edition == Edition::Three && rng.one_in(6) {
        record = later_record(rng);
        if rng.flag() {
            return record;
        }
    }
    for _ in 0..rng.pick([1, 1, 2]) {
        let any = rng.byte();
        let above = rng.pick([4, 5, 255, any | 4]);
        match rng.below(5) {
            0 => record[0] = rng.pick([0, 3, 4, MARK - 1, MARK, MARK + 1, any]),
            1 => record[1] = rng.pick([0, 18, 19, 20, 26, 27, 255, any]),
            // Edition three has its thread here, edition two an operand.
            2 => record[2] = above,
            3 => record[2 + rng.below(RECORD - 2)] ^= 1 << rng.below(8),
            _ => record[12 + rng.below(4)] = above,
        }
    }
    record
}
