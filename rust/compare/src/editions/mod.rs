//! Edition two: its reader, its writer, and the converters from and to it.
//!
//! - [`cells`]: what of them must be met, and how often it was.

pub mod cells;

use model::gen::{self, Rng};
use model::Edition;

use crate::batch::Found;
use crate::calls::same;
use crate::counts::Counts;
use crate::lent::Lent;
use crate::sides::{self, Side};
use cells::{Call, View};

/// What stands beside a lent buffer.
const KEPT: u8 = 0x5A;

/// The calls of one batch.
pub fn all(side: &dyn Side, rng: &mut Rng, counts: &mut Counts) -> Result<(), Found> {
    for _ in 0..20 {
        read(side, rng, counts)?;
        write(side, rng, counts)?;
        for edition in Edition::ALL {
            converter(side, rng, edition, counts)?;
        }
    }
    Ok(())
}

fn read(side: &dyn Side, rng: &mut Rng, counts: &mut Counts) -> Result<(), Found> {
    let mut bytes = match rng.below(8) {
        0 => gen::good_record(rng, Edition::Three).to_vec(),
        _ => gen::near_record(rng, Edition::Two).to_vec(),
    };
    if rng.one_in(8) {
        bytes.resize(rng.below(40), rng.byte());
    }
    if rng.one_in(16) {
        bytes.iter_mut().for_each(|b| *b = rng.byte());
    }
    let right = sides::model_read_two(&bytes);
    let given = side.read_two(&bytes);
    same(
        || format!("read of {bytes:02X?}, edition two"),
        right,
        given,
    )?;
    counts.editions.note(&View {
        call: Call::Read,
        bytes: &bytes,
        room: 0,
        answer: right.answer,
        index: 0,
    });
    Ok(())
}

/// Fields to write: mostly an event, of a kind and by a thread that edition two
/// has or not.
fn fields(rng: &mut Rng) -> [u8; 16] {
    let mut record = match rng.below(6) {
        0..=1 => gen::near_record(rng, Edition::Three),
        2 => gen::later_record(rng),
        _ => gen::good_record(rng, Edition::Three),
    };
    let any = rng.byte();
    if rng.one_in(3) {
        record[2] = rng.pick([4, 255, any]);
    }
    record
}

/// The writer, into buffers of which only 16 bytes may change.
fn write(side: &dyn Side, rng: &mut Rng, counts: &mut Counts) -> Result<(), Found> {
    let record = fields(rng);
    let e = sides::fields(record);
    let any = rng.below(40);
    let room = rng.pick([16, 16, 17, 15, 0, 32, any]);
    let mut ours = buffer(rng, room);
    let mut theirs = ours.clone();
    let right = sides::model_write_two(e, ours.lent());
    let given = side.write_two(e, theirs.lent());
    same(
        || format!("write of {e:?} into {room} bytes, edition two"),
        (right, &ours),
        (given, &theirs),
    )?;
    counts.editions.note(&View {
        call: Call::Write,
        bytes: &record,
        room,
        answer: right,
        index: 0,
    });
    Ok(())
}

/// A tape for a converter from this edition: good, damaged, of the other
/// edition, or of any records near a right form.
fn tape(rng: &mut Rng, edition: Edition) -> Vec<u8> {
    let any = rng.below(20);
    let records = rng.pick([0, 1, 2, 3, 5, any]);
    let mut tape = match rng.below(8) {
        0..=2 => gen::good_tape(rng, edition, records),
        3..=5 => gen::damaged_tape(rng, edition, records),
        6 => gen::good_tape(rng, edition.other(), records),
        _ => (0..records)
            .flat_map(|_| gen::near_record(rng, edition))
            .collect(),
    };
    tape.truncate(tape.len().saturating_sub(rng.pick([0, 0, 0, 0, 0, 1, 15])));
    tape
}

/// One tape into a buffer that is mostly long enough. What was converted is
/// converted back, too.
fn converter(
    side: &dyn Side,
    rng: &mut Rng,
    edition: Edition,
    counts: &mut Counts,
) -> Result<(), Found> {
    let tape = tape(rng, edition);
    let (len, any) = (tape.len(), rng.below(400));
    let (less, more) = (len.saturating_sub(1), len + 20);
    let room = rng.pick([len, len, len, len + 1, more, less, any, 0]);
    let converted = convert(side, rng, edition, (&tape, room), counts)?;
    if let Some(other) = converted {
        let room = other.len();
        let back = convert(side, rng, edition.other(), (&other, room), counts)?;
        same(|| "a tape there and back".to_string(), Some(tape), back)?;
    }
    Ok(())
}

/// Converts a tape into a buffer of this much room on both sides: the converted
/// tape, if it was.
fn convert(
    side: &dyn Side,
    rng: &mut Rng,
    edition: Edition,
    (tape, room): (&[u8], usize),
    counts: &mut Counts,
) -> Result<Option<Vec<u8>>, Found> {
    let mut ours = buffer(rng, room);
    let mut theirs = ours.clone();
    let right = edition.convert(tape, ours.lent());
    let given = side.convert(edition, tape, theirs.lent());
    same(
        || format!("converting {tape:02X?} from edition {edition:?} into {room} bytes"),
        (right, &ours),
        (given, &theirs),
    )?;
    let (answer, index) = right;
    counts.editions.note(&View {
        call: Call::convert(edition),
        bytes: tape,
        room,
        answer,
        index,
    });
    Ok((answer == 0).then(|| ours.lent()[..tape.len()].to_vec()))
}

/// A buffer of random bytes to lend.
fn buffer(rng: &mut Rng, room: usize) -> Lent<u8> {
    let bytes: Vec<u8> = (0..room).map(|_| rng.byte()).collect();
    Lent::new(&bytes, KEPT)
}
