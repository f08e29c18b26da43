//! Rules T12 and T13: tapes converted, and the numbers in their order: 6, 10, and
//! then those of the records.

use super::*;
use crate::gen::{self, Rng};
use crate::{program, Edition};

/// Stands in a buffer where nothing is written.
const KEPT: u8 = 0xAA;

/// Converts into a buffer of this much room. Where it is refused the buffer
/// must keep all its bytes, else those past the tape.
fn into(edition: Edition, tape: &[u8], room: usize) -> Result<Vec<u8>, (u8, usize)> {
    let mut buf = vec![KEPT; room];
    let (number, index) = edition.convert(tape, &mut buf);
    let past = if number == 0 { tape.len() } else { 0 };
    assert!(buf[past..].iter().all(|&b| b == KEPT), "{number} {index}");
    if number != 0 {
        return Err((number, index));
    }
    assert_eq!(index * 16, tape.len());
    buf.truncate(tape.len());
    Ok(buf)
}

/// Converts into a buffer that is long enough.
fn convert(edition: Edition, tape: &[u8]) -> Result<Vec<u8>, (u8, usize)> {
    into(edition, tape, tape.len() + 5)
}

/// A good record of edition two as edition three has it, byte by byte.
fn moved(two: &[u8]) -> [u8; 16] {
    [
        0xE3, two[1], two[0], two[2], two[3], two[4], two[5], 0, two[11], two[10], two[9], two[8],
        two[7], two[6], 0, 0,
    ]
}

#[test]
fn a_std() {
    assert_eq!(
        convert(Edition::Two, &STD_IN_TWO),
        Ok(STD_IN_THREE.to_vec())
    );
    assert_eq!(
        convert(Edition::Three, &STD_IN_THREE),
        Ok(STD_IN_TWO.to_vec())
    );
}

#[test]
fn no_record() {
    for edition in Edition::ALL {
        assert_eq!(into(edition, &[], 0), Ok(vec![]));
        assert_eq!(into(edition, &[], 20), Ok(vec![]));
    }
}

#[test]
fn good_tapes_there_and_back() {
    seeds(2000, |rng| {
        let (records, edition) = (rng.below(8), rng.pick(Edition::ALL));
        let tape = gen::good_tape(rng, edition, records);
        let room = tape.len() + rng.pick([0, 0, 1, 16, 40]);
        let other = into(edition, &tape, room).expect("good records");
        let (two, three) = match edition {
            Edition::Two => (&tape, &other),
            Edition::Three => (&other, &tape),
        };
        assert!(two.chunks(16).flat_map(moved).eq(three.iter().copied()));
        for (ours, theirs) in tape.chunks(16).zip(other.chunks(16)) {
            assert_eq!(edition.read(ours), edition.other().read(theirs));
        }
        assert_eq!(convert(edition.other(), &other), Ok(tape));
    });
}

/// What a converter is to give, record by record.
fn right(edition: Edition, tape: &[u8], room: usize) -> Result<Vec<u8>, (u8, usize)> {
    if tape.len() % 16 != 0 {
        return Err((6, tape.len() / 16));
    }
    if room < tape.len() {
        return Err((10, 0));
    }
    let mut converted = Vec::new();
    for (index, record) in tape.chunks(16).enumerate() {
        let (thread, e) = edition.read(record).map_err(|number| (number, index))?;
        let mut buf = [0; 16];
        match edition.other().write(thread, e, &mut buf) {
            0 => converted.extend(buf),
            number => return Err((number, index)),
        }
    }
    Ok(converted)
}

#[test]
fn damaged_tapes_are_refused_where_a_record_is() {
    seeds(20_000, |rng| {
        let (records, edition) = (rng.below(6), rng.pick(Edition::ALL));
        let tape = gen::damaged_tape(rng, edition, records);
        let short = tape.len().saturating_sub(1);
        let room = tape.len() + 20;
        let room = rng.pick([room, room, room, tape.len(), tape.len(), short, 0]);
        assert_eq!(into(edition, &tape, room), right(edition, &tape, room));
        let converted = convert(edition, &tape);
        if let Ok(converted) = converted {
            assert_eq!(convert(edition.other(), &converted), Ok(tape));
        }
    });
}

/// The generator's damaged tapes are to give every number, and at every record.
#[test]
fn damaged_tapes_meet_all() {
    for edition in Edition::ALL {
        let mut met = [[0; 4]; 14];
        let mut rng = Rng::new(9);
        for _ in 0..4000 {
            let tape = gen::damaged_tape(&mut rng, edition, 3);
            let (number, index) = edition.convert(&tape, &mut [0; 64]);
            met[usize::from(number)][index] += 1;
        }
        let records: &[usize] = match edition {
            Edition::Two => &[7, 8, 9],
            Edition::Three => &[3, 7, 8, 9],
        };
        for (number, index) in records.iter().flat_map(|&n| [(n, 0), (n, 1), (n, 2)]) {
            assert!(met[number][index] > 10, "{edition:?} {number} {index}");
        }
        assert!(met[0][3] > 10 && met[6][3] > 10, "{edition:?} {met:?}");
    }
}

/// Records that are refused, by each number, from edition two and from three.
fn refused_records(edition: Edition) -> Vec<(u8, [u8; 16])> {
    let good = match edition {
        Edition::Two => STD_IN_TWO,
        Edition::Three => STD_IN_THREE,
    };
    let with = |n: usize, byte: u8| {
        let mut record = good;
        record[n] = byte;
        record
    };
    let mut refused = vec![(8, with(1, 27)), (9, with(15, 1)), (9, with(12, 1))];
    refused.extend(match edition {
        Edition::Two => {
            let later = (18..=26).map(|kind| (8, with(1, kind)));
            let others = [(7, with(0, 4)), (7, STD_IN_THREE)];
            later.chain(others).collect()
        }
        Edition::Three => vec![
            (3, with(2, 4)),
            (7, STD_IN_TWO),
            (9, with(7, 1)),
            // The writer's, for edition two has not these kinds.
            (8, encode(3, Event::Rfid)),
            (8, encode(0, mtmsrd(15))),
            (8, encode(0, tlbie(1))),
            (8, encode(1, lbz(3, 9))),
            (8, encode(1, lhz(3, 8))),
            (8, encode(2, lwz(3, 8))),
            (8, encode(2, stb(3, 9))),
            (8, encode(3, sth(3, 8))),
            (8, encode(3, stw(3, 8))),
            (3, encode(4, Event::Rfid)),
        ],
    });
    refused
}

#[test]
fn the_first_refused_record_is_told() {
    for edition in Edition::ALL {
        let good = gen::good_tape(&mut Rng::new(1), edition, 4);
        let refused = refused_records(edition);
        for ((number, record), index) in refused.iter().flat_map(|r| [(r, 0), (r, 2), (r, 3)]) {
            let mut tape = good.clone();
            tape[16 * index..][..16].copy_from_slice(record);
            assert_eq!(convert(edition, &tape), Err((*number, index)));
            // The second of two is not told.
            tape[48..].fill(0xFF);
            let first = if index < 3 { *number } else { 7 };
            assert_eq!(convert(edition, &tape), Err((first, index)));
        }
    }
}

/// A thread above 3 has no record in edition two. What else is wrong with its
/// record is told before.
#[test]
fn the_reader_s_number_comes_before_the_writer_s() {
    let mut record = STD_IN_THREE;
    record[2] = 4;
    assert_eq!(convert(Edition::Three, &record), Err((3, 0)));
    for (n, byte, number) in [(15, 1, 9), (1, 27, 8), (0, 4, 7)] {
        record[n] = byte;
        assert_eq!(convert(Edition::Three, &record), Err((number, 0)));
    }
}

/// 6 comes before 10, and both before any record.
#[test]
fn lengths_come_first() {
    for (edition, len) in Edition::ALL
        .into_iter()
        .flat_map(|e| (1..=50).map(move |n| (e, n)))
    {
        for byte in [0, 4, 0xE3] {
            let tape = vec![byte; len];
            for room in [0, len - 1] {
                let right = if len % 16 == 0 {
                    (10, 0)
                } else {
                    (6, len / 16)
                };
                assert_eq!(into(edition, &tape, room), Err(right));
            }
            if len % 16 != 0 {
                assert_eq!(into(edition, &tape, len), Err((6, len / 16)));
            }
        }
    }
}

/// Rule T13.
#[test]
fn the_wrong_edition_is_refused_by_7_at_once() {
    seeds(2000, |rng| {
        let (records, edition) = (rng.below(5), rng.pick(Edition::ALL));
        let tape = gen::good_tape(rng, edition.other(), records);
        let right = match records {
            0 => Ok(vec![]),
            _ => Err((7, 0)),
        };
        assert_eq!(convert(edition, &tape), right);
        for record in tape.chunks(16) {
            assert_eq!(edition.read(record), Err(7));
        }
        let ragged = &tape[..tape.len().saturating_sub(1)];
        if !ragged.is_empty() {
            assert_eq!(convert(edition, ragged), Err((6, records - 1)));
        }
    });
}

/// The program takes edition three alone.
#[test]
fn the_program_reads_a_tape_once_it_is_converted() {
    let tape = [
        (0, TBEGIN),
        (0, std(3, 272)),
        (1, TBEGIN),
        (0, TEND),
        (1, TEND),
    ];
    let tape: Vec<u8> = tape.iter().flat_map(|&(n, e)| written(n, e)).collect();
    assert_eq!(program(&tape), "bad 0 7\n");
    let three = convert(Edition::Two, &tape).expect("good records");
    assert_eq!(program(&three), "0 0\n1 0\n2 0\n3 0\n4 0\nend 5\n");
}
