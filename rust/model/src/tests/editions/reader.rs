//! Rules T9 and T10: what the reader takes, and 6, 7, 8 and 9 in their order.

use super::*;
use crate::edition_two::LAST_KIND;
use crate::gen;
use crate::tests::tapes::{KINDS_10_TO_17, KINDS_1_TO_9};

#[test]
fn bytes_of_a_std() {
    assert_eq!(read(&STD_IN_TWO), Ok((0, std(3, 17))));
    assert_eq!(written(0, std(3, 17)), STD_IN_TWO);
}

#[test]
fn bytes_of_each_kind() {
    for (e, [kind, x, ra, rb, flags]) in KINDS_1_TO_9.into_iter().chain(KINDS_10_TO_17) {
        for thread in 0..=3 {
            let bytes = [thread, kind, x, ra, rb, flags, 0, 0, 0, 0, 0, 0, 0, 0, 0, 0];
            assert_eq!(read(&bytes), Ok((thread, e)));
            assert_eq!(written(thread, e), bytes);
        }
    }
}

#[test]
fn bytes_of_an_index_and_an_immediate() {
    assert_eq!(
        read(&[1, 12, 2, 0, 0, 0, 0, 0, 4, 3, 2, 1, 0, 0, 0, 0]),
        Ok((1, ld(2, 0x0102_0304)))
    );
    assert_eq!(
        read(&[1, 13, 0, 2, 0, 0, 0, 0, 4, 3, 2, 1, 0, 0, 0, 0]),
        Ok((1, std(2, 0x0102_0304)))
    );
    assert_eq!(
        read(&[1, 14, 2, 3, 0, 0, 6, 5, 0, 0, 0, 0, 0, 0, 0, 0]),
        Ok((1, addi(2, 3, 0x0506)))
    );
}

#[test]
fn round_trips() {
    seeds(20_000, |rng| {
        let (thread, e) = gen::any_event(rng);
        let thread = thread % 4;
        if e.kind() <= LAST_KIND {
            assert_eq!(read(&written(thread, e)), Ok((thread, e)));
        }
        // And back: a record that is read is written as it was.
        let record = gen::near_record(rng, crate::Edition::Two);
        if let Ok((thread, e)) = read(&record) {
            assert_eq!(written(thread, e), record);
        }
    });
}

#[test]
fn number_6_length() {
    for len in (0..=48).filter(|&n| n != 16) {
        // 6 comes before 7, 8 and 9.
        for byte in [0, 1, 4, 0xE3, 0xFF] {
            assert_eq!(read(&vec![byte; len]), Err(6));
        }
        let good: Vec<u8> = STD_IN_TWO.into_iter().cycle().take(len).collect();
        assert_eq!(read(&good), Err(6));
    }
}

#[test]
fn number_7_thread() {
    for first in 0..=255 {
        let mut record = STD_IN_TWO;
        record[0] = first;
        if first <= 3 {
            assert_eq!(read(&record), Ok((first, std(3, 17))));
        } else {
            assert_eq!(read(&record), Err(7));
            // 7 comes before 8 and 9.
            assert_eq!(read(&[first; 16]), Err(7));
        }
    }
}

#[test]
fn number_8_kind() {
    assert_eq!(LAST_KIND, 17);
    for kind in 0..=255 {
        let mut record = [0; 16];
        record[1] = kind;
        if (1..=17).contains(&kind) {
            assert_eq!(
                read(&record).map(|(thread, e)| (thread, e.kind())),
                Ok((0, kind))
            );
        } else {
            assert_eq!(read(&record), Err(8));
            // 8 comes before 9.
            record[2..].fill(1);
            assert_eq!(read(&record), Err(8));
        }
    }
}

/// The most that each byte of a record of this kind may hold.
fn most(kind: u8) -> [u8; 16] {
    let mut most = [0; 16];
    (most[0], most[1]) = (3, kind);
    let used: &[usize] = match kind {
        3 | 8 => &[3],
        4 | 5 => &[2, 3, 4],
        7 => &[2],
        10 | 11 => &[2, 3],
        12 => &[2, 8, 9, 10, 11],
        13 => &[3, 8, 9, 10, 11],
        14 => &[2, 3, 6, 7],
        _ => &[],
    };
    for &n in used {
        most[n] = 255;
    }
    most[5] = match kind {
        1 | 2 | 6 => 1,
        17 => 3,
        _ => 0,
    };
    most
}

#[test]
fn number_9_fields() {
    for kind in 1..=17 {
        assert!(read(&most(kind)).is_ok());
        for n in 2..16 {
            each_value_of_a_byte(kind, n);
        }
    }
}

/// Byte `n` of a record of this kind, the others being full and being zero.
fn each_value_of_a_byte(kind: u8, n: usize) {
    let most = most(kind);
    let mut least = [0; 16];
    least[1] = kind;
    for (byte, mut record) in (0..=255).flat_map(|byte| [(byte, most), (byte, least)]) {
        record[n] = byte;
        if byte <= most[n] {
            let (thread, e) = read(&record).expect("a used field");
            assert_eq!(written(thread, e), record);
        } else {
            assert_eq!(read(&record), Err(9), "kind {kind}, byte {n} = {byte}");
        }
    }
}

/// Records near the right form give every number that a record can give.
#[test]
fn near_records_meet_all() {
    let mut met = [0; 10];
    let mut rng = gen::Rng::new(3);
    for _ in 0..4000 {
        let record = gen::near_record(&mut rng, crate::Edition::Two);
        let number = read(&record).err().unwrap_or(0);
        met[usize::from(number)] += 1;
    }
    assert!([0, 7, 8, 9].into_iter().all(|n| met[n] > 100), "{met:?}");
}
