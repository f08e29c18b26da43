//! Numbers 6 to 10: records and tapes.

use super::*;

#[test]
fn number_6_length() {
    let mut good = [0; 16];
    assert_eq!(write(0, TBEGIN, &mut good), 0);
    for len in (0..=48).filter(|&n| n != 16) {
        let record: Vec<u8> = good.iter().copied().cycle().take(len).collect();
        assert_eq!(read(&record), Err(6));
        let mut b = Bench::fresh();
        let given = b.run(&record);
        if len % 16 == 0 {
            assert_eq!(given, ended(0, len / 16));
        } else {
            assert_eq!(given, bad(6, len / 16));
            assert_eq!(b, Bench::fresh(), "no record done");
        }
    }
    // 6 comes before 7.
    assert_eq!(read(&[0; 15]), Err(6));
    assert_eq!(read(&[0; 17]), Err(6));
}

#[test]
fn number_7_first_byte() {
    let mut record = [0; 16];
    write(2, TBEGIN, &mut record);
    for first in 0..=255 {
        record[0] = first;
        if first == 0xE3 {
            assert_eq!(read(&record), Ok((2, TBEGIN)));
        } else {
            assert_eq!(read(&record), Err(7));
            // 7 comes before 8 and 9.
            assert_eq!(read(&[first; 16]), Err(7));
        }
    }
    // Edition two began with the thread.
    for thread in 0..=3 {
        let mut old = [0; 16];
        old[0] = thread;
        old[1] = 1;
        assert_eq!(read(&old), Err(7));
    }
}

#[test]
fn number_8_kind() {
    for kind in 0..=255 {
        let mut record = [0; 16];
        record[0] = 0xE3;
        record[1] = kind;
        match read(&record) {
            Ok((0, e)) => {
                assert!((1..=26).contains(&kind));
                assert_eq!(e.kind(), kind);
            }
            other => {
                assert!(!(1..=26).contains(&kind));
                assert_eq!(other, Err(8));
                // 8 comes before 9.
                record[7] = 1;
                assert_eq!(read(&record), Err(8));
            }
        }
    }
}

/// The most that each byte of a record of this kind may hold.
fn most(kind: u8) -> [u8; 16] {
    let mut most = [0; 16];
    most[0] = 0xE3;
    most[1] = kind;
    most[2] = 255;
    let used: &[usize] = match kind {
        3 | 8 => &[4],
        4 | 5 => &[3, 4, 5],
        7 => &[3],
        10 | 11 => &[3, 4],
        12 | 20..=22 => &[3, 8, 9, 10, 11],
        13 | 23..=25 => &[4, 8, 9, 10, 11],
        14 => &[3, 4, 12, 13],
        26 => &[8, 9, 10, 11],
        _ => &[],
    };
    for &n in used {
        most[n] = 255;
    }
    most[6] = match kind {
        1 | 2 | 6 => 1,
        17 => 3,
        19 => 15,
        _ => 0,
    };
    most
}

#[test]
fn number_9_fields() {
    assert!(EACH.into_iter().map(|e| e.kind()).eq(1..=LAST_KIND));
    (1..=LAST_KIND).for_each(each_byte);
}

fn each_byte(kind: u8) {
    assert!(read(&most(kind)).is_ok());
    for n in 2..16 {
        each_value_of_a_byte(kind, n);
    }
}

/// Byte `n` of a record of this kind, the others being full and being zero.
fn each_value_of_a_byte(kind: u8, n: usize) {
    let most = most(kind);
    let mut least = [0; 16];
    least[..2].copy_from_slice(&[0xE3, kind]);
    for (byte, mut record) in (0..=255).flat_map(|byte| [(byte, most), (byte, least)]) {
        record[n] = byte;
        if byte <= most[n] {
            is_read_and_written_back(record);
        } else {
            assert_eq!(read(&record), Err(9), "kind {kind}, byte {n} = {byte}");
        }
    }
}

fn is_read_and_written_back(record: [u8; 16]) {
    let (thread, e) = read(&record).expect("a used field");
    let mut back = [0; 16];
    assert_eq!(write(thread, e, &mut back), 0);
    assert_eq!(back, record);
}

#[test]
fn number_10_buffer() {
    for e in EACH {
        for len in 0..40 {
            let mut buf = vec![0xAA; len];
            let number = write(3, e, &mut buf);
            if len < 16 {
                assert_eq!(number, 10);
                assert!(buf.iter().all(|&b| b == 0xAA));
            } else {
                assert_eq!(number, 0);
                assert_eq!(read(&buf[..16]), Ok((3, e)));
                assert!(buf[16..].iter().all(|&b| b == 0xAA));
            }
        }
    }
}
