//! Edition two through the archive: its reader, its writer, and the converters.

use naszeptan::{raw, Answer, Edition, Event, NotConverted, Tape, Ts};

/// A std by thread 0 of register 3 to doubleword 17, in both editions.
const TWO: [u8; 16] = [0, 0x0D, 0, 3, 0, 0, 0, 0, 0x11, 0, 0, 0, 0, 0, 0, 0];
const THREE: [u8; 16] = [0xE3, 0x0D, 0, 0, 3, 0, 0, 0, 0, 0, 0, 0x11, 0, 0, 0, 0];

/// An event of each kind that both have, whose operands are told from one another.
#[rustfmt::skip]
const EACH: [Event; 17] = [
    Event::Tbegin { r: true },
    Event::Tend { a: true },
    Event::Tabort { ra: 1 },
    Event::Tabortwc { to: 2, ra: 3, rb: 4 },
    Event::Tabortdc { to: 5, ra: 6, rb: 7 },
    Event::Tsr { l: true },
    Event::Tcheck { bf: 255 },
    Event::Treclaim { ra: 8 },
    Event::Trechkpt,
    Event::Mtspr { spr: 26, ra: 9 },
    Event::Mfspr { rt: 10, spr: 131 },
    Event::Ld { rt: 11, index: 0x0102_0304 },
    Event::Std { ra: 12, index: u32::MAX - 1 },
    Event::Addi { rt: 13, ra: 14, si: 0x8001 },
    Event::Disallowed,
    Event::Interrupt,
    Event::Host { pr: false, tm: true },
];

/// The record with one byte changed.
fn with(mut record: [u8; 16], n: usize, byte: u8) -> [u8; 16] {
    record[n] = byte;
    record
}

fn refused(tape: &[u8], from: Edition) -> NotConverted {
    let tape = Tape::from_bytes(tape);
    tape.convert(from).expect_err("a tape that is refused")
}

#[test]
fn events_come_back_from_each_edition() {
    for (event, thread) in EACH.into_iter().flat_map(|e| (0..4).map(move |n| (e, n))) {
        for edition in Edition::ALL {
            let record = event.write_in(edition, thread).unwrap();
            assert_eq!(Event::read_in(edition, &record), Ok((thread, event)));
            let taken = Event::read_in(edition.other(), &record);
            assert_eq!(taken, Err(Answer::BadFirstByte), "{event}");
        }
    }
    for (edition, record) in [(Edition::Two, TWO), (Edition::Three, THREE)] {
        let store = Event::Std { ra: 3, index: 17 };
        assert_eq!(store.write_in(edition, 0), Ok(record));
    }
}

#[test]
fn threads_above_3() {
    for thread in [4, 5, 0xE3, 255] {
        let event = Event::Disallowed;
        assert!(event.write_in(Edition::Three, thread).is_ok());
        let none = event.write_in(Edition::Two, thread);
        assert_eq!(none, Err(Answer::NoThread));
    }
}

/// Edition two has no kind above 17. A thread that it has not is told before.
#[test]
fn kinds_above_17() {
    let (ts, tm, pr, address) = (Ts::T, true, false, 0);
    for event in [
        Event::Rfid,
        Event::Mtmsrd { ts, tm, pr },
        Event::Lbz { rt: 0, address },
        Event::Lhz { rt: 0, address },
        Event::Lwz { rt: 0, address },
        Event::Stb { ra: 0, address },
        Event::Sth { ra: 0, address },
        Event::Stw { ra: 0, address },
        Event::Tlbie { page: 0 },
    ] {
        assert_eq!(event.write_in(Edition::Two, 3), Err(Answer::NoKind));
        assert_eq!(event.write_in(Edition::Two, 4), Err(Answer::NoThread));
        let three = event.write_in(Edition::Three, 3).unwrap();
        assert_eq!(refused(&three, Edition::Three).answer, Answer::NoKind);
        let fields = event.to_raw(3);
        assert_eq!(raw::write_two(fields, &mut [0; 15]), 8);
        let two = [
            3,
            fields.kind,
            0,
            0,
            0,
            fields.flags,
            0,
            0,
            0,
            0,
            0,
            0,
            0,
            0,
            0,
            0,
        ];
        assert_eq!(raw::read_two(&two).answer, 8);
    }
}

#[test]
fn reader() {
    let zero = raw::Event::default();
    for (bytes, answer) in [
        (&[][..], 6),
        (&[4; 15], 6),
        (&[0; 17], 6),
        (&[4; 16], 7),
        (&THREE, 7),
        (&[3; 16], 9),
        (&[0; 16], 8),
        (&with(with(TWO, 1, 18), 15, 1), 8),
        (&with(TWO, 12, 1), 9),
        (&with(TWO, 15, 1), 9),
        (&with(TWO, 5, 1), 9),
    ] {
        let event = zero;
        assert_eq!(raw::read_two(bytes), raw::Record { answer, event });
    }
    let record = raw::read_two(&TWO);
    assert_eq!(record.answer, 0);
    let store = Event::Std { ra: 3, index: 17 };
    assert_eq!(record.event, store.to_raw(0));
}

/// 8 and 9 of what is no event come first, then 3, and the buffer last.
#[test]
fn writer() {
    let store = Event::Std { ra: 3, index: 17 }.to_raw(0);
    let far = raw::Event { thread: 4, ..store };
    let unused = raw::Event { rb: 1, ..far };
    let none = raw::Event { kind: 27, ..unused };
    for len in [0, 15, 16, 20] {
        let mut buffer = [0xAA; 20];
        assert_eq!(raw::write_two(none, &mut buffer[..len]), 8);
        assert_eq!(raw::write_two(unused, &mut buffer[..len]), 9);
        assert_eq!(raw::write_two(far, &mut buffer[..len]), 3);
        assert_eq!(buffer, [0xAA; 20]);
        let right = if len < 16 { 10 } else { 0 };
        assert_eq!(raw::write_two(store, &mut buffer[..len]), right);
        assert_eq!(buffer[..16] == TWO, right == 0);
        assert_eq!(buffer[16..], [0xAA; 4]);
    }
}

#[test]
fn tapes_there_and_back() {
    let events = EACH.into_iter().zip((0..4).cycle());
    let three: Tape = events.map(|(event, thread)| (thread, event)).collect();
    let two = three.convert(Edition::Three).unwrap();
    assert!(two.records_in(Edition::Two).eq(three.records()));
    assert!(two.records().all(|r| r == Err(Answer::BadFirstByte)));
    assert_eq!(two.convert(Edition::Two), Ok(three));
    for edition in Edition::ALL {
        assert_eq!(Tape::new().convert(edition), Ok(Tape::new()));
    }
}

#[test]
fn refusals_have_a_number_and_an_index() {
    let good = [THREE, THREE];
    for (record, answer) in [
        (with(THREE, 2, 4), Answer::NoThread),
        (TWO, Answer::BadFirstByte),
        (with(THREE, 1, 0), Answer::NoKind),
        (with(THREE, 1, 20), Answer::Field),
        (with(THREE, 1, 23), Answer::NoKind),
        (with(THREE, 1, 27), Answer::NoKind),
        (with(THREE, 15, 1), Answer::Field),
    ] {
        for index in 0..2 {
            let mut tape = good;
            tape[index] = record;
            let from = Edition::Three;
            let right = NotConverted {
                from,
                answer,
                index,
            };
            assert_eq!(refused(tape.as_flattened(), from), right);
        }
    }
    let ragged = refused(&good.as_flattened()[..31], Edition::Three);
    assert_eq!((ragged.answer, ragged.index), (Answer::TapeLength, 1));
}

#[test]
fn refusals_in_words() {
    for (tape, from, words) in [
        (
            &TWO[..],
            Edition::Three,
            "record 0: 7, the first byte is not 0xE3",
        ),
        (
            &THREE,
            Edition::Two,
            "record 0: 7, the first byte is above 3",
        ),
        (
            &with(TWO, 1, 18),
            Edition::Two,
            "record 0: 8, the kind is not 1 to 17",
        ),
        (
            &with(THREE, 2, 9),
            Edition::Three,
            "record 0: 3, no such thread",
        ),
        (
            &TWO[1..],
            Edition::Two,
            "the tape: 6, the length is not a multiple of 16 bytes",
        ),
    ] {
        assert_eq!(refused(tape, from).to_string(), words);
    }
    assert_eq!(Edition::ALL.map(Edition::number), [2, 3]);
    assert_eq!(Edition::Three.to_string(), "edition three");
}

/// The buffer of a converter: what it keeps, and 6 before 10 before a record.
#[test]
fn converters_write_only_what_they_convert() {
    type Convert = fn(&[u8], &mut [u8]) -> raw::Converted;
    let both: [(Convert, [u8; 16], [u8; 16]); 2] = [
        (raw::two_to_three, TWO, THREE),
        (raw::three_to_two, THREE, TWO),
    ];
    for (convert, from, to) in both {
        let tape = [from, from];
        let mut bad = tape;
        bad[1] = to;
        let (tape, bad) = (tape.as_flattened(), bad.as_flattened());
        let mut buffer = [0xAA; 40];
        for (given, room, answer, index) in [
            (&bad[..31], 0, 6, 1),
            (&bad[..15], 40, 6, 0),
            (bad, 31, 10, 0),
            (tape, 0, 10, 0),
            (bad, 40, 7, 1),
            (&tape[..0], 0, 0, 0),
            (&tape[..0], 40, 0, 0),
        ] {
            let right = raw::Converted { answer, index };
            assert_eq!(convert(given, &mut buffer[..room]), right);
            assert_eq!(buffer, [0xAA; 40]);
        }
        let right = raw::Converted {
            answer: 0,
            index: 2,
        };
        assert_eq!(convert(tape, &mut buffer), right);
        assert_eq!(buffer[..32], *[to, to].as_flattened());
        assert_eq!(buffer[32..], [0xAA; 8]);
    }
}
