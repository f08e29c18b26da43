//! Events, records and tapes: the archive's reader and writer, and listings.

use std::collections::HashSet;

use naszeptan::{raw, Answer, Edition, Event, Kind, Tape, Ts, KINDS};

/// The ends of the ranges of register, BF, TO and SPR, and beyond.
const BYTES: [u8; 8] = [0, 1, 7, 26, 31, 32, 128, 255];

/// Events that have flags or no operand, all of them.
fn flagged() -> Vec<Event> {
    let mut all = vec![
        Event::Trechkpt,
        Event::Disallowed,
        Event::Interrupt,
        Event::Rfid,
    ];
    for flag in [false, true] {
        all.push(Event::Tbegin { r: flag });
        all.push(Event::Tend { a: flag });
        all.push(Event::Tsr { l: flag });
        for tm in [false, true] {
            all.push(Event::Host { pr: flag, tm });
            all.extend(
                (0..4)
                    .map(Ts::of)
                    .map(|ts| Event::Mtmsrd { ts, tm, pr: flag }),
            );
        }
    }
    all
}

/// Events with two or three bytes, or two and SI.
fn with_bytes() -> Vec<Event> {
    let mut all = Vec::new();
    for (x, ra) in BYTES.into_iter().flat_map(|x| BYTES.map(|ra| (x, ra))) {
        all.push(Event::Mtspr { spr: x, ra });
        all.push(Event::Mfspr { rt: ra, spr: x });
        for si in [0, 1, 0x7FFF, 0x8000, 0xFFFF] {
            all.push(Event::Addi { rt: x, ra, si });
        }
        for rb in BYTES {
            all.push(Event::Tabortwc { to: x, ra, rb });
            all.push(Event::Tabortdc { to: x, ra, rb });
        }
    }
    all
}

/// The accesses of one, two and four bytes, kinds 20 to 25, of one register and
/// at one address.
const fn narrow(r: u8, address: u32) -> [Event; 6] {
    [
        Event::Lbz { rt: r, address },
        Event::Lhz { rt: r, address },
        Event::Lwz { rt: r, address },
        Event::Stb { ra: r, address },
        Event::Sth { ra: r, address },
        Event::Stw { ra: r, address },
    ]
}

/// Events of every kind.
fn events() -> Vec<Event> {
    let mut all = flagged();
    all.extend(with_bytes());
    let pages = [0, 1, 7, 8, 0x0102_0304, u32::MAX];
    all.extend(pages.map(|page| Event::Tlbie { page }));
    for x in BYTES {
        all.push(Event::Tabort { ra: x });
        all.push(Event::Tcheck { bf: x });
        all.push(Event::Treclaim { ra: x });
        for index in [0, 17, 4095, 4096, 0x0102_0304, u32::MAX] {
            all.push(Event::Ld { rt: x, index });
            all.push(Event::Std { ra: x, index });
            all.extend(narrow(x, index));
        }
    }
    all
}

#[test]
fn events_come_back_from_a_tape() {
    let all: Vec<_> = events().into_iter().zip((0..=255).cycle()).collect();
    let tape: Tape = all.iter().map(|&(event, thread)| (thread, event)).collect();
    assert_eq!(tape.len(), all.len());
    assert_eq!(tape.records().len(), all.len());
    for (&(event, thread), record) in all.iter().zip(tape.records()) {
        assert_eq!(record, Ok((thread, event)));
    }
}

#[test]
fn no_two_events_look_alike() {
    let all = events();
    let texts: HashSet<_> = all.iter().map(Event::to_string).collect();
    assert_eq!(texts.len(), all.len());
    let kinds: HashSet<_> = all.iter().map(|event| event.kind()).collect();
    assert_eq!(kinds, (1..=26).collect());
}

/// TS + 4 x TM + 8 x PR; of a TS above 3 the two low bits count.
#[test]
fn flags_of_mtmsrd() {
    for (ts, tm, pr, flags) in [
        (Ts::S, false, false, 1),
        (Ts::T, true, false, 6),
        (Ts::N, false, true, 8),
        (Ts::None, true, true, 15),
    ] {
        let event = Event::Mtmsrd { ts, tm, pr };
        assert_eq!(event.to_raw(0).flags, flags);
        let right = [0xE3, 19, 0, 0, 0, 0, flags, 0, 0, 0, 0, 0, 0, 0, 0, 0];
        assert_eq!(event.write_in(Edition::Three, 0), Ok(right));
    }
}

/// The byte address stands in the index, RT in X and RA in RA.
#[test]
fn the_records_of_narrow_accesses() {
    let texts = ["lbz", "lhz", "lwz", "stb", "sth", "stw"];
    for ((kind, event), name) in (20..).zip(narrow(7, 0x0102_0304)).zip(texts) {
        let (x, ra) = if kind <= 22 { (7, 0) } else { (0, 7) };
        let right = [0xE3, kind, 2, x, ra, 0, 0, 0, 1, 2, 3, 4, 0, 0, 0, 0];
        assert_eq!(event.write_in(Edition::Three, 2), Ok(right));
        assert_eq!(event.write_in(Edition::Two, 2), Err(Answer::NoKind));
        assert_eq!(event.to_string(), format!("{name} r7, address 16909060"));
        assert!(!event.is_tm() && !event.is_privileged());
        let fields = event.to_raw(2);
        let unused = raw::Event {
            x: 1,
            ra: 1,
            ..fields
        };
        let flagged = raw::Event { flags: 1, ..fields };
        for fields in [unused, flagged] {
            assert_eq!(Event::from_raw(fields), Err(Answer::Field));
        }
    }
}

/// The page stands in the index.
#[test]
fn the_record_of_a_tlbie() {
    let event = Event::Tlbie { page: 0x0102_0304 };
    let right = [0xE3, 26, 2, 0, 0, 0, 0, 0, 1, 2, 3, 4, 0, 0, 0, 0];
    assert_eq!(event.write_in(Edition::Three, 2), Ok(right));
    assert_eq!(event.write_in(Edition::Two, 2), Err(Answer::NoKind));
    assert_eq!(event.to_string(), "tlbie page 16909060");
    for x in [
        raw::Event {
            x: 1,
            ..event.to_raw(0)
        },
        raw::Event {
            flags: 1,
            ..event.to_raw(0)
        },
    ] {
        assert_eq!(Event::from_raw(x), Err(Answer::Field));
    }
}

/// Each number that has a row is one by which fields are an event, and no other.
#[test]
fn rows_by_their_numbers() {
    for number in 0..=255 {
        let row = Kind::of(number);
        assert_eq!(row.is_some(), matches!(number, 1..=26), "{number}");
        let fields = raw::Event {
            kind: number,
            ..raw::Event::default()
        };
        match Event::from_raw(fields) {
            Ok((_, event)) => {
                let row = row.expect("a row");
                assert_eq!((event.kind(), row.number), (number, number));
                assert!(event.to_string().starts_with(row.name));
            }
            Err(refused) => assert_eq!((refused, row), (Answer::NoKind, None)),
        }
    }
    assert!(KINDS.is_sorted_by(|a, b| a.number < b.number));
}

#[test]
fn the_record_of_rule_t5() {
    let mut tape = Tape::new();
    tape.push(0, Event::Std { ra: 3, index: 17 });
    let record = [0xE3, 0x0D, 0, 0, 3, 0, 0, 0, 0, 0, 0, 0x11, 0, 0, 0, 0];
    assert_eq!(tape.as_bytes(), record);
}

#[test]
fn writer() {
    let event = Event::Std { ra: 3, index: 17 }.to_raw(0);
    let mut buffer = [0xAA; 20];
    assert_eq!(raw::write(event, &mut buffer[..15]), 10);
    assert_eq!(raw::write(event, &mut []), 10);
    assert_eq!(buffer, [0xAA; 20]);
    assert_eq!(raw::write(event, &mut buffer), 0);
    assert_eq!(buffer[16..], [0xAA; 4]);
}

/// Kind and fields are tested before the buffer's length.
#[test]
fn writer_of_no_event() {
    let none = raw::Event::default();
    let unused = raw::Event {
        kind: 16,
        x: 1,
        ..none
    };
    for len in [0, 15, 16, 20] {
        let mut buffer = [0xAA; 20];
        assert_eq!(raw::write(none, &mut buffer[..len]), 8);
        assert_eq!(raw::write(unused, &mut buffer[..len]), 9);
        assert_eq!(buffer, [0xAA; 20]);
    }
}

#[test]
fn reader() {
    let zero = raw::Event::default();
    for (bytes, answer) in [(&[][..], 6), (&[0; 15], 6), (&[0; 17], 6), (&[0; 16], 7)] {
        assert_eq!(
            raw::read(bytes),
            raw::Record {
                answer,
                event: zero
            }
        );
    }
}

/// Fields as they are and with one of them set, for every kind.
fn raw_events() -> Vec<raw::Event> {
    let mut all = Vec::new();
    for kind in 0..=255 {
        let none = raw::Event {
            kind,
            thread: kind,
            ..Default::default()
        };
        all.push(none);
        all.push(raw::Event { x: 1, ..none });
        all.push(raw::Event { ra: 1, ..none });
        all.push(raw::Event { rb: 1, ..none });
        all.push(raw::Event { index: 1, ..none });
        all.push(raw::Event { si: 1, ..none });
        for flags in [1, 2, 3, 4, 8, 15, 16, 255] {
            all.push(raw::Event { flags, ..none });
        }
    }
    all
}

/// What `Event::from_raw` takes and refuses is what the archive does.
#[test]
fn raw_events_and_typed_ones() {
    for fields in raw_events() {
        let written = raw::write(fields, &mut [0; 16]);
        match Event::from_raw(fields) {
            Ok((thread, event)) => {
                assert_eq!(written, 0, "{fields:?}");
                assert_eq!(event.to_raw(thread), fields);
            }
            Err(refused) => assert_eq!(refused.number(), written, "{fields:?}"),
        }
    }
}

#[test]
fn a_listing_shows_what_is_no_record() {
    let mut bytes = Tape::from_iter([(3, Event::Tsr { l: true })]).into_bytes();
    bytes.extend([0xE4; 16]);
    bytes.extend([0xE3, 0x01]);
    let refused = "E4 ".repeat(16);
    let expected = format!(
        "    0  thread 3  tsr. L=1\n    1  refused 7: {}\n    2  refused 6: E3 01",
        refused.trim()
    );
    let tape = Tape::from_bytes(bytes);
    assert_eq!(tape.to_string(), expected);
    assert_eq!(tape.len(), 3);
    assert!(tape.is_ragged());
    assert_eq!(Tape::new().to_string(), "");
}
