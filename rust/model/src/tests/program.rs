//! Rules P1 to P6: what the program writes.

use super::*;
use crate::{gen, program, read};

#[test]
fn program_texts() {
    assert_eq!(
        program(&tape(&[(0, TBEGIN), (0, TEND)])),
        "0 0\n1 0\nend 2\n"
    );
    assert_eq!(program(&[]), "end 0\n");
    // A stopping record has its line and is not counted.
    let tail = tape(&[(0, TBEGIN), (0, TABORT), (9, TEND), (0, TEND)]);
    assert_eq!(program(&tail), "0 0\n1 20\n2 3\nend 2\n");
    let s = tape(&[(3, TBEGIN), (3, TSUSPEND), (3, TABORT), (3, TEND)]);
    assert_eq!(program(&s), "0 0\n1 0\n2 21\n3 13\nend 3\n");
}

#[test]
fn texts_of_bad_tapes() {
    assert_eq!(program(&[0xE3]), "bad 0 6\n");
    assert_eq!(program(&[0; 17]), "bad 1 6\n");
    assert_eq!(program(&[0; 16]), "bad 0 7\n");
    let [(mark, _), (kind, _), (field, _)] = bad_records();
    let tend = encode(0, TEND);
    assert_eq!(program(&[tend, mark].concat()), "bad 1 7\n");
    assert_eq!(program(&[tend, tend, field, kind].concat()), "bad 2 9\n");
    // In N, in problem state: 12 comes before 13, and hides as little.
    let treclaim = encode(0, Event::Treclaim { ra: 0 });
    assert_eq!(program(&[treclaim, kind].concat()), "bad 1 8\n");
    let host = Event::Host {
        pr: false,
        tm: true,
    };
    let reclaim = [encode(0, host), treclaim, kind].concat();
    assert_eq!(program(&reclaim), "bad 2 8\n");
    assert_eq!(program(&reclaim[..32]), "0 0\n1 13\nend 1\n");
}

#[test]
fn program_lengths() {
    let long = tape(&vec![(0, TEND); 4097]);
    let text = program(&long[..65_536]);
    assert_eq!(text.lines().count(), 4097);
    assert!(text.ends_with("\n4095 0\nend 4096\n"));
    assert_eq!(program(&long[..65_535]), "bad 4095 6\n");
    assert_eq!(program(&long[..65_537]), "long\n");
    assert_eq!(program(&long), "long\n");
    // The last record of the longest tape is read before the first is done.
    let mut last = long[..65_536].to_vec();
    last[65_520] = 0;
    assert_eq!(program(&last), "bad 4095 7\n");
}

/// The highest level is reached by events: the longest tape of the program
/// climbs to it and overflows at its last record (rules E1, P2 and K7).
#[test]
fn a_tape_climbs_all_levels() {
    let levels = MAX_LEVEL as usize;
    let climb = tape(&vec![(0, TBEGIN); levels + 1]);
    assert_eq!(climb.len(), 65_536);
    let done: String = (0..levels).map(|n| format!("{n} 0\n")).collect();
    assert_eq!(program(&climb), done + "4095 20\nend 4096\n");
    let mut b = Bench::fresh();
    assert_eq!(b.run(&climb[..65_520]), ended(0, levels));
    assert_eq!((b.thread(0).state, b.thread(0).texasr), (State::T, 4095));
    b.gives(TBEGIN, 20).is(State::N);
    let t = b.thread(0);
    assert_eq!(t.texasr, 0x0040_0000_1C00_0FFF);
    assert_eq!((t.nia, t.tfiar), (4, 4 * 4095 + 1));
}

/// What rules P3 to P5 say of a tape of whole records, by the step.
fn by_hand(tape: &[u8]) -> String {
    let records = || tape.chunks(16).enumerate();
    let refused = records().find_map(|(i, record)| Some((i, read(record).err()?)));
    if let Some((index, number)) = refused {
        return format!("bad {index} {number}\n");
    }
    let mut b = Bench::fresh();
    let (mut text, mut done) = (String::new(), 0);
    for (i, record) in records() {
        let (thread, e) = read(record).expect("a record");
        let number = step(&mut b.m, &mut b.mem, thread, e);
        text += &format!("{i} {number}\n");
        if !matches!(number, 0 | 20 | 21) {
            break;
        }
        done += 1;
    }
    text + &format!("end {done}\n")
}

#[test]
fn a_program_is_a_run_on_a_fresh_machine() {
    seeds(120, |rng| {
        let fresh = Bench::fresh();
        let n = rng.below(400);
        let tape = gen::tape(rng, &fresh.m, &fresh.mem, n);
        assert_eq!(program(&tape), by_hand(&tape));
    });
}
