//! Rules R1 to R5: the run, which reads the whole tape first.

use super::*;
use crate::gen;
use crate::{read, run_with_answers};

/// Events of which each is done: 0, 0, 20, 0, 0, 21.
const GOOD: [(u8, Event); 6] = [
    (0, TBEGIN),
    (0, std(0, 1)),
    (0, TABORT),
    (1, TBEGIN),
    (1, TSUSPEND),
    (1, TABORT),
];

/// Events that are refused behind those, each with its number.
const REFUSED: [(u8, Event, u8); 6] = [
    (4, TBEGIN, 3),
    (0, ld(32, 0), 4),
    (2, Event::Trechkpt, 12),
    (3, TRECLAIM, 12),
    (1, TEND, 13),
    (255, TEND, 3),
];

const TRECLAIM: Event = Event::Treclaim { ra: 0 };

/// A machine and memory of which a change would be seen.
fn busy() -> Bench {
    let mut b = Bench::privileged();
    b.done(addi(3, 0, 9)).done(std(3, 5)).done_by(2, TBEGIN);
    b
}

/// The tape gives this, and leaves machine, memory and the answers lent.
fn refuses(b: &Bench, tape: &[u8], expected: Ended) {
    let mut after = b.clone();
    assert_eq!(after.run(tape), expected);
    let mut answers = [0x55; 8];
    let given = run_with_answers(&mut after.m, &mut after.mem, tape, &mut answers);
    assert_eq!(given, expected);
    assert_eq!(after, *b);
    assert_eq!(answers, [0x55; 8]);
}

#[test]
fn a_run_goes_on_after_0_20_and_21() {
    assert_eq!(Bench::fresh().run(&tape(&GOOD)), ended(0, 6));
    assert_eq!(Bench::fresh().run(&[]), ended(0, 0));
}

#[test]
fn a_run_stops_before_a_refused_event() {
    for (thread, e, number) in REFUSED {
        // The Bad Thing is one only behind all of the good ones.
        let first = if number == 13 { GOOD.len() } else { 0 };
        for before in first..=GOOD.len() {
            let mut events = GOOD.to_vec();
            events.insert(before, (thread, e));
            let mut b = Bench::fresh();
            assert_eq!(b.run(&tape(&events)), ended(number, before));
            // The machine is that after exactly the records done.
            let mut after = Bench::fresh();
            after.run(&tape(&GOOD[..before]));
            assert_eq!(b, after);
        }
    }
}

#[test]
fn a_bad_record_anywhere_refuses_the_tape() {
    for (record, number) in bad_records() {
        for at in 0..=GOOD.len() {
            let mut bytes = tape(&GOOD);
            bytes.splice(at * 16..at * 16, record);
            refuses(&busy(), &bytes, bad(number, at));
            refuses(&Bench::fresh(), &bytes, bad(number, at));
        }
    }
}

#[test]
fn a_refused_event_hides_no_bad_record() {
    for (thread, e, refused) in REFUSED {
        let mut b = Bench::fresh();
        b.run(&tape(&GOOD));
        for (record, number) in bad_records() {
            let behind = [encode(thread, e), record].concat().repeat(2);
            refuses(&b, &behind, bad(number, 1));
            // Nor does a bad record hide what is before it, once it is gone.
            assert_eq!(b.clone().run(&behind[..16]), ended(refused, 0));
        }
    }
    // The tape of rule P6: treclaim. gives 13 in N, and then comes kind 0.
    let mut b = Bench::privileged();
    let hidden = [encode(0, TRECLAIM), bad_records()[1].0].concat();
    refuses(&b, &hidden, bad(8, 1));
    assert_eq!(b.run(&hidden[..16]), ended(13, 0));
}

#[test]
fn the_first_of_several_bad_records_counts() {
    let good = encode(0, TBEGIN);
    for (first, number) in bad_records() {
        for (second, _) in bad_records() {
            let bytes = [good, good, first, good, second].concat();
            refuses(&busy(), &bytes, bad(number, 2));
            refuses(&busy(), &[first, second].concat(), bad(number, 0));
        }
    }
}

#[test]
fn number_6_comes_before_all_records() {
    let good = encode(0, TBEGIN);
    for whole in 0..4 {
        for more in 1..16 {
            let length = 16 * whole + more;
            refuses(&busy(), &good.repeat(4)[..length], bad(6, whole));
            for (record, _) in bad_records() {
                refuses(&busy(), &record.repeat(4)[..length], bad(6, whole));
            }
        }
    }
}

#[test]
fn numbers_1_and_2_come_before_the_tape() {
    let [(record, _), ..] = bad_records();
    let tapes = [vec![], record.to_vec(), record[..5].to_vec(), tape(&GOOD)];
    let mut size = busy();
    size.mem.truncate(17);
    let mut flaw = busy();
    flaw.m.threads[0].nia = 1;
    // 1 comes before 2.
    let mut both = flaw.clone();
    both.m.count = 5;
    for (b, number) in [(size, 1), (flaw, 2), (both, 1)] {
        for tape in &tapes {
            refuses(&b, tape, bad(number, 0));
        }
    }
}

/// Fields that the reader lets be anything (rule T4) stop no tape before its
/// events are done.
#[test]
fn a_wrong_operand_is_no_bad_record() {
    let any = [ld(255, u32::MAX), Event::Tcheck { bf: 200 }];
    for e in any {
        let mut b = Bench::fresh();
        assert_eq!(b.run(&tape(&[(0, TBEGIN), (0, e)])), ended(4, 1));
        assert_eq!(b, Bench::begun());
    }
}

#[test]
fn answers_are_put_into_the_buffer() {
    let mut events = GOOD.to_vec();
    // 13, and then one that is not reached.
    events.extend([(1, TEND), (0, TBEGIN)]);
    let tape = tape(&events);
    let all = [0, 0, 20, 0, 0, 21, 13, 0x55, 0x55];
    for room in 0..all.len() {
        let mut b = Bench::fresh();
        let mut answers = vec![0x55; room];
        let given = run_with_answers(&mut b.m, &mut b.mem, &tape, &mut answers);
        assert_eq!(given, ended(13, 6));
        assert_eq!(answers, all[..room]);
        // The buffer is nothing to the machine.
        let mut plain = Bench::fresh();
        assert_eq!(plain.run(&tape), given);
        assert_eq!(b, plain);
    }
}

/// The events of a tape, or what rule R1 says of it, by the reader.
fn read_all(tape: &[u8]) -> Result<Vec<(u8, Event)>, Ended> {
    if tape.len() % 16 != 0 {
        return Err(bad(6, tape.len() / 16));
    }
    let records = tape.chunks(16).enumerate();
    records
        .map(|(index, record)| read(record).map_err(|number| bad(number, index)))
        .collect()
}

/// What rules R1 to R4 say of a tape, by the reader and the step.
fn by_hand(b: &mut Bench, tape: &[u8]) -> Ended {
    let events = match read_all(tape) {
        Ok(events) => events,
        Err(refused) => return refused,
    };
    for (count, &(thread, e)) in events.iter().enumerate() {
        let number = step(&mut b.m, &mut b.mem, thread, e);
        if !matches!(number, 0 | 20 | 21) {
            return ended(number, count);
        }
    }
    ended(0, events.len())
}

#[test]
fn a_run_is_its_events_one_by_one() {
    let mut ends = std::collections::BTreeSet::new();
    for seed in 0..600 {
        let printed = Seed(seed);
        let rng = &mut Rng::new(seed);
        let (m, mem) = gen::valid_machine(rng);
        let n = rng.below(120);
        let mut tape = gen::tape(rng, &m, &mem, n);
        if rng.one_in(8) {
            tape.extend(gen::record(rng));
        }
        if rng.one_in(40) {
            tape.push(rng.byte());
        }
        let mut b = Bench { m, mem };
        let mut ran = b.clone();
        let given = ran.run(&tape);
        assert_eq!(given, by_hand(&mut b, &tape));
        assert_eq!(ran, b);
        ends.insert(given.answer);
        drop(printed);
    }
    // Else the tapes would show little.
    assert!([0, 6, 7, 8, 9].iter().all(|n| ends.contains(n)), "{ends:?}");
}
