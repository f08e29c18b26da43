//! A tape that goes on, however it is cut.

use super::*;
use crate::gen;

#[test]
fn opening_holds_nothing_and_has_done_nothing() {
    let Session {
        machine,
        count,
        held,
        answer,
        bytes,
    } = Session::open(Machine::fresh(), 4096);
    assert_eq!(machine, Machine::fresh());
    assert_eq!((count, held, answer, bytes), (0, 0, 0, [0; 15]));
    assert_eq!(Desk::fresh().close(), ended(0, 0));
}

#[test]
fn a_piece_of_each_length() {
    let tape = tape(&GOOD);
    for (length, finished, held) in [
        (0, 0, 0),
        (1, 0, 1),
        (15, 0, 15),
        (16, 1, 0),
        (17, 1, 1),
        (96, 6, 0),
    ] {
        let mut d = Desk::fresh();
        assert_eq!(d.feed(&tape[..length]), goes_on(finished));
        d.holds(&tape[length - held..length]);
        assert_eq!(d.session.count, finished as u64);
        assert_eq!(d.answers, ANSWERS[..finished]);
        assert_eq!(d.bench(), after(finished));
        let number = if held == 0 { 0 } else { 6 };
        assert_eq!(d.close(), ended(number, finished));
    }
}

#[test]
fn two_pieces_cut_anywhere() {
    let tape = tape(&GOOD);
    for cut in 0..=tape.len() {
        let mut d = Desk::fresh();
        assert_eq!(d.feed(&tape[..cut]), goes_on(cut / 16));
        d.holds(&tape[cut / 16 * 16..cut]);
        assert_eq!(d.feed(&tape[cut..]), goes_on(6 - cut / 16));
        d.holds(&[]);
        assert_eq!(d.answers, ANSWERS);
        assert_eq!((d.close(), d.bench()), (ended(0, 6), after(6)));
    }
}

#[test]
fn pieces_of_one_length_each() {
    let tape = tape(&GOOD);
    for length in 1..=97 {
        let mut d = Desk::fresh();
        d.feed_all(&tape, length);
        assert_eq!(d.answers, ANSWERS);
        assert_eq!((d.close(), d.bench()), (ended(0, 6), after(6)));
    }
}

#[test]
fn an_empty_piece_changes_nothing() {
    let mut d = Desk::fresh();
    d.feed(&tape(&GOOD)[..20]);
    let before = d.clone();
    assert_eq!(d.feed(&[]), goes_on(0));
    assert_eq!(d, before);
}

#[test]
fn the_count_wraps() {
    let mut d = Desk::fresh();
    d.session.count = u64::MAX - 1;
    assert_eq!(d.feed(&tape(&GOOD)), goes_on(6));
    assert_eq!(d.session.count, 4);
    assert_eq!(d.close(), ended(0, 4));
    d.session.count = u64::MAX;
    assert_eq!(d.close(), ended(0, usize::MAX));
}

#[test]
fn a_buffer_shorter_than_the_records() {
    let tape = tape(&GOOD);
    for room in 0..=8 {
        for cut in [0, 5, 16, 40] {
            let mut d = Desk::fresh();
            d.feed(&tape[..cut]);
            let mut answers = vec![KEPT; room];
            let fed = d.session.feed(&mut d.mem, &tape[cut..], &mut answers);
            assert_eq!(fed, goes_on(6 - cut / 16));
            // Places count from the first record of this piece.
            let mut right = ANSWERS[cut / 16..].to_vec();
            right.resize(8, KEPT);
            assert_eq!(answers, right[..room]);
            // The buffer is nothing to the session.
            assert_eq!((d.close(), d.bench()), (ended(0, 6), after(6)));
        }
    }
}

/// An unfinished record is not looked at, whatever it has.
#[test]
fn an_unfinished_record_is_6_at_the_close() {
    let bad: Vec<[u8; 16]> = bad_records().map(|(record, _)| record).to_vec();
    for record in [[0; 16], [0xFF; 16], encode(0, TEND)].iter().chain(&bad) {
        for held in 1..16 {
            let mut d = Desk::fresh();
            assert_eq!(d.feed(&tape(&GOOD)), goes_on(6));
            assert_eq!(d.feed(&record[..held]), goes_on(0));
            d.holds(&record[..held]);
            assert_eq!((d.close(), d.bench()), (ended(6, 6), after(6)));
        }
    }
}

/// Closing takes the value and leaves it: the next piece may still come.
#[test]
fn a_session_goes_on_after_a_close() {
    let tape = tape(&GOOD);
    let mut d = Desk::fresh();
    for (n, byte) in tape.iter().enumerate() {
        let number = if n % 16 == 0 { 0 } else { 6 };
        assert_eq!(d.close(), ended(number, n / 16));
        d.feed(&[*byte]);
    }
    assert_eq!((d.close(), d.bench()), (ended(0, 6), after(6)));
}

/// The rule from before R1 read the whole tape first, by the reader and the
/// step: the answers, and how it ends.
fn by_hand(b: &mut Bench, tape: &[u8]) -> (Vec<u8>, Ended) {
    let mut answers = Vec::new();
    for (count, record) in tape.chunks(16).enumerate() {
        if record.len() < 16 {
            return (answers, ended(6, count));
        }
        let number = match crate::read(record) {
            Ok((thread, e)) => step(&mut b.m, &mut b.mem, thread, e),
            Err(number) => number,
        };
        answers.push(number);
        if !matches!(number, 0 | 20 | 21) {
            return (answers, ended(number, count));
        }
    }
    (answers, ended(0, tape.len() / 16))
}

/// A tape for this machine: it may be stopped, have a bad record or be ragged.
fn any_tape(rng: &mut Rng, b: &Bench) -> Vec<u8> {
    let n = rng.below(60);
    let mut tape = gen::tape(rng, &b.m, &b.mem, n);
    if rng.one_in(3) {
        tape.extend(gen::record(rng));
        let n = rng.below(4);
        tape.extend(gen::tape(rng, &b.m, &b.mem, n));
    }
    if rng.one_in(4) {
        tape.truncate(tape.len().saturating_sub(1 + rng.below(15)));
    }
    tape
}

/// Feeds the tape in random pieces.
fn feed_cut(rng: &mut Rng, d: &mut Desk, tape: &[u8]) {
    let mut rest = tape;
    while !rest.is_empty() {
        let some = rng.pick([0, 1, 15, 16, 17, 100, 1000]).min(rest.len());
        d.feed(&rest[..some]);
        rest = &rest[some..];
    }
}

#[test]
fn any_cutting_is_one_run_by_the_rule_from_before() {
    let mut ends = std::collections::BTreeSet::new();
    for seed in 0..600 {
        let printed = Seed(seed);
        let rng = &mut Rng::new(seed);
        let (m, mem) = gen::valid_machine(rng);
        let mut b = Bench { m, mem };
        let tape = any_tape(rng, &b);
        let (mut d, mut ran) = (Desk::open(b.clone()), b.clone());
        feed_cut(rng, &mut d, &tape);
        let (answers, right) = by_hand(&mut b, &tape);
        assert_eq!(d.answers, answers);
        assert_eq!((d.close(), d.bench()), (right, b));
        // Over a tape that R1 does not refuse it is the run.
        let run = ran.run(&tape);
        if !matches!(run.answer, 6..=9) {
            assert_eq!((d.close(), d.bench()), (run, ran));
        }
        ends.insert(right.answer);
        drop(printed);
    }
    // Else the tapes would show little.
    assert!([0, 6, 7, 8, 9].iter().all(|n| ends.contains(n)), "{ends:?}");
}
