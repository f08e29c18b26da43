//! A session that is stopped: by an event, or by a record that is none.

use super::*;

/// A piece further on changes nothing and finishes nothing.
fn stays(d: &Desk, number: u8) {
    let [good, bad] = [encode(0, TBEGIN), [0; 16]];
    for piece in [&[] as &[u8], &[0], &good[..15], &good, &bad, &tape(&GOOD)] {
        let mut after = d.clone();
        assert_eq!(after.feed(piece), gives(number, 0));
        assert_eq!(after, *d);
    }
}

/// The tape stops after so many records by this number, however it is cut.
fn stops(start: &Bench, tape: &[u8], number: u8, count: usize, left: &Bench) {
    for length in [1, 15, 16, 17, 33, tape.len()] {
        let mut d = Desk::open(start.clone());
        d.feed_all(tape, length);
        assert_eq!(d.session.answer, number);
        assert_eq!(d.answers.len(), count + 1);
        assert_eq!(d.answers.last(), Some(&number));
        d.holds(&[]);
        assert_eq!((d.close(), &d.bench()), (ended(number, count), left));
        stays(&d, number);
    }
}

/// What comes behind the stopping record: nothing, a part of a record, good
/// ones, bad ones.
fn tails() -> [Vec<u8>; 5] {
    let [(bad, _), ..] = bad_records();
    [
        vec![],
        vec![0],
        tape(&GOOD),
        bad.to_vec(),
        [&bad[..], &tape(&GOOD)[..7]].concat(),
    ]
}

#[test]
fn a_bad_thing_stops_it() {
    for tail in tails() {
        let bytes = [tape(&GOOD), encode(1, TEND).to_vec(), tail].concat();
        stops(&Bench::fresh(), &bytes, 13, 6, &after(6));
    }
}

#[test]
fn each_refused_event_stops_it() {
    let host = Event::Host { pr: true, tm: true };
    let mut off = Bench::begun();
    off.m.threads[1].tm = false;
    for (thread, e, number) in [
        (4, TEND, 3),
        (0, ld(32, 0), 4),
        (0, host, 5),
        (1, TEND, 11),
        (2, Event::Trechkpt, 12),
        (0, Event::Mtspr { spr: 128, ra: 0 }, 13),
    ] {
        let good = (0, addi(3, 0, 9));
        let mut left = off.clone();
        left.done(good.1).done(good.1);
        for tail in tails() {
            let bytes = [tape(&[good, good, (thread, e)]), tail].concat();
            stops(&off, &bytes, number, 2, &left);
        }
    }
}

/// A bad record in the middle: what was done before it stays.
#[test]
fn a_bad_record_stops_it_where_it_stands() {
    for (record, number) in bad_records() {
        for at in 0..=GOOD.len() {
            let mut bytes = tape(&GOOD);
            bytes.splice(at * 16..at * 16, record);
            stops(&Bench::fresh(), &bytes, number, at, &after(at));
        }
    }
}

/// A refused event hides a bad record behind it, for it stops before that is
/// looked at; and a bad record hides a refused event.
#[test]
fn the_first_of_two_stops_it() {
    let refused = encode(9, TEND);
    for (record, number) in bad_records() {
        let first = [refused, record].concat();
        stops(&Bench::fresh(), &first, 3, 0, &after(0));
        let second = [record, refused].concat();
        stops(&Bench::fresh(), &second, number, 0, &after(0));
    }
}

/// The stopping record's last byte comes alone, and bytes behind it in one
/// piece with it are not held.
#[test]
fn a_stop_by_a_record_that_was_held() {
    let bytes = [encode(0, TEND), encode(9, TEND), encode(0, TBEGIN)].concat();
    let mut d = Desk::fresh();
    assert_eq!(d.feed(&bytes[..31]), goes_on(1));
    d.holds(&bytes[16..31]);
    assert_eq!(d.feed(&bytes[31..40]), gives(3, 1));
    d.holds(&[]);
    assert_eq!(d.close(), ended(3, 1));
    stays(&d, 3);
}

#[test]
fn the_stopping_record_s_answer_needs_a_place_too() {
    let bytes = [tape(&GOOD), encode(1, TEND).to_vec()].concat();
    let all = [0, 0, 20, 0, 0, 21, 13, KEPT];
    for room in 0..=8 {
        let mut d = Desk::fresh();
        let mut answers = vec![KEPT; room];
        let fed = d.session.feed(&mut d.mem, &bytes, &mut answers);
        assert_eq!(fed, gives(13, 7));
        assert_eq!(answers, all[..room]);
        assert_eq!(d.close(), ended(13, 6));
    }
}
