//! Values that are no session: refused by 1 or 2, and nothing changed.

use super::*;

/// Feeding any piece and closing are refused by this number.
fn refuses(d: &Desk, number: u8) {
    for piece in [&[] as &[u8], &[0], &encode(0, TBEGIN), &tape(&GOOD)] {
        let mut after = d.clone();
        let mut answers = [KEPT; 8];
        let fed = after.session.feed(&mut after.mem, piece, &mut answers);
        assert_eq!(fed, gives(number, 0));
        assert_eq!(after, *d);
        assert_eq!(answers, [KEPT; 8]);
    }
    assert_eq!(d.close(), bad(number, 0));
}

/// A session in the middle of a tape, which holds five bytes.
fn busy() -> Desk {
    let mut d = Desk::fresh();
    d.feed(&tape(&GOOD)[..37]);
    d.holds(&tape(&GOOD)[32..37]);
    d
}

/// The same, stopped by 3.
fn stopped() -> Desk {
    let mut d = Desk::fresh();
    d.feed(&[encode(0, TEND), encode(4, TEND)].concat());
    assert_eq!(d.session.answer, 3);
    d
}

#[test]
fn more_than_15_bytes_held() {
    for held in [16, 17, 255, usize::MAX] {
        let mut d = busy();
        d.session.bytes = [1; 15];
        d.session.held = 15;
        assert_eq!(d.close().answer, 6);
        d.session.held = held;
        refuses(&d, 2);
        d.session.bytes = [0; 15];
        refuses(&d, 2);
    }
}

#[test]
fn a_byte_past_those_held() {
    for held in 0..15 {
        for place in 0..15 {
            let mut d = busy();
            d.session.held = held;
            d.session.bytes = [0; 15];
            d.session.bytes[place] = 1;
            match place < held {
                true => assert_eq!(d.close(), ended(6, 2)),
                false => refuses(&d, 2),
            }
        }
    }
}

/// 6 is told at the close alone, 10 is a writer's, and 20 and 21 stop nothing.
#[test]
fn an_answer_that_stops_no_session() {
    for answer in 0..=255 {
        let mut d = stopped();
        d.session.answer = answer;
        match answer {
            0 | 3 | 4 | 5 | 7 | 8 | 9 | 11 | 12 | 13 => assert_eq!(d.close(), ended(answer, 1)),
            _ => refuses(&d, 2),
        }
    }
}

#[test]
fn stopped_and_yet_bytes_held() {
    for answer in [3, 4, 5, 7, 8, 9, 11, 12, 13] {
        for held in 1..=15 {
            let mut d = stopped();
            d.session.answer = answer;
            d.session.held = held;
            refuses(&d, 2);
            d.session.bytes[0] = 0xE3;
            refuses(&d, 2);
        }
    }
}

#[test]
fn a_machine_that_is_not_valid() {
    for mut d in [busy(), stopped()] {
        d.session.machine.threads[3].nia = 2;
        refuses(&d, 2);
    }
}

/// 1 comes before all that is refused by 2.
#[test]
fn a_wrong_memory_length_or_thread_count() {
    let mut wrong = busy();
    wrong.session.held = 16;
    wrong.session.answer = 99;
    wrong.session.machine.threads[0].nia = 1;
    for d in [busy(), stopped(), wrong] {
        for len in [0, 1, 15, 17, 4095, 4097, 4112] {
            let mut d = d.clone();
            d.mem.resize(len, 7);
            refuses(&d, 1);
        }
        for count in [0, 5, usize::MAX] {
            let mut d = d.clone();
            d.session.machine.count = count;
            refuses(&d, 1);
        }
    }
}

/// The answer is the number. All else is as where it is not refused.
#[test]
fn opening_tests_1_and_2() {
    let mut broken = Bench::fresh();
    broken.m.threads[1].cr0 = 16;
    let mut size = broken.clone();
    size.mem.truncate(24);
    let mut count = broken.clone();
    count.m.count = 5;
    for (b, number) in [(broken, 2), (size, 1), (count, 1)] {
        let d = Desk::open(b.clone());
        assert_eq!(d.session.machine, b.m);
        assert_eq!((d.session.count, d.session.answer), (0, number));
        d.holds(&[]);
        refuses(&d, number);
    }
}

/// What was refused for its memory's length is no session over another either.
#[test]
fn a_refused_opening_over_another_memory() {
    let session = Session::open(Machine::fresh(), 17);
    assert_eq!(session.answer, 1);
    assert_eq!(session.close(17), bad(1, 0));
    assert_eq!(session.close(16), bad(2, 0));
}

#[test]
fn any_count_is_right() {
    for count in [0, 1, 1 << 40, u64::MAX] {
        for mut d in [busy(), stopped()] {
            let number = d.close().answer;
            d.session.count = count;
            assert_eq!(d.close(), ended(number, count as usize));
        }
    }
}
