//! Rule T11: what the writer writes, and 3, 8 and 10 in their order.

use super::*;
use crate::edition_two::refusal;
use crate::gen;
use crate::tests::tapes::{KINDS_10_TO_17, KINDS_1_TO_9, KINDS_FROM_18};

/// The event into buffers of each length: the number, and what may change.
fn into_each_length(thread: u8, e: Event) {
    for len in 0..40 {
        let mut buf = vec![0xAA; len];
        let number = write(thread, e, &mut buf);
        let right = match (thread, e.kind(), len) {
            (4.., ..) => 3,
            (_, 18.., _) => 8,
            (.., ..16) => 10,
            _ => 0,
        };
        assert_eq!(number, right, "{e:?} by {thread} into {len}");
        let past = if number == 0 { 16 } else { 0 };
        assert!(buf[past..].iter().all(|&b| b == 0xAA));
        if number == 0 {
            assert_eq!(read(&buf[..16]), Ok((thread, e)));
        }
    }
}

#[test]
fn each_kind_by_each_thread_into_each_length() {
    let kinds = KINDS_1_TO_9.into_iter().chain(KINDS_10_TO_17);
    for (e, _) in kinds.chain(KINDS_FROM_18) {
        for thread in [0, 1, 2, 3, 4, 5, 0xE3, 255] {
            into_each_length(thread, e);
        }
    }
}

/// Of kinds that no event has, too.
#[test]
fn numbers_in_their_order() {
    for (thread, kind, room, number) in [
        (4, 18, 15, Some(3)),
        (255, 255, 0, Some(3)),
        (4, 17, 16, Some(3)),
        (3, 18, 15, Some(8)),
        (0, 19, 16, Some(8)),
        (0, 26, 16, Some(8)),
        (0, 255, 16, Some(8)),
        (3, 17, 15, Some(10)),
        (0, 1, 0, Some(10)),
        (3, 17, 16, None),
        (0, 1, 17, None),
    ] {
        assert_eq!(
            refusal(thread, kind, room),
            number,
            "{thread} {kind} {room}"
        );
    }
}

#[test]
fn any_event_is_written_or_refused_by_its_thread_or_kind() {
    seeds(20_000, |rng| {
        let (thread, e) = gen::any_event(rng);
        let fill = rng.byte();
        let mut buf = [fill; 20];
        match write(thread, e, &mut buf) {
            0 => assert_eq!(read(&buf[..16]), Ok((thread, e))),
            number => {
                assert_eq!(number, if thread > 3 { 3 } else { 8 });
                assert!(thread > 3 || e.kind() > 17);
                assert_eq!(buf[..16], [fill; 16]);
            }
        }
        assert_eq!(buf[16..], [fill; 4]);
    });
}
