//! Values handed in as a session, most of which are none: refused by 1 or 2, and
//! nothing changed (docs/RULES.md, Q2 and H10).

use model::gen::{self, Rng};
use model::session::MOST_HELD;
use model::{Ended, Fed, Session};
use naszeptan::raw;

use super::case::Piece;
use super::cells::{Call, View};
use super::desk::{equal, to_raw_session, Desk};
use super::{buffer, tape};
use crate::batch::Found;
use crate::calls::{same, spoil};
use crate::counts::Counts;
use crate::runs::loose_bytes;
use crate::sides::Side;
use crate::start::{Kind, Start};

/// A session in the course of a tape, and its memory.
fn session(rng: &mut Rng) -> (Session, Vec<u64>) {
    let start = Start {
        kind: rng.pick([Kind::Fresh, Kind::Valid, Kind::Two, Kind::Two]),
        seed: rng.bits(),
    };
    let (m, mut memory) = start.build();
    let mut session = Session::open(m, memory.len());
    let tape = tape(rng, start);
    let any = rng.below(tape.len() + 1);
    let some = any.min(rng.pick([5, 40, 400]));
    session.feed(&mut memory, &tape[..some], &mut []);
    (session, memory)
}

/// Makes a session wrong in one thing; now and then it is left right.
fn damage(rng: &mut Rng, s: &mut Session, memory: &mut Vec<u64>) {
    let (any, bits) = (rng.byte(), rng.bits() as usize);
    match rng.below(13) {
        0 => s.held = rng.pick([16, 17, 31, 255, usize::MAX, bits]),
        1 => past_held(rng, s),
        2 | 3 => s.answer = rng.pick([1, 2, 6, 10, 14, 20, 21, 22, 255, any]),
        4 => stopped_and_held(rng, s),
        5 => (s.machine, *memory) = gen::broken_machine(rng),
        6 => (s.machine, *memory) = gen::shaken_machine(rng),
        7 => memory.resize(rng.pick([0, 1, 15, 17, 24, 4095, 4112]), 7),
        8 => s.machine.count = rng.pick([0, 5, 255, usize::MAX]),
        9 => {
            s.held = rng.pick([16, 99]);
            s.machine.count = rng.pick([0, 5]);
        }
        10 => s.count = rng.pick([0, u64::MAX, u64::MAX - 1]),
        _ => {}
    }
}

/// Puts a byte at or past the place where none is held.
fn past_held(rng: &mut Rng, s: &mut Session) {
    s.held = rng.below(MOST_HELD);
    s.bytes = [0; MOST_HELD];
    let place = rng.pick([s.held, MOST_HELD - 1]);
    s.bytes[place] = rng.byte().max(1);
}

/// Stops a session that holds bytes, zeros too.
fn stopped_and_held(rng: &mut Rng, s: &mut Session) {
    s.answer = rng.pick([3, 4, 5, 7, 8, 9, 11, 12, 13]);
    s.held = 1 + rng.below(MOST_HELD);
    s.bytes = [0; MOST_HELD];
    s.bytes[0] = rng.pick([0, 0xE3]);
}

/// One value, fed and closed on both sides.
pub fn value(side: &dyn Side, rng: &mut Rng, counts: &mut Counts) -> Result<(), Found> {
    let (mut session, mut memory) = session(rng);
    damage(rng, &mut session, &mut memory);
    let bytes = loose_bytes(rng);
    let answers = buffer(rng, bytes.len() / 16 + 1);
    let piece = Piece { bytes, answers };
    let len = memory.len();
    let found = |what| {
        let Session { held, answer, .. } = session;
        let count = session.machine.count;
        Found::Call(format!(
            "session of bits: {what}\nheld {held}, answer {answer}, bytes {:?}, {count} threads, \
             memory of {len}; fed {:02X?}",
            session.bytes, piece.bytes
        ))
    };
    let mut desk = Desk::of(session.clone(), &memory);
    let ended = desk.close(side).map_err(found)?;
    let met = &mut counts.sessions;
    met.note(&View::of(Call::Close, &session, len, ended.answer));
    let fed = desk.feed(side, &piece.bytes, &piece.answers);
    let (fed, _) = fed.map_err(found)?;
    met.note(&View::of_feed(&session, &piece, len, fed, desk.session()));
    Ok(())
}

/// Bits whose machine is none: 2, or 1 if the size is wrong too, by each call,
/// and nothing changed.
pub fn no_machine(side: &dyn Side, rng: &mut Rng, counts: &mut Counts) -> Result<(), Found> {
    let (mut session, mut memory) = session(rng);
    if rng.flag() {
        damage(rng, &mut session, &mut memory);
    }
    let len = memory.len();
    let right = match session.machine.shape_fits(len) {
        true => 2,
        false => 1,
    };
    let mut bits = to_raw_session(&session);
    let spoilt = spoil(rng, &mut bits.machine);
    let input = |call| format!("{call} of a session with {spoilt} over {len}");

    let refused = raw::Session {
        machine: bits.machine,
        answer: right,
        ..raw::Session::default()
    };
    same(|| input("open"), refused, side.open(&bits.machine, len))?;
    let refused = Ended {
        answer: right,
        count: 0,
        index: 0,
    };
    let closed = side.close(&bits, len);
    same(|| input("close"), (refused, bits.machine), closed)?;
    fed_no_machine(side, rng, &bits, &memory, right).map_err(|what| {
        let input = input("feed");
        Found::Call(format!("{input}: {what}"))
    })?;
    for call in [Call::BitsOpen, Call::BitsFeed, Call::BitsClose] {
        counts.sessions.answer(call, right);
    }
    Ok(())
}

/// Feeding them is refused by this number.
fn fed_no_machine(
    side: &dyn Side,
    rng: &mut Rng,
    bits: &raw::Session,
    memory: &[u64],
    answer: u8,
) -> Result<(), String> {
    let piece = loose_bytes(rng);
    let answers = buffer(rng, piece.len() / 16 + 1);
    let (mut after, mut lent, mut given) = (*bits, memory.to_vec(), answers.clone());
    let fed = side.feed(&mut after, &mut lent, &piece, &mut given);
    let finished = 0;
    equal("feed", Fed { answer, finished }, fed)?;
    equal("the same value", true, *bits == after)?;
    equal("the same memory", true, memory == lent)?;
    equal("answers", answers, given)
}
