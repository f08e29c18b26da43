//! A start and the pieces that follow it, to be given to both sides.

use std::fmt;

use model::{Ended, Fed, Session};

use super::cells::{Call, View};
use super::desk::{equal, Desk};
use crate::pair::same_machine;
use crate::shrink::fewer;
use crate::sides::Side;
use crate::start::Start;

/// A piece of a tape, and the buffer that is lent for its answers.
#[derive(Clone, Debug)]
pub struct Piece {
    /// The bytes.
    pub bytes: Vec<u8>,
    /// What stands in the buffer before.
    pub answers: Vec<u8>,
}

/// A start, the count to begin with, and the pieces.
#[derive(Clone, Debug)]
pub struct Case {
    /// Where both sides start.
    pub start: Start,
    /// The count that the opened session is given.
    pub count: u64,
    /// The pieces, in their order.
    pub pieces: Vec<Piece>,
}

impl Case {
    /// Opens, feeds all pieces and closes on both sides, which must agree after
    /// each; and then holds the end to the model's over one whole piece. What
    /// was met is told.
    pub fn compared(&self, side: &dyn Side, tell: &mut impl FnMut(&View)) -> Result<(), String> {
        let (m, memory) = self.start.build();
        let mut desk = Desk::open(side, &m, &memory)?;
        let len = memory.len();
        tell(&View::of(
            Call::Open,
            desk.session(),
            len,
            desk.session().answer,
        ));
        desk.set_count(self.count);
        let mut answers = Vec::new();
        for piece in &self.pieces {
            let before = desk.session().clone();
            let (fed, given) = desk.feed(side, &piece.bytes, &piece.answers)?;
            answers.extend((0..fed.finished).map(|n| given.get(n).copied()));
            tell(&View::of_feed(&before, piece, len, fed, desk.session()));
        }
        let ended = desk.close(side)?;
        tell(&View::of(Call::Close, desk.session(), len, ended.answer));
        self.held_to_one_piece(&mut desk, &answers, ended)?;
        self.held_to_the_run(ended)
    }

    /// Rule Q9: over any cutting it is the same. Of an answer that found no
    /// place nothing is known.
    fn held_to_one_piece(
        &self,
        desk: &mut Desk,
        answers: &[Option<u8>],
        ended: Ended,
    ) -> Result<(), String> {
        let (m, mut memory) = self.start.build();
        let mut one = Session::open(m, memory.len());
        one.count = self.count;
        let tape = self.tape();
        let mut all = vec![0; tape.len() / 16];
        let Fed { finished, .. } = one.feed(&mut memory, &tape, &mut all);
        equal("records in one piece", finished, answers.len())?;
        let known = answers.iter().zip(&all);
        for (&given, &right) in known {
            equal("answer in one piece", right, given.unwrap_or(right))?;
        }
        equal("close in one piece", one.close(memory.len()), ended)?;
        let (machine, lent) = desk.proved();
        equal("memory in one piece is the same", true, memory == lent)?;
        same_machine(&one.machine, machine).map_err(|what| format!("in one piece, {what}"))
    }

    /// Rule Q9: over a tape that R1 does not refuse it is the run.
    fn held_to_the_run(&self, ended: Ended) -> Result<(), String> {
        let (mut m, mut memory) = self.start.build();
        let run = model::run(&mut m, &mut memory, &self.tape());
        if matches!(run.answer, 1 | 2 | 6..=9) {
            return Ok(());
        }
        let count = self.count.wrapping_add(run.count as u64) as usize;
        let right = Ended {
            count,
            index: count,
            ..run
        };
        equal("the run", right, ended)
    }

    /// The bytes of all pieces.
    fn tape(&self) -> Vec<u8> {
        let pieces = self.pieces.iter();
        pieces.flat_map(|piece| &piece.bytes).copied().collect()
    }

    /// In what the sides differ.
    fn differs(&self, side: &dyn Side) -> Option<String> {
        self.compared(side, &mut |_| {}).err()
    }

    /// As few of its pieces as still show a difference, each as short as it
    /// goes by whole records, and from the fresh machine if that does.
    pub fn shrunk(&self, side: &dyn Side) -> Case {
        let mut case = self.clone();
        let with = |pieces: &[Piece]| Case {
            pieces: pieces.to_vec(),
            ..self.clone()
        };
        case.pieces = fewer(&self.pieces, |pieces| with(pieces).differs(side).is_some());
        for n in 0..case.pieces.len() {
            case.shorten(side, n);
        }
        let fresh = Case {
            start: Start::FRESH,
            ..case.clone()
        };
        match fresh.differs(side) {
            Some(_) => fresh,
            None => case,
        }
    }

    /// Takes out of a piece, 16 bytes at a time, what is not needed.
    fn shorten(&mut self, side: &dyn Side, piece: usize) {
        let bytes = self.pieces[piece].bytes.clone();
        let chunks: Vec<&[u8]> = bytes.chunks(16).collect();
        let mut case = self.clone();
        let kept = fewer(&chunks, |kept| {
            case.pieces[piece].bytes = kept.concat();
            case.differs(side).is_some()
        });
        self.pieces[piece].bytes = kept.concat();
    }

    /// The difference and what shows it.
    pub fn told(&self, side: &dyn Side) -> String {
        let what = self.differs(side);
        let what = what.unwrap_or("they differ, but not when tried again".to_string());
        format!("session: {what}\n{self}")
    }
}

impl fmt::Display for Case {
    fn fmt(&self, f: &mut fmt::Formatter) -> fmt::Result {
        let Start { kind, seed } = self.start;
        writeln!(
            f,
            "start {kind:?}, its seed {seed:#018x}; count {}",
            self.count
        )?;
        for Piece { bytes, answers } in &self.pieces {
            let (len, room) = (bytes.len(), answers.len());
            writeln!(f, "  {len} bytes, room for {room}: {bytes:02X?}")?;
        }
        Ok(())
    }
}
