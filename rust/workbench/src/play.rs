//! A tape done record by record, each with the machine before and after it.

use naszeptan::{Answer, Done, Edition, Event, Machine, Session, ThreadSet, MEMORY, RECORD_SIZE};

/// A machine and its memory.
#[derive(Clone, Debug, PartialEq, Eq)]
pub struct Sight {
    /// The machine.
    pub machine: Machine,
    /// The memory.
    pub memory: Vec<u64>,
}

impl Sight {
    /// The fresh machine.
    pub fn fresh() -> Sight {
        Sight {
            machine: Machine::fresh(),
            memory: vec![0; MEMORY],
        }
    }
}

/// What a record did.
#[derive(Clone, Debug, PartialEq, Eq)]
pub struct Step {
    /// The record's index.
    pub index: usize,
    /// Its bytes.
    pub record: Vec<u8>,
    /// Its thread and event; none where it is no record.
    pub event: Option<(u8, Event)>,
    /// Its answer; the number that refuses the record where it is none.
    pub answer: Answer,
    /// The threads that failed in it (rule H8).
    pub failed: ThreadSet,
}

/// A tape that is done step by step, as a session does it (rule Q6): a record
/// that is none stops it where it stands.
#[derive(Clone, Debug)]
pub struct Play<'a> {
    tape: &'a [u8],
    index: usize,
    stopped: Option<Answer>,
    /// The machine after the records done.
    pub now: Sight,
}

impl<'a> Play<'a> {
    /// A tape on the fresh machine.
    pub fn new(tape: &'a [u8]) -> Play<'a> {
        Play {
            tape,
            index: 0,
            stopped: None,
            now: Sight::fresh(),
        }
    }

    /// The answer that stopped it.
    pub fn stopped(&self) -> Option<Answer> {
        self.stopped
    }

    /// How many records were taken.
    pub fn index(&self) -> usize {
        self.index
    }

    /// Does the records before this one at once, if no one stops it.
    pub fn skip_to(&mut self, index: usize) {
        let whole = self.tape.len() / RECORD_SIZE;
        let piece = &self.tape[self.index * RECORD_SIZE..index.min(whole) * RECORD_SIZE];
        let Sight { machine, memory } = &mut self.now;
        let opened = Session::open(machine, memory);
        let mut session = opened.expect("the machine is valid");
        let mut taken = 0;
        // In pieces, so that the answers need little room.
        for piece in piece.chunks(naszeptan::PIECE) {
            taken += session.feed(piece).len();
        }
        let stopped = session.has_stopped().then(|| session.answer());
        let after = session.machine();
        *machine = after;
        self.stopped = stopped;
        self.index += taken;
    }

    /// The next record; none at the end, and none behind one that stopped it.
    pub fn step(&mut self) -> Option<Step> {
        let record = self.tape.chunks(RECORD_SIZE).nth(self.index)?;
        if self.stopped.is_some() {
            return None;
        }
        let read = Event::read_in(Edition::Three, record);
        let Sight { machine, memory } = &mut self.now;
        let done = match read {
            Ok((thread, event)) => machine.step_with_failed(memory, thread, event),
            Err(answer) => Done {
                answer,
                failed: ThreadSet::default(),
            },
        };
        self.stopped = (!done.answer.is_done()).then_some(done.answer);
        self.index += 1;
        Some(Step {
            index: self.index - 1,
            record: record.to_vec(),
            event: read.ok(),
            answer: done.answer,
            failed: done.failed,
        })
    }
}
