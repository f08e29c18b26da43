//! The two sides of the comparison.

use model::tape::{encode, MARK};
use model::{valid, Done, Edition, Ended, Fed, Machine};
use naszeptan::raw;

/// The side under test: the calls of the header. The archive is one; the
/// tests of this comparison put wrong ones in its place.
pub trait Side: Sync {
    /// Whether these bits are a machine: 0, 1 or 2.
    fn valid(&self, m: &raw::Machine, len: usize) -> u8 {
        raw::valid(*m, len)
    }

    /// One event: its answer, and who failed in it.
    fn step(&self, m: &mut raw::Machine, memory: &mut [u64], e: raw::Event) -> Done {
        let done = raw::step(*m, memory, e);
        *m = done.machine;
        Done {
            answer: done.answer,
            failed: done.failed,
        }
    }

    /// A tape: the answer that ended it, how many records were done, and the
    /// record that the answer is about.
    fn run(&self, m: &mut raw::Machine, memory: &mut [u64], tape: &[u8]) -> Ended {
        let ended = raw::run(*m, memory, tape);
        *m = ended.machine;
        Ended {
            answer: ended.answer,
            count: ended.count,
            index: ended.index,
        }
    }

    /// A session on these bits of a machine.
    fn open(&self, m: &raw::Machine, len: usize) -> raw::Session {
        raw::open(*m, len)
    }

    /// A piece of a tape: the answer, and how many records it finished.
    fn feed(
        &self,
        s: &mut raw::Session,
        memory: &mut [u64],
        piece: &[u8],
        answers: &mut [u8],
    ) -> Fed {
        let fed = raw::feed(*s, memory, piece, answers);
        *s = fed.session;
        Fed {
            answer: fed.answer,
            finished: fed.finished,
        }
    }

    /// The end of a session, and its machine.
    fn close(&self, s: &raw::Session, len: usize) -> (Ended, raw::Machine) {
        let ended = raw::close(*s, len);
        let machine = ended.machine;
        let ended = Ended {
            answer: ended.answer,
            count: ended.count,
            index: ended.index,
        };
        (ended, machine)
    }

    /// One record.
    fn read(&self, record: &[u8]) -> raw::Record {
        raw::read(record)
    }

    /// One event as a record.
    fn write(&self, e: raw::Event, buffer: &mut [u8]) -> u8 {
        raw::write(e, buffer)
    }

    /// One record of edition two.
    fn read_two(&self, record: &[u8]) -> raw::Record {
        raw::read_two(record)
    }

    /// One event as a record of edition two.
    fn write_two(&self, e: raw::Event, buffer: &mut [u8]) -> u8 {
        raw::write_two(e, buffer)
    }

    /// A tape of this edition in the other: the answer and the index.
    fn convert(&self, from: Edition, tape: &[u8], buffer: &mut [u8]) -> (u8, usize) {
        let converted = match from {
            Edition::Two => raw::two_to_three(tape, buffer),
            Edition::Three => raw::three_to_two(tape, buffer),
        };
        (converted.answer, converted.index)
    }
}

/// The proved archive.
pub struct Archive;

impl Side for Archive {}

/// The record that has these fields, whether or not they are an event.
pub fn record(e: raw::Event) -> [u8; 16] {
    let [i0, i1, i2, i3] = e.index.to_be_bytes();
    let [s0, s1] = e.si.to_be_bytes();
    [
        MARK, e.kind, e.thread, e.x, e.ra, e.rb, e.flags, 0, i0, i1, i2, i3, s0, s1, 0, 0,
    ]
}

/// The fields of a record, whether or not they are an event.
pub fn fields(record: [u8; 16]) -> raw::Event {
    let [_, kind, thread, x, ra, rb, flags, _, i0, i1, i2, i3, s0, s1, _, _] = record;
    raw::Event {
        kind,
        thread,
        x,
        ra,
        rb,
        flags,
        index: u32::from_be_bytes([i0, i1, i2, i3]),
        si: u16::from_be_bytes([s0, s1]),
    }
}

/// An event of the model as the header has it.
pub fn event(thread: u8, e: model::Event) -> raw::Event {
    fields(encode(thread, e))
}

/// The model's number for a machine and a memory length: 0, 1 or 2.
pub fn model_valid(m: &Machine, len: usize) -> u8 {
    if !m.shape_fits(len) {
        1
    } else if !valid(m, len) {
        2
    } else {
        0
    }
}

/// The model's step. The header puts 8 and 9 after 1 and 2 and before the
/// rest; the model's reader tells them from the fields as a record.
pub fn model_step(m: &mut Machine, memory: &mut [u64], e: raw::Event) -> Done {
    match model::read(&record(e)) {
        Ok((thread, e)) => model::step_with_failed(m, memory, thread, e),
        Err(number) => Done::refused(match model_valid(m, memory.len()) {
            0 => number,
            refused => refused,
        }),
    }
}

/// The model's reader.
pub fn model_read(record: &[u8]) -> raw::Record {
    read(model::read(record))
}

/// The model's reader of edition two.
pub fn model_read_two(record: &[u8]) -> raw::Record {
    read(model::edition_two::read(record))
}

/// What a reader gives, as the header has it: what is refused comes with an
/// event of zeros.
fn read(read: Result<(u8, model::Event), u8>) -> raw::Record {
    match read {
        Ok((thread, e)) => raw::Record {
            answer: 0,
            event: event(thread, e),
        },
        Err(answer) => raw::Record {
            answer,
            event: raw::Event::default(),
        },
    }
}

/// The model's writer. The header puts 8 and 9 before 10.
pub fn model_write(e: raw::Event, buffer: &mut [u8]) -> u8 {
    match model::read(&record(e)) {
        Ok((thread, e)) => model::write(thread, e, buffer),
        Err(number) => number,
    }
}

/// The model's writer of edition two. The header puts 8 and 9 of what is no
/// event before 3, 8 and 10.
pub fn model_write_two(e: raw::Event, buffer: &mut [u8]) -> u8 {
    match model::read(&record(e)) {
        Ok((thread, e)) => model::edition_two::write(thread, e, buffer),
        Err(number) => number,
    }
}
