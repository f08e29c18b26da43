//! Why a record stopped a tape, in the words of the program (rule P7).

use naszeptan::{Answer, Edition, Ended, Event, FIRST_BYTE, RECORD_SIZE};

use crate::story::kinds::kinds_in_words;

/// A number's words, as README's table has them.
pub fn words(answer: Answer) -> &'static str {
    match answer {
        Answer::Done => "done",
        Answer::Size => "memory length or thread count",
        Answer::NoMachine => "the machine is not valid",
        Answer::NoThread => "no such thread",
        Answer::Operand => "an operand out of range",
        Answer::HostInT => "PR and TM set by the host in Transactional state",
        Answer::TapeLength => "tape length",
        Answer::BadFirstByte => "a record's first byte",
        Answer::NoKind => "a record's kind",
        Answer::Field => "an unused field or a fixed byte that is not 0, or flags too big",
        Answer::ShortBuffer => "the writer's or the converter's buffer is too short",
        Answer::FacilityOff => "the facility is off",
        Answer::Privileged => "a privileged instruction in problem state",
        Answer::BadThing => "TM Bad Thing",
        Answer::Handled => "done, and the thread's own failure was handled",
        Answer::Recorded => "done, and the thread's own failure was recorded in Suspended state",
    }
}

/// The number that refuses a record, its words, and what it tells of the record.
pub fn refused(answer: Answer, record: &[u8]) -> String {
    let (number, words) = (answer.number(), words(answer));
    let byte = |n: usize| record.get(n).copied().unwrap_or_default();
    let of = match answer {
        Answer::TapeLength => format!("{} bytes, not {RECORD_SIZE}", record.len()),
        Answer::BadFirstByte => format!("0x{:02x}, not 0x{FIRST_BYTE:02x}", byte(0)),
        Answer::NoKind => format!("kind {}, not {}", byte(1), kinds_in_words()),
        Answer::Field => format!("kind {}", byte(1)),
        _ => event(answer, record),
    };
    format!("{number}, {words} ({of})")
}

/// The event; where the thread is what is refused, it stands before the event.
fn event(answer: Answer, record: &[u8]) -> String {
    match Event::read_in(Edition::Three, record) {
        Ok((thread, event)) if answer == Answer::NoThread => format!("thread {thread}, {event}"),
        Ok((_, event)) => event.to_string(),
        Err(refused) => refused.to_string(),
    }
}

/// Why a tape of so many bytes did not end, with the record that stopped it.
pub fn stopped(ended: &Ended, record: &[u8], bytes: u64) -> String {
    let words = words(ended.answer);
    match ended.answer {
        Answer::TapeLength => {
            format!("tape: 6, {words} ({bytes} bytes, not a multiple of {RECORD_SIZE})")
        }
        answer => format!("record {}: {}", ended.index, refused(answer, record)),
    }
}
