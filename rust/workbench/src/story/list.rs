//! A tape told as a story, in the canonical form.

use std::fmt::Write;

use naszeptan::{Edition, Event, Kind, Operand, RECORD_SIZE};

use super::Names;
use crate::told;

/// A line for each record, each ended. A record that is none is told by its
/// bytes, with the number that refuses it behind. With `numbered`, the record's
/// index stands behind each as a comment.
pub fn list(tape: &[u8], numbered: bool) -> String {
    let mut text = String::new();
    for (index, record) in tape.chunks(RECORD_SIZE).enumerate() {
        let (line, comment) = line(record);
        let index = numbered.then(|| index.to_string());
        let comments: Vec<String> = index.into_iter().chain(comment).collect();
        let written = match comments.is_empty() {
            true => writeln!(text, "{line}"),
            false => writeln!(text, "{line:<36}  # {}", comments.join(": ")),
        };
        written.expect("a string takes all");
    }
    text
}

/// A record's line, and the number that refuses it in words.
fn line(record: &[u8]) -> (String, Option<String>) {
    match Event::read_in(Edition::Three, record) {
        Ok((thread, event)) => (format!("thread {thread}  {event}"), None),
        Err(refused) => (bytes(record), Some(told::refused(refused, record))),
    }
}

/// A record's line, with the name of the place that it is about.
pub fn named(thread: u8, event: Event, names: &Names) -> String {
    let text = format!("thread {thread}  {event}");
    let name = match place(event) {
        Some((Operand::Index, value)) => names.called(value),
        Some((_, value)) => names.byte_called(value),
        None => None,
    };
    match (name, text.rsplit_once(", ")) {
        (Some(name), Some((before, _))) => format!("{before}, {name}"),
        _ => text,
    }
}

/// The doubleword that an event is about; none of other events.
pub fn index(event: Event) -> Option<u32> {
    match place(event)? {
        (Operand::Index, index) => Some(index),
        (_, address) => Some(address / 8),
    }
}

/// An event's last operand, if it is a place in memory, and its value.
fn place(event: Event) -> Option<(Operand, u32)> {
    let kind = Kind::of(event.kind())?;
    match kind.operands.last() {
        Some(operand @ (Operand::Index | Operand::Address(_))) => {
            Some((*operand, operand.value(event.to_raw(0))))
        }
        _ => None,
    }
}

/// Whether an event that is about a doubleword stores to it.
pub fn stores(event: Event) -> bool {
    let kind = Kind::of(event.kind());
    kind.is_some_and(|kind| kind.operands.first() == Some(&Operand::Ra))
}

/// A record by its bytes.
pub fn bytes(record: &[u8]) -> String {
    let bytes = record.iter().map(|byte| format!(" {byte:02X}"));
    "bytes".to_string() + &bytes.collect::<String>()
}
