//! Converts the tape on standard input, of edition 2 or 3, into the other
//! edition, and writes it to a file, or to standard output: `convert 2 OUT`,
//! `convert 2 -`.
//!
//! Its status is 0. Where the tape is refused it is 1, and where anything else
//! fails it is 2, each with one line on standard error. Nothing is written
//! unless all of the tape was converted.

use std::ffi::{OsStr, OsString};
use std::fs;
use std::io::{self, Read, Write};
use std::path::Path;
use std::process::ExitCode;

use naszeptan::{Answer, Edition, Event, NotConverted, Tape, RECORD_SIZE};

/// The status, and why.
type Failed = (u8, String);

fn main() -> ExitCode {
    let words: Vec<OsString> = std::env::args_os().skip(1).collect();
    match convert(&words) {
        Ok(()) => ExitCode::SUCCESS,
        Err((status, why)) => {
            // Where that cannot be written either, the status is left.
            let _ = writeln!(io::stderr(), "naszeptan: convert: {why}");
            ExitCode::from(status)
        }
    }
}

fn convert(words: &[OsString]) -> Result<(), Failed> {
    let (from, out) = match words {
        [from, out] if from == "2" => (Edition::Two, out),
        [from, out] if from == "3" => (Edition::Three, out),
        _ => return Err((2, "an edition, 2 or 3, and a file are wanted".into())),
    };
    let mut bytes = Vec::new();
    let read = io::stdin().read_to_end(&mut bytes);
    read.map_err(|why| failed("standard input", &why))?;
    let tape = Tape::from_bytes(bytes);
    match tape.convert(from) {
        Ok(converted) => write(out, converted.as_bytes()),
        Err(refused) => Err((1, told(&tape, refused))),
    }
}

fn write(out: &OsStr, bytes: &[u8]) -> Result<(), Failed> {
    if out == "-" {
        let mut stream = io::stdout().lock();
        let written = stream.write_all(bytes).and_then(|()| stream.flush());
        return written.map_err(|why| failed("standard output", &why));
    }
    fs::write(out, bytes).map_err(|why| failed(&Path::new(out).display().to_string(), &why))
}

/// A read or a write that failed, in the system's words without their number.
fn failed(what: &str, why: &io::Error) -> Failed {
    let why = why.to_string();
    let words = why.split(" (os error ").next().unwrap_or_default();
    (2, format!("{what}: {words}"))
}

/// Why the tape is refused, in the words of rule P7.
fn told(tape: &Tape, refused: NotConverted) -> String {
    let NotConverted {
        from,
        answer,
        index,
    } = refused;
    let bytes = tape.as_bytes();
    if answer == Answer::TapeLength {
        let length = bytes.len();
        return format!("tape: 6, tape length ({length} bytes, not a multiple of 16)");
    }
    let record = bytes.chunks(RECORD_SIZE).nth(index).unwrap_or_default();
    let words = words(from, answer, record);
    format!("record {index}: {}, {words}", answer.number())
}

/// The number's words, and what it tells of the record.
fn words(from: Edition, answer: Answer, record: &[u8]) -> String {
    let [first, kind, ..] = *record else {
        return answer.to_string();
    };
    match answer {
        Answer::NoThread => format!("no such thread ({})", event(from, record)),
        Answer::BadFirstByte => {
            let right = match from {
                Edition::Two => "0x00 to 0x03",
                Edition::Three => "0xe3",
            };
            format!("a record's first byte (0x{first:02x}, not {right})")
        }
        // Of either edition: edition two has no other, so neither is converted.
        Answer::NoKind => format!("a record's kind (kind {kind}, not 1 to 17)"),
        Answer::Field => {
            format!("an unused field or a fixed byte that is not 0, or flags too big (kind {kind})")
        }
        _ => answer.to_string(),
    }
}

/// The thread and the event of a record.
fn event(from: Edition, record: &[u8]) -> String {
    match Event::read_in(from, record) {
        Ok((thread, event)) => format!("thread {thread}, {event}"),
        Err(refused) => refused.to_string(),
    }
}

#[cfg(test)]
mod tests {
    use super::*;

    const TWO: [u8; 16] = [0, 0x0D, 0, 3, 0, 0, 0, 0, 0x11, 0, 0, 0, 0, 0, 0, 0];
    const THREE: [u8; 16] = [0xE3, 0x0D, 0, 0, 3, 0, 0, 0, 0, 0, 0, 0x11, 0, 0, 0, 0];

    /// What is said of this record behind a good one.
    fn said(from: Edition, n: usize, byte: u8) -> String {
        let good = match from {
            Edition::Two => TWO,
            Edition::Three => THREE,
        };
        let mut tape = [good, good];
        tape[1][n] = byte;
        let tape = Tape::from_bytes(tape.as_flattened());
        let refused = tape.convert(from).expect_err("a record that is refused");
        told(&tape, refused)
    }

    #[test]
    fn records() {
        use Edition::{Three, Two};
        let unused = "9, an unused field or a fixed byte that is not 0, or flags too big";
        for (from, n, byte, words) in [
            (Three, 2, 4, "3, no such thread (thread 4, std r3, 17)"),
            (Three, 0, 0, "7, a record's first byte (0x00, not 0xe3)"),
            (
                Two,
                0,
                4,
                "7, a record's first byte (0x04, not 0x00 to 0x03)",
            ),
            (Two, 1, 18, "8, a record's kind (kind 18, not 1 to 17)"),
            (Three, 1, 0, "8, a record's kind (kind 0, not 1 to 17)"),
            (Two, 15, 1, &format!("{unused} (kind 13)")),
            (Three, 7, 1, &format!("{unused} (kind 13)")),
        ] {
            assert_eq!(said(from, n, byte), format!("record 1: {words}"));
        }
    }

    /// A good record, of a kind that edition two has not.
    #[test]
    fn a_later_kind() {
        let word = Event::Lwz { rt: 3, address: 4 };
        for (event, kind) in [(Event::Rfid, 18), (word, 22)] {
            let mut tape = Tape::new();
            tape.push(0, event);
            let refused = tape.convert(Edition::Three).expect_err("a later kind");
            let words = format!("record 0: 8, a record's kind (kind {kind}, not 1 to 17)");
            assert_eq!(told(&tape, refused), words);
        }
    }

    #[test]
    fn a_ragged_tape() {
        let tape = Tape::from_bytes(&TWO[..15]);
        let refused = tape.convert(Edition::Two).expect_err("a ragged tape");
        let words = "tape: 6, tape length (15 bytes, not a multiple of 16)";
        assert_eq!(told(&tape, refused), words);
    }

    #[test]
    fn reads_and_writes_that_fail() {
        let none = io::Error::from_raw_os_error(28);
        let why = (2, "standard output: No space left on device".to_string());
        assert_eq!(failed("standard output", &none), why);
    }
}
