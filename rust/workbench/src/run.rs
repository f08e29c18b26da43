//! `run`: a tape in pieces, of any length, down a pipe too.

use std::ffi::{OsStr, OsString};
use std::io::{self, BufWriter, IsTerminal, Read, Write};
use std::time::{Duration, Instant};

use naszeptan::{Answer, Edition, Ended, Event, Machine, Session, MEMORY, PIECE, RECORD_SIZE};

use crate::failed::{io_failed, Failed};
use crate::words::Takes;
use crate::{files, json, told};

/// How often the count is shown.
const EVERY: Duration = Duration::from_millis(200);

/// The count of records done, on one line of a terminal.
struct Progress {
    on_terminal: bool,
    last: Instant,
    shown: bool,
}

impl Progress {
    fn new() -> Progress {
        Progress {
            on_terminal: io::stderr().is_terminal(),
            last: Instant::now(),
            shown: false,
        }
    }

    fn watch(&mut self, count: u64) {
        if self.on_terminal && self.last.elapsed() >= EVERY {
            self.last = Instant::now();
            self.shown = true;
            // It is only shown: what cannot be written does no harm.
            let _ = write!(io::stderr(), "\r{count} records");
        }
    }

    /// Clears the line for what follows.
    fn clear(&self) {
        if self.shown {
            let _ = write!(io::stderr(), "\r\x1B[K");
        }
    }

    fn cleared(&self, failed: Failed) -> Failed {
        self.clear();
        failed
    }
}

/// How answers are written.
#[derive(Clone, Copy, PartialEq, Eq)]
enum Form {
    Lines,
    Json,
}

/// What a tape did.
#[derive(Default)]
struct Outcome {
    /// How often an own failure was handled, and recorded in S.
    handled: u64,
    recorded: u64,
    /// The record that stopped it; no byte where none did.
    record: Vec<u8>,
    /// How many bytes came.
    bytes: u64,
}

/// The verb.
pub fn run(words: &[OsString]) -> crate::failed::Ended {
    const TAKES: Takes = Takes {
        flags: &["--json", "--answers"],
        values: &[],
        rest: &["TAPE"],
    };
    let words = TAKES.sort(words)?;
    let form = match words.has("--json") {
        true => Form::Json,
        false => Form::Lines,
    };
    let answers = words.has("--answers").then_some(form);
    let (ended, outcome) = play(&words.rest[0], answers)?;
    let last = match form {
        Form::Lines => format!("end {}\n", ended.count),
        Form::Json => in_json(&ended, &outcome) + "\n",
    };
    files::print(last.as_bytes())?;
    match ended.answer {
        Answer::Done => Ok(0),
        _ => Err(Failed {
            status: 1,
            why: told::stopped(&ended, &outcome.record, outcome.bytes),
        }),
    }
}

/// Feeds all of a tape, until a record stops it.
fn play(name: &OsStr, answers: Option<Form>) -> Result<(Ended, Outcome), Failed> {
    let mut reader: Box<dyn Read> = match files::is_story(name) {
        true => Box::new(io::Cursor::new(files::read_story(name)?.bytes)),
        false => files::open(name)?,
    };
    let mut memory = vec![0; MEMORY];
    let opened = Session::open(&Machine::fresh(), &mut memory);
    let mut session = opened.expect("the fresh machine is valid");
    let (mut outcome, mut piece, mut progress) =
        (Outcome::default(), vec![0; PIECE], Progress::new());
    let mut out = BufWriter::new(io::stdout().lock());
    while !session.has_stopped() {
        let read = files::read_once(&mut *reader, &mut piece);
        let what = || files::called(name, "standard input");
        let read = read.map_err(|why| progress.cleared(io_failed(&what(), &why)))?;
        if read == 0 {
            break;
        }
        let first = session.count();
        let given = outcome.feed(&mut session, &piece[..read]);
        if let Some(form) = answers {
            let written = write_answers(&mut out, form, first, &given);
            written.map_err(|why| progress.cleared(io_failed("standard output", &why)))?;
        }
        progress.watch(session.count());
    }
    progress.clear();
    let flushed = out.flush();
    flushed.map_err(|why| io_failed("standard output", &why))?;
    Ok((session.close(), outcome))
}

impl Outcome {
    /// Feeds a piece, and keeps what is told of it.
    fn feed(&mut self, session: &mut Session, piece: &[u8]) -> Vec<Answer> {
        let joined = [session.held(), piece].concat();
        let given: Vec<Answer> = session.feed(piece).collect();
        let count = |wanted| given.iter().filter(|answer| **answer == wanted).count() as u64;
        self.handled += count(Answer::Handled);
        self.recorded += count(Answer::Recorded);
        self.bytes += piece.len() as u64;
        if session.has_stopped() {
            let stopping = joined.chunks(RECORD_SIZE).nth(given.len() - 1);
            self.record = stopping.unwrap_or_default().to_vec();
        }
        given
    }
}

fn write_answers(
    out: &mut impl Write,
    form: Form,
    first: u64,
    answers: &[Answer],
) -> io::Result<()> {
    for (index, answer) in (first..).zip(answers) {
        let number = answer.number();
        match form {
            Form::Lines => writeln!(out, "{index} {number}")?,
            Form::Json => writeln!(out, "{{\"index\": {index}, \"answer\": {number}}}")?,
        }
    }
    Ok(())
}

fn in_json(ended: &Ended, outcome: &Outcome) -> String {
    let mut members = vec![
        ("ended", (ended.answer == Answer::Done).to_string()),
        ("answer", ended.answer.number().to_string()),
        ("words", json::string(told::words(ended.answer))),
        ("count", ended.count.to_string()),
        ("index", ended.index.to_string()),
        ("handled", outcome.handled.to_string()),
        ("recorded", outcome.recorded.to_string()),
    ];
    if !outcome.record.is_empty() {
        let bytes = outcome.record.iter().map(|byte| format!("{byte:02X}"));
        let bytes: Vec<String> = bytes.collect();
        members.push(("record", json::string(&bytes.join(" "))));
    }
    if let Ok((thread, event)) = Event::read_in(Edition::Three, &outcome.record) {
        members.push(("thread", thread.to_string()));
        members.push(("event", json::string(&event.to_string())));
    }
    json::object(&members)
}
