//! The command: from its words to what is written, all of it at once.

use std::ffi::{OsStr, OsString};
use std::fs;
use std::io::{self, Read};
use std::path::Path;

use naszeptan::{Report, Tape};
use workbench::files;

use crate::{json, read, text, Asked, Sheet};

/// What is to be written, and whether all is well: no value contradicts, and no
/// record was refused.
#[derive(Clone, Debug, PartialEq, Eq)]
pub struct Told {
    /// The report.
    pub report: String,
    /// Whether the status is 0; else it is 1.
    pub well: bool,
}

/// Reports what the words ask for. Where that can not be done, it says why in
/// one line, and the status is 2.
pub fn command(
    words: impl IntoIterator<Item = OsString>,
    input: &mut impl Read,
) -> Result<Told, String> {
    let asked = Asked::of(words)?;
    // A story too, as every verb takes one.
    let bytes = match files::is_story(&asked.tape) {
        true => {
            files::read_story(&asked.tape)
                .map_err(|failed| failed.why)?
                .bytes
        }
        false => file(&asked.tape, input)?,
    };
    let tape = Tape::from_bytes(bytes);
    let of = name(&asked.tape);
    let report = Report::of(&tape).map_err(|why| format!("{of}: {why}"))?;
    let lines = asked.against.as_deref();
    let lines = lines.map(|path| reads(path, input)).transpose()?;
    let sheet = Sheet::new(report, asked.profile, lines.as_deref());
    Ok(Told {
        report: match asked.json {
            true => json::json(&sheet),
            false => text::text(&sheet, &of),
        },
        well: !sheet.contradicts() && sheet.report.stopped.is_none(),
    })
}

fn reads(path: &OsStr, input: &mut impl Read) -> Result<Vec<read::Read>, String> {
    let bytes = file(path, input)?;
    read::reads(&bytes).map_err(|why| format!("{}: {why}", name(path)))
}

fn name(path: &OsStr) -> String {
    match path == "-" {
        true => "standard input".into(),
        false => Path::new(path).display().to_string(),
    }
}

fn file(path: &OsStr, input: &mut impl Read) -> Result<Vec<u8>, String> {
    let mut bytes = Vec::new();
    let read = match path == "-" {
        true => input.read_to_end(&mut bytes).map(|_| bytes),
        false => fs::read(path),
    };
    read.map_err(|why| failed(&name(path), &why))
}

/// A read or a write that failed, in the system's words without their number.
pub fn failed(what: &str, why: &io::Error) -> String {
    let why = why.to_string();
    let words = why.split(" (os error ").next().unwrap_or_default();
    format!("{what}: {words}")
}
