//! `timeline`: a tape as a picture.

pub mod draw;
pub mod history;
pub mod svg;

use std::ffi::{OsStr, OsString};
use std::path::{Path, PathBuf};

use naszeptan::Answer;

use crate::failed::{mistake, Ended, Failed};
use crate::files;
use crate::show::Range;
use crate::story::Story;
use crate::told;
use crate::words::Takes;
use history::{history, History};

/// Records in a window, if nothing else is said.
const WINDOW: usize = 12;
/// Windows in a picture; a longer tape has more pictures.
const WINDOWS: usize = 20;
/// Pictures of one tape.
const PICTURES: usize = 100;

/// The verb.
pub fn timeline(words: &[OsString]) -> Ended {
    const TAKES: Takes = Takes {
        flags: &[],
        values: &["-o", "--from", "--to", "--window"],
        rest: &["TAPE"],
    };
    let words = TAKES.sort(words)?;
    let wanted = || mistake("-o FILE.svg is wanted; --help tells the rest");
    let out = words.value("-o").ok_or_else(wanted)?;
    let window = words.number("--window", "a number of records, 1 to 1000,")?;
    let window = window.map_or(WINDOW, |window| window as usize);
    if !(1..=1000).contains(&window) {
        return Err(mistake(
            "--window: a number of records, 1 to 1000, is wanted",
        ));
    }
    let tape = files::read_tape(&words.rest[0])?;
    let range = Range::of(&words, &tape.names)?;
    let called = files::called(&words.rest[0], "standard input");
    let pictures = pictures(&tape, range, &called, window)?;
    if out == "-" && pictures.len() > 1 {
        return Err(mistake(
            "there are several pictures: standard output takes one; --from and --to choose",
        ));
    }
    for (n, picture) in pictures.iter().enumerate() {
        files::write(&numbered(out, n), picture.as_bytes())?;
    }
    Ok(0)
}

/// `FILE.svg`, `FILE-2.svg`, `FILE-3.svg`.
fn numbered(out: &OsStr, n: usize) -> OsString {
    if n == 0 {
        return out.to_os_string();
    }
    let path = Path::new(out);
    let mut name = path.file_stem().unwrap_or_default().to_os_string();
    name.push(format!("-{}", n + 1));
    if let Some(extension) = path.extension() {
        name.push(".");
        name.push(extension);
    }
    let numbered: PathBuf = path.with_file_name(name);
    numbered.into_os_string()
}

/// The pictures of a tape.
pub fn pictures(
    tape: &Story,
    range: Range,
    called: &str,
    window: usize,
) -> Result<Vec<String>, Failed> {
    let most = window * WINDOWS;
    let records = tape.bytes.len().div_ceil(naszeptan::RECORD_SIZE);
    let last = range.to.min(records.saturating_sub(1));
    let shown = (last + 1).saturating_sub(range.from);
    if shown > most * PICTURES {
        let why = format!(
            "{shown} records are more than {PICTURES} pictures hold; --from and --to choose"
        );
        return Err(mistake(why));
    }
    let whole = history(tape, range);
    if whole.columns.is_empty() {
        return Ok(vec![picture(&whole, called, window)]);
    }
    let count = whole.columns.len().div_ceil(most);
    let parts = (0..count).map(|n| part(&whole, n * most, most));
    Ok(parts.map(|part| picture(&part, called, window)).collect())
}

/// A part of a history, from a column on.
fn part(whole: &History, first: usize, most: usize) -> History {
    let last = (first + most).min(whole.columns.len());
    History {
        before: match first {
            0 => whole.before.clone(),
            first => whole.columns[first - 1].after.clone(),
        },
        columns: whole.columns[first..last].to_vec(),
        goes_on: whole.goes_on || last < whole.columns.len(),
    }
}

fn picture(history: &History, called: &str, window: usize) -> String {
    let (Some(first), Some(last)) = (history.columns.first(), history.columns.last()) else {
        return draw::draw(history, &format!("{called}: no record"), "", window);
    };
    let title = format!("{called}: records {} to {}", first.index, last.index);
    let outcome = match last.answer {
        answer if !answer.is_done() => {
            format!(
                "record {} stopped it: {}, {}",
                last.index,
                answer.number(),
                told::words(answer)
            )
        }
        Answer::Done | Answer::Handled | Answer::Recorded if history.goes_on => {
            "it goes on".to_string()
        }
        _ => format!("the tape ends: {} records", last.index + 1),
    };
    draw::draw(history, &title, &outcome, window)
}

#[cfg(test)]
mod tests {
    use super::*;

    #[test]
    fn names_of_pictures() {
        let name = |n| numbered(OsStr::new("a/b.c.svg"), n);
        assert_eq!(name(0), "a/b.c.svg");
        assert_eq!(name(1), "a/b.c-2.svg");
        assert_eq!(numbered(OsStr::new("x"), 2), "x-3");
    }
}
