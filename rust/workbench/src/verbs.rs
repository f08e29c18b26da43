//! The verbs: one row for each.

use std::ffi::OsString;

use crate::failed::{mistake, Ended};
use crate::files;
use crate::nearest::meant;
use crate::story::list;
use crate::words::Takes;
use crate::{check, run, show, timeline};

/// A verb.
pub struct Verb {
    /// Its name.
    pub name: &'static str,
    /// What `--help` writes. The script has it from the same file.
    pub help: &'static str,
    run: fn(&[OsString]) -> Ended,
}

/// All of them.
pub const VERBS: [Verb; 7] = [
    verb("asm", include_str!("../help/asm.txt"), asm),
    verb("list", include_str!("../help/list.txt"), list),
    verb("run", include_str!("../help/run.txt"), run::run),
    verb("show", include_str!("../help/show.txt"), show::show),
    verb("diff", include_str!("../help/diff.txt"), show::diff),
    verb(
        "timeline",
        include_str!("../help/timeline.txt"),
        timeline::timeline,
    ),
    verb("check", include_str!("../help/check.txt"), check::check),
];

const fn verb(name: &'static str, help: &'static str, run: fn(&[OsString]) -> Ended) -> Verb {
    Verb { name, help, run }
}

/// Does what the words say; the first is the verb.
pub fn call(words: &[OsString]) -> Ended {
    let Some((name, rest)) = words.split_first() else {
        return Err(mistake("a verb is wanted"));
    };
    let name = name.to_string_lossy();
    let Some(verb) = VERBS.iter().find(|verb| verb.name == name) else {
        let near = meant(&name, VERBS.iter().map(|verb| verb.name));
        return Err(mistake(format!("no such verb: {name}{near}")));
    };
    let before = rest.iter().take_while(|word| *word != "--");
    if before
        .into_iter()
        .any(|word| word == "--help" || word == "-h")
    {
        files::print(verb.help.as_bytes())?;
        return Ok(0);
    }
    (verb.run)(rest).map_err(|mut failed| {
        failed.why = format!("{name}: {}", failed.why);
        failed
    })
}

fn asm(words: &[OsString]) -> Ended {
    const TAKES: Takes = Takes {
        flags: &[],
        values: &["-o"],
        rest: &["STORY"],
    };
    let words = TAKES.sort(words)?;
    let out = words
        .value("-o")
        .ok_or_else(|| mistake("-o TAPE is wanted; --help tells the rest"))?;
    let story = files::read_story(&words.rest[0])?;
    files::write(out, &story.bytes)?;
    Ok(0)
}

fn list(words: &[OsString]) -> Ended {
    const TAKES: Takes = Takes {
        flags: &["--numbers"],
        values: &[],
        rest: &["TAPE"],
    };
    let words = TAKES.sort(words)?;
    let tape = files::read_tape(&words.rest[0])?;
    let text = list::list(&tape.bytes, words.has("--numbers"));
    files::print(text.as_bytes())?;
    Ok(0)
}
