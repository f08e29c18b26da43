//! `check`: every tape of a folder held to the text beside it.

use std::ffi::{OsStr, OsString};
use std::fs;
use std::path::{Path, PathBuf};
use std::sync::atomic::{AtomicUsize, Ordering};
use std::sync::Mutex;
use std::thread;

use naszeptan::{Machine, Session, MEMORY};

use crate::failed::{io_failed, mistake, Ended, Failed};
use crate::words::Takes;
use crate::{files, show};

/// The program's limit (docs/RULES.md, P2).
const LONGEST: usize = 65_536;

/// What came of a tape: how it ended, or what is wrong.
type Checked = Result<String, String>;

/// The verb.
pub fn check(words: &[OsString]) -> Ended {
    const TAKES: Takes = Takes {
        flags: &[],
        values: &["--jobs"],
        rest: &["DIR"],
    };
    let words = TAKES.sort(words)?;
    let jobs = words.number("--jobs", "a number, 1 to 256,")?;
    if jobs.is_some_and(|jobs| !(1..=256).contains(&jobs)) {
        return Err(mistake("--jobs: a number, 1 to 256, is wanted"));
    }
    let folder = Path::new(&words.rest[0]);
    let tapes = tapes(folder)?;
    if tapes.is_empty() {
        return Err(mistake(format!(
            "{}: no .tape and no .story is there",
            folder.display()
        )));
    }
    let checked = side_by_side(&tapes, jobs.map_or_else(cores, |jobs| jobs as usize));
    let (text, wrong) = told(&tapes, &checked);
    files::print(text.as_bytes())?;
    Ok(u8::from(wrong > 0))
}

/// The tapes and stories of a folder, by their names.
fn tapes(folder: &Path) -> Result<Vec<PathBuf>, Failed> {
    let failed = |why| io_failed(&folder.display().to_string(), &why);
    let mut found = Vec::new();
    for entry in fs::read_dir(folder).map_err(failed)? {
        let path = entry.map_err(failed)?.path();
        let tape = path.extension() == Some(OsStr::new("tape"));
        if (tape || files::is_story(path.as_os_str())) && path.is_file() {
            found.push(path);
        }
    }
    found.sort();
    Ok(found)
}

/// How many tapes are checked at a time. The emulator slows a process of
/// several threads down.
fn cores() -> usize {
    match std::env::var_os("NASZEPTAN_EMULATED") {
        Some(_) => 1,
        None => thread::available_parallelism().map_or(1, usize::from),
    }
}

fn side_by_side(tapes: &[PathBuf], jobs: usize) -> Vec<Checked> {
    let (next, done) = (AtomicUsize::new(0), Mutex::new(Vec::new()));
    thread::scope(|scope| {
        for _ in 0..jobs.min(tapes.len()) {
            scope.spawn(|| loop {
                let n = next.fetch_add(1, Ordering::Relaxed);
                let Some(tape) = tapes.get(n) else { break };
                let checked = checked(tape);
                done.lock().expect("no check panics").push((n, checked));
            });
        }
    });
    let mut done = done.into_inner().expect("no check panics");
    done.sort_by_key(|(n, _)| *n);
    done.into_iter().map(|(_, checked)| checked).collect()
}

/// A line for each tape, and the summary; and how many are not as expected.
fn told(tapes: &[PathBuf], checked: &[Checked]) -> (String, usize) {
    let name = |tape: &PathBuf| {
        tape.file_name()
            .unwrap_or_default()
            .to_string_lossy()
            .into_owned()
    };
    let names: Vec<String> = tapes.iter().map(name).collect();
    let width = names
        .iter()
        .map(|name| name.chars().count())
        .max()
        .unwrap_or_default();
    let mut text = String::new();
    for (name, checked) in names.iter().zip(checked) {
        let (word, words) = match checked {
            Ok(words) => ("ok   ", words),
            Err(words) => ("WRONG", words),
        };
        text += &format!("{word}  {name:<width$}  {words}\n");
    }
    let wrong = checked.iter().filter(|checked| checked.is_err()).count();
    text += &format!(
        "{} tapes: {} as expected, {wrong} not\n",
        tapes.len(),
        tapes.len() - wrong
    );
    (text, wrong)
}

/// Holds a tape to the texts beside it.
fn checked(path: &Path) -> Checked {
    let tape = files::read_tape(path.as_os_str()).map_err(|failed| failed.why)?;
    let beside = path.with_extension("txt");
    let text = fs::read_to_string(&beside);
    let name = beside
        .file_name()
        .unwrap_or_default()
        .to_string_lossy()
        .into_owned();
    let text = text.map_err(|why| io_failed(&name, &why).why)?;
    let written = written(&tape.bytes);
    compared(&written, &expected(&text), &name)?;
    let beside = path.with_extension("show");
    if let Ok(text) = fs::read_to_string(&beside) {
        let name = beside.file_name().unwrap_or_default().to_string_lossy();
        let shown = show::text(&tape);
        let lines = |text: &str| text.lines().map(str::to_string).collect::<Vec<_>>();
        compared(&lines(&shown), &lines(&text), &name)?;
    }
    Ok(written.last().cloned().unwrap_or_default())
}

/// The lines that the program writes of a tape (rules P1 to P6).
pub fn written(tape: &[u8]) -> Vec<String> {
    if tape.len() > LONGEST {
        return vec!["long".to_string()];
    }
    let (mut machine, mut memory) = (Machine::fresh(), vec![0; MEMORY]);
    let ended = machine.run(&mut memory, tape);
    if let Some((index, answer)) = ended.bad_record() {
        return vec![format!("bad {index} {}", answer.number())];
    }
    // A run tells no answers, and a session over the same tape is the run.
    let mut memory = vec![0; MEMORY];
    let opened = Session::open(&Machine::fresh(), &mut memory);
    let mut session = opened.expect("the fresh machine is valid");
    let answers = session.feed(tape).enumerate();
    let mut lines: Vec<String> = answers
        .map(|(n, a)| format!("{n} {}", a.number()))
        .collect();
    lines.push(format!("end {}", ended.count));
    lines
}

/// The lines that a text expects: its last block, without its margin.
fn expected(text: &str) -> Vec<String> {
    let lines: Vec<&str> = text.trim_end().lines().map(str::trim).collect();
    let block = lines.rsplit(|line| line.is_empty()).next();
    block
        .unwrap_or_default()
        .iter()
        .map(|line| line.to_string())
        .collect()
}

/// Where lines differ first. An expected `..` stands for any number of lines.
fn compared(written: &[String], expected: &[String], name: &str) -> Result<(), String> {
    let gap = expected.iter().position(|line| line == "..");
    let (written, wanted): (Vec<&String>, Vec<&String>) = match gap {
        None => (written.iter().collect(), expected.iter().collect()),
        Some(gap) => {
            let behind = expected.len() - gap - 1;
            let head = written.iter().take(gap);
            let tail = written
                .iter()
                .skip(gap.max(written.len().saturating_sub(behind)));
            let wanted = expected.iter().filter(|line| *line != "..");
            (head.chain(tail).collect(), wanted.collect())
        }
    };
    let most = written.len().max(wanted.len());
    for n in 0..most {
        let (found, wanted) = (written.get(n), wanted.get(n));
        if found != wanted {
            let line = |line: Option<&&String>| {
                line.map_or("nothing".to_string(), |line| format!("\"{}\"", line.trim()))
            };
            return Err(format!(
                "{name}: expected {}, found {}",
                line(wanted),
                line(found)
            ));
        }
    }
    Ok(())
}

#[cfg(test)]
mod tests {
    use super::*;

    fn lines(text: &str) -> Vec<String> {
        text.split('|').map(str::to_string).collect()
    }

    #[test]
    fn the_last_block_is_expected() {
        assert_eq!(expected("Words.\n\n    0 0\n    end 1\n"), ["0 0", "end 1"]);
        assert_eq!(expected("end 0\n"), ["end 0"]);
        assert_eq!(expected("a\n\nend 0\n\n\n"), ["end 0"]);
    }

    #[test]
    fn lines_that_differ() {
        let said = |written, wanted| compared(&lines(written), &lines(wanted), "a.txt");
        assert_eq!(said("0 0|end 1", "0 0|end 1"), Ok(()));
        let why = said("0 0|end 1", "0 20|end 1");
        assert_eq!(why.unwrap_err(), "a.txt: expected \"0 20\", found \"0 0\"");
        let why = said("0 0|end 1", "0 0");
        assert_eq!(why.unwrap_err(), "a.txt: expected nothing, found \"end 1\"");
        assert_eq!(
            said("0 0", "0 0|end 1").unwrap_err(),
            "a.txt: expected \"end 1\", found nothing"
        );
        assert_eq!(said("0 0|1 0|2 0|end 3", "0 0|..|end 3"), Ok(()));
        assert!(said("0 0|1 0|2 0|end 3", "0 0|..|end 4").is_err());
        assert!(said("0 0|1 0|2 0|end 3", "0 1|..|end 3").is_err());
        // What stands before a gap is not what stands behind it.
        assert!(said("0 0|end 1", "0 0|end 1|..|end 1").is_err());
    }
}
