//! `show`: after each record what changed. `diff`: where two tapes' machines
//! part first.

use std::ffi::OsString;
use std::io::{self, BufWriter, Write};

use crate::changes::{self, changes, lines, without, Change, How};
use crate::failed::{io_failed, mistake, Ended, Failed};
use crate::files;
use crate::play::{Play, Sight, Step};
use crate::story::{list, Names, Story};
use crate::told;
use crate::words::{Takes, Words};

/// Which records of a tape.
#[derive(Clone, Copy, Debug, PartialEq, Eq)]
pub struct Range {
    /// The first.
    pub from: usize,
    /// The last.
    pub to: usize,
}

impl Range {
    /// By `--from` and `--to`: an index, or a label of the story.
    pub fn of(words: &Words, names: &Names) -> Result<Range, Failed> {
        let end = |option, other| match words.value(option) {
            None => Ok(other),
            Some(value) => {
                let text = value.to_string_lossy();
                let number = crate::story::line::number(&text).map(|n| n as usize);
                let index = number.or_else(|| names.label(&text));
                index.ok_or_else(|| {
                    mistake(format!(
                        "{option} {text}: a record's index or a label is wanted"
                    ))
                })
            }
        };
        let range = Range {
            from: end("--from", 0)?,
            to: end("--to", usize::MAX)?,
        };
        match range.from <= range.to {
            true => Ok(range),
            false => Err(mistake("--from is behind --to")),
        }
    }
}

/// How records are shown.
struct View<'a> {
    names: &'a Names,
    thread: Option<usize>,
    all: bool,
}

/// The verb `show`.
pub fn show(words: &[OsString]) -> Ended {
    const TAKES: Takes = Takes {
        flags: &["--all"],
        values: &["--from", "--to", "--thread"],
        rest: &["TAPE"],
    };
    let words = TAKES.sort(words)?;
    let tape = files::read_tape(&words.rest[0])?;
    let range = Range::of(&words, &tape.names)?;
    let thread = words.number("--thread", "a thread, 0 to 3,")?;
    if thread.is_some_and(|thread| thread > 3) {
        return Err(mistake("--thread: a thread, 0 to 3, is wanted"));
    }
    let view = View {
        names: &tape.names,
        thread: thread.map(|thread| thread as usize),
        all: words.has("--all"),
    };
    let mut out = BufWriter::new(io::stdout().lock());
    let failed = |why| io_failed("standard output", &why);
    let stopped = view.tell(&tape, range, &mut |text| {
        out.write_all(text.as_bytes()).map_err(failed)
    })?;
    out.flush().map_err(failed)?;
    match stopped {
        None => Ok(0),
        Some(why) => Err(Failed { status: 1, why }),
    }
}

/// What `show` writes of a whole tape.
pub fn text(tape: &Story) -> String {
    let view = View {
        names: &tape.names,
        thread: None,
        all: false,
    };
    let range = Range {
        from: 0,
        to: usize::MAX,
    };
    let mut text = String::new();
    let mut add = |part: &str| {
        text.push_str(part);
        Ok(())
    };
    let told = view.tell(tape, range, &mut add);
    told.expect("a string takes all");
    text
}

impl View<'_> {
    /// Tells each record of a range, and gives why one stopped the tape.
    fn tell(
        &self,
        tape: &Story,
        range: Range,
        out: &mut dyn FnMut(&str) -> Result<(), Failed>,
    ) -> Result<Option<String>, Failed> {
        let mut play = Play::new(&tape.bytes);
        play.skip_to(range.from);
        let mut last = None;
        while play.index() <= range.to {
            let before = play.now.clone();
            let Some(step) = play.step() else {
                break;
            };
            out(&self.record(&step, &before, &play.now))?;
            last = Some(step);
        }
        Ok(play.stopped().map(|answer| match last {
            Some(step) => format!(
                "record {}: {}",
                step.index,
                told::refused(answer, &step.record)
            ),
            None => {
                let (index, words) = (play.index() - 1, told::words(answer));
                format!(
                    "record {index}, before --from, stopped the tape: {}, {words}",
                    answer.number()
                )
            }
        }))
    }

    /// A record, its answer, and what it changed.
    fn record(&self, step: &Step, before: &Sight, after: &Sight) -> String {
        let changes = changes(before, after, self.names);
        let own = step.event.map(|(thread, _)| usize::from(thread));
        let wanted = |thread: usize| self.thread.is_none_or(|only| only == thread);
        let touched = changes
            .iter()
            .filter_map(|change| change.thread)
            .any(wanted);
        if !touched && !own.is_none_or(wanted) {
            return String::new();
        }
        let mut text = String::new();
        for label in self.names.labels_at(step.index) {
            text += &format!("{label}:\n");
        }
        text += &head(step, self.names);
        let shown = changes
            .iter()
            .filter(|change| change.thread.is_none_or(wanted));
        for change in shown {
            text += &format!("           {}\n", self.change(change));
        }
        if self.all {
            for line in changes::whole(after, self.names) {
                text += &format!("       {line}\n");
            }
        }
        text
    }

    fn change(&self, change: &Change) -> String {
        let words = match &change.how {
            How::Value(before, after) if change.name == "TEXASR" => {
                let before = before.split(' ').next().unwrap_or_default();
                format!("{after}, was {before}")
            }
            How::Value(before, after) => format!("{after}, was {before}"),
            How::Lines(before, after) => {
                let sets = [
                    (without(after, before), "added"),
                    (without(before, after), "gone"),
                ];
                let sets = sets.iter().filter(|(set, _)| !set.is_empty());
                let parts: Vec<String> = sets
                    .map(|(set, word)| format!("line {} {word}", lines(set, self.names)))
                    .collect();
                parts.join(", ")
            }
        };
        format!("{} {words}", subject(change))
    }
}

fn subject(change: &Change) -> String {
    match change.thread {
        Some(thread) => format!("thread {thread}  {}", change.name),
        None => change.name.clone(),
    }
}

/// A record's line: index, event, answer, and which other threads failed.
fn head(step: &Step, names: &Names) -> String {
    let event = match step.event {
        Some((thread, event)) => list::named(thread, event, names),
        None => list::bytes(&step.record),
    };
    let mut answer = format!("{}, {}", step.answer.number(), told::words(step.answer));
    if !step.failed.is_empty() {
        let failed = &step.failed;
        answer += &format!("; {failed} failed");
    }
    format!("{:>5}  {event:<28}  {answer}\n", step.index)
}

/// The verb `diff`.
pub fn diff(words: &[OsString]) -> Ended {
    const TAKES: Takes = Takes {
        flags: &[],
        values: &[],
        rest: &["TAPE", "the other TAPE"],
    };
    let words = TAKES.sort(words)?;
    let one = files::read_tape(&words.rest[0])?;
    let other = files::read_tape(&words.rest[1])?;
    let called = |n: usize| files::called(&words.rest[n], "standard input");
    let (text, status) = parting(&one, &other, [&called(0), &called(1)]);
    files::print(text.as_bytes())?;
    Ok(status)
}

/// Where the machines of two tapes part first, and 1; or 0 where they never do.
pub fn parting(one: &Story, other: &Story, called: [&str; 2]) -> (String, u8) {
    let mut plays = [Play::new(&one.bytes), Play::new(&other.bytes)];
    for index in 0.. {
        let steps = [plays[0].step(), plays[1].step()];
        if plays[0].now != plays[1].now {
            let mut text = format!("the machines part at record {index}\n");
            for (n, tape) in [one, other].into_iter().enumerate() {
                let did = match &steps[n] {
                    Some(step) => head(step, &tape.names),
                    None => format!("{index:>5}  nothing: {}\n", why_nothing(&plays[n])),
                };
                text += &format!("{}\n{did}", called[n]);
            }
            for change in changes(&plays[0].now, &plays[1].now, &one.names) {
                text += &differs(&change, &one.names);
            }
            return (text, 1);
        }
        if steps.iter().all(Option::is_none) {
            break;
        }
    }
    let done = plays.map(|play| play.index().to_string());
    let records = match done[0] == done[1] {
        true => done[0].clone(),
        false => done.join(" and "),
    };
    (format!("the machines never part: {records} records\n"), 0)
}

fn why_nothing(play: &Play) -> String {
    match play.stopped() {
        Some(answer) => format!(
            "record {} stopped it with {}",
            play.index() - 1,
            answer.number()
        ),
        None => "the tape has ended".to_string(),
    }
}

fn differs(change: &Change, names: &Names) -> String {
    let (one, other) = match &change.how {
        How::Value(one, other) => (one.clone(), other.clone()),
        How::Lines(one, other) => (lines(one, names), lines(other, names)),
    };
    format!("           {}: {one} | {other}\n", subject(change))
}
