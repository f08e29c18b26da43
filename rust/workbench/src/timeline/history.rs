//! What a picture shows of a tape, record by record: a column for each.

use naszeptan::{Answer, Cause, Event, State, Thread, Ts};

use crate::play::{Play, Sight, Step};
use crate::show::Range;
use crate::story::{list, Story};
use crate::told;

/// How a thread stands after a record.
#[derive(Clone, Copy, Debug, Default, PartialEq, Eq)]
pub struct Standing {
    /// No transaction, or how it stands.
    pub phase: Option<Phase>,
    /// The level of the transaction.
    pub level: u16,
    /// In privileged state.
    pub privileged: bool,
}

/// How a transaction stands.
#[derive(Clone, Copy, Debug, PartialEq, Eq)]
pub enum Phase {
    /// Transactional.
    T,
    /// Suspended.
    S,
    /// Suspended, and it has failed.
    Doomed,
}

/// What became of a thread's transaction in a record.
#[derive(Clone, Copy, Debug, PartialEq, Eq)]
pub enum Fate {
    /// It committed.
    Committed,
    /// It failed, and the failure was handled: the thread is behind its tbegin.
    Failed,
    /// It failed in Suspended state, and goes on doomed.
    Doomed,
    /// treclaim. took it off.
    Reclaimed,
}

/// A transaction that ended or failed in a record.
#[derive(Clone, Debug, PartialEq, Eq)]
pub struct End {
    /// The thread.
    pub thread: usize,
    /// What became of it.
    pub fate: Fate,
    /// Why it failed, if it was recorded in this record.
    pub cause: Option<String>,
}

/// What is written at a record.
#[derive(Clone, Debug, PartialEq, Eq)]
pub struct Mark {
    /// The thread; 0 where the record is none.
    pub thread: usize,
    /// The instruction's name.
    pub name: String,
    /// What it is about.
    pub operand: String,
    /// The line of a load or a store, and whether it is a store.
    pub access: Option<(u32, bool)>,
    /// What is said where a pointer rests on it.
    pub words: String,
}

/// A record.
#[derive(Clone, Debug, PartialEq, Eq)]
pub struct Column {
    /// Its index.
    pub index: usize,
    /// Its labels in the story.
    pub labels: Vec<String>,
    /// What is written there.
    pub mark: Mark,
    /// Its answer.
    pub answer: Answer,
    /// Whose transactions ended or failed.
    pub ends: Vec<End>,
    /// How each thread stands after it.
    pub after: Vec<Standing>,
}

/// Records of a tape.
#[derive(Clone, Debug, Default, PartialEq, Eq)]
pub struct History {
    /// How each thread stands before the first.
    pub before: Vec<Standing>,
    /// The records.
    pub columns: Vec<Column>,
    /// Whether a record follows that is not among them.
    pub goes_on: bool,
}

/// The records of a range.
pub fn history(tape: &Story, range: Range) -> History {
    let mut play = Play::new(&tape.bytes);
    play.skip_to(range.from);
    let mut history = History {
        before: standings(&play.now),
        ..History::default()
    };
    while play.index() <= range.to {
        let before = play.now.clone();
        let Some(step) = play.step() else {
            return history;
        };
        history
            .columns
            .push(column(tape, &step, &before, &play.now));
    }
    history.goes_on = play.step().is_some();
    history
}

fn standings(now: &Sight) -> Vec<Standing> {
    now.machine.threads.iter().map(standing).collect()
}

fn standing(thread: &Thread) -> Standing {
    let control = &thread.control;
    let phase = match (control.state, control.doomed) {
        (State::N, _) => None,
        (State::T, _) => Some(Phase::T),
        (State::S, false) => Some(Phase::S),
        (State::S, true) => Some(Phase::Doomed),
    };
    Standing {
        phase,
        level: phase.map_or(0, |_| control.texasr.level()),
        privileged: !control.pr,
    }
}

fn column(tape: &Story, step: &Step, before: &Sight, after: &Sight) -> Column {
    let threads = before.machine.threads.iter().zip(&after.machine.threads);
    let ends = threads.enumerate().filter_map(|(thread, (before, after))| {
        let own = step.event.filter(|(by, _)| usize::from(*by) == thread);
        end(thread, own.map(|(_, event)| event), step, before, after)
    });
    let labels = tape.names.labels_at(step.index);
    Column {
        index: step.index,
        labels: labels.map(str::to_string).collect(),
        mark: mark(tape, step),
        answer: step.answer,
        ends: ends.collect(),
        after: standings(after),
    }
}

/// What became of a thread's transaction; `own` is its own event.
fn end(
    thread: usize,
    own: Option<Event>,
    step: &Step,
    before: &Thread,
    after: &Thread,
) -> Option<End> {
    let (was, is) = (standing(before).phase?, standing(after).phase);
    let fate = match (own, is) {
        _ if !step.answer.is_done() => return None,
        (Some(Event::Treclaim { .. }), None) => Fate::Reclaimed,
        (_, None) if step.failed.contains(thread as u8) => Fate::Failed,
        (_, None) => Fate::Committed,
        (_, Some(Phase::Doomed)) if was != Phase::Doomed => Fate::Doomed,
        _ => return None,
    };
    let recorded = before.control.texasr != after.control.texasr && after.control.texasr.failed();
    let failure = after.control.texasr.failure().filter(|_| recorded);
    let cause = failure.map(|failure| match failure.cause {
        Cause::Abort => format!("abort, code 0x{:02X}", failure.code),
        cause => cause.to_string(),
    });
    Some(End {
        thread,
        fate,
        cause: cause.filter(|_| fate != Fate::Committed),
    })
}

fn mark(tape: &Story, step: &Step) -> Mark {
    let Some((thread, event)) = step.event else {
        let bytes = list::bytes(&step.record);
        return Mark {
            thread: 0,
            name: "no record".to_string(),
            operand: String::new(),
            access: None,
            words: format!(
                "record {}: {bytes}: {}",
                step.index,
                told::refused(step.answer, &step.record)
            ),
        };
    };
    let text = list::named(thread, event, &tape.names);
    let index = list::index(event);
    let (name, operand) = short(event, text.rsplit_once(", ").map_or("", |(_, last)| last));
    let line = index.map(|index| index / naszeptan::LINE as u32);
    Mark {
        thread: usize::from(thread),
        name,
        operand,
        access: line.map(|line| (line, list::stores(event))),
        words: format!(
            "record {}: {text}: {}, {}",
            step.index,
            step.answer.number(),
            told::words(step.answer)
        ),
    }
}

/// An event in two short words; `last` is its last operand.
fn short(event: Event, last: &str) -> (String, String) {
    let text = event.to_string();
    let (name, operands) = text.split_once(' ').unwrap_or((&text, ""));
    let (name, operand) = match event {
        Event::Tsr { l: false } => ("tsuspend.", String::new()),
        Event::Tsr { l: true } => ("tresume.", String::new()),
        Event::Tbegin { r: false } | Event::Tend { a: false } => (name, String::new()),
        Event::Tbegin { r: true } => (name, "R=1 (ROT)".to_string()),
        Event::Mtspr { spr, .. } | Event::Mfspr { spr, .. } => (name, spr_name(spr)),
        Event::Addi { rt, ra: 0, si } => ("li", format!("r{rt}, {}", si as i16)),
        Event::Mtmsrd { ts, tm, pr } => {
            let state = match ts {
                Ts::None => "11".to_string(),
                ts => format!("{ts:?}"),
            };
            (
                name,
                format!("{state} TM={} PR={}", u8::from(tm), u8::from(pr)),
            )
        }
        _ if list::index(event).is_some() => (name, last.to_string()),
        _ => (name, operands.to_string()),
    };
    (name.to_string(), operand)
}

fn spr_name(spr: u8) -> String {
    let mut named = crate::story::kinds::SPRS.iter();
    let named = named.find(|(_, number)| *number == spr);
    named.map_or(spr.to_string(), |(name, _)| name.to_string())
}
