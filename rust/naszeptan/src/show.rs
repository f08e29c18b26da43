//! A machine as people read it: what is not zero, and nothing else.

use std::fmt::{self, Display};

use crate::raw::{Entry, Lines, Registers, Transaction, PLACES};
use crate::{Control, Machine, Thread};

/// What is not zero: a line or a few for each thread. `{:?}` has every field.
///
/// Two machines that differ look different, valid or not.
impl fmt::Display for Machine {
    fn fmt(&self, f: &mut fmt::Formatter<'_>) -> fmt::Result {
        write!(f, "{} threads", self.count)?;
        for (n, thread) in self.threads.iter().enumerate() {
            if n < self.count {
                write!(f, "\nthread {n}: {thread}")?;
            } else if *thread != Thread::default() {
                write!(f, "\nrecord {n}, past the count: {thread}")?;
            }
        }
        Ok(())
    }
}

/// What is not zero, and the state. Lines but the first are indented.
impl fmt::Display for Thread {
    fn fmt(&self, f: &mut fmt::Formatter<'_>) -> fmt::Result {
        let control = &self.control;
        write!(f, "{}", control.state)?;
        let flags = [
            (control.pr, "PR"),
            (control.tm, "TM"),
            (control.doomed, "TDOOMED"),
        ];
        for (_, name) in flags.into_iter().filter(|(set, _)| *set) {
            write!(f, " {name}")?;
        }
        if control.nia != 0 {
            write!(f, ", NIA 0x{:X}", control.nia)?;
        }
        if self.cr0 != 0 {
            write!(f, ", CR0 {:04b}", self.cr0)?;
        }
        row(f, "", &registers(&self.live))?;
        row(f, "checkpoint: ", &registers(&self.checkpoint))?;
        row(f, "", &failure(self))?;
        row(f, "", &saved(&self.control))?;
        row(f, "", &transaction(&self.transaction))
    }
}

/// A line of its own, if there is something to tell.
fn row(f: &mut fmt::Formatter<'_>, head: &str, parts: &[String]) -> fmt::Result {
    match parts {
        [] => Ok(()),
        parts => write!(f, "\n    {head}{}", parts.join(", ")),
    }
}

fn registers(registers: &Registers) -> Vec<String> {
    let gprs = registers.gpr.iter().enumerate();
    let gprs = gprs.filter(|(_, value)| **value != 0);
    let fields = (1..).zip(&registers.cr).filter(|(_, field)| **field != 0);
    let gprs = gprs.map(|(n, value)| format!("r{n} 0x{value:X}"));
    gprs.chain(fields.map(|(n, field)| format!("cr{n} {field:04b}")))
        .collect()
}

fn failure(thread: &Thread) -> Vec<String> {
    let control = &thread.control;
    let mut parts = Vec::new();
    for (name, value) in [("TFHAR", control.tfhar), ("TFIAR", control.tfiar)] {
        if value != 0 {
            parts.push(format!("{name} 0x{value:X}"));
        }
    }
    if control.texasr.0 != 0 {
        let texasr = control.texasr;
        parts.push(format!("TEXASR 0x{:016X} ({texasr})", texasr.0));
    }
    parts
}

/// What an interrupt has saved. What SRR1 asks for stands in words beside it.
fn saved(control: &Control) -> Vec<String> {
    let mut parts = Vec::new();
    if control.srr0 != 0 {
        parts.push(format!("SRR0 0x{:X}", control.srr0));
    }
    if control.srr1 != 0 {
        let srr1 = control.srr1;
        parts.push(format!("SRR1 0x{srr1:016X} ({})", asked(srr1)));
    }
    parts
}

/// The state, PR and TM that a value of SRR1 asks for (docs/RULES.md, M15).
fn asked(srr1: u64) -> String {
    let bit = |n: u32| srr1 >> (63 - n) & 1 != 0;
    let state = match (bit(29), bit(30)) {
        (false, false) => "N",
        (false, true) => "S",
        (true, false) => "T",
        (true, true) => "no state",
    };
    let flags = [(bit(49), " PR"), (bit(31), " TM")];
    let set = flags.into_iter().filter(|(set, _)| *set);
    state.to_string() + &set.map(|(_, name)| name).collect::<String>()
}

fn transaction(transaction: &Transaction) -> Vec<String> {
    let mut parts = Vec::new();
    for (name, set) in [
        ("reads", &transaction.reads),
        ("writes", &transaction.writes),
    ] {
        if *set != Lines::EMPTY {
            parts.push(format!("{name} {}", words(set.iter())));
        }
    }
    let log = shown(transaction);
    if transaction.count != 0 || !log.is_empty() {
        let places = words(log.iter().map(place));
        parts.push(format!("log of {}: {places}", transaction.count));
    }
    parts
}

/// A place of the log, with its marks where not all eight bytes were stored.
fn place(entry: &Entry) -> String {
    let Entry {
        index,
        marks,
        value,
    } = entry;
    match entry.is_whole() {
        true => format!("{index}=0x{value:X}"),
        false => format!("{index}=0x{value:X} (marks 0x{marks:02X})"),
    }
}

/// The log up to its last place that is used or not 0.
pub(crate) fn shown(transaction: &Transaction) -> &[Entry] {
    let zero = Entry::default();
    let last = transaction.log.iter().rposition(|e| *e != zero);
    let used = transaction.count.min(PLACES);
    &transaction.log[..used.max(last.map_or(0, |i| i + 1))]
}

fn words(all: impl Iterator<Item = impl Display>) -> String {
    let all: Vec<String> = all.map(|one| one.to_string()).collect();
    all.join(" ")
}
