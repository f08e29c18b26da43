//! One machine with its memory on both sides, and where the two differ.

use model::{Done, Ended, Machine, Registers, State, Thread};
use naszeptan::raw;

use crate::sides::{model_step, Side};
use crate::start::Start;

/// Doublewords kept on either side of the lent memory, which no call may
/// touch.
const BESIDE: usize = 2;
/// What stands there.
const KEPT: u64 = 0x5AFE_5AFE_5AFE_5AFE;

/// A machine and its memory, on both sides. Each side keeps its own form
/// from event to event.
pub struct Pair {
    model: Machine,
    memory: Vec<u64>,
    raw: raw::Machine,
    lent: Vec<u64>,
}

impl Pair {
    /// Both sides at the start.
    pub fn new(start: Start) -> Pair {
        let (model, memory) = start.build();
        let mut lent = vec![KEPT; memory.len() + 2 * BESIDE];
        lent[BESIDE..BESIDE + memory.len()].copy_from_slice(&memory);
        Pair {
            raw: to_raw(&model),
            model,
            memory,
            lent,
        }
    }

    /// The model's machine.
    pub fn machine(&self) -> &Machine {
        &self.model
    }

    /// The model's memory.
    pub fn memory(&self) -> &[u64] {
        &self.memory
    }

    /// One event on both sides: the answer and who failed, or where they
    /// differ.
    pub fn step(&mut self, side: &dyn Side, e: raw::Event) -> Result<Done, String> {
        let ours = model_step(&mut self.model, &mut self.memory, e);
        let lent = &mut self.lent[BESIDE..BESIDE + self.memory.len()];
        let theirs = side.step(&mut self.raw, lent, e);
        if ours.answer != theirs.answer {
            let (ours, theirs) = (ours.answer, theirs.answer);
            return Err(format!("answer: model {ours}, proved {theirs}"));
        }
        if ours.failed != theirs.failed {
            let (ours, theirs) = (ours.failed, theirs.failed);
            return Err(format!("failed: model {ours:04b}, proved {theirs:04b}"));
        }
        self.agree().map(|()| ours)
    }

    /// One tape on both sides: how it ended, or where they differ.
    pub fn run(&mut self, side: &dyn Side, tape: &[u8]) -> Result<Ended, String> {
        let ours = model::run(&mut self.model, &mut self.memory, tape);
        let lent = &mut self.lent[BESIDE..BESIDE + self.memory.len()];
        let theirs = side.run(&mut self.raw, lent, tape);
        if ours != theirs {
            return Err(format!("run: model {ours:?}, proved {theirs:?}"));
        }
        self.agree().map(|()| ours)
    }

    /// Whether both sides are equal in everything.
    fn agree(&self) -> Result<(), String> {
        let end = BESIDE + self.memory.len();
        if self.lent[BESIDE..end] != self.memory {
            return Err(self.memory_difference());
        }
        let beside = self.lent[..BESIDE].iter().chain(&self.lent[end..]);
        if beside.into_iter().any(|&d| d != KEPT) {
            return Err("a doubleword beside the lent memory has changed".to_string());
        }
        same_machine(&self.model, &self.raw)
    }

    fn memory_difference(&self) -> String {
        let lent = &self.lent[BESIDE..];
        let at = self.memory.iter().zip(lent).position(|(a, b)| a != b);
        let at = at.unwrap_or(0);
        format!(
            "memory at {at}: model {:#x}, proved {:#x}",
            self.memory[at], lent[at]
        )
    }
}

/// Whether the machines are equal in everything, or where they differ first.
pub(crate) fn same_machine(model: &Machine, raw: &raw::Machine) -> Result<(), String> {
    if model.count != raw.count {
        let (ours, theirs) = (model.count, raw.count);
        return Err(format!("thread count: model {ours}, proved {theirs}"));
    }
    let threads = model.threads.iter().zip(&raw.threads);
    for (n, (ours, theirs)) in threads.enumerate() {
        if let Some(field) = first_difference(ours, theirs) {
            let ours = shown(field, &to_raw_thread(ours));
            let theirs = shown(field, theirs);
            return Err(format!(
                "thread {n}, {field}\nmodel:  {ours}\nproved: {theirs}"
            ));
        }
    }
    Ok(())
}

fn same_registers(ours: &Registers, theirs: &raw::Registers) -> bool {
    ours.gpr == theirs.gpr && ours.cr == theirs.cr
}

/// The state's number in the header.
fn state(s: State) -> u8 {
    match s {
        State::N => 0,
        State::T => 1,
        State::S => 2,
    }
}

/// The first field in which two thread records differ.
fn first_difference(ours: &Thread, theirs: &raw::Thread) -> Option<&'static str> {
    let control = &theirs.control;
    let transaction = &theirs.transaction;
    let log = ours.log.iter().zip(&transaction.log);
    [
        ("live registers", same_registers(&ours.live, &theirs.live)),
        ("CR0", ours.cr0 == theirs.cr0),
        (
            "checkpoint",
            same_registers(&ours.checkpoint, &theirs.checkpoint),
        ),
        ("NIA", ours.nia == control.nia),
        ("PR", u8::from(ours.pr) == control.pr),
        ("TM", u8::from(ours.tm) == control.tm),
        ("state", state(ours.state) == control.state),
        ("TDOOMED", u8::from(ours.doomed) == control.doomed),
        ("TFHAR", ours.tfhar == control.tfhar),
        ("TFIAR", ours.tfiar == control.tfiar),
        ("TEXASR", ours.texasr == control.texasr),
        ("SRR0", ours.srr0 == control.srr0),
        ("SRR1", ours.srr1 == control.srr1),
        ("read set", ours.reads.0 == transaction.reads.words),
        ("write set", ours.writes.0 == transaction.writes.words),
        ("log count", ours.count == transaction.count),
        (
            "log",
            log.fold(true, |same, (a, b)| {
                same & (a.index == b.index) & (a.marks == b.marks) & (a.value == b.value)
            }),
        ),
    ]
    .into_iter()
    .find(|(_, same)| !same)
    .map(|(name, _)| name)
}

/// The part of a thread record that has this field, as text.
fn shown(field: &str, t: &raw::Thread) -> String {
    match field {
        "live registers" => format!("{:x?}", t.live),
        "checkpoint" => format!("{:x?}", t.checkpoint),
        "CR0" => format!("{:x}", t.cr0),
        "read set" | "write set" | "log count" | "log" => format!("{:x?}", t.transaction),
        _ => format!("{:x?}", t.control),
    }
}

/// A machine of the model as the header has it.
pub fn to_raw(m: &Machine) -> raw::Machine {
    raw::Machine {
        count: m.count,
        threads: std::array::from_fn(|n| to_raw_thread(&m.threads[n])),
    }
}

fn to_raw_registers(r: &Registers) -> raw::Registers {
    raw::Registers {
        gpr: r.gpr,
        cr: r.cr,
    }
}

fn to_raw_thread(t: &Thread) -> raw::Thread {
    raw::Thread {
        live: to_raw_registers(&t.live),
        cr0: t.cr0,
        checkpoint: to_raw_registers(&t.checkpoint),
        control: raw::Control {
            nia: t.nia,
            pr: u8::from(t.pr),
            tm: u8::from(t.tm),
            state: state(t.state),
            doomed: u8::from(t.doomed),
            tfhar: t.tfhar,
            tfiar: t.tfiar,
            texasr: t.texasr,
            srr0: t.srr0,
            srr1: t.srr1,
        },
        transaction: raw::Transaction {
            reads: raw::Lines { words: t.reads.0 },
            writes: raw::Lines { words: t.writes.0 },
            count: t.count,
            log: std::array::from_fn(|n| raw::Entry {
                index: t.log[n].index,
                marks: t.log[n].marks,
                value: t.log[n].value,
            }),
        },
    }
}
