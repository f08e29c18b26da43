//! Where two machines differ: each field by its name, before and after.

use naszeptan::{Control, Entry, LineSet, Machine, Registers, Thread, Transaction, ALL_MARKS};

use crate::play::Sight;
use crate::story::Names;

/// One thing that differs.
#[derive(Clone, Debug, PartialEq, Eq)]
pub struct Change {
    /// The thread; none where it is memory.
    pub thread: Option<usize>,
    /// What it is called.
    pub name: String,
    /// How it differs.
    pub how: How,
}

/// How a thing differs.
#[derive(Clone, Debug, PartialEq, Eq)]
pub enum How {
    /// By its value.
    Value(String, String),
    /// By its lines.
    Lines(LineSet, LineSet),
}

/// All that differs: the threads by their number, then memory.
pub fn changes(before: &Sight, after: &Sight, names: &Names) -> Vec<Change> {
    let mut all = Vec::new();
    let threads = before.machine.threads.iter().zip(&after.machine.threads);
    for (n, (before, after)) in threads.enumerate() {
        if before != after {
            let mut found = Found::default();
            found.thread(before, after, names);
            all.extend(found.0.into_iter().map(|(name, how)| Change {
                thread: Some(n),
                name,
                how,
            }));
        }
    }
    let words = before.memory.iter().zip(&after.memory).enumerate();
    for (index, (before, after)) in words.filter(|(_, (before, after))| before != after) {
        all.push(Change {
            thread: None,
            name: format!("memory {}", place(index as u32, names)),
            how: How::Value(hex(*before), hex(*after)),
        });
    }
    all
}

/// The machine as a whole: what differs from a thread of zeros, and memory that
/// is not 0.
pub fn whole(now: &Sight, names: &Names) -> Vec<String> {
    let machine: &Machine = &now.machine;
    let threads = machine.threads.iter().take(machine.count).enumerate();
    let mut lines: Vec<String> = threads
        .flat_map(|(n, thread)| {
            let text = format!("thread {n}: {thread}");
            text.lines().map(str::to_string).collect::<Vec<_>>()
        })
        .collect();
    let words = now
        .memory
        .iter()
        .enumerate()
        .filter(|(_, word)| **word != 0);
    lines.extend(
        words.map(|(index, word)| format!("memory {} {}", place(index as u32, names), hex(*word))),
    );
    lines
}

/// A doubleword by its index, and its name where it has one.
pub fn place(index: u32, names: &Names) -> String {
    match names.called(index) {
        Some(name) => format!("{index} ({name})"),
        None => index.to_string(),
    }
}

/// A line by its number, and its name where it has one.
pub fn line(line: u32, names: &Names) -> String {
    match names.line_called(line) {
        Some(name) => format!("{line} ({name})"),
        None => line.to_string(),
    }
}

fn hex(value: u64) -> String {
    format!("0x{value:X}")
}

/// What differs in one thread.
#[derive(Default)]
struct Found(Vec<(String, How)>);

impl Found {
    fn value<T: PartialEq>(
        &mut self,
        name: impl Into<String>,
        before: T,
        after: T,
        shown: impl Fn(T) -> String,
    ) {
        if before != after {
            let how = How::Value(shown(before), shown(after));
            self.0.push((name.into(), how));
        }
    }

    fn thread(&mut self, before: &Thread, after: &Thread, names: &Names) {
        self.control(&before.control, &after.control);
        self.value("CR0", before.cr0, after.cr0, |field| format!("{field:04b}"));
        self.registers("", &before.live, &after.live);
        self.registers("checkpoint ", &before.checkpoint, &after.checkpoint);
        self.failure(&before.control, &after.control);
        self.transaction(&before.transaction, &after.transaction, names);
    }

    fn control(&mut self, before: &Control, after: &Control) {
        let bit = |bit: bool| u8::from(bit).to_string();
        self.value("state", before.state, after.state, |state| {
            state.to_string()
        });
        self.value("TDOOMED", before.doomed, after.doomed, bit);
        self.value("PR", before.pr, after.pr, bit);
        self.value("TM", before.tm, after.tm, bit);
        self.value("NIA", before.nia, after.nia, hex);
    }

    fn failure(&mut self, before: &Control, after: &Control) {
        self.value("TFHAR", before.tfhar, after.tfhar, hex);
        self.value("TFIAR", before.tfiar, after.tfiar, hex);
        self.value("TEXASR", before.texasr, after.texasr, |texasr| {
            format!("0x{:016X} ({texasr})", texasr.0)
        });
        self.value("SRR0", before.srr0, after.srr0, hex);
        self.value("SRR1", before.srr1, after.srr1, |srr1| {
            format!("0x{srr1:016X}")
        });
    }

    fn registers(&mut self, head: &str, before: &Registers, after: &Registers) {
        for (n, (before, after)) in before.gpr.iter().zip(&after.gpr).enumerate() {
            self.value(format!("{head}r{n}"), *before, *after, hex);
        }
        for (n, (before, after)) in before.cr.iter().zip(&after.cr).enumerate() {
            let name = format!("{head}cr{}", n + 1);
            self.value(name, *before, *after, |field| format!("{field:04b}"));
        }
    }

    fn transaction(&mut self, before: &Transaction, after: &Transaction, names: &Names) {
        let sets = [
            ("reads", before.reads, after.reads),
            ("writes", before.writes, after.writes),
        ];
        for (name, before, after) in sets {
            if before != after {
                self.0.push((name.to_string(), How::Lines(before, after)));
            }
        }
        let mut places: Vec<u32> = Vec::new();
        for entry in after.entries().iter().chain(before.entries()) {
            if !places.contains(&entry.index) {
                places.push(entry.index);
            }
        }
        for index in places {
            let name = format!("log {}", place(index, names));
            let shown = |place: Option<&Entry>| place.map_or("none".to_string(), logged);
            self.value(name, before.logged(index), after.logged(index), shown);
        }
    }
}

/// The value of a log place, and which bytes were stored where not all were.
fn logged(place: &Entry) -> String {
    let bytes = (0..8).filter(|byte| place.is_stored(*byte));
    let bytes: Vec<String> = bytes.map(|byte| byte.to_string()).collect();
    match place.marks {
        ALL_MARKS => hex(place.value),
        _ => format!("{} (bytes {})", hex(place.value), bytes.join(" ")),
    }
}

/// The lines of a set, with their names.
pub fn lines(set: &LineSet, names: &Names) -> String {
    let lines: Vec<String> = set.iter().map(|n| line(n.into(), names)).collect();
    match lines.is_empty() {
        true => "none".to_string(),
        false => lines.join(" "),
    }
}

/// The lines of one set that the other has not.
pub fn without(set: &LineSet, other: &LineSet) -> LineSet {
    LineSet {
        words: std::array::from_fn(|n| set.words[n] & !other.words[n]),
    }
}
