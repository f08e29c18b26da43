//! The report as JSON for tools: one line for each failure, and nothing else.
//! docs/REPORT.md has the names; they stay, and new ones may come.

use naszeptan::{bit_names, Compared, FailureRegisters, Row, State};

use crate::sheet::{Entry, Judged};
use crate::Sheet;

/// All lines.
pub fn json(sheet: &Sheet) -> String {
    let rows = sheet.entries.iter().map(entry);
    let further = sheet.further.iter().map(went_on);
    rows.chain(further).map(|line| line + "\n").collect()
}

/// An object of these names and values, which are JSON already.
fn object(parts: &[(&str, String)]) -> String {
    let parts: Vec<String> = parts
        .iter()
        .map(|(name, value)| format!("\"{name}\":{value}"))
        .collect();
    format!("{{{}}}", parts.join(","))
}

/// A word. No word of ours has a quotation mark, a backslash or a control
/// character.
fn word(word: &str) -> String {
    format!("\"{word}\"")
}

/// A register: a word, since 64 bits are more than a JSON number is sure to
/// keep.
fn bits(bits: u64) -> String {
    format!("\"0x{bits:016X}\"")
}

fn or_null(value: Option<String>) -> String {
    value.unwrap_or_else(|| "null".into())
}

fn registers(of: &FailureRegisters) -> [(&'static str, String); 4] {
    [
        ("texasr", bits(of.texasr.0)),
        ("tfiar", bits(of.tfiar)),
        ("tfhar", bits(of.tfhar)),
        ("cr0", of.cr0.to_string()),
    ]
}

fn entry(entry: &Entry) -> String {
    let Row {
        record,
        by,
        event,
        thread,
        state,
        ..
    } = entry.row;
    let texasr = entry.row.registers.texasr;
    let names = texasr.cause().names();
    let linux_code = texasr.failure().and_then(|failure| failure.linux_code());
    let mut parts = vec![
        ("record", record.to_string()),
        ("thread", thread.to_string()),
        ("by", by.to_string()),
        ("event", word(&event.to_string())),
        ("reclaim", entry.row.is_reclaim().to_string()),
        (
            "recorded",
            or_null(entry.row.recorded.map(|n| n.to_string())),
        ),
        ("cause", word(&texasr.cause().to_string())),
        ("bit", or_null(texasr.cause().bit().map(|n| n.to_string()))),
        ("linux", or_null(names.map(|names| word(names.0)))),
        ("gcc", or_null(names.map(|names| word(names.1)))),
        ("code", texasr.code().to_string()),
        ("linux_code", or_null(linux_code.map(word))),
        ("waits", (state == State::S).to_string()),
    ];
    parts.extend(registers(&entry.row.registers));
    parts.push((
        "value",
        or_null(entry.shown.map(|shown| bits(shown.value.0))),
    ));
    parts.push(("care", or_null(entry.shown.map(|shown| bits(shown.care)))));
    parts.push(("read", or_null(entry.judged.as_ref().map(judged))));
    object(&parts)
}

fn went_on(of: &Judged) -> String {
    object(&[
        ("record", "null".into()),
        ("thread", of.read.thread.to_string()),
        ("read", judged(of)),
    ])
}

fn judged(of: &Judged) -> String {
    let Judged { read, said } = of;
    let Compared {
        verdict,
        texasr,
        tfiar,
        tfhar,
        cr0,
    } = said;
    let deciding = object(&[
        ("texasr", bits(*texasr)),
        ("tfiar", bits(*tfiar)),
        ("tfhar", bits(*tfhar)),
        ("cr0", cr0.to_string()),
    ]);
    object(&[
        ("line", read.line.to_string()),
        ("texasr", bits(read.texasr)),
        ("tfiar", or_null(read.tfiar.map(bits))),
        ("tfhar", or_null(read.tfhar.map(bits))),
        ("cr0", or_null(read.cr0.map(|field| field.to_string()))),
        ("verdict", word(&verdict.to_string())),
        ("bits", deciding),
        ("names", word(&bit_names(*texasr))),
    ])
}
