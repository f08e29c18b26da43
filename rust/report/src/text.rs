//! The report as text for people.

use std::fmt::Write;

use naszeptan::{Cause, FailureRegisters, Row, State, Verdict};

use crate::sheet::{Entry, Judged};
use crate::Sheet;

/// The whole text. `name` is the tape's.
pub fn text(sheet: &Sheet, name: &str) -> String {
    let mut out = String::new();
    // Writing to a string does not fail.
    let _ = head(&mut out, sheet, name);
    for entry in &sheet.entries {
        let _ = tell(&mut out, sheet, entry);
    }
    for judged in &sheet.further {
        let _ = went_on(&mut out, judged);
    }
    let _ = summary(&mut out, sheet);
    out
}

type Written = std::fmt::Result;

fn head(out: &mut String, sheet: &Sheet, name: &str) -> Written {
    let records = count(sheet.report.records, "record");
    writeln!(out, "{name}: {records} done")?;
    writeln!(out, "processor: {}", sheet.profile)
}

/// "1 record", "2 records".
fn count(n: usize, what: &str) -> String {
    match n {
        1 => format!("1 {what}"),
        n => format!("{n} {what}s"),
    }
}

/// The cause with the names that Linux and gcc have for its bit.
fn cause(cause: Cause) -> String {
    match cause.names() {
        Some((linux, gcc)) => format!("{cause} ({linux}, {gcc})"),
        None => cause.to_string(),
    }
}

fn tell(out: &mut String, sheet: &Sheet, entry: &Entry) -> Written {
    let Row {
        record,
        by,
        event,
        thread,
        registers,
        state,
        ..
    } = entry.row;
    let what = match entry.row.is_failure() {
        true => cause(registers.texasr.cause()),
        false => "reclaimed what had failed before".into(),
    };
    writeln!(out, "\nrecord {record}, thread {thread}: {what}")?;
    match by == thread {
        true => writeln!(out, "    did       {event}")?,
        false => writeln!(out, "    caused by record {record} of thread {by}: {event}")?,
    }
    match entry.row.recorded {
        Some(earlier) if earlier != record => writeln!(out, "    recorded  in record {earlier}")?,
        None => writeln!(out, "    recorded  in no record of this tape")?,
        _ => {}
    }
    told(out, &registers)?;
    if state == State::S {
        writeln!(out, "    handling  waits: the thread is suspended")?;
    }
    if let Some(shown) = entry.shown {
        writeln!(
            out,
            "    hardware  {:#018X}, free: {}",
            shown.value.0,
            shown.free()
        )?;
    }
    match entry.judged {
        Some(judged) => against(out, &judged),
        None if sheet.compared && entry.row.is_failure() => writeln!(out, "    read      nothing"),
        None => Ok(()),
    }
}

fn told(out: &mut String, registers: &FailureRegisters) -> Written {
    let FailureRegisters {
        texasr,
        tfiar,
        tfhar,
        cr0,
    } = registers;
    writeln!(out, "    TEXASR    {:#018X}, {texasr}", texasr.0)?;
    writeln!(
        out,
        "    TFIAR     {tfiar:#018X}, TFHAR {tfhar:#018X}, CR0 {cr0:04b}"
    )
}

fn against(out: &mut String, judged: &Judged) -> Written {
    let Judged { read, said } = judged;
    writeln!(
        out,
        "    read      {:#018X}, line {}: {said}",
        read.texasr, read.line
    )
}

fn went_on(out: &mut String, judged: &Judged) -> Written {
    let thread = judged.read.thread;
    writeln!(out, "\nthread {thread}: no further failure")?;
    against(out, judged)
}

fn summary(out: &mut String, sheet: &Sheet) -> Written {
    let report = &sheet.report;
    let failures = report.rows.iter().filter(|row| row.is_failure()).count();
    writeln!(out, "\n{}", count(failures, "failure"))?;
    for count in report.counts() {
        let cause = count.cause.to_string();
        writeln!(
            out,
            "    thread {}  {cause:<28}{}",
            count.thread, count.failures
        )?;
    }
    if sheet.compared {
        let of = |verdict| sheet.verdicts().filter(|said| *said == verdict).count();
        let (equal, allowed) = (of(Verdict::Equal), of(Verdict::Allowed));
        let contradict = of(Verdict::Contradicts);
        writeln!(
            out,
            "read on hardware: {equal} equal, {allowed} allowed, {contradict} contradict"
        )?;
    }
    match report.stopped {
        Some((index, answer)) => {
            writeln!(
                out,
                "stopped at record {index}: {}, {answer}",
                answer.number()
            )
        }
        None => Ok(()),
    }
}
