//! Values that were read on hardware: a file with one failure a line.

use std::fmt;

use naszeptan::{FailureRegisters, THREADS};

/// One line: what a failure handler read. A register that was not read is None.
#[derive(Clone, Copy, Debug, PartialEq, Eq)]
pub struct Read {
    /// The line's number, from 1.
    pub line: usize,
    /// The thread.
    pub thread: u8,
    /// TEXASR.
    pub texasr: u64,
    /// TFIAR.
    pub tfiar: Option<u64>,
    /// TFHAR.
    pub tfhar: Option<u64>,
    /// CR field 0.
    pub cr0: Option<u8>,
}

/// A line that is none, by its number and why.
#[derive(Clone, Debug, PartialEq, Eq)]
pub struct Ragged {
    /// The line's number, from 1.
    pub line: usize,
    /// Why.
    pub why: String,
}

impl fmt::Display for Ragged {
    fn fmt(&self, f: &mut fmt::Formatter<'_>) -> fmt::Result {
        write!(f, "line {}: {}", self.line, self.why)
    }
}

/// All lines of a file. What follows a # is a remark; empty lines are passed
/// over.
pub fn reads(bytes: &[u8]) -> Result<Vec<Read>, Ragged> {
    let mut reads = Vec::new();
    for (n, line) in bytes.split(|byte| *byte == b'\n').enumerate() {
        let ragged = |why| Ragged { line: n + 1, why };
        let line = std::str::from_utf8(line).map_err(|_| ragged("it is no text".into()))?;
        let words: Vec<&str> = line
            .split('#')
            .next()
            .unwrap_or("")
            .split_whitespace()
            .collect();
        if !words.is_empty() {
            reads.push(read(n + 1, &words).map_err(ragged)?);
        }
    }
    Ok(reads)
}

fn read(line: usize, words: &[&str]) -> Result<Read, String> {
    let [thread, texasr, rest @ ..] = words else {
        return Err("a thread and a TEXASR are wanted".into());
    };
    if rest.len() > 3 {
        return Err("at most a thread, TEXASR, TFIAR, TFHAR and CR0 are wanted".into());
    }
    let optional = |n: usize, name| match rest.get(n) {
        None | Some(&"-") => Ok(None),
        Some(word) => value(name, word).map(Some),
    };
    Ok(Read {
        line,
        thread: number(thread)?,
        texasr: value("TEXASR", texasr)?,
        tfiar: optional(0, "TFIAR")?,
        tfhar: optional(1, "TFHAR")?,
        cr0: rest
            .get(2)
            .filter(|word| **word != "-")
            .map(|word| field(word))
            .transpose()?,
    })
}

fn number(word: &str) -> Result<u8, String> {
    let thread = word.parse().ok().filter(|n| usize::from(*n) < THREADS);
    thread.ok_or_else(|| format!("the thread is 0 to {}, and not {word:?}", THREADS - 1))
}

/// 0x and 1 to 16 hexadecimal digits. `from_str_radix` takes a sign, too.
fn value(name: &str, word: &str) -> Result<u64, String> {
    let digits = word.strip_prefix("0x").or(word.strip_prefix("0X"));
    let digits = digits.filter(|digits| digits.bytes().all(|b| b.is_ascii_hexdigit()));
    let value = digits.and_then(|digits| u64::from_str_radix(digits, 16).ok());
    value.ok_or_else(|| format!("{name} is 0x and 1 to 16 hexadecimal digits, and not {word:?}"))
}

/// Four binary digits.
fn field(word: &str) -> Result<u8, String> {
    let digits =
        Some(word).filter(|word| word.len() == 4 && word.bytes().all(|b| b == b'0' || b == b'1'));
    let value = digits.and_then(|digits| u8::from_str_radix(digits, 2).ok());
    value.ok_or_else(|| format!("CR0 is four binary digits, and not {word:?}"))
}

impl Read {
    /// All four registers; those that were not read are as hardware would show
    /// them, so that they decide nothing.
    pub fn registers(&self, shown: &FailureRegisters) -> FailureRegisters {
        FailureRegisters {
            texasr: self.texasr.into(),
            tfiar: self.tfiar.unwrap_or(shown.tfiar),
            tfhar: self.tfhar.unwrap_or(shown.tfhar),
            cr0: self.cr0.unwrap_or(shown.cr0),
        }
    }
}
