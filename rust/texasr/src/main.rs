//! Tells a TEXASR value in words, the model's or hardware's: `texasr 0x0008000018000001`.
//!
//! Its status is 0, or 2 with one line on standard error. A value that may be
//! the upper half alone is told, and a line on standard error says so.

use std::io::{self, Write};
use std::process::ExitCode;

use texasr::Texasr;

// The module of the crate naszeptan, and not that crate: its build links the
// archive, which a decoder does not need.
#[allow(dead_code)]
#[path = "../../naszeptan/src/texasr.rs"]
mod texasr;

const NO_VALUE: &str = "a TEXASR value is 0x and 1 to 16 hexadecimal digits";

const UPPER_HALF: &str = "this may be TEXASRU (SPR 131), the upper half alone; \
    all 64 bits of TEXASR (SPR 130) are wanted";

fn main() -> ExitCode {
    match told(std::env::args().skip(1)) {
        Ok(()) => ExitCode::SUCCESS,
        Err(why) => {
            eprintln!("naszeptan: texasr: {why}");
            ExitCode::from(2)
        }
    }
}

fn told(mut words: impl Iterator<Item = String>) -> Result<(), String> {
    let (Some(word), None) = (words.next(), words.next()) else {
        return Err(NO_VALUE.into());
    };
    let value = value(&word).ok_or_else(|| format!("{word:?}: {NO_VALUE}"))?;
    writeln!(io::stdout(), "{value}").map_err(|e| format!("standard output: {e}"))?;
    if may_be_upper_half(value) {
        eprintln!("naszeptan: texasr: {UPPER_HALF}");
    }
    Ok(())
}

/// A value of 32 bits that shows no failure: the upper half has the cause, and
/// the bit that says that there is one, FS, stands in the lower.
fn may_be_upper_half(value: Texasr) -> bool {
    value.0 != 0 && value.0 >> 32 == 0 && !value.failed()
}

/// The value that a word tells.
fn value(word: &str) -> Option<Texasr> {
    let digits = word.strip_prefix("0x").or(word.strip_prefix("0X"))?;
    // from_str_radix takes a sign, too
    if !digits.bytes().all(|b| b.is_ascii_hexdigit()) {
        return None;
    }
    u64::from_str_radix(digits, 16).ok().map(Texasr)
}

#[cfg(test)]
mod tests {
    use super::*;

    #[test]
    fn values() {
        for (word, bits) in [
            ("0x0008000018000001", 0x0008_0000_1800_0001),
            ("0x8000018000001", 0x0008_0000_1800_0001),
            ("0XfFfFfFfFfFfFfFfF", u64::MAX),
            ("0x0", 0),
        ] {
            assert_eq!(value(word), Some(Texasr(bits)), "{word}");
        }
    }

    #[test]
    fn upper_halves() {
        for bits in [1, 0x0008_0000, 0xA500_0001, 0xFFFF_FFFF ^ 0x0800_0000] {
            assert!(may_be_upper_half(Texasr(bits)), "{bits:#x}");
        }
        for bits in [0, 0x0800_0000, 0x0008_0000_1800_0001, 0x1_0000_0000] {
            assert!(!may_be_upper_half(Texasr(bits)), "{bits:#x}");
        }
    }

    #[test]
    fn no_values() {
        for word in [
            "",
            "0",
            "12",
            "0x",
            "x1",
            "0x+1",
            "0x1_0",
            "0x10000000000000000",
            "0xg",
            " 0x1",
        ] {
            assert_eq!(value(word), None, "{word}");
        }
    }
}
