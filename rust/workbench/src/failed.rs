//! How a verb ends where it does not end well.

use std::io;

/// A status, and why.
#[derive(Clone, Debug, PartialEq, Eq)]
pub struct Failed {
    /// 1 for what the tape did, 2 for a mistake of use and for a read or a
    /// write that failed.
    pub status: u8,
    /// One line.
    pub why: String,
}

/// What a verb gives: its status, or why it failed.
pub type Ended = Result<u8, Failed>;

/// A mistake of use.
pub fn mistake(why: impl Into<String>) -> Failed {
    Failed {
        status: 2,
        why: why.into(),
    }
}

/// A read or a write that failed, in the system's words without their number.
/// Of a pipe that nobody reads it says what the command says.
pub fn io_failed(what: &str, why: &io::Error) -> Failed {
    if why.kind() == io::ErrorKind::BrokenPipe {
        return mistake(format!("{what}: nobody reads it any more"));
    }
    let why = why.to_string();
    let words = why.split(" (os error ").next().unwrap_or_default();
    mistake(format!("{what}: {words}"))
}

#[cfg(test)]
mod tests {
    use super::*;

    #[test]
    fn reads_and_writes_that_fail() {
        for (number, words) in [
            (28, "standard output: No space left on device"),
            (32, "standard output: nobody reads it any more"),
        ] {
            let why = io::Error::from_raw_os_error(number);
            assert_eq!(io_failed("standard output", &why), mistake(words));
        }
    }
}
