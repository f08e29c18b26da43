//! The words behind a verb: options, and what is no option.

use std::ffi::{OsStr, OsString};

use crate::failed::{mistake, Failed};
use crate::nearest::meant;

/// What a verb takes.
pub struct Takes {
    /// Options that stand alone, as `--json`.
    pub flags: &'static [&'static str],
    /// Options with a value, as `--from 3`.
    pub values: &'static [&'static str],
    /// What the other words are, as `TAPE`; all are wanted.
    pub rest: &'static [&'static str],
}

/// The words of one call.
#[derive(Debug, Default)]
pub struct Words {
    flags: Vec<&'static str>,
    values: Vec<(&'static str, OsString)>,
    /// The words that are no options.
    pub rest: Vec<OsString>,
}

impl Takes {
    /// Sorts the words. Behind `--` no word is an option, and `-` is none.
    pub fn sort(&self, words: &[OsString]) -> Result<Words, Failed> {
        let mut sorted = Words::default();
        let mut words = words.iter();
        while let Some(word) = words.next() {
            let text = word.to_string_lossy();
            if text == "--" {
                sorted.rest.extend(words.by_ref().cloned());
            } else if text == "-" || !text.starts_with('-') {
                sorted.rest.push(word.clone());
            } else {
                let value = self.option(&text, &mut sorted)?;
                if let Some(option) = value {
                    let value = words.next();
                    let value = value.ok_or_else(|| mistake(format!("{option} wants a value")))?;
                    sorted.values.push((option, value.clone()));
                }
            }
        }
        self.counted(sorted)
    }

    /// Keeps an option that stands alone; gives one that has a value.
    fn option(&self, text: &str, sorted: &mut Words) -> Result<Option<&'static str>, Failed> {
        let find = |all: &[&'static str]| all.iter().copied().find(|option| *option == text);
        if let Some(flag) = find(self.flags) {
            sorted.flags.push(flag);
            return Ok(None);
        }
        match find(self.values) {
            Some(option) if sorted.value(option).is_some() => {
                Err(mistake(format!("{option} is there twice")))
            }
            Some(option) => Ok(Some(option)),
            None => {
                let all = self.flags.iter().chain(self.values).copied();
                Err(mistake(format!(
                    "no such option: {text}{}",
                    meant(text, all)
                )))
            }
        }
    }

    fn counted(&self, sorted: Words) -> Result<Words, Failed> {
        match sorted.rest.len().cmp(&self.rest.len()) {
            std::cmp::Ordering::Equal => Ok(sorted),
            std::cmp::Ordering::Less => Err(mistake(format!(
                "{} is wanted; --help tells the rest",
                self.rest[sorted.rest.len()]
            ))),
            std::cmp::Ordering::Greater => {
                let more = sorted.rest[self.rest.len()].to_string_lossy();
                Err(mistake(format!(
                    "{more}: one word too many; --help tells which are wanted"
                )))
            }
        }
    }
}

impl Words {
    /// Whether an option that stands alone is there.
    pub fn has(&self, flag: &str) -> bool {
        self.flags.contains(&flag)
    }

    /// The value of an option.
    pub fn value(&self, option: &str) -> Option<&OsStr> {
        let mut values = self.values.iter();
        let found = values.find(|(name, _)| *name == option);
        found.map(|(_, value)| value.as_os_str())
    }

    /// A number behind an option.
    pub fn number(&self, option: &str, wanted: &str) -> Result<Option<u64>, Failed> {
        let Some(value) = self.value(option) else {
            return Ok(None);
        };
        let text = value.to_string_lossy();
        match crate::story::line::number(&text) {
            Some(number) => Ok(Some(number)),
            None => Err(mistake(format!("{option} {text}: {wanted} is wanted"))),
        }
    }
}

#[cfg(test)]
mod tests {
    use super::*;

    const TAKES: Takes = Takes {
        flags: &["--json"],
        values: &["--from", "-o"],
        rest: &["TAPE"],
    };

    fn sort(words: &[&str]) -> Result<Words, String> {
        let words: Vec<OsString> = words.iter().map(OsString::from).collect();
        TAKES.sort(&words).map_err(|failed| failed.why)
    }

    #[test]
    fn words_that_are_taken() {
        let words = sort(&["--json", "a", "--from", "0x10"]).unwrap();
        assert!(words.has("--json") && !words.has("--from"));
        assert_eq!(words.rest, ["a"]);
        assert_eq!(words.number("--from", "a record"), Ok(Some(16)));
        assert_eq!(words.value("-o"), None);
        assert_eq!(sort(&["--", "--json"]).unwrap().rest, ["--json"]);
        assert_eq!(sort(&["-"]).unwrap().rest, ["-"]);
        assert_eq!(
            sort(&["-o", "-", "a"]).unwrap().value("-o"),
            Some(OsStr::new("-"))
        );
    }

    #[test]
    fn words_that_are_not() {
        let why = |words: &[&str]| sort(words).unwrap_err();
        assert_eq!(
            why(&["--jsno", "a"]),
            "no such option: --jsno; is --json meant?"
        );
        assert_eq!(why(&["--x", "a"]), "no such option: --x");
        assert_eq!(why(&[]), "TAPE is wanted; --help tells the rest");
        assert_eq!(
            why(&["a", "b"]),
            "b: one word too many; --help tells which are wanted"
        );
        assert_eq!(why(&["a", "--from"]), "--from wants a value");
        assert_eq!(why(&["a", "-o", "x", "-o", "y"]), "-o is there twice");
        let words = sort(&["a", "--from", "b"]).unwrap();
        let why = words.number("--from", "a record's index").unwrap_err().why;
        assert_eq!(why, "--from b: a record's index is wanted");
    }
}
