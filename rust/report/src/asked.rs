//! The words of the command.

use std::ffi::{OsStr, OsString};
use std::path::Path;

use naszeptan::{Profile, LEVELS};

/// What is asked for.
#[derive(Clone, Debug, PartialEq, Eq)]
pub struct Asked {
    /// The tape's file, or `-`.
    pub tape: OsString,
    /// JSON, one line a failure, in place of text.
    pub json: bool,
    /// The file of values read on hardware.
    pub against: Option<OsString>,
    /// What is known of the processor.
    pub profile: Profile,
}

/// A mistake of use, in words.
pub type Mistake = String;

impl Asked {
    /// What the words ask for.
    pub fn of(words: impl IntoIterator<Item = OsString>) -> Result<Asked, Mistake> {
        let (mut tape, mut json, mut against) = (None, false, None);
        let (mut highest, mut hv, mut late, mut nesting) = (LEVELS, false, true, None);
        let mut words = words.into_iter();
        while let Some(word) = words.next() {
            let mut value = || words.next().ok_or_else(|| wanted(&word));
            match word.to_str() {
                Some("--json") => json = true,
                Some("--late") => late = true,
                Some("--at-once") => late = false,
                Some("--against") => against = Some(value()?),
                Some("--highest") => highest = number(&value()?)?,
                Some("--hv") => hv = bit(&word, &value()?)?,
                Some("--nesting") => nesting = seventh(&value()?)?,
                Some(option) if option.len() > 1 && option.starts_with('-') => {
                    return Err(format!("no such option: {option}"));
                }
                _ if tape.is_none() => tape = Some(word),
                _ => return Err("one tape is wanted".into()),
            }
        }
        let profile = Profile::new(highest, hv, late, nesting);
        Ok(Asked {
            tape: tape.ok_or("a tape is wanted")?,
            json,
            against,
            profile: profile.map_err(|why| format!("--highest {highest}: {why}"))?,
        })
    }
}

/// The word as text.
fn shown(word: &OsStr) -> std::path::Display<'_> {
    Path::new(word).display()
}

fn wanted(option: &OsStr) -> Mistake {
    format!("{} wants a word behind it", shown(option))
}

fn number(word: &OsStr) -> Result<u16, Mistake> {
    let number = word.to_str().and_then(|word| word.parse().ok());
    number.ok_or_else(|| format!("--highest {}: it is no level", shown(word)))
}

fn bit(option: &OsStr, word: &OsStr) -> Result<bool, Mistake> {
    match word.to_str() {
        Some("0") => Ok(false),
        Some("1") => Ok(true),
        _ => Err(format!("{} is 0 or 1", shown(option))),
    }
}

fn seventh(word: &OsStr) -> Result<Option<bool>, Mistake> {
    match word.to_str() {
        Some("free") => Ok(None),
        Some("0") => Ok(Some(false)),
        Some("1") => Ok(Some(true)),
        _ => Err("--nesting is free, 0 or 1".into()),
    }
}
