//! What is timed, how often, and on what.

use std::fmt;

use crate::measure::Rounds;

/// The ratio that no tape may pass.
const LIMIT: f64 = 3.0;

/// The arguments.
pub struct Setting {
    /// The tables of growth in place of the tapes.
    pub growth: bool,
    /// Records of each tape.
    pub records: usize,
    /// Rounds of each side.
    pub rounds: Rounds,
    /// The ratio past which a tape fails, if there is one.
    pub limit: Option<f64>,
}

impl Setting {
    /// From the program's arguments: perhaps `growth`, then pairs of a name
    /// and a value. The last one counts; --rounds is for both sides.
    pub fn from_arguments(arguments: impl Iterator<Item = String>) -> Result<Setting, String> {
        let mut arguments = arguments.peekable();
        let growth = arguments.next_if(|word| word == "growth").is_some();
        let mut setting = Setting {
            growth,
            records: if growth { 200_000 } else { 1_000_000 },
            rounds: Rounds {
                rust: 11,
                proved: 11,
            },
            limit: (!growth).then_some(LIMIT),
        };
        while let Some(name) = arguments.next() {
            let value = arguments.next().unwrap_or_default();
            match name.as_str() {
                "--records" => setting.records = number(&name, &value)?,
                "--rounds" => {
                    let both = number(&name, &value)?;
                    setting.rounds = Rounds {
                        rust: both,
                        proved: both,
                    };
                }
                "--proved-rounds" => setting.rounds.proved = number(&name, &value)?,
                "--limit" if !growth => setting.limit = limit(&value)?,
                _ => return Err(format!("no such argument: {name}")),
            }
        }
        Ok(setting)
    }
}

fn number(name: &str, value: &str) -> Result<usize, String> {
    let number = value.replace('_', "").parse().ok();
    number
        .filter(|&n| n > 0)
        .ok_or(format!("{name} wants a number of 1 or more"))
}

fn limit(value: &str) -> Result<Option<f64>, String> {
    if value == "none" {
        return Ok(None);
    }
    let limit = value.parse().ok().filter(|&limit| limit > 0.0);
    limit
        .map(Some)
        .ok_or("--limit wants a ratio, or none".to_string())
}

/// The processor as the system names it, and whether an emulator stands
/// between: where this program is x86-64 code, a processor that is described
/// in another's terms is not the one that it sees.
fn processor() -> (String, bool) {
    let text = std::fs::read_to_string("/proc/cpuinfo").unwrap_or_default();
    let field = |name: &str| {
        text.lines()
            .find(|line| line.starts_with(name))
            .and_then(|line| line.split_once(':'))
            .map(|(_, value)| value.trim().to_string())
    };
    let told = std::env::var("NASZEPTAN_EMULATED").is_ok_and(|value| value == "1");
    match (field("model name"), field("CPU part")) {
        (Some(name), _) => (name, told),
        (None, Some(part)) => {
            let maker = field("CPU implementer").unwrap_or_default();
            let name = format!("Arm, implementer {maker}, part {part}");
            (name, told || cfg!(target_arch = "x86_64"))
        }
        (None, None) => ("unknown".to_string(), told),
    }
}

impl fmt::Display for Setting {
    fn fmt(&self, f: &mut fmt::Formatter) -> fmt::Result {
        let (processor, emulated) = processor();
        let cores = std::thread::available_parallelism().map_or(1, usize::from);
        let code = std::env::consts::ARCH;
        let emulated = match emulated {
            true => "emulated",
            false => "not known to be emulated",
        };
        writeln!(
            f,
            "code for {code}, {emulated}; processor: {processor}; {cores} cores"
        )?;
        let checks = match cfg!(debug_assertions) {
            true => "with checks, so not to be quoted",
            false => "release",
        };
        let limit = match self.limit {
            Some(limit) => format!("{limit}"),
            None => "none".to_string(),
        };
        writeln!(
            f,
            "{} records a tape; rounds: {} Rust, {} proved; limit of the ratio: {limit}; {checks}",
            self.records, self.rounds.rust, self.rounds.proved
        )
    }
}

#[cfg(test)]
mod tests {
    use super::*;

    fn setting(words: &str) -> Result<Setting, String> {
        Setting::from_arguments(words.split_whitespace().map(String::from))
    }

    #[test]
    fn a_limit_unless_it_is_taken_away() {
        let limit = |words| setting(words).map(|s| s.limit);
        assert_eq!(limit(""), Ok(Some(3.0)));
        assert_eq!(limit("--limit none"), Ok(None));
        assert_eq!(limit("--rounds 3 --limit 2.5"), Ok(Some(2.5)));
        assert_eq!(limit("growth"), Ok(None));
        for wrong in ["--limit", "--limit 0", "--limit NaN", "growth --limit 3"] {
            assert!(limit(wrong).is_err(), "{wrong}");
        }
    }

    #[test]
    fn growth_has_fewer_records() {
        let records = |words| setting(words).map(|s| (s.growth, s.records));
        assert_eq!(records(""), Ok((false, 1_000_000)));
        assert_eq!(records("growth"), Ok((true, 200_000)));
        assert_eq!(records("growth --records 1_000"), Ok((true, 1000)));
        assert!(records("--records 0").is_err());
        assert!(records("--records 5 growth").is_err());
    }
}
