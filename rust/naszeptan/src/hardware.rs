//! A failure as a POWER processor shows it, and a verdict on what was read on
//! one (docs/RULES.md, B1 to B9). The archive judges; here are the types.

use std::error::Error;
use std::fmt;

use crate::raw::{self, LEVELS};
use crate::{Answer, Texasr, Thread};

/// What is known of the processor.
///
/// The default is the one of which nothing is known but that no hypervisor runs
/// the program's failures: any highest level up to the model's is judged as the
/// model's, recording may be late, and bit 7 of a nesting overflow is free.
///
/// ```
/// use naszeptan::{Profile, Texasr};
///
/// let profile = Profile::default();
/// let shown = profile.shown(Texasr(0x0020_0000_1C00_0001)).unwrap();
/// assert_eq!(shown.value.0, 0x0120_0000_1800_0001);
/// assert_eq!(shown.free(), "32:35, 39:63");
///
/// let power8 = Profile::new(63, false, true, Some(true)).unwrap();
/// let shown = power8.shown(Texasr(0x0040_0000_1C00_0FFF)).unwrap();
/// assert_eq!(shown.value.0, 0x0140_0000_1C00_003F);
/// assert!(Profile::new(100, false, true, None).is_err());
/// ```
#[derive(Clone, Copy, Debug, PartialEq, Eq, Hash)]
pub struct Profile(raw::Profile);

/// No profile: the highest level is none of 15, 31, 63, 127, 255, 511, 1023,
/// 2047 and 4095.
#[derive(Clone, Copy, Debug, PartialEq, Eq, Hash)]
pub struct NoProfile;

/// What hardware shows for a failure.
#[derive(Clone, Copy, Debug, PartialEq, Eq, Hash)]
pub struct Shown {
    /// The value.
    pub value: Texasr,
    /// The bits of it that the Power ISA fixes.
    pub care: u64,
}

/// The registers that tell of a failure, as its handler reads them.
#[derive(Clone, Copy, Debug, Default, PartialEq, Eq, Hash)]
pub struct FailureRegisters {
    /// Why it failed.
    pub texasr: Texasr,
    /// Where.
    pub tfiar: u64,
    /// Where handling goes on.
    pub tfhar: u64,
    /// CR field 0.
    pub cr0: u8,
}

/// A verdict on registers that were read on hardware.
#[derive(Clone, Copy, Debug, PartialEq, Eq, PartialOrd, Ord, Hash)]
pub enum Verdict {
    /// As the Power ISA asks for this failure.
    Equal,
    /// Otherwise, as the Power ISA allows.
    Allowed,
    /// It contradicts the Power ISA, or the tape.
    Contradicts,
}

/// A verdict with the bits that decide it, of each register.
///
/// Displayed, it is one line: the verdict, and the bits by number and name.
///
/// ```
/// use naszeptan::{FailureRegisters, Profile, Texasr, Verdict};
///
/// let read = |texasr| FailureRegisters { texasr: Texasr(texasr), ..FailureRegisters::default() };
/// let profile = Profile::default();
/// let abort = read(0xA500_0001_1C00_0001);
/// let said = profile.compare(&abort, &read(0xA400_0001_1C00_0001)).unwrap();
/// assert_eq!(said.verdict, Verdict::Contradicts);
/// assert_eq!(said.to_string(), "contradicts: TEXASR 7 persistent");
///
/// let said = profile.compare(&abort, &read(0x0120_0000_1800_0001)).unwrap();
/// assert_eq!(said.to_string(), "allowed: TEXASR 10 footprint overflow, 31 abort");
/// ```
#[derive(Clone, Copy, Debug, PartialEq, Eq, Hash)]
pub struct Compared {
    /// The verdict.
    pub verdict: Verdict,
    /// The bits of TEXASR that decide it.
    pub texasr: u64,
    /// Those of TFIAR.
    pub tfiar: u64,
    /// Those of TFHAR.
    pub tfhar: u64,
    /// Those of CR0, of which bit 0 has the weight 8.
    pub cr0: u8,
}

impl Profile {
    /// A profile: the highest level, HV, whether imprecise failures may be
    /// recorded late, and bit 7 of a nesting overflow, None where it is free.
    pub fn new(
        highest: u16,
        hv: bool,
        late: bool,
        nesting: Option<bool>,
    ) -> Result<Profile, NoProfile> {
        let profile = raw::Profile {
            highest: highest.into(),
            hv: hv.into(),
            late: late.into(),
            nesting: nesting.map_or(2, u8::from),
        };
        match raw::on_hardware(profile, 0).answer {
            0 => Ok(Profile(profile)),
            _ => Err(NoProfile),
        }
    }

    /// The highest level.
    pub fn highest(&self) -> u16 {
        self.0.highest as u16
    }

    /// What hardware shows for a TEXASR of the model; [`Answer::Operand`] where
    /// it has FS = 1 and not exactly one cause, which no event leaves.
    pub fn shown(&self, texasr: Texasr) -> Result<Shown, Answer> {
        let shown = raw::on_hardware(self.0, texasr.0);
        match Answer::promised(shown.answer) {
            Answer::Done => Ok(Shown {
                value: Texasr(shown.value),
                care: shown.care,
            }),
            refused => Err(refused),
        }
    }

    /// What hardware shows for all four registers of a failure of the model:
    /// TEXASR as [`shown`](Profile::shown) has it, HV by the profile in TFIAR.
    pub fn registers(&self, model: &FailureRegisters) -> Result<FailureRegisters, Answer> {
        Ok(FailureRegisters {
            texasr: self.shown(model.texasr)?.value,
            tfiar: model.tfiar & !2 | u64::from(self.0.hv) << 1,
            ..*model
        })
    }

    /// The registers read on hardware against the model's, of which FS = 0 in
    /// TEXASR says that the transaction went on. [`Answer::Operand`] as for
    /// [`shown`](Profile::shown).
    pub fn compare(
        &self,
        model: &FailureRegisters,
        hardware: &FailureRegisters,
    ) -> Result<Compared, Answer> {
        let said = raw::compare(self.0, model.into(), hardware.into());
        let verdict = match said.verdict {
            0 => Verdict::Equal,
            1 => Verdict::Allowed,
            _ => Verdict::Contradicts,
        };
        match Answer::promised(said.answer) {
            Answer::Done => Ok(Compared {
                verdict,
                texasr: said.texasr,
                tfiar: said.tfiar,
                tfhar: said.tfhar,
                cr0: said.cr0,
            }),
            refused => Err(refused),
        }
    }
}

impl Default for Profile {
    fn default() -> Profile {
        Profile::new(LEVELS, false, true, None).expect("proved: 4,095 is a highest level")
    }
}

impl fmt::Display for Profile {
    fn fmt(&self, f: &mut fmt::Formatter<'_>) -> fmt::Result {
        let raw::Profile {
            highest, hv, late, ..
        } = self.0;
        let late = if late == 1 { "late" } else { "at once" };
        let nesting = match self.0.nesting {
            0 => "0",
            1 => "1",
            _ => "free",
        };
        write!(
            f,
            "highest level {highest}, HV {hv}, {late}, bit 7 of nesting {nesting}"
        )
    }
}

impl fmt::Display for NoProfile {
    fn fmt(&self, f: &mut fmt::Formatter<'_>) -> fmt::Result {
        f.write_str("the highest level is 15, 31, 63, 127, 255, 511, 1023, 2047 or 4095")
    }
}

impl Error for NoProfile {}

impl Shown {
    /// The bits that the Power ISA leaves free or reserved, by their numbers:
    /// `33, 37, 39:51`.
    pub fn free(&self) -> String {
        let mut spans = Vec::new();
        let mut n = 0;
        while n < 64 {
            let run = (self.care << n).leading_zeros().min(64 - n);
            match run {
                0 => n += 1,
                1 => spans.push(n.to_string()),
                _ => spans.push(format!("{n}:{}", n + run - 1)),
            }
            n += run;
        }
        spans.join(", ")
    }
}

impl FailureRegisters {
    /// Those of a thread as they stand.
    pub fn of(thread: &Thread) -> FailureRegisters {
        FailureRegisters {
            texasr: thread.control.texasr,
            tfiar: thread.control.tfiar,
            tfhar: thread.control.tfhar,
            cr0: thread.cr0,
        }
    }
}

impl From<&FailureRegisters> for raw::Failure {
    fn from(from: &FailureRegisters) -> raw::Failure {
        raw::Failure {
            texasr: from.texasr.0,
            tfiar: from.tfiar,
            tfhar: from.tfhar,
            cr0: from.cr0,
        }
    }
}

impl fmt::Display for Verdict {
    fn fmt(&self, f: &mut fmt::Formatter<'_>) -> fmt::Result {
        f.pad(match self {
            Verdict::Equal => "equal",
            Verdict::Allowed => "allowed",
            Verdict::Contradicts => "contradicts",
        })
    }
}

/// The fields of TEXASR by their first and last bit.
const FIELDS: [(u32, u32, &str); 20] = [
    (0, 6, "failure code"),
    (7, 7, "persistent"),
    (8, 8, "disallowed"),
    (9, 9, "nesting overflow"),
    (10, 10, "footprint overflow"),
    (11, 11, "self-induced conflict"),
    (12, 12, "non-transactional conflict"),
    (13, 13, "transaction conflict"),
    (14, 14, "translation invalidation"),
    (15, 15, "implementation-specific"),
    (16, 16, "instruction fetch conflict"),
    (17, 30, "kept for later causes"),
    (31, 31, "abort"),
    (32, 32, "suspended"),
    (34, 34, "HV"),
    (35, 35, "PR"),
    (36, 36, "FS"),
    (37, 37, "exact"),
    (38, 38, "ROT"),
    (52, 63, "level"),
];

/// The bits of a TEXASR that are set, by number and name: `10 footprint
/// overflow, 52:63 level`. 33 and 39:51, which are reserved, have no name.
pub fn bit_names(bits: u64) -> String {
    let span = |first: u32, last: u32| (u64::MAX >> first) & (u64::MAX << (63 - last));
    let met = FIELDS.iter().filter(|(a, z, _)| bits & span(*a, *z) != 0);
    let named = met.map(|(a, z, name)| match a == z {
        true => format!("{a} {name}"),
        false => format!("{a}:{z} {name}"),
    });
    named.collect::<Vec<_>>().join(", ")
}

impl fmt::Display for Compared {
    fn fmt(&self, f: &mut fmt::Formatter<'_>) -> fmt::Result {
        write!(f, "{}", self.verdict)?;
        let mut parts = Vec::new();
        if self.texasr != 0 {
            parts.push(format!("TEXASR {}", bit_names(self.texasr)));
        }
        for (name, bits) in [("TFIAR", self.tfiar), ("TFHAR", self.tfhar)] {
            if bits != 0 {
                parts.push(format!("{name} bits 0x{bits:X}"));
            }
        }
        if self.cr0 != 0 {
            parts.push(format!("CR0 bits {:04b}", self.cr0));
        }
        match parts.is_empty() {
            true => Ok(()),
            false => write!(f, ": {}", parts.join("; ")),
        }
    }
}
