//! TEXASR, and the failure that it tells of.

use std::fmt;

/// A TEXASR value: the model's, or one read on hardware to compare with it
/// (docs/RULES.md, X1 to X5).
///
/// The register may hold any bits, since mtspr writes it whole. So nothing
/// here can fail: a pattern that no recording leaves is told as it is.
///
/// Displayed, it is one line: cause, level TL, then the other fields.
///
/// ```
/// use naszeptan::{Cause, Texasr};
///
/// let texasr = Texasr(0xA500_0001_1C00_0001);
/// let failure = texasr.failure().unwrap();
/// assert_eq!(failure.cause, Cause::Abort);
/// assert_eq!(failure.code, 0xA5);
/// assert!(failure.persistent());
/// assert_eq!(
///     texasr.to_string(),
///     "abort, level 1, exact=1, suspended=0, PR=1, ROT=0, code 0xA5 (persistent)"
/// );
/// assert_eq!(Texasr(0x0200_0001).to_string(), "no failure, level 1, ROT=1");
/// ```
#[derive(Clone, Copy, Default, PartialEq, Eq, PartialOrd, Ord, Hash)]
#[repr(transparent)]
pub struct Texasr(
    /// The 64 bits. Bit 0 of rule X1 is the highest.
    pub u64,
);

/// Why a transaction failed: bits 8 to 31 of TEXASR.
#[derive(Clone, Copy, Debug, PartialEq, Eq, Hash)]
pub enum Cause {
    /// Bit 8: a disallowed instruction.
    Disallowed,
    /// Bit 9: a tbegin. at the highest level, [`LEVELS`](crate::LEVELS).
    NestingOverflow,
    /// Bit 10: too many lines, or too many logged stores.
    FootprintOverflow,
    /// Bit 11: the thread's own store in Suspended state.
    SelfInducedConflict,
    /// Bit 12: another thread's access outside a transaction.
    NonTransactionalConflict,
    /// Bit 13: another thread's access in a transaction.
    TransactionConflict,
    /// Bit 14: a translation was invalidated: a tlbie of a page of which a line
    /// was in the sets, another thread's or the thread's own in Suspended state.
    TranslationInvalidation,
    /// Bit 15: a condition of the processor's own design. Only of hardware:
    /// rule X2 has no such bit (Power ISA, 8.4.2).
    ImplementationSpecific,
    /// Bit 16: an instruction was fetched from a block that the transaction
    /// has written. Only of hardware, as bit 15.
    InstructionFetchConflict,
    /// Bit 31: tabort., tabortwc., tabortdc. or treclaim.; see
    /// [`Failure::code`].
    Abort,
    /// Bits 8 to 31, the lowest being bit 31, where they are not just one of
    /// the bits above: none, several, or one without a name.
    Other(u32),
}

/// A recorded failure: what TEXASR says where its FS = 1.
///
/// ```
/// use naszeptan::{Cause, Failure, Texasr};
///
/// let failure = Texasr(0x0008_0000_1800_0001).failure();
/// assert_eq!(
///     failure,
///     Some(Failure {
///         cause: Cause::NonTransactionalConflict,
///         code: 0,
///         suspended: false,
///         hv: false,
///         pr: true,
///         exact: false,
///         rot: false,
///         level: 1,
///     })
/// );
/// ```
#[derive(Clone, Copy, Debug, PartialEq, Eq, Hash)]
pub struct Failure {
    /// Bits 8 to 31: why.
    pub cause: Cause,
    /// Bits 0 to 7: the failure code, which an abort takes from a register.
    pub code: u8,
    /// Bit 32: recorded in Suspended state.
    pub suspended: bool,
    /// Bit 34: recorded in hypervisor state. The model never sets it.
    pub hv: bool,
    /// Bit 35: recorded in problem state.
    pub pr: bool,
    /// Bit 37: TFIAR is the address of the instruction that failed. 0 where
    /// another thread's event is the cause.
    pub exact: bool,
    /// Bit 38: a rollback-only transaction.
    pub rot: bool,
    /// Bits 52 to 63: the level TL at which it failed.
    pub level: u16,
}

/// FS, bit 36.
const FS: u64 = 1 << (63 - 36);
/// ROT and TL: all that TEXASR holds while a transaction has not failed.
const ROT_AND_LEVEL: u64 = 1 << (63 - 38) | 0xFFF;
/// The bits that have a name: 0:14, 31, 32, 34:38 and 52:63 by rule X2, 15 and
/// 16 by the Power ISA.
const NAMED: u64 = 0xFFFF_8001_BE00_0FFF;

impl Cause {
    /// Of bits 8 to 31, the lowest being bit 31.
    const fn of(bits: u32) -> Cause {
        match bits {
            0x0080_0000 => Cause::Disallowed,
            0x0040_0000 => Cause::NestingOverflow,
            0x0020_0000 => Cause::FootprintOverflow,
            0x0010_0000 => Cause::SelfInducedConflict,
            0x0008_0000 => Cause::NonTransactionalConflict,
            0x0004_0000 => Cause::TransactionConflict,
            0x0002_0000 => Cause::TranslationInvalidation,
            0x0001_0000 => Cause::ImplementationSpecific,
            0x0000_8000 => Cause::InstructionFetchConflict,
            0x0000_0001 => Cause::Abort,
            bits => Cause::Other(bits),
        }
    }

    /// The bit of TEXASR, 8 to 16 or 31; None where there is not just one.
    pub const fn bit(self) -> Option<u32> {
        Some(match self {
            Cause::Disallowed => 8,
            Cause::NestingOverflow => 9,
            Cause::FootprintOverflow => 10,
            Cause::SelfInducedConflict => 11,
            Cause::NonTransactionalConflict => 12,
            Cause::TransactionConflict => 13,
            Cause::TranslationInvalidation => 14,
            Cause::ImplementationSpecific => 15,
            Cause::InstructionFetchConflict => 16,
            Cause::Abort => 31,
            Cause::Other(_) => return None,
        })
    }

    /// The names of the bit: Linux's, in its self-tests' reg.h for powerpc, and
    /// that of gcc's macro in htmintrin.h.
    ///
    /// ```
    /// use naszeptan::Cause;
    ///
    /// let (linux, gcc) = Cause::FootprintOverflow.names().unwrap();
    /// assert_eq!((linux, gcc), ("TEXASR_FO", "_TEXASR_FOOTPRINT_OVERFLOW"));
    /// ```
    pub const fn names(self) -> Option<(&'static str, &'static str)> {
        Some(match self {
            Cause::Disallowed => ("TEXASR_DA", "_TEXASR_DISALLOWED"),
            Cause::NestingOverflow => ("TEXASR_NO", "_TEXASR_NESTING_OVERFLOW"),
            Cause::FootprintOverflow => ("TEXASR_FO", "_TEXASR_FOOTPRINT_OVERFLOW"),
            Cause::SelfInducedConflict => ("TEXASR_SIC", "_TEXASR_SELF_INDUCED_CONFLICT"),
            Cause::NonTransactionalConflict => ("TEXASR_NTC", "_TEXASR_NON_TRANSACTIONAL_CONFLICT"),
            Cause::TransactionConflict => ("TEXASR_TC", "_TEXASR_TRANSACTION_CONFLICT"),
            Cause::TranslationInvalidation => {
                ("TEXASR_TIC", "_TEXASR_TRANSLATION_INVALIDATION_CONFLICT")
            }
            // So spelled in gcc's header.
            Cause::ImplementationSpecific => ("TEXASR_IC", "_TEXASR_IMPLEMENTAION_SPECIFIC"),
            Cause::InstructionFetchConflict => ("TEXASR_IFC", "_TEXASR_INSTRUCTION_FETCH_CONFLICT"),
            Cause::Abort => ("TEXASR_ABT", "_TEXASR_ABORT"),
            Cause::Other(_) => return None,
        })
    }
}

impl Texasr {
    /// Bit `n`, 0 to 63, where bit 0 is the highest.
    ///
    /// # Panics
    ///
    /// If `n` is above 63.
    pub const fn bit(self, n: u32) -> bool {
        assert!(n < 64, "TEXASR has bits 0 to 63");
        self.0 >> (63 - n) & 1 != 0
    }

    /// Bits 0 to 7: the failure code.
    pub const fn code(self) -> u8 {
        (self.0 >> 56) as u8
    }

    /// Bit 7, the lowest of the failure code: the failure is said to last.
    pub const fn persistent(self) -> bool {
        self.bit(7)
    }

    /// Bits 8 to 31: the cause, whatever FS says.
    pub const fn cause(self) -> Cause {
        Cause::of((self.0 >> 32) as u32 & 0x00FF_FFFF)
    }

    /// Bit 32: recorded in Suspended state.
    pub const fn suspended(self) -> bool {
        self.bit(32)
    }

    /// Bit 34: recorded in hypervisor state.
    pub const fn hv(self) -> bool {
        self.bit(34)
    }

    /// Bit 35: recorded in problem state.
    pub const fn pr(self) -> bool {
        self.bit(35)
    }

    /// Bit 36, FS: a failure is recorded.
    pub const fn failed(self) -> bool {
        self.0 & FS != 0
    }

    /// Bit 37: TFIAR is exact.
    pub const fn exact(self) -> bool {
        self.bit(37)
    }

    /// Bit 38: the transaction is rollback-only.
    pub const fn rot(self) -> bool {
        self.bit(38)
    }

    /// Bits 52 to 63: the level TL.
    pub const fn level(self) -> u16 {
        (self.0 & 0xFFF) as u16
    }

    /// The bits set that neither rule X2 nor the Power ISA names.
    pub const fn unnamed(self) -> u64 {
        self.0 & !NAMED
    }

    /// The failure, if FS = 1.
    pub const fn failure(self) -> Option<Failure> {
        if !self.failed() {
            return None;
        }
        Some(Failure {
            cause: self.cause(),
            code: self.code(),
            suspended: self.suspended(),
            hv: self.hv(),
            pr: self.pr(),
            exact: self.exact(),
            rot: self.rot(),
            level: self.level(),
        })
    }
}

/// The failure codes of Linux on POWER, as its asm/tm.h names them.
const LINUX_CODES: [(u8, &str); 10] = [
    (0xE2, "TM_CAUSE_KVM_FAC_UNAV"),
    (0xE0, "TM_CAUSE_KVM_RESCHED"),
    (0xDE, "TM_CAUSE_RESCHED"),
    (0xDC, "TM_CAUSE_TLBI"),
    (0xDA, "TM_CAUSE_FAC_UNAV"),
    (0xD8, "TM_CAUSE_SYSCALL"),
    (0xD6, "TM_CAUSE_MISC"),
    (0xD4, "TM_CAUSE_SIGNAL"),
    (0xD2, "TM_CAUSE_ALIGNMENT"),
    (0xD0, "TM_CAUSE_EMULATE"),
];

impl Failure {
    /// The code's lowest bit, bit 7 of TEXASR: the failure is said to last.
    ///
    /// By the rules it is 0 unless an abort's code set it (X5), also where
    /// each further try fails in the same way. A retry policy that was written
    /// for POWER wants [`persistent_by_isa`](Failure::persistent_by_isa).
    pub const fn persistent(&self) -> bool {
        self.code & 1 != 0
    }

    /// What the Power ISA puts into bit 7 for this cause.
    ///
    /// Its section 8.4.2, at bit 7, says: 1 for the causes of bits 8 to 11; for
    /// an abort what the program gave; 0 for any other. That nesting overflow
    /// is among the first goes by that section alone: tbegin. in 8.5 records it
    /// with bit 7 at 0 (docs/DECISIONS.md). Bits 15 and 16 are passing, as 8.4.2
    /// says at each. Where there is no single cause it is bit 7 as it stands.
    ///
    /// ```
    /// use naszeptan::Texasr;
    ///
    /// let overflow = Texasr(0x0020_0000_1C00_0001).failure().unwrap();
    /// assert!(!overflow.persistent());
    /// assert!(overflow.persistent_by_isa());
    /// ```
    pub const fn persistent_by_isa(&self) -> bool {
        match self.cause {
            Cause::Disallowed
            | Cause::NestingOverflow
            | Cause::FootprintOverflow
            | Cause::SelfInducedConflict => true,
            Cause::NonTransactionalConflict
            | Cause::TransactionConflict
            | Cause::TranslationInvalidation
            | Cause::ImplementationSpecific
            | Cause::InstructionFetchConflict => false,
            Cause::Abort | Cause::Other(_) => self.persistent(),
        }
    }

    /// What Linux means by the code: its name in asm/tm.h. The code's lowest
    /// bit is no part of the name (TM_CAUSE_PERSISTENT). A program may give the
    /// same codes by its own tabort.
    ///
    /// ```
    /// use naszeptan::Texasr;
    ///
    /// let failure = Texasr(0xDE00_0001_0C00_0001).failure().unwrap();
    /// assert_eq!(failure.linux_code(), Some("TM_CAUSE_RESCHED"));
    /// ```
    pub fn linux_code(&self) -> Option<&'static str> {
        let code = self.code & 0xFE;
        let row = LINUX_CODES.iter().find(|(number, _)| *number == code);
        row.map(|(_, name)| *name)
    }
}

impl From<u64> for Texasr {
    fn from(bits: u64) -> Texasr {
        Texasr(bits)
    }
}

impl From<Texasr> for u64 {
    fn from(texasr: Texasr) -> u64 {
        texasr.0
    }
}

impl fmt::Debug for Texasr {
    fn fmt(&self, f: &mut fmt::Formatter<'_>) -> fmt::Result {
        write!(f, "Texasr(0x{:016X})", self.0)
    }
}

impl fmt::Display for Texasr {
    fn fmt(&self, f: &mut fmt::Formatter<'_>) -> fmt::Result {
        let rest = match self.failure() {
            Some(failure) => {
                write!(f, "{failure}")?;
                // Those of the upper half are told by `Cause::Other`.
                self.unnamed() & 0xFFFF_FFFF
            }
            None => {
                let rot = u8::from(self.rot());
                write!(f, "no failure, level {}, ROT={rot}", self.level())?;
                self.0 & !ROT_AND_LEVEL
            }
        };
        match rest {
            0 => Ok(()),
            _ => write!(f, ", other bits 0x{rest:016X}"),
        }
    }
}

impl fmt::Display for Failure {
    fn fmt(&self, f: &mut fmt::Formatter<'_>) -> fmt::Result {
        write!(f, "{}, level {}", self.cause, self.level)?;
        write!(f, ", exact={}", u8::from(self.exact))?;
        write!(f, ", suspended={}", u8::from(self.suspended))?;
        if self.hv {
            f.write_str(", HV=1")?;
        }
        write!(f, ", PR={}", u8::from(self.pr))?;
        write!(f, ", ROT={}", u8::from(self.rot))?;
        write!(f, ", code 0x{:02X}", self.code)?;
        match (self.linux_code(), self.persistent()) {
            (None, false) => Ok(()),
            (None, true) => f.write_str(" (persistent)"),
            (Some(name), false) => write!(f, " (Linux: {name})"),
            (Some(name), true) => write!(f, " (Linux: {name}, persistent)"),
        }
    }
}

impl fmt::Display for Cause {
    fn fmt(&self, f: &mut fmt::Formatter<'_>) -> fmt::Result {
        f.write_str(match self {
            Cause::Disallowed => "disallowed instruction",
            Cause::NestingOverflow => "nesting overflow",
            Cause::FootprintOverflow => "footprint overflow",
            Cause::SelfInducedConflict => "self-induced conflict",
            Cause::NonTransactionalConflict => "non-transactional conflict",
            Cause::TransactionConflict => "transaction conflict",
            Cause::TranslationInvalidation => "translation invalidation",
            Cause::ImplementationSpecific => "implementation-specific",
            Cause::InstructionFetchConflict => "instruction fetch conflict",
            Cause::Abort => "abort",
            Cause::Other(0) => "no cause",
            Cause::Other(bits) => return several(*bits, f),
        })
    }
}

/// Bits 8 to 31 where they are not one cause: each that has a name, the highest
/// first, and whether there are others.
fn several(bits: u32, f: &mut fmt::Formatter<'_>) -> fmt::Result {
    let single = (0..32).rev().map(|n| bits & 1 << n).filter(|bit| *bit != 0);
    let causes: Vec<Cause> = single.map(Cause::of).collect();
    let named = |cause: &&Cause| !matches!(cause, Cause::Other(_));
    let words: Vec<String> = causes.iter().filter(named).map(Cause::to_string).collect();
    if words.is_empty() {
        f.write_str("no known cause")?;
    } else {
        write!(f, "several causes: {}", words.join(", "))?;
        if words.len() < causes.len() {
            f.write_str(", others")?;
        }
    }
    write!(f, " (bits 8:31 are 0x{bits:06X})")
}
