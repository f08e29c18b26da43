//! TEXASR decoded: every bit, every cause, and patterns that no recording
//! leaves. The words are those of the C header, by examples that both are held
//! to.

use naszeptan::{Cause, Failure, Texasr};

/// The bit that rule X1 of docs/RULES.md numbers `n`.
const fn bit(n: u32) -> u64 {
    1 << (63 - n)
}

const FS: u64 = bit(36);

#[test]
fn causes() {
    let named = [
        (8, Cause::Disallowed, "disallowed instruction"),
        (9, Cause::NestingOverflow, "nesting overflow"),
        (10, Cause::FootprintOverflow, "footprint overflow"),
        (11, Cause::SelfInducedConflict, "self-induced conflict"),
        (
            12,
            Cause::NonTransactionalConflict,
            "non-transactional conflict",
        ),
        (13, Cause::TransactionConflict, "transaction conflict"),
        (
            14,
            Cause::TranslationInvalidation,
            "translation invalidation",
        ),
        (15, Cause::ImplementationSpecific, "implementation-specific"),
        (
            16,
            Cause::InstructionFetchConflict,
            "instruction fetch conflict",
        ),
        (31, Cause::Abort, "abort"),
    ];
    for (n, cause, text) in named {
        assert_eq!(Texasr(bit(n)).cause(), cause);
        assert_eq!(Texasr(bit(n) | FS).failure().unwrap().cause, cause);
        assert_eq!(cause.to_string(), text);
    }
}

#[test]
fn flags() {
    type Flag = fn(Texasr) -> bool;
    let flags: [(u32, Flag); 7] = [
        (7, Texasr::persistent),
        (32, Texasr::suspended),
        (34, Texasr::hv),
        (35, Texasr::pr),
        (36, Texasr::failed),
        (37, Texasr::exact),
        (38, Texasr::rot),
    ];
    for (n, flag) in flags {
        for other in 0..64 {
            assert_eq!(flag(Texasr(bit(other))), n == other);
        }
        assert!(!flag(Texasr(!bit(n))));
    }
}

#[test]
fn code_and_level() {
    let texasr = Texasr(0xA500_0000_0000_0FED);
    assert_eq!(texasr.code(), 0xA5);
    assert_eq!(texasr.level(), 0xFED);
    assert_eq!(Texasr(0x00FF_FFFF_FFFF_F000).code(), 0);
    assert_eq!(Texasr(0x00FF_FFFF_FFFF_F000).level(), 0);
}

#[test]
fn unnamed_bits() {
    let unnamed = (17..=30).chain([33]).chain(39..=51);
    let all = unnamed.map(bit).fold(0, |all, b| all | b);
    assert_eq!(Texasr(u64::MAX).unnamed(), all);
    assert_eq!(Texasr(!all).unnamed(), 0);
}

#[test]
fn no_failure() {
    assert_eq!(Texasr(!FS).failure(), None);
    assert_eq!(Texasr(0).to_string(), "no failure, level 0, ROT=0");
    assert_eq!(
        Texasr(bit(8) | 3).to_string(),
        "no failure, level 3, ROT=0, other bits 0x0080000000000000"
    );
}

#[test]
fn patterns_that_no_recording_leaves() {
    assert_eq!(Texasr(FS).cause(), Cause::Other(0));
    assert_eq!(Texasr(bit(8) | bit(31)).cause(), Cause::Other(0x80_0001));
    assert_eq!(Texasr(bit(17)).cause(), Cause::Other(0x4000));
    assert_eq!(
        Texasr(FS).to_string(),
        "no cause, level 0, exact=0, suspended=0, PR=0, ROT=0, code 0x00"
    );
    assert_eq!(
        Texasr(u64::MAX).to_string(),
        "several causes: disallowed instruction, nesting overflow, footprint overflow, \
         self-induced conflict, non-transactional conflict, transaction conflict, \
         translation invalidation, implementation-specific, instruction fetch conflict, abort, \
         others (bits 8:31 are 0xFFFFFF), level 4095, exact=1, suspended=1, HV=1, \
         PR=1, ROT=1, code 0xFF (persistent), other bits 0x0000000041FFF000"
    );
}

/// Two values that differ are told apart: no bit is lost on the way.
#[test]
fn each_bit_is_shown() {
    for start in [0, FS, u64::MAX, 0x0008_0000_1800_0001] {
        for n in 0..64 {
            let changed = Texasr(start ^ bit(n));
            assert_ne!(changed.to_string(), Texasr(start).to_string());
        }
    }
}

/// Each line of the file has a value and its words.
#[test]
fn words_that_the_c_header_gives_too() {
    let examples = include_str!("../../../c/texasr.txt");
    let lines = examples.lines().filter(|line| line.starts_with("0x"));
    let mut count = 0;
    for line in lines {
        let (value, words) = line.split_once(' ').unwrap();
        let value = u64::from_str_radix(value.trim_start_matches("0x"), 16).unwrap();
        assert_eq!(Texasr(value).to_string(), words);
        count += 1;
    }
    assert!(count > 25, "{count}");
}

/// A failure that has this one bit among 8 to 31, and this code.
fn failure(n: u32, code: u64) -> Failure {
    Texasr(FS | bit(n) | code << 56).failure().unwrap()
}

/// Power ISA, 8.4.2: what bit 7 would be.
#[test]
fn persistent_by_isa() {
    for n in 8..=16 {
        for code in [0, 1] {
            assert_eq!(failure(n, code).persistent_by_isa(), n <= 11, "bit {n}");
            assert_eq!(failure(n, code).persistent(), code == 1, "bit {n}");
        }
    }
    for n in 17..=31 {
        assert!(!failure(n, 0xA4).persistent_by_isa(), "bit {n}");
        assert!(failure(n, 0xA5).persistent_by_isa(), "bit {n}");
    }
}

#[test]
fn codes_of_linux() {
    let named = (0..=255).filter(|&code| failure(31, code).linux_code().is_some());
    let named: Vec<u64> = named.collect();
    assert_eq!(named, (0xD0..=0xE3).collect::<Vec<u64>>());
    for code in named {
        let low = failure(31, code & 0xFE);
        assert_eq!(failure(31, code).linux_code(), low.linux_code());
    }
    assert_eq!(failure(31, 0xD8).linux_code(), Some("TM_CAUSE_SYSCALL"));
}
