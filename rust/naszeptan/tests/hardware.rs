//! What hardware shows for each cause, as numbers (docs/RULES.md, B3 to B8):
//! masks written out by hand from the Power ISA text, not computed.

use naszeptan::{bit_names, Answer, FailureRegisters, Profile, Texasr, Verdict};

/// A TEXASR of the model, at level 5 in T with PR = 1; the value; the care where
/// recording is at once, and where it may be late.
const CAUSES: [(u64, u64, u64, u64); 10] = [
    // abort without a code, and with one
    (
        0x0000_0001_1C00_0005,
        0x0000_0001_1C00_0005,
        0xFFFF_FFFF_BE00_0FFF,
        0xFFFF_FFFF_BE00_0FFF,
    ),
    (
        0xA500_0001_1C00_0005,
        0xA500_0001_1C00_0005,
        0xFFFF_FFFF_BE00_0FFF,
        0xFFFF_FFFF_BE00_0FFF,
    ),
    // disallowed
    (
        0x0080_0000_1C00_0005,
        0x0180_0000_1C00_0005,
        0xFFFF_FFFF_BE00_0FFF,
        0xFFFF_FFFF_BE00_0FFF,
    ),
    // nesting: bit 7 is free
    (
        0x0040_0000_1C00_0FFF,
        0x0140_0000_1C00_0FFF,
        0xFEFF_FFFF_BE00_0FFF,
        0xFEFF_FFFF_BE00_0FFF,
    ),
    // footprint
    (
        0x0020_0000_1C00_0005,
        0x0120_0000_1800_0005,
        0xFFFF_FFFF_BE00_0FFF,
        0xFFFF_FFFF_0E00_0000,
    ),
    // own conflict: bit 37 is free
    (
        0x0010_0000_9C00_0005,
        0x0110_0000_9C00_0005,
        0xFFFF_FFFF_BA00_0FFF,
        0xFFFF_FFFF_0A00_0000,
    ),
    // non-transactional conflict, without ROT and with it
    (
        0x0008_0000_1800_0005,
        0x0008_0000_1800_0005,
        0xFFFF_FFFF_BE00_0FFF,
        0xFFFF_FFFF_0E00_0000,
    ),
    (
        0x0008_0000_1A00_0005,
        0x0008_0000_1A00_0005,
        0xFFFF_FFFF_BE00_0FFF,
        0xFFFF_FFFF_0C00_0000,
    ),
    // transaction conflict: bit 37 is free
    (
        0x0004_0000_1800_0005,
        0x0004_0000_1800_0005,
        0xFFFF_FFFF_BA00_0FFF,
        0xFFFF_FFFF_0A00_0000,
    ),
    // translation invalidation
    (
        0x0002_0000_1800_0005,
        0x0002_0000_1800_0005,
        0xFFFF_FFFF_BE00_0FFF,
        0xFFFF_FFFF_0E00_0000,
    ),
];

fn profile(hv: bool, late: bool) -> Profile {
    Profile::new(4095, hv, late, None).unwrap()
}

fn read(texasr: u64) -> FailureRegisters {
    FailureRegisters {
        texasr: Texasr(texasr),
        tfiar: 0x1009,
        tfhar: 0x1004,
        cr0: 0b1010,
    }
}

#[test]
fn each_cause() {
    for (model, value, at_once, late) in CAUSES {
        for (profile, care) in [
            (profile(false, false), at_once),
            (profile(false, true), late),
        ] {
            let shown = profile.shown(Texasr(model)).unwrap();
            assert_eq!(shown.value, Texasr(value), "{model:#018X}");
            assert_eq!(shown.care, care, "{model:#018X} {profile}");
        }
        let hv = profile(true, true).shown(Texasr(model)).unwrap();
        assert_eq!(hv.value, Texasr(value | 0x2000_0000), "{model:#018X}");
    }
}

/// Bits 32, 35, 38 and the level: those of the moment.
const MOMENT: u64 = 0x9200_0FFF;

/// A bit that is not in the care decides nothing, and each bit that is
/// contradicts: by itself, or by what it makes of the cause. But a failure by 10
/// to 16 may be of another moment.
#[test]
fn each_bit() {
    let profile = profile(false, false);
    for (model, value, care, _) in CAUSES {
        let imprecise = model >> 32 & 0x3F_8000 != 0;
        for n in 0..64 {
            let bit = 1 << n;
            let said = profile.compare(&read(model), &read(value ^ bit)).unwrap();
            let wanted = match bit & care {
                0 => Verdict::Equal,
                bit if imprecise && bit & MOMENT != 0 => Verdict::Allowed,
                _ => Verdict::Contradicts,
            };
            assert_eq!(said.verdict, wanted, "{model:#018X} bit {}", 63 - n);
            assert_eq!(said.texasr == 0, wanted == Verdict::Equal);
        }
    }
}

#[test]
fn other_registers() {
    let model = read(0x0000_0001_1C00_0005);
    let said = |hardware: FailureRegisters| {
        let said = profile(false, true).compare(&model, &hardware).unwrap();
        (said.verdict, said.tfiar, said.tfhar, said.cr0)
    };
    assert_eq!(said(model), (Verdict::Equal, 0, 0, 0));
    let all = FailureRegisters {
        tfiar: 0x100A,
        tfhar: 0x1008,
        cr0: 0b0101,
        ..model
    };
    assert_eq!(said(all), (Verdict::Contradicts, 3, 0xC, 0b1110));
    // 0 with HV = 0 and PR = 1 is an address.
    let zero = FailureRegisters { tfiar: 0, ..model };
    assert_eq!(said(zero), (Verdict::Contradicts, 0x1009, 0, 0));
    // Recorded with PR = 0, it may have been kept from the reader.
    let privileged = read(0x0000_0001_0C00_0005);
    let hidden = FailureRegisters {
        tfiar: 0,
        ..privileged
    };
    let said = profile(false, true).compare(&privileged, &hidden).unwrap();
    assert_eq!(said.verdict, Verdict::Equal);
}

/// What the model's cause leaves to hardware: it goes on where a limit or a
/// block's size is the model's, and then meets the program's next abort,
/// disallowed act or overflow.
#[test]
fn went_on() {
    let own = [
        0x0000_0000_0000_0001,
        0x8D00_0001_1C00_0001,
        0x0180_0000_1C00_0001,
        0x0140_0000_1C00_0FFF,
    ];
    for (model, late, wanted) in [
        (0x0020_0000_1C00_0001, false, Verdict::Allowed),
        (0x0010_0000_9C00_0001, false, Verdict::Allowed),
        (0x0008_0000_1800_0001, false, Verdict::Allowed),
        (0x0004_0000_1800_0001, false, Verdict::Allowed),
        (0x0002_0000_1800_0001, true, Verdict::Allowed),
        (0x0002_0000_1800_0001, false, Verdict::Contradicts),
    ] {
        for hardware in own {
            let said = profile(false, late).compare(&read(model), &read(hardware));
            assert_eq!(
                said.unwrap().verdict,
                wanted,
                "{model:#018X} {hardware:#018X}"
            );
        }
    }
    for (n, model) in own.into_iter().enumerate() {
        for (k, hardware) in own.into_iter().enumerate() {
            let said = profile(false, true).compare(&read(model), &read(hardware));
            let wanted = match n == k {
                true => Verdict::Equal,
                false => Verdict::Contradicts,
            };
            assert_eq!(said.unwrap().verdict, wanted);
        }
    }
    // An invalidation is found by the commit at the latest.
    let said = |model, hardware| {
        let said = profile(false, true).compare(&read(model), &read(hardware));
        said.unwrap().to_string()
    };
    assert_eq!(
        said(0x0002_0000_1800_0001, 0),
        "contradicts: TEXASR 14 translation invalidation, 36 FS"
    );
    assert!(said(0x0004_0000_1800_0001, 0).starts_with("allowed"));
    // A transaction that goes on shows ROT and its level alone.
    assert_eq!(said(0xFFFF_FFFF_F400_0001, 1), "equal");
    for n in (0..=32).chain([34, 35, 37]) {
        for model in [1, 0x0008_0000_1800_0001] {
            let said = said(model, 1 << (63 - n) | 1);
            assert!(said.starts_with("contradicts: TEXASR"), "{n}: {said}");
        }
    }
    // A failure has a level.
    for model in [0, 1, 0x0008_0000_1800_0001, 0x0000_0001_1C00_0001] {
        assert_eq!(
            said(model, 0x0008_0000_1800_0000),
            "contradicts: TEXASR 52:63 level"
        );
    }
}

/// A failure of another moment, or of another transaction.
#[test]
fn another_moment() {
    let model = read(0x0008_0000_1800_0001);
    let said = |hardware| profile(false, true).compare(&model, &hardware).unwrap();
    let other = FailureRegisters {
        tfhar: 0x2000,
        ..model
    };
    assert_eq!(said(other).to_string(), "allowed: TFHAR bits 0x3004");
    let cr0 = FailureRegisters { cr0: 0, ..other };
    assert_eq!(said(cr0).verdict, Verdict::Contradicts);
    let persistent = FailureRegisters {
        texasr: Texasr(0x0108_0000_1800_0001),
        ..other
    };
    assert_eq!(
        said(persistent).to_string(),
        "contradicts: TEXASR 7 persistent; TFHAR bits 0x3004"
    );
    // PR of TFIAR, recorded at once.
    let privileged = FailureRegisters {
        texasr: Texasr(0x0008_0000_0800_0001),
        tfiar: 0x1008,
        ..model
    };
    let at_once = profile(false, false).compare(&model, &privileged).unwrap();
    assert_eq!(at_once.to_string(), "allowed: TEXASR 35 PR; TFIAR bits 0x1");
}

/// An overflow at a lower highest level is that of another tbegin.
#[test]
fn sooner() {
    let power8 = Profile::new(63, false, true, None).unwrap();
    let model = read(0x0040_0000_1C00_0FFF);
    let said = |texasr, tfiar| {
        let hardware = FailureRegisters {
            texasr: Texasr(texasr),
            tfiar,
            ..model
        };
        power8.compare(&model, &hardware).unwrap().to_string()
    };
    assert_eq!(said(0x0140_0000_0E00_003F, 0x2000), "equal");
    assert_eq!(
        said(0x0140_0000_2C00_003F, 0x2002),
        "contradicts: TEXASR 34 HV; TFIAR bits 0x2"
    );
    let rot = read(0x0040_0000_1E00_0FFF);
    let off = power8.compare(&rot, &read(0x0140_0000_1C00_003F)).unwrap();
    assert_eq!(off.to_string(), "contradicts: TEXASR 38 ROT");
}

#[test]
fn no_profile_and_no_failure() {
    for highest in 0..=u16::MAX {
        let right = (4..=12).any(|t| highest == (1 << t) - 1);
        let made = Profile::new(highest, false, true, None);
        assert_eq!(made.is_ok(), right, "{highest}");
    }
    let profile = Profile::default();
    for several in [0x000C_0000_1800_0001, 0x0000_0000_1800_0001] {
        assert_eq!(profile.shown(Texasr(several)), Err(Answer::Operand));
        let said = profile.compare(&read(several), &read(several));
        assert_eq!(said, Err(Answer::Operand));
        // Hardware may show anything, and is judged.
        let said = profile.compare(&read(1), &read(several)).unwrap();
        assert_eq!(said.verdict, Verdict::Contradicts);
    }
}

#[test]
fn names() {
    assert_eq!(bit_names(0), "");
    assert_eq!(bit_names(1 << 63 | 1), "0:6 failure code, 52:63 level");
    assert_eq!(bit_names(0x41FF_F000), "");
    let all = bit_names(u64::MAX);
    assert_eq!(all.split(", ").count(), 20);
}
