//! The generator, and values drawn from it.

use crate::machine::{texasr, Msr, ALL_BYTES, MAX_LEVEL};

/// A xorshift generator: the same seed gives the same numbers.
#[derive(Clone, Debug)]
pub struct Rng(u64);

impl Rng {
    pub fn new(seed: u64) -> Rng {
        // Spread the seed, so that near seeds give far streams.
        let mut z = seed.wrapping_add(0x9E37_79B9_7F4A_7C15);
        z = (z ^ (z >> 30)).wrapping_mul(0xBF58_476D_1CE4_E5B9);
        z = (z ^ (z >> 27)).wrapping_mul(0x94D0_49BB_1331_11EB);
        Rng((z ^ (z >> 31)).max(1))
    }

    /// 64 random bits.
    pub fn bits(&mut self) -> u64 {
        self.0 ^= self.0 >> 12;
        self.0 ^= self.0 << 25;
        self.0 ^= self.0 >> 27;
        self.0.wrapping_mul(0x2545_F491_4F6C_DD1D)
    }

    /// A number below `n`, or 0 if `n` is 0.
    pub fn below(&mut self, n: usize) -> usize {
        ((u128::from(self.bits()) * n as u128) >> 64) as usize
    }

    /// A random byte.
    pub fn byte(&mut self) -> u8 {
        (self.bits() >> 56) as u8
    }

    pub fn flag(&mut self) -> bool {
        self.bits() >> 63 != 0
    }

    /// True once in `n` times.
    pub fn one_in(&mut self, n: usize) -> bool {
        self.below(n) == 0
    }

    /// One of the choices.
    pub fn pick<T: Copy, const N: usize>(&mut self, from: [T; N]) -> T {
        const { assert!(N > 0) }
        from[self.below(N)]
    }
}

/// A register's value: often one where a comparison, a code or an address
/// turns over.
pub fn value(rng: &mut Rng) -> u64 {
    match rng.below(4) {
        0 => rng.bits(),
        1 => rng.below(4) as u64,
        _ => rng.pick([
            0,
            0xFF,
            0x1A5,
            0x7FFF_FFFF,
            0x8000_0000,
            0xFFFF_FFFF,
            0x1_0000_0000,
            0xFFFF_FFFF_0000_0000,
            0x7FFF_FFFF_FFFF_FFFF,
            0x8000_0000_0000_0000,
            0xFFFF_FFFF_FFFF_FFFC,
            u64::MAX,
            texasr::FS,
            texasr::FS | texasr::ROT | MAX_LEVEL,
            // In SRR1: T and S, each with TM = 1 and PR = 1.
            0x5_0000_4000,
            0x3_0000_4000,
        ]),
    }
}

/// The marks of a used log place: all eight, those of one access, or any.
pub fn marks(rng: &mut Rng) -> u8 {
    let width = rng.pick([1, 2, 4]);
    let one = ALL_BYTES >> (8 - width) << (width * rng.below(8 / width));
    let any = rng.byte();
    let few = any & rng.byte() & rng.byte();
    match rng.pick([ALL_BYTES, ALL_BYTES, one, one, any, few]) {
        0 => one,
        marks => marks,
    }
}

/// What rfid and mtmsrd can ask for: each as often as any other.
pub fn msr(rng: &mut Rng) -> Msr {
    Msr {
        ts: rng.below(4) as u8,
        tm: rng.flag(),
        pr: rng.flag(),
    }
}

/// A value of SRR1: it asks for anything, and often has bits that mean nothing.
pub fn srr1(rng: &mut Rng) -> u64 {
    let meant = Msr::of(u64::MAX).bits();
    let any = value(rng);
    rng.pick([0, any, !0]) & !meant | msr(rng).bits()
}
