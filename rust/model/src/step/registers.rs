//! Registers: what the other events use of them, and events 10, 11 and 14.

use super::Went;
use crate::machine::Thread;

impl Thread {
    /// A general register; the number is known to be below 32.
    #[inline]
    pub(super) fn gpr(&self, r: u8) -> u64 {
        self.live.gpr[usize::from(r & 31)]
    }

    #[inline]
    pub(super) fn set_gpr(&mut self, r: u8, value: u64) {
        self.live.gpr[usize::from(r & 31)] = value;
    }

    /// Goes on to the next instruction.
    #[inline]
    pub(super) fn next(&mut self) -> Went {
        self.nia = self.nia.wrapping_add(4);
        Went::DONE
    }

    /// Event 10.
    pub(super) fn mtspr(&mut self, spr: u8, ra: u8) -> Went {
        let value = self.gpr(ra);
        match spr {
            26 => self.srr0 = value,
            27 => self.srr1 = value,
            128 => self.tfhar = value & !3,
            129 => self.tfiar = value,
            130 => self.texasr = value,
            _ => self.texasr = value << 32 | self.texasr & 0xFFFF_FFFF,
        }
        self.next()
    }

    /// Event 11.
    pub(super) fn mfspr(&mut self, rt: u8, spr: u8) -> Went {
        let value = match spr {
            26 => self.srr0,
            27 => self.srr1,
            128 => self.tfhar,
            129 if self.pr && self.tfiar & 1 == 0 => 0,
            129 => self.tfiar,
            130 => self.texasr,
            _ => self.texasr >> 32,
        };
        self.set_gpr(rt, value);
        self.next()
    }

    /// Event 14.
    #[inline]
    pub(super) fn addi(&mut self, rt: u8, ra: u8, si: u16) -> Went {
        let base = if ra == 0 { 0 } else { self.gpr(ra) };
        self.set_gpr(rt, base.wrapping_add(si as i16 as u64));
        self.next()
    }
}
