//! Rules E1 to E26: a case for each kind.

/// One event. Operands take any value of their width; what is out of range is
/// refused when the event is done.
#[derive(Clone, Copy, PartialEq, Eq, Hash, Debug)]
pub enum Event {
    Tbegin {
        r: bool,
    },
    Tend {
        a: bool,
    },
    Tabort {
        ra: u8,
    },
    Tabortwc {
        to: u8,
        ra: u8,
        rb: u8,
    },
    Tabortdc {
        to: u8,
        ra: u8,
        rb: u8,
    },
    Tsr {
        l: bool,
    },
    Tcheck {
        bf: u8,
    },
    Treclaim {
        ra: u8,
    },
    Trechkpt,
    Mtspr {
        spr: u8,
        ra: u8,
    },
    Mfspr {
        rt: u8,
        spr: u8,
    },
    Ld {
        rt: u8,
        index: u32,
    },
    Std {
        ra: u8,
        index: u32,
    },
    Addi {
        rt: u8,
        ra: u8,
        si: u16,
    },
    Disallowed,
    Interrupt,
    Host {
        pr: bool,
        tm: bool,
    },
    Rfid,
    /// TS is a number of two bits, 0 to 3.
    Mtmsrd {
        ts: u8,
        tm: bool,
        pr: bool,
    },
    Lbz {
        rt: u8,
        address: u32,
    },
    Lhz {
        rt: u8,
        address: u32,
    },
    Lwz {
        rt: u8,
        address: u32,
    },
    Stb {
        ra: u8,
        address: u32,
    },
    Sth {
        ra: u8,
        address: u32,
    },
    Stw {
        ra: u8,
        address: u32,
    },
    Tlbie {
        page: u32,
    },
}

impl Event {
    /// The number of the event in rules E1 to E26.
    #[inline]
    pub fn kind(&self) -> u8 {
        match self {
            Event::Tbegin { .. } => 1,
            Event::Tend { .. } => 2,
            Event::Tabort { .. } => 3,
            Event::Tabortwc { .. } => 4,
            Event::Tabortdc { .. } => 5,
            Event::Tsr { .. } => 6,
            Event::Tcheck { .. } => 7,
            Event::Treclaim { .. } => 8,
            Event::Trechkpt => 9,
            Event::Mtspr { .. } => 10,
            Event::Mfspr { .. } => 11,
            Event::Ld { .. } => 12,
            Event::Std { .. } => 13,
            Event::Addi { .. } => 14,
            Event::Disallowed => 15,
            Event::Interrupt => 16,
            Event::Host { .. } => 17,
            Event::Rfid => 18,
            Event::Mtmsrd { .. } => 19,
            Event::Lbz { .. } => 20,
            Event::Lhz { .. } => 21,
            Event::Lwz { .. } => 22,
            Event::Stb { .. } => 23,
            Event::Sth { .. } => 24,
            Event::Stw { .. } => 25,
            Event::Tlbie { .. } => 26,
        }
    }
}
