//! The twenty-six events.

use std::fmt;

use crate::raw::{self, RECORD_SIZE};
use crate::{Answer, Edition, Kind};

/// One event with its operands and nothing else (docs/RULES.md, E0.1). The
/// thread is named beside it.
///
/// Operands take any value of their width: the step refuses what is out of
/// range with 4.
///
/// An event is displayed as an assembler would have it. A register is `r` and
/// its number, a CR field `cr` and its number; flags are named; TO, SPR and
/// the index of a doubleword are plain numbers, a byte address stands behind
/// `address` and a page behind `page`; SI is signed. Where RA = 0 means the
/// value 0 and not register 0 (tabort., treclaim. and addi) it is `0`. No two
/// events look alike.
///
/// ```
/// use naszeptan::{Event, Ts};
///
/// assert_eq!(Event::Tbegin { r: true }.to_string(), "tbegin. R=1");
/// assert_eq!(Event::Std { ra: 3, index: 17 }.to_string(), "std r3, 17");
/// assert_eq!(Event::Mtspr { spr: 130, ra: 4 }.to_string(), "mtspr 130, r4");
/// assert_eq!(Event::Addi { rt: 3, ra: 0, si: 0xFFFF }.to_string(), "addi r3, 0, -1");
/// assert_eq!(
///     Event::Mtmsrd { ts: Ts::T, tm: true, pr: false }.to_string(),
///     "mtmsrd TS=10, TM=1, PR=0"
/// );
/// assert_eq!(Event::Lwz { rt: 5, address: 12 }.to_string(), "lwz r5, address 12");
/// assert_eq!(Event::Stb { ra: 3, address: 9 }.to_string(), "stb r3, address 9");
/// assert_eq!(Event::Tlbie { page: 3 }.to_string(), "tlbie page 3");
/// assert_eq!(Event::Std { ra: 3, index: 17 }.kind(), 13);
/// ```
#[derive(Clone, Copy, Debug, PartialEq, Eq, Hash)]
pub enum Event {
    /// 1: begins a transaction, or nests one. With `r` a new one is
    /// rollback-only; a nested one without `r` ends that. At level
    /// [`LEVELS`](crate::LEVELS), 4,095, it fails the transaction.
    Tbegin {
        /// R.
        r: bool,
    },
    /// 2: ends a transaction; with `a`, all levels of it.
    Tend {
        /// A.
        a: bool,
    },
    /// 3: aborts with the low byte of a register as code.
    Tabort {
        /// RA; 0 means code 0.
        ra: u8,
    },
    /// 4: aborts if a comparison of the low 32 bits holds.
    Tabortwc {
        /// TO, which chooses the comparisons.
        to: u8,
        /// RA.
        ra: u8,
        /// RB.
        rb: u8,
    },
    /// 5: aborts if a comparison of all 64 bits holds.
    Tabortdc {
        /// TO, which chooses the comparisons.
        to: u8,
        /// RA.
        ra: u8,
        /// RB.
        rb: u8,
    },
    /// 6: suspends, or with `l` resumes.
    Tsr {
        /// L.
        l: bool,
    },
    /// 7: puts TDOOMED and the state into a CR field.
    Tcheck {
        /// BF.
        bf: u8,
    },
    /// 8: takes the processor out of a transaction; privileged.
    Treclaim {
        /// RA; 0 means code 0.
        ra: u8,
    },
    /// 9: makes the live registers a checkpoint, Suspended; privileged.
    Trechkpt,
    /// 10: register RA goes to TFHAR, TFIAR, TEXASR or its upper half, or to
    /// SRR0 or SRR1, which is privileged.
    Mtspr {
        /// SPR, 128 to 131, 26 or 27.
        spr: u8,
        /// RA.
        ra: u8,
    },
    /// 11: TFHAR, TFIAR, TEXASR or its upper half goes to register RT, or SRR0
    /// or SRR1 does, which is privileged.
    Mfspr {
        /// RT.
        rt: u8,
        /// SPR, 128 to 131, 26 or 27.
        spr: u8,
    },
    /// 12: loads a doubleword.
    Ld {
        /// RT.
        rt: u8,
        /// The doubleword's index in memory.
        index: u32,
    },
    /// 13: stores a doubleword.
    Std {
        /// RA.
        ra: u8,
        /// The doubleword's index in memory.
        index: u32,
    },
    /// 14: adds an immediate value.
    Addi {
        /// RT.
        rt: u8,
        /// RA; 0 means the value 0.
        ra: u8,
        /// SI, as its 16 bits.
        si: u16,
    },
    /// 15: an instruction that a transaction does not allow.
    Disallowed,
    /// 16: an interrupt is taken: SRR0 and SRR1 keep where the thread was, and
    /// it goes on at 0x500, privileged, T suspended and the facility off.
    Interrupt,
    /// 17: the host sets PR and TM.
    Host {
        /// PR.
        pr: bool,
        /// TM.
        tm: bool,
    },
    /// 18: returns from an interrupt to SRR0, with the state, TM and PR that
    /// SRR1 asks for; privileged. docs/RULES.md, E0.11, has what may be asked.
    /// A suspended transaction that has failed is handled where T is asked.
    Rfid,
    /// 19: asks for a state, TM and PR as [`Event::Rfid`] does, and goes on
    /// behind itself; privileged.
    Mtmsrd {
        /// TS, the state that is asked for.
        ts: Ts,
        /// TM.
        tm: bool,
        /// PR.
        pr: bool,
    },
    /// 20: loads a byte; the register's upper seven bytes become 0.
    ///
    /// A byte address names byte `address % 8` of doubleword `address / 8`, and
    /// byte 0 of a doubleword is its highest (docs/RULES.md, M17).
    ///
    /// ```
    /// use naszeptan::{Answer, Event, Machine};
    ///
    /// let (mut machine, mut memory) = (Machine::fresh(), [0; 16]);
    /// memory[1] = 0x1122_3344_5566_7788;
    /// for (event, value) in [
    ///     (Event::Lbz { rt: 3, address: 8 }, 0x11),
    ///     (Event::Lhz { rt: 3, address: 10 }, 0x3344),
    ///     (Event::Lwz { rt: 3, address: 12 }, 0x5566_7788),
    /// ] {
    ///     assert_eq!(machine.step(&mut memory, 0, event), Answer::Done);
    ///     assert_eq!(machine.threads[0].live.gpr[3], value);
    /// }
    /// // Not a multiple of the width.
    /// let wrong = Event::Lwz { rt: 3, address: 10 };
    /// assert_eq!(machine.step(&mut memory, 0, wrong), Answer::Operand);
    /// ```
    Lbz {
        /// RT.
        rt: u8,
        /// The byte's address.
        address: u32,
    },
    /// 21: loads two bytes; the register's upper six bytes become 0.
    Lhz {
        /// RT.
        rt: u8,
        /// The byte address, a multiple of 2.
        address: u32,
    },
    /// 22: loads four bytes; the register's upper four bytes become 0.
    Lwz {
        /// RT.
        rt: u8,
        /// The byte address, a multiple of 4.
        address: u32,
    },
    /// 23: stores a register's lowest byte. The doubleword's other bytes stay,
    /// at a commit too.
    Stb {
        /// RA.
        ra: u8,
        /// The byte's address.
        address: u32,
    },
    /// 24: stores a register's lowest two bytes, as [`Event::Stb`] does.
    Sth {
        /// RA.
        ra: u8,
        /// The byte address, a multiple of 2.
        address: u32,
    },
    /// 25: stores a register's lowest four bytes, as [`Event::Stb`] does.
    Stw {
        /// RA.
        ra: u8,
        /// The byte address, a multiple of 4.
        address: u32,
    },
    /// 26: invalidates the translation of a page, 32 lines; privileged. Outside
    /// T each live transaction with a line of the page in its sets fails, the
    /// thread's own suspended one too; in T it is disallowed.
    Tlbie {
        /// The page's number. Its first doubleword, 512 times the number, must
        /// be in memory.
        page: u32,
    },
}

/// TS, the two bits of the state that [`Event::Mtmsrd`] asks for, as the MSR has
/// them (docs/RULES.md, M7). The byte of a machine's [`State`](crate::State) has
/// other numbers.
#[derive(Clone, Copy, PartialEq, Eq, Hash, Debug)]
#[repr(u8)]
pub enum Ts {
    /// 00: Non-transactional.
    N,
    /// 01: Suspended.
    S,
    /// 10: Transactional.
    T,
    /// 11: no state, which 13 refuses outside T.
    None,
}

impl Ts {
    /// By the two low bits of a number.
    pub const fn of(bits: u8) -> Ts {
        match bits & 3 {
            0 => Ts::N,
            1 => Ts::S,
            2 => Ts::T,
            _ => Ts::None,
        }
    }
}

impl Event {
    /// The number of the event's kind, 1 to 26. [`Kind::of`] gives its row.
    pub const fn kind(self) -> u8 {
        self.to_raw(0).kind
    }

    /// Whether it is a TM instruction, which 11 refuses where TM = 0
    /// (docs/RULES.md, E0.6). mtspr and mfspr are with an SPR from 128 to 131.
    ///
    /// ```
    /// use naszeptan::{Event, SPR_SRR0, SPR_TFHAR};
    ///
    /// let get = |spr| Event::Mfspr { rt: 3, spr };
    /// assert!(get(SPR_TFHAR).is_tm() && !get(SPR_TFHAR).is_privileged());
    /// assert!(!get(SPR_SRR0).is_tm() && get(SPR_SRR0).is_privileged());
    /// assert!(!get(5).is_tm() && !get(5).is_privileged());
    /// assert!(!Event::Rfid.is_tm() && Event::Rfid.is_privileged());
    /// assert!(Event::Trechkpt.is_tm() && Event::Trechkpt.is_privileged());
    /// assert!(!Event::Ld { rt: 3, index: 0 }.is_tm());
    /// ```
    pub fn is_tm(self) -> bool {
        match self {
            Event::Mtspr { spr, .. } | Event::Mfspr { spr, .. } => matches!(spr, 128..=131),
            _ => self.row().tm,
        }
    }

    /// Whether it is a privileged instruction, which 12 refuses where PR = 1
    /// (docs/RULES.md, E0.6). Of mtspr and mfspr those of SRR0 and SRR1 are.
    pub fn is_privileged(self) -> bool {
        match self {
            Event::Mtspr { spr, .. } | Event::Mfspr { spr, .. } => is_srr(spr),
            _ => self.row().privileged,
        }
    }

    fn row(self) -> &'static Kind {
        Kind::of(self.kind()).expect("each kind has a row")
    }

    /// The event as the C header has it, for a thread.
    pub const fn to_raw(self, thread: u8) -> raw::Event {
        let (kind, x, ra, rb, flags, index, si) = match self {
            Event::Tbegin { r } => (1, 0, 0, 0, r as u8, 0, 0),
            Event::Tend { a } => (2, 0, 0, 0, a as u8, 0, 0),
            Event::Tabort { ra } => (3, 0, ra, 0, 0, 0, 0),
            Event::Tabortwc { to, ra, rb } => (4, to, ra, rb, 0, 0, 0),
            Event::Tabortdc { to, ra, rb } => (5, to, ra, rb, 0, 0, 0),
            Event::Tsr { l } => (6, 0, 0, 0, l as u8, 0, 0),
            Event::Tcheck { bf } => (7, bf, 0, 0, 0, 0, 0),
            Event::Treclaim { ra } => (8, 0, ra, 0, 0, 0, 0),
            Event::Trechkpt => (9, 0, 0, 0, 0, 0, 0),
            Event::Mtspr { spr, ra } => (10, spr, ra, 0, 0, 0, 0),
            Event::Mfspr { rt, spr } => (11, spr, rt, 0, 0, 0, 0),
            Event::Ld { rt, index } => (12, rt, 0, 0, 0, index, 0),
            Event::Std { ra, index } => (13, 0, ra, 0, 0, index, 0),
            Event::Addi { rt, ra, si } => (14, rt, ra, 0, 0, 0, si),
            Event::Disallowed => (15, 0, 0, 0, 0, 0, 0),
            Event::Interrupt => (16, 0, 0, 0, 0, 0, 0),
            Event::Host { pr, tm } => (17, 0, 0, 0, pr as u8 + 2 * tm as u8, 0, 0),
            Event::Rfid => (18, 0, 0, 0, 0, 0, 0),
            Event::Mtmsrd { ts, tm, pr } => {
                let flags = ts as u8 + 4 * tm as u8 + 8 * pr as u8;
                (19, 0, 0, 0, flags, 0, 0)
            }
            Event::Lbz { rt, address } => (20, rt, 0, 0, 0, address, 0),
            Event::Lhz { rt, address } => (21, rt, 0, 0, 0, address, 0),
            Event::Lwz { rt, address } => (22, rt, 0, 0, 0, address, 0),
            Event::Stb { ra, address } => (23, 0, ra, 0, 0, address, 0),
            Event::Sth { ra, address } => (24, 0, ra, 0, 0, address, 0),
            Event::Stw { ra, address } => (25, 0, ra, 0, 0, address, 0),
            Event::Tlbie { page } => (26, 0, 0, 0, 0, page, 0),
        };
        raw::Event {
            kind,
            thread,
            x,
            ra,
            rb,
            flags,
            index,
            si,
        }
    }

    /// The thread and the event that these fields mean; [`Answer::NoKind`] or
    /// [`Answer::Field`] where they mean none.
    pub fn from_raw(from: raw::Event) -> Result<(u8, Event), Answer> {
        if !Kind::of(from.kind).ok_or(Answer::NoKind)?.fits(from) {
            return Err(Answer::Field);
        }
        let raw::Event {
            kind,
            thread,
            x,
            ra,
            rb,
            flags,
            index,
            si,
        } = from;
        let flag = flags & 1 != 0;
        let event = match kind {
            1 => Event::Tbegin { r: flag },
            2 => Event::Tend { a: flag },
            3 => Event::Tabort { ra },
            4 => Event::Tabortwc { to: x, ra, rb },
            5 => Event::Tabortdc { to: x, ra, rb },
            6 => Event::Tsr { l: flag },
            7 => Event::Tcheck { bf: x },
            8 => Event::Treclaim { ra },
            9 => Event::Trechkpt,
            10 => Event::Mtspr { spr: x, ra },
            11 => Event::Mfspr { rt: ra, spr: x },
            12 => Event::Ld { rt: x, index },
            13 => Event::Std { ra, index },
            14 => Event::Addi { rt: x, ra, si },
            15 => Event::Disallowed,
            16 => Event::Interrupt,
            17 => Event::Host {
                pr: flag,
                tm: flags & 2 != 0,
            },
            18 => Event::Rfid,
            19 => Event::Mtmsrd {
                ts: Ts::of(flags),
                tm: flags & 4 != 0,
                pr: flags & 8 != 0,
            },
            20 => Event::Lbz {
                rt: x,
                address: index,
            },
            21 => Event::Lhz {
                rt: x,
                address: index,
            },
            22 => Event::Lwz {
                rt: x,
                address: index,
            },
            23 => Event::Stb { ra, address: index },
            24 => Event::Sth { ra, address: index },
            25 => Event::Stw { ra, address: index },
            26 => Event::Tlbie { page: index },
            _ => return Err(Answer::NoKind),
        };
        Ok((thread, event))
    }

    /// The thread and the event of one record of this edition, or why it is
    /// refused: [`Answer::TapeLength`], [`Answer::BadFirstByte`],
    /// [`Answer::NoKind`] or [`Answer::Field`].
    ///
    /// In edition two the first byte is the thread, and a bad one is above 3.
    pub fn read_in(edition: Edition, record: &[u8]) -> Result<(u8, Event), Answer> {
        let record = match edition {
            Edition::Two => raw::read_two(record),
            Edition::Three => raw::read(record),
        };
        match Answer::promised(record.answer) {
            Answer::Done => Ok(Event::from_raw(record.event)
                .expect("proved: the reader gives an event of its kind, its other fields 0")),
            refused => Err(refused),
        }
    }

    /// The record of this edition that the event by this thread has.
    ///
    /// Edition three has one for every event by any thread. Edition two has
    /// none for a thread above 3, which is [`Answer::NoThread`], nor for a kind
    /// above 17, which is [`Answer::NoKind`].
    pub fn write_in(self, edition: Edition, thread: u8) -> Result<[u8; RECORD_SIZE], Answer> {
        let (event, mut record) = (self.to_raw(thread), [0; RECORD_SIZE]);
        let answer = match edition {
            Edition::Two => raw::write_two(event, &mut record),
            Edition::Three => raw::write(event, &mut record),
        };
        match Answer::promised(answer) {
            Answer::Done => Ok(record),
            refused => Err(refused),
        }
    }
}

impl fmt::Display for Event {
    fn fmt(&self, f: &mut fmt::Formatter<'_>) -> fmt::Result {
        self.row().show(self.to_raw(0), f)
    }
}

/// Whether an SPR is SRR0 or SRR1.
fn is_srr(spr: u8) -> bool {
    matches!(spr, raw::SPR_SRR0 | raw::SPR_SRR1)
}
