//! Rules T1 to T7: reading and writing one record of edition three, and the
//! fields that the records of every edition have.

use crate::{answer, Event};

/// Bytes in a record.
pub const RECORD: usize = 16;
/// A record's first byte.
pub const MARK: u8 = 0xE3;
/// The last kind; the first is 1.
pub const LAST_KIND: u8 = 26;

/// The fields of a record, whatever its edition: where each of them stands, and
/// what stands beside them, is the edition's own.
#[derive(Clone, Copy, PartialEq, Eq, Default, Debug)]
pub struct Fields {
    pub kind: u8,
    pub thread: u8,
    pub x: u8,
    pub ra: u8,
    pub rb: u8,
    pub flags: u8,
    pub index: u32,
    pub si: u16,
}

/// For each kind, at its own number, the bits of a record that must be 0, the
/// record taken as a number with its first byte the highest. Of 0, which is no
/// kind, they are all of it.
static MUST_BE_ZERO: [u128; LAST_KIND as usize + 1] = {
    /// Where a byte of the record may have these bits.
    const fn at(byte: u32, bits: u128) -> u128 {
        bits << (8 * (15 - byte))
    }
    const X: u128 = at(3, 0xFF);
    const RA: u128 = at(4, 0xFF);
    const RB: u128 = at(5, 0xFF);
    const ONE_FLAG: u128 = at(6, 1);
    const TWO_FLAGS: u128 = at(6, 3);
    const FOUR_FLAGS: u128 = at(6, 15);
    const INDEX: u128 = at(11, 0xFFFF_FFFF);
    const SI: u128 = at(13, 0xFFFF);
    let used: [u128; LAST_KIND as usize] = [
        ONE_FLAG,    // tbegin. R
        ONE_FLAG,    // tend. A
        RA,          // tabort.
        X | RA | RB, // tabortwc. TO in X
        X | RA | RB, // tabortdc. TO in X
        ONE_FLAG,    // tsr. L
        X,           // tcheck BF in X
        RA,          // treclaim.
        0,           // trechkpt.
        X | RA,      // mtspr SPR in X
        X | RA,      // mfspr SPR in X, RT in RA
        X | INDEX,   // ld RT in X
        RA | INDEX,  // std
        X | RA | SI, // addi RT in X
        0,           // disallowed
        0,           // interrupt
        TWO_FLAGS,   // host
        0,           // rfid
        FOUR_FLAGS,  // mtmsrd
        X | INDEX,   // lbz RT in X, address in INDEX
        X | INDEX,   // lhz
        X | INDEX,   // lwz
        RA | INDEX,  // stb address in INDEX
        RA | INDEX,  // sth
        RA | INDEX,  // stw
        INDEX,       // tlbie page in INDEX
    ];
    // First byte, kind and thread are read by themselves.
    let head = at(2, 0xFF_FFFF);
    let mut table = [u128::MAX; LAST_KIND as usize + 1];
    let mut kind = 1;
    while kind < table.len() {
        table[kind] = !(head | used[kind - 1]);
        kind += 1;
    }
    table
};

/// Reads one record: the thread and the event, or 6, 7, 8 or 9.
#[inline]
pub fn read(record: &[u8]) -> Result<(u8, Event), u8> {
    match record.try_into() {
        Ok(record) => decode(record),
        Err(_) => Err(answer::RAGGED),
    }
}

/// Reads a record of the right length.
#[inline]
fn decode(record: &[u8; RECORD]) -> Result<(u8, Event), u8> {
    judge(record)?;
    Ok(judged(record))
}

/// Whether a record of the right length is one; else 7, 8 or 9.
#[inline(always)]
pub(crate) fn judge(record: &[u8; RECORD]) -> Result<(), u8> {
    let &[mark, kind, ..] = record;
    if mark != MARK {
        return Err(answer::MARK);
    }
    if !matches!(kind, 1..=LAST_KIND) {
        return Err(answer::KIND);
    }
    if u128::from_be_bytes(*record) & MUST_BE_ZERO[usize::from(kind)] != 0 {
        return Err(answer::FIELD);
    }
    Ok(())
}

/// The thread and the event of a record that has been judged.
#[inline(always)]
pub(crate) fn judged(record: &[u8; RECORD]) -> (u8, Event) {
    let &[_, kind, thread, x, ra, rb, flags, _, i0, i1, i2, i3, s0, s1, _, _] = record;
    let fields = Fields {
        kind,
        thread,
        x,
        ra,
        rb,
        flags,
        index: u32::from_be_bytes([i0, i1, i2, i3]),
        si: u16::from_be_bytes([s0, s1]),
    };
    (thread, fields.of_kind())
}

/// Writes one record into the first 16 bytes of the buffer and gives 0; a
/// shorter buffer is left as it is and 10 given.
pub fn write(thread: u8, e: Event, buf: &mut [u8]) -> u8 {
    match buf.first_chunk_mut() {
        Some(record) => {
            *record = encode(thread, e);
            answer::DONE
        }
        None => answer::BUFFER,
    }
}

/// The record of an event.
pub fn encode(thread: u8, e: Event) -> [u8; RECORD] {
    let f = Fields::of(thread, e);
    let [i0, i1, i2, i3] = f.index.to_be_bytes();
    let [s0, s1] = f.si.to_be_bytes();
    [
        MARK, f.kind, thread, f.x, f.ra, f.rb, f.flags, 0, i0, i1, i2, i3, s0, s1, 0, 0,
    ]
}

impl Fields {
    /// The fields of an event by a thread. Those that its kind does not use
    /// are 0.
    #[inline]
    pub fn of(thread: u8, e: Event) -> Fields {
        let mut f = Fields {
            kind: e.kind(),
            thread,
            ..Fields::default()
        };
        match e {
            Event::Tbegin { r: flag } | Event::Tend { a: flag } | Event::Tsr { l: flag } => {
                f.flags = u8::from(flag);
            }
            Event::Tabort { ra } | Event::Treclaim { ra } => f.ra = ra,
            Event::Tabortwc { to, ra, rb } | Event::Tabortdc { to, ra, rb } => {
                (f.x, f.ra, f.rb) = (to, ra, rb);
            }
            Event::Tcheck { bf } => f.x = bf,
            Event::Mtspr { spr, ra: r } | Event::Mfspr { spr, rt: r } => (f.x, f.ra) = (spr, r),
            Event::Ld { rt, index } => (f.x, f.index) = (rt, index),
            Event::Std { ra, index } => (f.ra, f.index) = (ra, index),
            Event::Lbz { rt, address }
            | Event::Lhz { rt, address }
            | Event::Lwz { rt, address } => {
                (f.x, f.index) = (rt, address);
            }
            Event::Stb { ra, address }
            | Event::Sth { ra, address }
            | Event::Stw { ra, address } => {
                (f.ra, f.index) = (ra, address);
            }
            Event::Addi { rt, ra, si } => (f.x, f.ra, f.si) = (rt, ra, si),
            Event::Host { pr, tm } => f.flags = u8::from(pr) | u8::from(tm) << 1,
            Event::Mtmsrd { ts, tm, pr } => {
                f.flags = ts & 3 | u8::from(tm) << 2 | u8::from(pr) << 3;
            }
            Event::Tlbie { page } => f.index = page,
            Event::Trechkpt | Event::Disallowed | Event::Interrupt | Event::Rfid => {}
        }
        f
    }

    /// The event of this kind with these operands; none if no event has the
    /// kind. Fields that the kind does not use are not looked at.
    #[inline]
    pub fn event(self) -> Option<Event> {
        matches!(self.kind, 1..=LAST_KIND).then(|| self.of_kind())
    }

    /// As [`Fields::event`], for a kind from 1 to 26. It gives an event whatever
    /// the kind is, so that a run has no case for none.
    #[inline(always)]
    fn of_kind(self) -> Event {
        let Fields { x, ra, rb, .. } = self;
        let Fields { index, si, .. } = self;
        let one = self.flags & 1 != 0;
        let two = self.flags & 2 != 0;
        match self.kind {
            1 => Event::Tbegin { r: one },
            2 => Event::Tend { a: one },
            3 => Event::Tabort { ra },
            4 => Event::Tabortwc { to: x, ra, rb },
            5 => Event::Tabortdc { to: x, ra, rb },
            6 => Event::Tsr { l: one },
            7 => Event::Tcheck { bf: x },
            8 => Event::Treclaim { ra },
            9 => Event::Trechkpt,
            10 => Event::Mtspr { spr: x, ra },
            11 => Event::Mfspr { rt: ra, spr: x },
            12 => Event::Ld { rt: x, index },
            13 => Event::Std { ra, index },
            14 => Event::Addi { rt: x, ra, si },
            15 => Event::Disallowed,
            16 => Event::Interrupt,
            17 => Event::Host { pr: one, tm: two },
            18 => Event::Rfid,
            19 => Event::Mtmsrd {
                ts: self.flags & 3,
                tm: self.flags & 4 != 0,
                pr: self.flags & 8 != 0,
            },
            20 => Event::Lbz {
                rt: x,
                address: index,
            },
            21 => Event::Lhz {
                rt: x,
                address: index,
            },
            22 => Event::Lwz {
                rt: x,
                address: index,
            },
            23 => Event::Stb { ra, address: index },
            24 => Event::Sth { ra, address: index },
            25 => Event::Stw { ra, address: index },
            _ => Event::Tlbie { page: index },
        }
    }
}
