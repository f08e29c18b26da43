//! The kinds of event: one row for each.

use std::fmt;
use std::mem::take;

use crate::raw;
use Operand::{Address, Bf, Flag, Index, Page, Ra, RaOrZero, Rb, Rt, RtInRa, Si, Spr, To, Ts};

/// What all events of one kind have in common: a row of the table in section E
/// of docs/RULES.md. [`Kind::of`] finds the row of a number.
///
/// ```
/// use naszeptan::{Kind, Operand, KINDS};
///
/// let std = Kind::of(13).unwrap();
/// assert_eq!(std.name, "std");
/// assert_eq!(std.operands, [Operand::Ra, Operand::Index]);
/// assert!(!std.tm && !std.privileged);
/// let lhz = Kind::of(21).unwrap();
/// assert_eq!(lhz.operands, [Operand::Rt, Operand::Address(2)]);
/// assert_eq!(Kind::of(26).unwrap().name, "tlbie");
/// assert_eq!((Kind::of(0), Kind::of(27)), (None, None));
/// assert_eq!(KINDS.len(), 26);
/// ```
#[derive(Clone, Copy, Debug, PartialEq, Eq, Hash)]
pub struct Kind {
    /// The number, by which a record names the kind.
    pub number: u8,
    /// The name, with which a displayed event begins.
    pub name: &'static str,
    /// The operands, in the order in which they are displayed. They are all
    /// that a record of this kind may hold.
    pub operands: &'static [Operand],
    /// A TM instruction, which 11 refuses where TM = 0; mtspr and mfspr are one
    /// with an SPR from 128 to 131. [`Event::is_tm`](crate::Event::is_tm) tells
    /// it of one event.
    pub tm: bool,
    /// A privileged instruction, which 12 refuses where PR = 1; mtspr and mfspr
    /// are one with SPR 26 and 27.
    /// [`Event::is_privileged`](crate::Event::is_privileged) tells it of one
    /// event.
    pub privileged: bool,
}

/// An operand of a [`Kind`]: its field in a record, and how it is displayed.
#[derive(Clone, Copy, Debug, PartialEq, Eq, Hash)]
pub enum Operand {
    /// R, A, L, PR or TM: the name, and the weight in the flags.
    Flag(&'static str, u8),
    /// TS, the two lowest bits of the flags.
    Ts,
    /// TO, in X.
    To,
    /// SPR, in X.
    Spr,
    /// BF, in X.
    Bf,
    /// RT, in X.
    Rt,
    /// RT of mfspr, which has its SPR in X and so RT in RA.
    RtInRa,
    /// RA.
    Ra,
    /// RA where 0 means the value 0 and not register 0 (rule E0.8).
    RaOrZero,
    /// RB.
    Rb,
    /// The index of a doubleword.
    Index,
    /// The byte address of an access of so many bytes, in the index. It is in
    /// range where it is a multiple of them and below 8 times the memory's
    /// length.
    Address(u8),
    /// The number of a page, in the index. It is in range where the page's first
    /// doubleword, 512 times the number, is in memory.
    Page,
    /// SI, which is signed.
    Si,
}

/// The row of each kind, by rising number.
pub const KINDS: [Kind; 26] = [
    tm(1, "tbegin.", &[Flag("R", 1)]),
    tm(2, "tend.", &[Flag("A", 1)]),
    tm(3, "tabort.", &[RaOrZero]),
    tm(4, "tabortwc.", &[To, Ra, Rb]),
    tm(5, "tabortdc.", &[To, Ra, Rb]),
    tm(6, "tsr.", &[Flag("L", 1)]),
    tm(7, "tcheck", &[Bf]),
    privileged(tm(8, "treclaim.", &[RaOrZero])),
    privileged(tm(9, "trechkpt.", &[])),
    // Each is one or the other, by its SPR.
    privileged(tm(10, "mtspr", &[Spr, Ra])),
    privileged(tm(11, "mfspr", &[RtInRa, Spr])),
    other(12, "ld", &[Rt, Index]),
    other(13, "std", &[Ra, Index]),
    other(14, "addi", &[Rt, RaOrZero, Si]),
    other(15, "disallowed", &[]),
    other(16, "interrupt", &[]),
    other(17, "host", &[Flag("PR", 1), Flag("TM", 2)]),
    privileged(other(18, "rfid", &[])),
    privileged(other(19, "mtmsrd", &[Ts, Flag("TM", 4), Flag("PR", 8)])),
    other(20, "lbz", &[Rt, Address(1)]),
    other(21, "lhz", &[Rt, Address(2)]),
    other(22, "lwz", &[Rt, Address(4)]),
    other(23, "stb", &[Ra, Address(1)]),
    other(24, "sth", &[Ra, Address(2)]),
    other(25, "stw", &[Ra, Address(4)]),
    privileged(other(26, "tlbie", &[Page])),
];

/// Neither a TM instruction nor privileged.
const fn other(number: u8, name: &'static str, operands: &'static [Operand]) -> Kind {
    Kind {
        number,
        name,
        operands,
        tm: false,
        privileged: false,
    }
}

const fn tm(number: u8, name: &'static str, operands: &'static [Operand]) -> Kind {
    Kind {
        tm: true,
        ..other(number, name, operands)
    }
}

const fn privileged(kind: Kind) -> Kind {
    Kind {
        privileged: true,
        ..kind
    }
}

impl Kind {
    /// The row of the kind with this number, if there is one.
    pub fn of(number: u8) -> Option<&'static Kind> {
        KINDS.iter().find(|kind| kind.number == number)
    }

    /// Whether the fields hold the kind's operands and nothing else.
    pub(crate) fn fits(&self, mut fields: raw::Event) -> bool {
        for operand in self.operands {
            operand.take(&mut fields);
        }
        let raw::Event { kind, thread, .. } = fields;
        fields
            == raw::Event {
                kind,
                thread,
                ..raw::Event::default()
            }
    }

    /// Displays the event that the fields hold.
    pub(crate) fn show(&self, mut fields: raw::Event, f: &mut fmt::Formatter<'_>) -> fmt::Result {
        f.write_str(self.name)?;
        for (n, operand) in self.operands.iter().enumerate() {
            f.write_str(if n == 0 { " " } else { ", " })?;
            let value = operand.take(&mut fields);
            match operand {
                Flag(name, _) => write!(f, "{name}={value}"),
                Ts => write!(f, "TS={value:02b}"),
                Bf => write!(f, "cr{value}"),
                RaOrZero if value == 0 => f.write_str("0"),
                Rt | RtInRa | Ra | RaOrZero | Rb => write!(f, "r{value}"),
                To | Spr | Index => write!(f, "{value}"),
                Address(_) => write!(f, "address {value}"),
                Page => write!(f, "page {value}"),
                Si => write!(f, "{}", value as i16),
            }?;
        }
        Ok(())
    }
}

impl Operand {
    /// Whether it has values that are out of range, which 4 refuses.
    pub const fn has_range(self) -> bool {
        !matches!(self, Flag(..) | Ts | Si)
    }

    /// The operand's value, which is 0 in the fields afterwards.
    fn take(self, fields: &mut raw::Event) -> u32 {
        match self {
            Flag(_, weight) => {
                let set = fields.flags & weight != 0;
                fields.flags &= !weight;
                set.into()
            }
            Ts => {
                let ts = fields.flags & 3;
                fields.flags &= !3;
                ts.into()
            }
            To | Spr | Bf | Rt => take(&mut fields.x).into(),
            RtInRa | Ra | RaOrZero => take(&mut fields.ra).into(),
            Rb => take(&mut fields.rb).into(),
            Index | Address(_) | Page => take(&mut fields.index),
            Si => take(&mut fields.si).into(),
        }
    }

    /// The operand's value in the fields of an event. A negative SI is given as
    /// its 16 bits.
    ///
    /// ```
    /// use naszeptan::{Event, Kind};
    ///
    /// let fields = Event::Std { ra: 3, index: 17 }.to_raw(0);
    /// let values = Kind::of(13).unwrap().operands.iter().map(|o| o.value(fields));
    /// assert!(values.eq([3, 17]));
    /// ```
    pub fn value(self, mut fields: raw::Event) -> u32 {
        self.take(&mut fields)
    }

    /// Puts a value into the operand's field, which was 0; as many of its low
    /// bits as the field has.
    ///
    /// ```
    /// use naszeptan::{raw, Event, Kind};
    ///
    /// let mut fields = raw::Event { kind: 13, ..raw::Event::default() };
    /// for (operand, value) in Kind::of(13).unwrap().operands.iter().zip([3, 17]) {
    ///     operand.put(&mut fields, value);
    /// }
    /// assert_eq!(Event::from_raw(fields), Ok((0, Event::Std { ra: 3, index: 17 })));
    /// ```
    pub fn put(self, fields: &mut raw::Event, value: u32) {
        match self {
            Flag(_, weight) => fields.flags |= weight * (value & 1) as u8,
            Ts => fields.flags |= value as u8 & 3,
            To | Spr | Bf | Rt => fields.x = value as u8,
            RtInRa | Ra | RaOrZero => fields.ra = value as u8,
            Rb => fields.rb = value as u8,
            Index | Address(_) | Page => fields.index = value,
            Si => fields.si = value as u16,
        }
    }
}
