//! What stands behind `thread N`: the instruction's name and its operands, by
//! the library's table of kinds. A kind more in that table is a kind more here.

use naszeptan::{raw, Kind, Operand, KINDS};

use super::line::{number, Line};
use super::{Names, Wrong};

/// Another name for some of a kind's events, as assemblers have it.
struct Alias {
    name: &'static str,
    /// The name of its kind.
    of: &'static str,
    /// Operands that it sets by itself, by their place in the kind's row.
    sets: &'static [(usize, u32)],
}

const ALIASES: [Alias; 4] = [
    alias("tendall.", "tend.", &[(0, 1)]),
    alias("tsuspend.", "tsr.", &[(0, 0)]),
    alias("tresume.", "tsr.", &[(0, 1)]),
    alias("li", "addi", &[(1, 0)]),
];

const fn alias(name: &'static str, of: &'static str, sets: &'static [(usize, u32)]) -> Alias {
    Alias { name, of, sets }
}

/// The SPRs that have a name here.
pub const SPRS: [(&str, u8); 6] = [
    ("SRR0", naszeptan::SPR_SRR0),
    ("SRR1", naszeptan::SPR_SRR1),
    ("TFHAR", naszeptan::SPR_TFHAR),
    ("TFIAR", naszeptan::SPR_TFIAR),
    ("TEXASR", naszeptan::SPR_TEXASR),
    ("TEXASRU", naszeptan::SPR_TEXASRU),
];

/// Each name of an instruction.
pub fn instructions() -> impl Iterator<Item = &'static str> {
    let kinds = KINDS.iter().map(|kind| kind.name);
    kinds.chain(ALIASES.iter().map(|alias| alias.name))
}

/// The numbers of the kinds that there are, in words: `1 to 19 or 26`.
pub fn kinds_in_words() -> String {
    let mut ranges: Vec<(u8, u8)> = Vec::new();
    for Kind { number, .. } in KINDS {
        match ranges.last_mut() {
            Some((_, last)) if *last + 1 == number => *last = number,
            _ => ranges.push((number, number)),
        }
    }
    let words = ranges.iter().map(|(first, last)| match first == last {
        true => first.to_string(),
        false => format!("{first} to {last}"),
    });
    words.collect::<Vec<_>>().join(" or ")
}

/// The instruction and its operands: the fields of an event by this thread.
pub fn event(line: &mut Line, thread: u8, names: &Names) -> Result<raw::Event, Wrong> {
    let (kind, sets) = instruction(line)?;
    let mut fields = raw::Event {
        kind: kind.number,
        thread,
        ..raw::Event::default()
    };
    for (place, value) in sets {
        kind.operands[*place].put(&mut fields, *value);
    }
    let open = |place: &usize| sets.iter().all(|(set, _)| set != place);
    let open = (0..kind.operands.len()).filter(open);
    let open: Vec<Operand> = open.map(|place| kind.operands[place]).collect();
    match open.iter().all(|operand| flag_name(*operand).is_some()) {
        true => flags(line, &open, &mut fields)?,
        false => operands(line, &open, &mut fields, names)?,
    }
    line.end()?;
    Ok(fields)
}

type Named = (&'static Kind, &'static [(usize, u32)]);

fn instruction(line: &mut Line) -> Result<Named, Wrong> {
    let named = line.read("an instruction", |name| {
        let alias = ALIASES.iter().find(|alias| alias.name == name);
        let (name, sets) = alias.map_or((name, &[][..]), |alias| (alias.of, alias.sets));
        let kind = KINDS.iter().find(|kind| kind.name == name)?;
        Some((kind, sets))
    });
    named.map_err(|wrong| wrong.near(instructions()))
}

/// Operands in their order, a comma between two.
fn operands(
    line: &mut Line,
    open: &[Operand],
    fields: &mut raw::Event,
    names: &Names,
) -> Result<(), Wrong> {
    for (n, operand) in open.iter().enumerate() {
        if n > 0 {
            line.want(",", "a comma")?;
        }
        let value = value(line, *operand, names)?;
        operand.put(fields, value);
    }
    Ok(())
}

/// Flags in any order; one that is not named is 0.
fn flags(line: &mut Line, open: &[Operand], fields: &mut raw::Event) -> Result<(), Wrong> {
    let mut open = open.to_vec();
    while !open.is_empty() && line.peek().is_some() {
        let known: Vec<&str> = open.iter().filter_map(|flag| flag_name(*flag)).collect();
        let expected = format!("{} and =", known.join(" or "));
        let place = line.read(&expected, |name| {
            known.iter().position(|flag| *flag == name)
        })?;
        line.want("=", "=")?;
        let flag = open.remove(place);
        let value = match flag {
            Operand::Ts => line.read("00, 01, 10 or 11", |text| {
                ["00", "01", "10", "11"]
                    .iter()
                    .position(|bits| *bits == text)
            })?,
            _ => line.read("0 or 1", |text| {
                ["0", "1"].iter().position(|bit| *bit == text)
            })?,
        };
        flag.put(fields, value as u32);
        if !open.is_empty() && line.peek().is_some() {
            line.want(",", "a comma")?;
            if line.peek().is_none() {
                return Err(line.wrong("a flag"));
            }
        }
    }
    Ok(())
}

/// The name of a flag; none of any other operand.
fn flag_name(operand: Operand) -> Option<&'static str> {
    match operand {
        Operand::Flag(name, _) => Some(name),
        Operand::Ts => Some("TS"),
        _ => None,
    }
}

/// An operand that is no flag.
fn value(line: &mut Line, operand: Operand, names: &Names) -> Result<u32, Wrong> {
    match operand {
        Operand::Rt | Operand::RtInRa | Operand::Ra | Operand::Rb => register(line),
        Operand::RaOrZero => line.read("a register, r1 to r255, or 0", |text| match text {
            "0" => Some(0),
            text => numbered("r", text),
        }),
        Operand::Bf => line.read("a CR field, cr0 to cr255", |text| numbered("cr", text)),
        Operand::To => line.read("TO, 0 to 255", byte),
        Operand::Spr => spr(line),
        Operand::Index => place(line, names),
        Operand::Address(_) => address(line, names),
        Operand::Page => {
            line.want("page", "page and its number")?;
            line.read("a page's number, 0 to 4294967295", word)
        }
        Operand::Si => immediate(line),
        Operand::Flag(..) | Operand::Ts => unreachable!("flags stand alone"),
    }
}

fn register(line: &mut Line) -> Result<u32, Wrong> {
    line.read("a register, r0 to r255", |text| numbered("r", text))
}

/// A number from 0 to 255 behind some letters.
fn numbered(letters: &str, text: &str) -> Option<u32> {
    let digits = text.strip_prefix(letters)?;
    let plain = !digits.starts_with("0x");
    plain.then(|| byte(digits))?
}

fn byte(text: &str) -> Option<u32> {
    number(text)
        .filter(|value| *value <= 0xFF)
        .map(|v| v as u32)
}

fn word(text: &str) -> Option<u32> {
    u32::try_from(number(text)?).ok()
}

fn spr(line: &mut Line) -> Result<u32, Wrong> {
    let names: Vec<&str> = SPRS.iter().map(|(name, _)| *name).collect();
    let expected = format!("an SPR, 0 to 255 or {}", names.join(", "));
    line.read(expected, |text| {
        let mut named = SPRS.iter();
        let named = named.find(|(name, _)| *name == text);
        named.map(|(_, spr)| u32::from(*spr)).or_else(|| byte(text))
    })
}

/// SI: a signed number, or its 16 bits in hexadecimal.
fn immediate(line: &mut Line) -> Result<u32, Wrong> {
    let minus = line.take("-");
    let expected = match minus {
        true => "a number, 1 to 32768",
        false => "a number, -32768 to 32767, or 0x0 to 0xFFFF",
    };
    line.read(expected, |text| {
        let value = number(text)?;
        let most = match (minus, text.starts_with("0x")) {
            (true, _) => 0x8000,
            (false, true) => 0xFFFF,
            (false, false) => 0x7FFF,
        };
        let bits = match minus {
            true => (value as u16).wrapping_neg(),
            false => value as u16,
        };
        (value <= most).then_some(u32::from(bits))
    })
}

/// A doubleword: a number, a name, or `line` and its number; and perhaps how
/// many doublewords behind it.
pub fn place(line: &mut Line, names: &Names) -> Result<u32, Wrong> {
    let at = line.clone();
    let expected = "a place: a number, a name, or line and its number";
    let first = doubleword(line, names, expected, number)?;
    summed(&at, first, behind(line)?, "a place, 0 to 4294967295")
}

/// A byte: `address` and its number; or the first of a name or a line, and
/// perhaps how many bytes behind it.
fn address(line: &mut Line, names: &Names) -> Result<u32, Wrong> {
    if line.take("address") {
        return line.read("a byte's address, 0 to 4294967295", word);
    }
    let at = line.clone();
    let expected = "a byte: address and its number, a name, or line and its number";
    let first = doubleword(line, names, expected, |_| None)?;
    summed(
        &at,
        8 * first,
        behind(line)?,
        "a byte's address, 0 to 4294967295",
    )
}

/// The doubleword of a name, of a line, or that a plain word means.
fn doubleword(
    line: &mut Line,
    names: &Names,
    expected: &str,
    plain: fn(&str) -> Option<u64>,
) -> Result<u64, Wrong> {
    if line.take("line") {
        let lines = u64::from(u32::MAX) / u64::from(super::LINE);
        let expected = format!("a line's number, 0 to {lines}");
        let read = line.read(expected, |text| number(text).filter(|line| *line <= lines));
        return Ok(read? * u64::from(super::LINE));
    }
    let value = |text: &str| names.place(text).map(u64::from).or_else(|| plain(text));
    let known = names.places.iter().map(|(name, ..)| name.as_str());
    let read = line.read(expected, value);
    read.map_err(|wrong| wrong.near(known))
}

/// How many behind it, if that is said.
fn behind(line: &mut Line) -> Result<u64, Wrong> {
    match line.take("+") {
        true => line.read("a number", number),
        false => Ok(0),
    }
}

fn summed(at: &Line, first: u64, behind: u64, expected: &str) -> Result<u32, Wrong> {
    let whole = first.checked_add(behind);
    let whole = whole.and_then(|whole| u32::try_from(whole).ok());
    whole.ok_or_else(|| at.wrong(expected))
}
