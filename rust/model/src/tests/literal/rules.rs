//! The sentences of rules E1 to E26, on threads in plain values.

use std::cmp::Ordering::{self, Equal, Greater, Less};

use super::access::{access, put_byte, tlbie, Access};
use super::plain::{Lower, Plain};
use crate::{Event, State};

/// The level that no transaction passes, four thousand and ninety-five: a
/// tbegin. there fails.
const HIGHEST_LEVEL: u32 = 4_095;

/// What a failure of the thread's own did.
pub fn own_failure(t: &mut Plain, cause: u32, cia: u64) -> u8 {
    let in_t = t.state == State::T;
    let recorded = t.record(cause, true, cia);
    if in_t {
        t.handle();
        20
    } else if recorded {
        21
    } else {
        0
    }
}

fn registers_used(e: Event) -> Vec<u8> {
    match e {
        Event::Tabort { ra } | Event::Treclaim { ra } | Event::Mtspr { ra, .. } => vec![ra],
        Event::Tabortwc { ra, rb, .. } | Event::Tabortdc { ra, rb, .. } => vec![ra, rb],
        Event::Mfspr { rt, .. } => vec![rt],
        Event::Addi { rt, ra, .. } => vec![rt, ra],
        _ => Access::of(e).map(|access| access.r).into_iter().collect(),
    }
}

fn refuses(t: &Plain, len: usize, e: Event) -> Option<u8> {
    let big_register = registers_used(e).into_iter().any(|r| r > 31);
    let big_field = match e {
        Event::Tcheck { bf } => bf > 7,
        Event::Tabortwc { to, .. } | Event::Tabortdc { to, .. } => to > 31,
        Event::Mtspr { spr, .. } | Event::Mfspr { spr, .. } => {
            ![26, 27, 128, 129, 130, 131].contains(&spr)
        }
        Event::Tlbie { page } => 512 * u128::from(page) >= len as u128,
        _ => Access::of(e)
            .is_some_and(|Access { at, width, .. }| at % width != 0 || at >= 8 * len as u64),
    };
    if big_register || big_field {
        return Some(4);
    }
    if e.kind() == 17 && t.state == State::T {
        return Some(5);
    }
    let system = names_system_register(e);
    if !t.tm && e.kind() <= 11 && !system {
        return Some(11);
    }
    if t.pr && (matches!(e.kind(), 8 | 9 | 18 | 19 | 26) || system) {
        return Some(12);
    }
    let bad = match e.kind() {
        2 => t.state == State::S,
        8 => t.state == State::N,
        9 => !(t.state == State::N && t.lower.fs),
        10 => t.state == State::T || t.state == State::S && !system,
        18 | 19 => !may_ask(t, asked(t, e)),
        _ => false,
    };
    bad.then_some(13)
}

/// Whether an mtspr or mfspr is of SRR0 or SRR1.
fn names_system_register(e: Event) -> bool {
    matches!(
        e,
        Event::Mtspr { spr: 26 | 27, .. } | Event::Mfspr { spr: 26 | 27, .. }
    )
}

/// TS, TM and PR.
type Asked = (u8, bool, bool);

/// What an rfid or mtmsrd asks for.
fn asked(t: &Plain, e: Event) -> Asked {
    let bit = |weight: u64| t.srr1 / weight % 2;
    match e {
        Event::Mtmsrd { ts, tm, pr } => (ts, tm, pr),
        _ => {
            let ts = 2 * bit(1 << 34) + bit(1 << 33);
            (ts as u8, bit(1 << 32) == 1, bit(1 << 14) == 1)
        }
    }
}

/// Rule E0.11 in sentences: N may ask for N. S may ask for S, for T with TM = 1,
/// and with TM = 0 for N with TM = 0. T may ask for anything, and fails.
fn may_ask(t: &Plain, (ts, tm, _): Asked) -> bool {
    match t.state {
        State::N => ts == 0,
        State::S => ts == 1 || ts == 2 && tm || ts == 0 && !tm && !t.tm,
        State::T => true,
    }
}

/// Whether TO chooses what holds between two numbers, both with their signs
/// and without.
fn chosen(to: u8, signed: Ordering, unsigned: Ordering) -> bool {
    [
        (16, signed == Less),
        (8, signed == Greater),
        (4, unsigned == Equal),
        (2, unsigned == Less),
        (1, unsigned == Greater),
    ]
    .iter()
    .any(|&(bit, holds)| to & bit != 0 && holds)
}

/// The address of the next instruction, modulo 2 to the 64.
fn next(cia: u64) -> u64 {
    (u128::from(cia) + 4) as u64
}

/// What CR0 takes from the state.
fn from_state(t: &Plain) -> u8 {
    let (ts0, ts1) = t.ts();
    ts0 * 4 + ts1 * 2
}

fn reg(t: &Plain, r: u8) -> u64 {
    t.live.gpr[r as usize]
}

fn or_zero(t: &Plain, r: u8) -> u64 {
    if r == 0 {
        0
    } else {
        reg(t, r)
    }
}

/// The failure code of a tabort. or treclaim.
fn code(t: &Plain, ra: u8) -> u32 {
    ((or_zero(t, ra) & 0xFF) as u32) * 0x0100_0000 + 1
}

/// Does an event that is valid and has a thread.
pub fn literal(threads: &mut [Plain], mem: &mut [u64], me: usize, e: Event) -> u8 {
    if let Some(number) = refuses(&threads[me], mem.len(), e) {
        return number;
    }
    let t = &mut threads[me];
    let cia = t.nia;
    // NIA moves first here; handling sets it again. Events 16 and 17 are no
    // instructions.
    if !matches!(e.kind(), 16 | 17) {
        t.nia = next(cia);
    }
    // Those that can fail a transaction give a number back.
    match e {
        Event::Tbegin { r } => return tbegin(t, r, cia),
        Event::Tend { a } => tend(t, mem, a),
        Event::Tabort { ra } => return tabort(t, ra, cia),
        Event::Tabortwc { to, ra, rb } => return tabortwc(t, to, ra, rb, cia),
        Event::Tabortdc { to, ra, rb } => return tabortdc(t, to, ra, rb, cia),
        Event::Tsr { l: false } => tsuspend(t),
        Event::Tsr { l: true } => return tresume(t),
        Event::Tcheck { bf } => tcheck(t, bf),
        Event::Treclaim { ra } => treclaim(t, ra, cia),
        Event::Trechkpt => trechkpt(t),
        Event::Mtspr { spr, ra } => mtspr(t, spr, ra),
        Event::Mfspr { rt, spr } => t.live.gpr[rt as usize] = mfspr(t, spr),
        Event::Addi { rt, ra, si } => t.live.gpr[rt as usize] = sum(or_zero(t, ra), si),
        Event::Disallowed => return disallowed(t, cia),
        Event::Interrupt => interrupt(t),
        Event::Host { pr, tm } => (t.pr, t.tm) = (pr, tm),
        Event::Rfid | Event::Mtmsrd { .. } => return comes_back(t, e, cia),
        Event::Tlbie { page } => return tlbie(threads, me, page, cia),
        _ => return access(threads, mem, me, e, cia),
    }
    0
}

fn tbegin(t: &mut Plain, r: bool, cia: u64) -> u8 {
    t.cr0 = from_state(t);
    match t.state {
        State::N => {
            t.checkpoint = t.live;
            t.state = State::T;
            t.tfhar = next(cia);
            t.cause = 0;
            t.lower = Lower::from(1);
            t.lower.rot = r;
        }
        State::T if t.lower.tl == HIGHEST_LEVEL => return own_failure(t, 0x0040_0000, cia),
        State::T => {
            t.lower.tl += 1;
            if !r {
                t.lower.rot = false;
            }
        }
        State::S => {}
    }
    0
}

fn tend(t: &mut Plain, mem: &mut [u64], a: bool) {
    t.cr0 = from_state(t);
    if t.state != State::T {
        return;
    }
    if a || t.lower.tl == 1 {
        for (index, bytes) in &t.log {
            let first = 8 * u64::from(*index);
            for (at, byte) in (first..).zip(bytes) {
                byte.iter().for_each(|&byte| put_byte(mem, at, byte));
            }
        }
        t.lower.tl = 0;
        t.empty();
        t.state = State::N;
    } else {
        t.lower.tl -= 1;
    }
}

/// An abort on a condition, which holds or not.
fn abort_if(t: &mut Plain, holds: bool, cause: u32, cia: u64) -> u8 {
    t.cr0 = from_state(t);
    if holds && t.state != State::N {
        own_failure(t, cause, cia)
    } else {
        0
    }
}

fn tabort(t: &mut Plain, ra: u8, cia: u64) -> u8 {
    let cause = code(t, ra);
    abort_if(t, true, cause, cia)
}

fn tabortwc(t: &mut Plain, to: u8, ra: u8, rb: u8, cia: u64) -> u8 {
    let (a, b) = (reg(t, ra) as u32, reg(t, rb) as u32);
    let signed = (a as i32).cmp(&(b as i32));
    abort_if(t, chosen(to, signed, a.cmp(&b)), 1, cia)
}

fn tabortdc(t: &mut Plain, to: u8, ra: u8, rb: u8, cia: u64) -> u8 {
    let (a, b) = (reg(t, ra), reg(t, rb));
    let signed = (a as i64).cmp(&(b as i64));
    abort_if(t, chosen(to, signed, a.cmp(&b)), 1, cia)
}

fn disallowed(t: &mut Plain, cia: u64) -> u8 {
    if t.state == State::T {
        own_failure(t, 0x0080_0000, cia)
    } else {
        0
    }
}

fn tsuspend(t: &mut Plain) {
    t.cr0 = from_state(t);
    if t.state == State::T {
        t.state = State::S;
    }
}

fn tresume(t: &mut Plain) -> u8 {
    t.cr0 = from_state(t);
    if t.state == State::S {
        t.state = State::T;
        if t.doomed {
            t.handle();
            return 20;
        }
    }
    0
}

fn tcheck(t: &mut Plain, bf: u8) {
    let field = u8::from(t.doomed) * 8 + from_state(t);
    if bf == 0 {
        t.cr0 = field;
    } else {
        t.live.cr[bf as usize - 1] = field;
    }
}

fn treclaim(t: &mut Plain, ra: u8, cia: u64) {
    t.record(code(t, ra), true, cia);
    t.live.gpr = t.checkpoint.gpr;
    t.live.cr = t.checkpoint.cr;
    t.cr0 = from_state(t);
    t.state = State::N;
    t.doomed = false;
    t.empty();
}

fn trechkpt(t: &mut Plain) {
    t.checkpoint = t.live;
    t.cr0 = 0;
    t.state = State::S;
    t.doomed = true;
}

fn mtspr(t: &mut Plain, spr: u8, ra: u8) {
    let value = reg(t, ra);
    match spr {
        26 => t.srr0 = value,
        27 => t.srr1 = value,
        128 => t.tfhar = value / 4 * 4,
        129 => t.tfiar = value,
        130 => {
            t.cause = (value >> 32) as u32;
            t.lower = Lower::from(value as u32);
        }
        _ => t.cause = value as u32,
    }
}

fn mfspr(t: &Plain, spr: u8) -> u64 {
    match spr {
        26 => t.srr0,
        27 => t.srr1,
        128 => t.tfhar,
        129 if t.pr && t.tfiar % 2 == 0 => 0,
        129 => t.tfiar,
        130 => u64::from(t.cause) << 32 | u64::from(t.lower.join()),
        _ => u64::from(t.cause),
    }
}

/// What addi computes, modulo 2 to the 64.
fn sum(a: u64, si: u16) -> u64 {
    let si = i128::from(si as i16);
    (i128::from(a) + si).rem_euclid(1 << 64) as u64
}

fn interrupt(t: &mut Plain) {
    let (ts0, ts1) = t.ts();
    t.srr0 = t.nia;
    t.srr1 = 0;
    for (bit, weight) in [
        (ts0 == 1, 1 << 34),
        (ts1 == 1, 1 << 33),
        (t.tm, 1 << 32),
        (t.pr, 1 << 14),
    ] {
        if bit {
            t.srr1 += weight;
        }
    }
    if t.state == State::T {
        t.state = State::S;
    }
    t.pr = false;
    t.tm = false;
    t.nia = 0x500;
}

/// An rfid or mtmsrd that is not refused.
fn comes_back(t: &mut Plain, e: Event, cia: u64) -> u8 {
    if t.state == State::T {
        return own_failure(t, 0x0080_0000, cia);
    }
    let (ts, tm, pr) = asked(t, e);
    t.pr = pr;
    t.tm = tm;
    if e.kind() == 18 {
        t.nia = t.srr0 / 4 * 4;
    }
    // S asks for N or S and stays, and N asks for N.
    if ts == 2 {
        t.state = State::T;
        if t.doomed {
            t.handle();
            return 20;
        }
    }
    0
}
