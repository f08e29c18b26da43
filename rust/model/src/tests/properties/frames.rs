//! What an event may touch, and what its answer means.

use super::*;
use crate::machine::texasr;

#[test]
fn frames() {
    seeds(30_000, |rng| {
        let s = Stepped::draw(rng);
        if answer::is_done(s.number) {
            memory(&s);
            other_threads(&s);
            answers(&s);
            own_registers(&s);
            pages(&s);
        }
    });
}

/// Memory is changed by a store not in T, or a tend. that commits.
fn memory(s: &Stepped) {
    let (old, new) = s.own();
    match s.e {
        e if store(e).is_some() && old.state != State::T => {
            let (ra, at, width) = store(e).expect("a store");
            let mut bytes = bytes_of(&s.before.mem);
            let register = old.live.gpr[ra as usize].to_be_bytes();
            bytes[at..at + width].copy_from_slice(&register[8 - width..]);
            assert_eq!(bytes_of(&s.after.mem), bytes);
        }
        Event::Tend { .. } if old.state == State::T && new.state == State::N => {
            for (i, (was, is)) in s.before.mem.iter().zip(&s.after.mem).enumerate() {
                let logged = old.log[..old.count].iter().find(|e| e.index == i as u32);
                let (was, is) = (was.to_be_bytes(), is.to_be_bytes());
                for k in 0..8 {
                    let stored = logged.filter(|e| e.marks << k & 0x80 != 0);
                    assert_eq!(is[k], stored.map_or(was[k], |e| e.value.to_be_bytes()[k]));
                }
            }
        }
        _ => assert_eq!(s.after.mem, s.before.mem),
    }
}

/// The register of a store, the address of its first byte and their number.
fn store(e: Event) -> Option<(u8, usize, usize)> {
    Some(match e {
        Event::Std { ra, index } => (ra, 8 * index as usize, 8),
        Event::Stb { ra, address } => (ra, address as usize, 1),
        Event::Sth { ra, address } => (ra, address as usize, 2),
        Event::Stw { ra, address } => (ra, address as usize, 4),
        _ => return None,
    })
}

fn bytes_of(mem: &[u64]) -> Vec<u8> {
    mem.iter().flat_map(|word| word.to_be_bytes()).collect()
}

/// Only an access that is made, or a tlbie, touches other threads, and those with
/// a live transaction alone.
fn other_threads(s: &Stepped) {
    for n in s.others() {
        let (old, new) = s.each(n);
        if old != new {
            let touching = matches!(s.e.kind(), 12 | 13 | 20..=26);
            assert!(touching, "{:?}", s.e);
            assert!(old.is_live() && s.number != 20);
            failed_by_another(old, new);
        }
    }
}

fn failed_by_another(old: &Thread, new: &Thread) {
    assert!(new.failed() && new.texasr & texasr::EXACT == 0);
    assert_eq!(new.tfiar, old.nia | u64::from(old.pr));
    if old.state == State::T {
        assert_eq!((new.state, new.cr0), (State::N, 10));
        assert_eq!(new.nia, old.tfhar);
        assert_eq!(new.live, old.checkpoint);
    } else {
        assert_eq!((new.state, new.doomed), (State::S, true));
        assert_eq!((new.nia, new.live, new.cr0), (old.nia, old.live, old.cr0));
    }
}

/// What each answer says of the thread.
fn answers(s: &Stepped) {
    let (old, new) = s.own();
    match s.number {
        20 => {
            assert_eq!((new.state, new.cr0), (State::N, 10));
            assert_eq!(new.nia, old.tfhar);
            assert!(new.failed());
        }
        21 => {
            assert_eq!(old.state, State::S);
            assert!(!old.failed() && new.failed() && new.doomed);
            assert_eq!(new.nia, old.nia.wrapping_add(4));
        }
        _ => {
            let nia = match s.e {
                Event::Interrupt => 0x500,
                Event::Host { .. } => old.nia,
                Event::Rfid => old.srr0 - old.srr0 % 4,
                _ => old.nia.wrapping_add(4),
            };
            assert_eq!(new.nia, nia);
        }
    }
}

/// PR and TM, SRR0 and SRR1, and what a failure has recorded, are changed by few
/// kinds.
fn own_registers(s: &Stepped) {
    let (old, new) = s.own();
    let kind = s.e.kind();
    assert!(new.pr == old.pr || matches!(kind, 16..=19));
    assert!(new.tm == old.tm || matches!(kind, 16..=19));
    assert!(new.srr0 == old.srr0 || matches!(kind, 10 | 16));
    assert!(new.srr1 == old.srr1 || matches!(kind, 10 | 16));
    if old.failed() && !matches!(kind, 1 | 10) {
        assert_eq!((new.texasr, new.tfiar), (old.texasr, old.tfiar));
    }
}

/// Rule A6: in a tlbie that is done in N or S those fail that were live and had a
/// line of the page, its own thread included; what is recorded says so.
fn pages(s: &Stepped) {
    let Event::Tlbie { page } = s.e else { return };
    if s.number == 20 {
        return;
    }
    for n in 0..s.before.m.count {
        let (old, new) = s.each(n);
        let has = |l| old.reads.contains(l) || old.writes.contains(l);
        let first = 32 * page as usize;
        let fails = (first..first + 32).filter(|&l| l < 256).any(has);
        assert_eq!(old.is_live() && !new.is_live(), fails, "thread {n}");
        if fails {
            assert_eq!(new.texasr >> 32, 0x0002_0000);
            assert_eq!(new.texasr & texasr::EXACT, 0);
            assert_eq!(new.tfiar, old.nia | u64::from(old.pr));
        } else {
            assert_eq!((new.texasr, new.tfiar), (old.texasr, old.tfiar));
            assert_eq!((new.reads, new.writes), (old.reads, old.writes));
        }
    }
    let (old, new) = s.own();
    assert_eq!((new.cr0, new.live), (old.cr0, old.live));
    assert_eq!(s.number == 21, new.doomed && !old.doomed);
}
