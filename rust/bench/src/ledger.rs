//! A ledger in words of four bytes. An account is a doubleword: its lock's word
//! in the upper half, its balance in the lower. The doubleword behind it has
//! notes of one, two and four bytes. A booking elides the lock: a short
//! transaction that reads the lock's word and counts in the balance. Some write
//! a note or look back, by other widths than the balance's.

use model::machine::{MAX_MEMORY, THREADS};
use model::Event;

/// The registers of what is read of the lock, the balance and a note, and of a
/// look at a whole doubleword.
const LOCK: u8 = 4;
const BALANCE: u8 = 5;
const NOTE: u8 = 6;
const WHOLE: u8 = 7;
/// The doublewords of a thread's part of memory.
const QUARTER: usize = MAX_MEMORY / THREADS;

/// The nth booking, by thread n modulo the thread count, in that thread's part of
/// memory.
pub fn booking(n: usize) -> Vec<Event> {
    let round = n / THREADS;
    let account = (n % THREADS * QUARTER + 2 * round % QUARTER) as u32;
    let (lock, balance) = (8 * account, 8 * account + 4);
    let mut events = vec![
        Event::Tbegin { r: false },
        Event::Lwz {
            rt: LOCK,
            address: lock,
        },
        Event::Lwz {
            rt: BALANCE,
            address: balance,
        },
        count(BALANCE),
        Event::Stw {
            ra: BALANCE,
            address: balance,
        },
    ];
    let k = (round / 8 % 8) as u32;
    match round % 8 {
        4 => events.extend(byte_note(lock + 8 + k)),
        5 => events.extend(halfword_note(lock + 8 + k / 2 * 2)),
        6 => events.extend(notes(account + 1, k)),
        7 => events.extend(look_back(account)),
        _ => {}
    }
    events.push(Event::Tend { a: false });
    events
}

/// One more in a register.
fn count(r: u8) -> Event {
    Event::Addi {
        rt: r,
        ra: r,
        si: 1,
    }
}

fn byte_note(address: u32) -> [Event; 3] {
    [
        Event::Lbz { rt: NOTE, address },
        count(NOTE),
        Event::Stb { ra: NOTE, address },
    ]
}

fn halfword_note(address: u32) -> [Event; 3] {
    [
        Event::Lhz { rt: NOTE, address },
        count(NOTE),
        Event::Sth { ra: NOTE, address },
    ]
}

/// Notes of each width in one doubleword, and a look at all of it: six of its
/// bytes come from the log then, and two from memory.
fn notes(index: u32, k: u32) -> [Event; 4] {
    let first = 8 * index;
    [
        Event::Stw {
            ra: BALANCE,
            address: first + 4 - k / 4 * 4,
        },
        Event::Sth {
            ra: NOTE,
            address: first + k / 2 * 2,
        },
        Event::Stb {
            ra: BALANCE,
            address: first + k,
        },
        Event::Ld { rt: WHOLE, index },
    ]
}

/// The account whole, its balance from the log and its lock's word from memory;
/// and the balance's low bytes.
fn look_back(index: u32) -> [Event; 3] {
    let end = 8 * index + 8;
    [
        Event::Ld { rt: WHOLE, index },
        Event::Lhz {
            rt: NOTE,
            address: end - 2,
        },
        Event::Lbz {
            rt: NOTE,
            address: end - 1,
        },
    ]
}

#[cfg(test)]
mod tests {
    use super::*;
    use crate::tapes;
    use model::{step, Machine};

    /// Does so many bookings, and shows each event with the machine and the
    /// memory before it.
    fn booked(many: usize, mut seen: impl FnMut(&Machine, &[u64], usize, Event)) -> Vec<u64> {
        let (mut machine, mut memory) = (Machine::fresh(), vec![0; MAX_MEMORY]);
        for n in 0..many {
            for event in booking(n) {
                let thread = n % THREADS;
                seen(&machine, &memory, thread, event);
                let answer = step(&mut machine, &mut memory, thread as u8, event);
                assert_eq!(answer, 0, "{event:?}");
            }
        }
        assert!(machine.threads.iter().all(|t| !t.failed()));
        memory
    }

    /// The notes change no balance, and nothing a lock's word.
    #[test]
    fn each_booking_counts_once() {
        let memory = booked(6000, |_, _, _, _| ());
        let accounts = memory.iter().step_by(2);
        assert!(accounts.clone().all(|account| account >> 32 == 0));
        assert_eq!(accounts.sum::<u64>(), 6000);
        assert!(memory.iter().skip(1).step_by(2).any(|&notes| notes != 0));
    }

    #[test]
    fn every_width_is_loaded_and_stored() {
        let tape = tapes::repeated(20_000, THREADS, booking);
        let counts = tapes::kinds(&tape);
        let of = |kind: usize| counts[kind - 1];
        assert!((20..=25).all(|kind| of(kind) > 100), "{counts:?}");
        // Words mostly.
        assert!(of(22) > 4 * (of(20) + of(21)), "{counts:?}");
        assert!(of(25) > 2 * (of(23) + of(24)), "{counts:?}");
    }

    /// Some commit a doubleword in part, and some doubleword is stored to by
    /// several widths in one transaction.
    #[test]
    fn parts_of_doublewords_are_committed() {
        let (mut parts, mut wholes, mut again) = (0, 0, 0);
        booked(2000, |machine, _, thread, event| {
            let t = &machine.threads[thread];
            let log = &t.log[..t.count];
            match event {
                Event::Tend { .. } => {
                    parts += log.iter().filter(|e| e.marks != 0xFF).count();
                    wholes += log.iter().filter(|e| e.marks == 0xFF).count();
                }
                Event::Sth { address, .. } | Event::Stb { address, .. } => {
                    again += log.iter().filter(|e| e.index == address / 8).count();
                }
                _ => {}
            }
        });
        assert!(
            parts > 2000 && wholes == 0 && again > 400,
            "{parts} {again}"
        );
    }
}
