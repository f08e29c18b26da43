//! Critical sections, and what a program does about one that failed.

use model::gen::Rng;
use model::machine::{LINE, MAX_FOOTPRINT};
use model::Event;

/// The locks; each lock's word is the first of a line of its own.
const LOCKS: usize = 8;
/// The lines from here on are what the locks guard, so many for each.
const GUARDED: usize = 16;
const GUARDED_LINES: usize = 24;
/// The lines from here on are the threads' own.
const OWN: usize = GUARDED + LOCKS * GUARDED_LINES;
const OWN_LINES: usize = 8;
/// The levels of a program that calls itself in a transaction. On no day does
/// one come near the highest level.
const CALLS: usize = 15;
/// What tabortwc. and tabortdc. call "not equal".
const NOT_EQUAL: u8 = 16 + 8;

/// A piece of a program: mostly a transaction.
#[derive(Default)]
pub struct Section {
    /// The lock to fall back on, if there is one.
    pub lock: Option<u32>,
    /// The events, the transaction's first and last among them.
    pub events: Vec<Event>,
}

impl Section {
    /// Some section for this thread, in the proportions of a library's day.
    pub fn draw(rng: &mut Rng, thread: usize) -> Section {
        let lock = rng.below(LOCKS);
        match rng.below(100) {
            0..=54 => Section::elided(lock, body(rng, lock)),
            55..=64 => Section::elided(lock, nested(rng, lock)),
            65..=71 => Section::elided(lock, suspended(rng, lock, thread)),
            72..=76 => Section::elided(lock, watched(rng, lock)),
            77 => Section::elided(lock, seldom(rng, lock)),
            78..=80 => Section::given_up(rng, lock),
            81..=84 => Section::rolled_back(rng, thread),
            85..=97 => Section::without(own_work(rng, thread)),
            _ => Section::without(stray(rng, lock)),
        }
    }

    /// The lock's word is read, so that who takes the lock fails the
    /// transaction, and a lock that is held aborts it at once.
    fn elided(lock: usize, body: Vec<Event>) -> Section {
        let index = word(lock);
        let abort = match lock % 4 {
            0 => Event::Tabortwc {
                to: NOT_EQUAL,
                ra: 4,
                rb: 0,
            },
            _ => Event::Tabortdc {
                to: NOT_EQUAL,
                ra: 4,
                rb: 0,
            },
        };
        let mut events = vec![
            Event::Tbegin { r: false },
            Event::Ld { rt: 4, index },
            abort,
        ];
        events.extend(body);
        events.push(Event::Tend { a: false });
        Section {
            lock: Some(index),
            events,
        }
    }

    /// A transaction whose program gives it up, with a code of its own.
    fn given_up(rng: &mut Rng, lock: usize) -> Section {
        let mut section = Section::elided(lock, body(rng, lock));
        section.events.pop();
        let si = 1 + rng.below(255) as u16;
        section
            .events
            .extend([Event::Addi { rt: 9, ra: 0, si }, Event::Tabort { ra: 9 }]);
        section.lock = None;
        section
    }

    /// A rollback-only transaction: stores on trial, on lines of the thread's
    /// own, kept or taken back.
    fn rolled_back(rng: &mut Rng, thread: usize) -> Section {
        let mut events = vec![Event::Tbegin { r: true }];
        events.extend(own_work(rng, thread));
        events.push(match rng.below(3) {
            0 => Event::Tabort { ra: 0 },
            _ => Event::Tend { a: true },
        });
        Section { lock: None, events }
    }

    /// No transaction.
    fn without(events: Vec<Event>) -> Section {
        Section { lock: None, events }
    }

    /// What of the section is done when the lock is held: all but the
    /// transaction.
    pub fn plain(&self) -> impl Iterator<Item = Event> + '_ {
        let plain = |e: &&Event| matches!(e.kind(), 12..=15);
        self.events.iter().filter(plain).copied()
    }
}

/// A lock's word.
fn word(lock: usize) -> u32 {
    (lock * LINE) as u32
}

/// A doubleword that the lock guards.
fn guarded(rng: &mut Rng, lock: usize) -> u32 {
    let first = (GUARDED + lock * GUARDED_LINES) * LINE;
    (first + rng.below(GUARDED_LINES * LINE)) as u32
}

/// A doubleword of the thread's own.
fn own(rng: &mut Rng, thread: usize) -> u32 {
    let first = (OWN + thread * OWN_LINES) * LINE;
    (first + rng.below(OWN_LINES * LINE)) as u32
}

/// Some register that holds data.
fn register(rng: &mut Rng) -> u8 {
    16 + rng.below(16) as u8
}

/// A store past the lock, by a program that does not hold to it.
fn stray(rng: &mut Rng, lock: usize) -> Vec<Event> {
    let index = guarded(rng, lock);
    vec![store(rng, index)]
}

fn store(rng: &mut Rng, index: u32) -> Event {
    let ra = register(rng);
    Event::Std { ra, index }
}

/// Work on one doubleword: a look, a count, or a store.
fn work(rng: &mut Rng, index: u32) -> Vec<Event> {
    let r = register(rng);
    let load = Event::Ld { rt: r, index };
    let add = Event::Addi {
        rt: r,
        ra: r,
        si: 1,
    };
    let store = Event::Std { ra: r, index };
    match rng.below(8) {
        0..=3 => vec![load],
        4 => vec![load, add],
        5 | 6 => vec![load, add, store],
        _ => vec![add, store],
    }
}

/// A critical section's own work.
fn body(rng: &mut Rng, lock: usize) -> Vec<Event> {
    let mut events = Vec::new();
    for _ in 0..1 + rng.below(4) {
        let index = guarded(rng, lock);
        events.extend(work(rng, index));
    }
    events
}

/// Work on the thread's own lines.
fn own_work(rng: &mut Rng, thread: usize) -> Vec<Event> {
    let mut events = Vec::new();
    for _ in 0..2 + rng.below(4) {
        let index = own(rng, thread);
        events.extend(work(rng, index));
    }
    events
}

/// A section in which another one stands, under the next lock.
fn nested(rng: &mut Rng, lock: usize) -> Vec<Event> {
    let inner = (lock + 1) % LOCKS;
    let mut events = body(rng, lock);
    events.extend(Section::elided(inner, body(rng, inner)).events);
    events.extend(body(rng, lock));
    events
}

/// A section with a note on the thread's own lines, which stays whatever
/// becomes of the transaction. Seldom the note is where the section has read.
fn suspended(rng: &mut Rng, lock: usize, thread: usize) -> Vec<Event> {
    let index = match rng.below(16) {
        0 => word(lock) + 1,
        _ => own(rng, thread),
    };
    let mut events = body(rng, lock);
    events.push(Event::Tsr { l: false });
    events.push(store(rng, index));
    if rng.flag() {
        events.push(Event::Tcheck {
            bf: 1 + rng.below(7) as u8,
        });
    }
    events.push(Event::Tsr { l: true });
    events.extend(body(rng, lock));
    events
}

/// A section that asks in what state it is.
fn watched(rng: &mut Rng, lock: usize) -> Vec<Event> {
    let mut events = vec![Event::Tcheck {
        bf: rng.below(8) as u8,
    }];
    events.extend(body(rng, lock));
    events
}

/// A section that no transaction can do, with a disallowed instruction or too
/// many lines, or a deep one.
fn seldom(rng: &mut Rng, lock: usize) -> Vec<Event> {
    let mut events = body(rng, lock);
    match rng.below(4) {
        0 => events.extend((0..MAX_FOOTPRINT).map(|line| Event::Ld {
            rt: 16,
            index: (GUARDED * LINE) as u32 + line * LINE as u32,
        })),
        1 => events.extend(deep()),
        _ => events.push(Event::Disallowed),
    }
    events
}

/// Transactions in each other, each with an end of its own.
fn deep() -> impl Iterator<Item = Event> {
    let begins = [Event::Tbegin { r: false }; CALLS];
    let ends = [Event::Tend { a: false }; CALLS];
    begins.into_iter().chain(ends)
}

/// A look at a lock that is held, and a count of the looks.
pub fn another_look(lock: u32) -> [Event; 2] {
    let look = Event::Ld { rt: 4, index: lock };
    [
        look,
        Event::Addi {
            rt: 5,
            ra: 5,
            si: 1,
        },
    ]
}

/// What a program asks after a failure: why and where, and seldom more.
pub fn diagnosis(rng: &mut Rng) -> Vec<Event> {
    let mut events = vec![
        Event::Mfspr { rt: 6, spr: 130 },
        Event::Mfspr { rt: 7, spr: 128 },
    ];
    match rng.below(8) {
        0 => events.push(Event::Mfspr { rt: 7, spr: 129 }),
        1 => events.push(Event::Mfspr { rt: 6, spr: 131 }),
        // Cleared, so that the next one is seen apart.
        2 => events.push(Event::Mtspr { spr: 130, ra: 0 }),
        _ => {}
    }
    events
}
