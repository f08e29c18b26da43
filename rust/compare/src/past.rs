//! What the machine does not show of a transaction: that it was a ROT until a
//! nested tbegin. turned ROT off, and what it loaded before that (rule E1).

use model::machine::THREADS;
use model::{Event, LineSet, Machine, State, Thread};

use crate::accesses::Access;

/// One thread: its transaction so far, and what was last seen of it.
#[derive(Clone, Copy)]
struct Rot {
    /// ROT went off in this transaction.
    off: bool,
    /// The lines that it loaded in T while ROT was on.
    loaded: LineSet,
    /// It is in T with ROT on.
    on: bool,
    nia: u64,
}

impl Rot {
    fn new(t: &Thread) -> Rot {
        Rot {
            off: false,
            loaded: LineSet::EMPTY,
            on: t.state == State::T && t.rot(),
            nia: t.nia,
        }
    }

    /// The thread after an event of its own. One that was refused, and so did
    /// not move NIA, is none.
    fn does(self, t: &Thread, e: Event) -> Rot {
        let mut next = self;
        match e {
            Event::Tbegin { .. } if self.on => next.off |= !t.rot(),
            _ if self.on && t.nia != self.nia => {
                if let Some(access) = Access::of(e).filter(|access| !access.store) {
                    next.loaded.insert(access.line());
                }
            }
            _ => {}
        }
        next
    }
}

/// All threads of a sequence.
pub struct Past([Rot; THREADS]);

impl Past {
    /// Nothing is known of what was before the start.
    pub fn new(m: &Machine) -> Past {
        Past(m.threads.each_ref().map(Rot::new))
    }

    /// Takes in an event that was tried, by the machine after it.
    pub fn note(&mut self, m: &Machine, thread: u8, e: Event) {
        for (n, (rot, t)) in self.0.iter_mut().zip(&m.threads).enumerate() {
            if n == usize::from(thread) {
                *rot = rot.does(t, e);
            }
            // What has ended leaves nothing to the next transaction.
            *rot = match t.is_live() {
                true => Rot {
                    off: rot.off,
                    loaded: rot.loaded,
                    ..Rot::new(t)
                },
                false => Rot::new(t),
            };
        }
    }

    /// Whether ROT went off in this thread's transaction.
    pub fn off(&self, n: usize) -> bool {
        self.0[n].off
    }

    /// Whether this thread's transaction loaded the line under ROT.
    pub fn untracked(&self, n: usize, line: usize) -> bool {
        self.0[n].loaded.contains(line)
    }

    /// Whether this thread's transaction loaded the line under ROT, which then
    /// went off.
    pub fn loaded(&self, n: usize, line: usize) -> bool {
        self.off(n) && self.untracked(n, line)
    }
}

#[cfg(test)]
mod tests {
    use super::Past;
    use model::{Event, Machine};

    const ROT: Event = Event::Tbegin { r: true };
    const PLAIN: Event = Event::Tbegin { r: false };
    const TEND: Event = Event::Tend { a: false };

    fn ld(index: u32) -> Event {
        Event::Ld { rt: 1, index }
    }

    /// The past of thread 2 after these events of its own.
    fn after(events: &[Event]) -> Past {
        let (mut m, mut memory) = (Machine::fresh(), vec![0; 64]);
        let mut past = Past::new(&m);
        for &e in events {
            model::step(&mut m, &mut memory, 2, e);
            past.note(&m, 2, e);
        }
        past
    }

    #[test]
    fn rot_goes_off_by_a_nested_tbegin() {
        assert!(after(&[ROT, PLAIN]).off(2));
        assert!(after(&[ROT, ROT, PLAIN, TEND, ROT]).off(2));
        assert!(!after(&[ROT, ROT]).off(2));
        assert!(!after(&[PLAIN, PLAIN]).off(2));
        assert!(!after(&[ROT, PLAIN]).off(0));
    }

    #[test]
    fn loads_under_rot_are_kept() {
        let past = after(&[ROT, ld(17), PLAIN, ld(33)]);
        let loaded: Vec<usize> = (0..4).filter(|&line| past.loaded(2, line)).collect();
        assert_eq!(loaded, [1]);
        // A load that is refused loads nothing.
        let wrong = Event::Ld { rt: 32, index: 17 };
        assert!(!after(&[ROT, wrong, PLAIN]).loaded(2, 1));
        assert!(!after(&[ROT, ld(17)]).loaded(2, 1));
    }

    #[test]
    fn an_end_forgets() {
        let end = Event::Tend { a: true };
        for end in [end, Event::Disallowed] {
            let past = after(&[ROT, ld(17), PLAIN, end, PLAIN, PLAIN]);
            assert!(!past.off(2));
            let past = after(&[ROT, ld(17), PLAIN, end, ROT, PLAIN]);
            assert!(past.off(2) && !past.loaded(2, 1));
        }
        // Suspended it is the same transaction.
        let (suspend, resume) = (Event::Tsr { l: false }, Event::Tsr { l: true });
        assert!(after(&[ROT, ld(17), PLAIN, suspend, resume]).loaded(2, 1));
    }
}
