//! A set of threads: those that failed in an event (docs/RULES.md, H8).

use std::fmt;

use crate::raw::THREADS;

/// A set of threads, as [`Machine::step_with_failed`] gives those that failed.
///
/// ```
/// use naszeptan::{Event, Machine};
///
/// let (mut machine, mut memory) = (Machine::fresh(), [0; 16]);
/// for thread in [0, 2] {
///     for event in [Event::Tbegin { r: false }, Event::Ld { rt: 4, index: 0 }] {
///         let done = machine.step_with_failed(&mut memory, thread, event);
///         assert!(done.failed.is_empty());
///         assert_eq!(done.failed.to_string(), "none");
///     }
/// }
///
/// // Thread 1 stores to what both have read.
/// let done = machine.step_with_failed(&mut memory, 1, Event::Std { ra: 5, index: 0 });
/// assert_eq!(done.failed.to_string(), "threads 0 and 2");
/// assert!(done.failed.contains(2) && !done.failed.contains(1));
/// for thread in done.failed.iter() {
///     assert!(machine.threads[usize::from(thread)].control.texasr.failure().is_some());
/// }
/// ```
///
/// [`Machine::step_with_failed`]: crate::Machine::step_with_failed
#[derive(Clone, Copy, Default, PartialEq, Eq, Hash)]
pub struct ThreadSet(u8);

impl ThreadSet {
    /// The set that the archive gave as the bits of a byte.
    pub(crate) const fn of(bits: u8) -> ThreadSet {
        ThreadSet(bits)
    }

    /// The set as the C header has it: thread v is bit v, counted from the
    /// lowest.
    pub const fn bits(self) -> u8 {
        self.0
    }

    /// Whether a thread is in the set. None past the last is.
    pub const fn contains(self, thread: u8) -> bool {
        (thread as usize) < THREADS && self.0 >> thread & 1 != 0
    }

    /// How many threads there are.
    pub const fn len(self) -> usize {
        self.0.count_ones() as usize
    }

    /// Whether there is no thread.
    pub const fn is_empty(self) -> bool {
        self.0 == 0
    }

    /// The threads, lowest first.
    pub fn iter(self) -> impl Iterator<Item = u8> {
        (0..THREADS as u8).filter(move |&thread| self.contains(thread))
    }
}

/// As a sentence has it: "none", "thread 1", "threads 0 and 2".
impl fmt::Display for ThreadSet {
    fn fmt(&self, f: &mut fmt::Formatter<'_>) -> fmt::Result {
        let mut names: Vec<String> = self.iter().map(|thread| thread.to_string()).collect();
        match (names.pop(), names.is_empty()) {
            (None, _) => f.pad("none"),
            (Some(only), true) => f.pad(&format!("thread {only}")),
            (Some(last), false) => f.pad(&format!("threads {} and {last}", names.join(", "))),
        }
    }
}

impl fmt::Debug for ThreadSet {
    fn fmt(&self, f: &mut fmt::Formatter<'_>) -> fmt::Result {
        f.debug_set().entries(self.iter()).finish()
    }
}
