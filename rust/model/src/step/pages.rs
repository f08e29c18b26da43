//! Rule A6: event 26.

use super::failures::cause;
use super::Went;
use crate::machine::{LineSet, Machine, State, Thread};

impl Thread {
    /// Whether the thread has a live transaction with one of these lines in
    /// either set.
    fn is_met_at(&self, lines: &LineSet) -> bool {
        self.is_live() && (self.reads.meets(lines) || self.writes.meets(lines))
    }
}

/// Event 26. In T it touches no one else.
pub(super) fn tlbie(m: &mut Machine, me: usize, page: u32) -> Went {
    if m.threads[me].state == State::T {
        return m.threads[me].disallowed();
    }
    let lines = LineSet::page(page as usize);
    let mut recorded = false;
    let mut others = 0;
    for (i, t) in m.threads.iter_mut().enumerate() {
        if !t.is_met_at(&lines) {
            continue;
        }
        if i == me {
            // Its own in S, and not exact (rule F4); NIA is still CIA.
            recorded = t.record(cause::TRANSLATION, false);
        } else {
            t.fail_by_other(cause::TRANSLATION);
            others |= 1 << i;
        }
    }
    m.threads[me].next();
    let went = Went::in_s(recorded);
    Went { others, ..went }
}
