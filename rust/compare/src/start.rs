//! The machines that a sequence starts from. A start is its kind and its
//! seed, so that it can be printed and made again.

use model::gen::{self, Flaw, Rng};
use model::{Machine, Thread};

/// What sort of machine a start is.
#[derive(Clone, Copy, PartialEq, Eq, Debug)]
pub enum Kind {
    /// The fresh machine, with its memory of zeros.
    Fresh,
    /// A random valid machine and memory.
    Valid,
    /// The same with at most two threads: enough for almost every rule, and
    /// checked in half the time.
    Two,
    /// A wrong thread count or memory length.
    Size,
    /// A machine with one flaw: not valid, or seldom of a wrong size.
    Broken,
    /// A valid machine with some fields overwritten: it may still be valid.
    Shaken,
}

/// A start: its kind, and the seed from which it is made.
#[derive(Clone, Copy, PartialEq, Eq, Debug)]
pub struct Start {
    /// What sort of machine.
    pub kind: Kind,
    /// Which one of that sort.
    pub seed: u64,
}

impl Start {
    /// The fresh machine.
    pub const FRESH: Start = Start {
        kind: Kind::Fresh,
        seed: 0,
    };

    /// A start: mostly a valid machine, since a broken one refuses all.
    pub fn random(rng: &mut Rng) -> Start {
        let kind = match rng.below(32) {
            0 => Kind::Fresh,
            1 => Kind::Size,
            2 | 3 => Kind::Broken,
            4 | 5 => Kind::Shaken,
            6..=13 => Kind::Valid,
            _ => Kind::Two,
        };
        let seed = rng.bits();
        Start { kind, seed }
    }

    /// The machine and its memory.
    pub fn build(self) -> (Machine, Vec<u64>) {
        let mut rng = Rng::new(self.seed);
        match self.kind {
            Kind::Fresh => (Machine::fresh(), vec![0; naszeptan::raw::MEMORY]),
            Kind::Valid => gen::valid_machine(&mut rng),
            Kind::Two => two(gen::valid_machine(&mut rng)),
            Kind::Size => {
                let flaw = rng.pick([Flaw::ThreadCount, Flaw::MemoryLength]);
                gen::flawed_machine(&mut rng, flaw)
            }
            Kind::Broken => gen::broken_machine(&mut rng),
            Kind::Shaken => gen::shaken_machine(&mut rng),
        }
    }

    /// How many events follow: few where the machine may refuse them all, and
    /// now and then enough to fill a log event by event.
    pub fn length(self, rng: &mut Rng) -> usize {
        match self.kind {
            Kind::Size | Kind::Broken => 1 + rng.below(4),
            Kind::Shaken => 1 + rng.below(8),
            Kind::Fresh => 100,
            Kind::Valid | Kind::Two if rng.one_in(16) => 200,
            Kind::Valid | Kind::Two => 8 + rng.below(48),
        }
    }
}

/// The first two threads: fewer threads keep a machine valid.
fn two((mut m, memory): (Machine, Vec<u64>)) -> (Machine, Vec<u64>) {
    m.count = m.count.min(2);
    m.threads[2..].fill(Thread::ZERO);
    (m, memory)
}
