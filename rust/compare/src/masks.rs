//! Who can fail in an event, by its kind and by the state of its thread: read
//! by hand from docs/RULES.md, H8, A1 to A3 and A6, not from a run.

use crate::cells::{self, Before};

/// How many masks are told apart.
pub const MASKS: usize = 8;

/// Who failed: the event's own thread or not, and how many others.
#[derive(Clone, Copy, PartialEq, Eq, Debug)]
pub struct Mask {
    own: bool,
    others: usize,
}

impl Mask {
    /// Nobody failed.
    const NO_ONE: Mask = Mask {
        own: false,
        others: 0,
    };

    /// All of them, as the tables have them.
    pub fn all() -> [Mask; MASKS] {
        std::array::from_fn(|place| Mask {
            own: place >= MASKS / 2,
            others: place % (MASKS / 2),
        })
    }

    /// The mask of an event by this thread.
    pub fn of(thread: u8, failed: u8) -> Mask {
        let own = 1u8.checked_shl(thread.into()).unwrap_or(0);
        Mask {
            own: failed & own != 0,
            others: (failed & !own).count_ones() as usize,
        }
    }

    /// The place in a table. A byte of more bits than there are threads has
    /// none, and is told from the sides' difference before.
    pub fn place(self) -> usize {
        usize::from(self.own) * (MASKS / 2) + self.others.min(MASKS / 2 - 1)
    }

    /// The name in a table.
    pub fn name(self) -> &'static str {
        [
            "no one", "1 other", "2 others", "3 others", "itself", "and 1", "and 2", "and 3",
        ][self.place()]
    }
}

/// Why these cannot have failed there, or none if they can. [`Before::Nobody`]
/// stands for an event that was refused, in any state.
pub fn why_not(kind: u8, before: Before, mask: Mask) -> Option<&'static str> {
    let cannot = |can: bool, why| if can { None } else { Some(why) };
    if before == Before::Nobody {
        return cannot(mask == Mask::NO_ONE, "a refused event fails no one");
    }
    let gives = |answer| cells::why_not(kind, before, answer).is_none();
    let reclaims = kind == 8 && matches!(before, Before::T | Before::S);
    let own_can = match mask.own {
        true => gives(20) || gives(21) || reclaims,
        false => gives(0) && !reclaims,
    };
    if !own_can {
        return Some(
            "20, 21 and treclaim. of a live transaction tell its own thread, nothing else",
        );
    }
    match (kind, mask.others) {
        (_, 0) => None,
        (12 | 20..=22, 2..) => Some("no two threads write one line"),
        (12 | 13 | 20..=25, _) => cannot(
            !mask.own || before == Before::S,
            "an overflow touches no other thread",
        ),
        (26, _) => cannot(
            !mask.own || before == Before::S,
            "in T a tlbie touches no other thread",
        ),
        _ => Some("only loads, stores and tlbie touch other threads"),
    }
}
