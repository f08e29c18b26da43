//! Which answers can be met, by kind of event and by the state of its thread:
//! read by hand from docs/RULES.md and from the header, not from a run.
//!
//! A cell "can be met" from some valid machine, not only from those that
//! events reach. A valid machine may have any PR and TM in any state, so 11
//! and 12 do not depend on the state. Like 4, they follow from the kind's row
//! in [`KINDS`], which the comparison so holds to both sides. mtspr and mfspr
//! give both, by their SPR.

use model::{Machine, State};
use naszeptan::{Kind, KINDS};

/// How many states there are to tell apart.
pub const STATES: usize = 6;
/// Places for the numbers 0 to 21, and one for all that are none.
pub const NUMBERS: usize = 23;
/// The numbers of an event, in the order in which a table shows them.
pub const SHOWN: [u8; 13] = [0, 20, 21, 1, 2, 3, 4, 5, 8, 9, 11, 12, 13];

/// The state of the executing thread before the event.
#[derive(Clone, Copy, PartialEq, Eq, Debug)]
pub enum Before {
    /// No state counts: the machine, the event or its thread is refused.
    Nobody,
    /// N with FS = 0.
    N,
    /// N with FS = 1.
    Failed,
    /// T.
    T,
    /// S with TDOOMED = 0.
    S,
    /// S with TDOOMED = 1.
    Doomed,
}

impl Before {
    /// All of them, as the tables have them.
    pub const ALL: [Before; STATES] = [
        Before::Nobody,
        Before::N,
        Before::Failed,
        Before::T,
        Before::S,
        Before::Doomed,
    ];

    /// The state of this thread.
    pub fn of(m: &Machine, thread: u8) -> Before {
        let Some(t) = m.threads.get(usize::from(thread)) else {
            return Before::Nobody;
        };
        match t.state {
            State::N if t.failed() => Before::Failed,
            State::N => Before::N,
            State::T => Before::T,
            State::S if t.doomed => Before::Doomed,
            State::S => Before::S,
        }
    }

    /// The name in a table.
    pub fn name(self) -> &'static str {
        ["-", "N", "N, FS", "T", "S", "S, doomed"][self as usize]
    }
}

/// Numbers that can be met in one state, and why 0, 5, 13, 20 and 21 cannot
/// where they are not among them.
type Cell = (&'static [u8], &'static str);

const MOVES: Cell = (&[0], "fails nothing and is never refused here");
const OUTSIDE: Cell = (&[0], "outside a transaction nothing of its own fails");
const BAD: Cell = (&[13], "a Bad Thing in this state, so never done");
/// rfid and mtmsrd; [`returns`](crate::returns) has what they ask for.
const ASKS: [Cell; 5] = [
    (&[0, 13], "outside a transaction nothing fails"),
    (&[0, 13], "outside a transaction nothing fails"),
    (&[20], "in T it always fails, and is handled at once"),
    (&[0, 13], "going back to a live transaction fails nothing"),
    (&[0, 13, 20], "going to T handles; it records nothing"),
];
/// tlbie.
const INVALIDATES: [Cell; 5] = [
    OUTSIDE,
    OUTSIDE,
    (&[20], "in T it always fails, and is handled at once"),
    (&[0, 21], "in S handling waits for tresume"),
    (&[0], "FS is 1: nothing of its own is recorded again"),
];
const RECORDED: Cell = (&[0], "FS is 1: nothing is recorded again");
/// A load of any width.
const LOADS: [Cell; 5] = [
    OUTSIDE,
    OUTSIDE,
    (&[0, 20], "in T an overflow is handled at once"),
    (&[0], "a load in S adds no line and fails others only"),
    (&[0], "a load in S adds no line and fails others only"),
];
/// A store of any width.
const STORES: [Cell; 5] = [
    OUTSIDE,
    OUTSIDE,
    (&[0, 20], "in T an overflow is handled at once"),
    (&[0, 21], "in S handling waits for tresume"),
    (&[0], "the sets are empty: no line is its own"),
];

/// tabortwc. and tabortdc.
const COMPARES: [Cell; 5] = [
    OUTSIDE,
    OUTSIDE,
    (&[0, 20], "in T a failure is handled at once"),
    (&[0, 21], "in S handling waits for tresume"),
    RECORDED,
];

/// By kind, in the order of [`KINDS`], what can be met in N, N with FS, T, S and S doomed.
const CELLS: [[Cell; 5]; KINDS.len()] = [
    // tbegin.
    [
        OUTSIDE,
        OUTSIDE,
        (
            &[0, 20],
            "the highest TL fails, and in T is handled at once",
        ),
        (&[0], "in S only CR0 changes"),
        (&[0], "in S only CR0 changes"),
    ],
    // tend.
    [OUTSIDE, OUTSIDE, (&[0], "a commit cannot fail"), BAD, BAD],
    // tabort.
    [
        OUTSIDE,
        OUTSIDE,
        (&[20], "in T it always fails, and is handled at once"),
        (&[21], "FS is 0 in a live transaction: always recorded"),
        RECORDED,
    ],
    // tabortwc.
    COMPARES,
    // tabortdc.
    COMPARES,
    // tsr.
    [
        OUTSIDE,
        OUTSIDE,
        (&[0], "suspending fails nothing"),
        (&[0], "resuming a live transaction fails nothing"),
        (&[0, 20], "tresume handles; it records nothing"),
    ],
    // tcheck
    [MOVES; 5],
    // treclaim.
    [
        BAD,
        BAD,
        (&[0], "treclaim. answers 0, also where it records"),
        (&[0], "treclaim. answers 0, also where it records"),
        (&[0], "treclaim. answers 0"),
    ],
    // trechkpt.
    [
        (&[13], "FS is 0"),
        (&[0], "what it asks for is there"),
        BAD,
        BAD,
        BAD,
    ],
    // mtspr
    [
        OUTSIDE,
        OUTSIDE,
        BAD,
        (
            &[0, 13],
            "SRR0 and SRR1 are set, and others are not; nothing fails",
        ),
        (
            &[0, 13],
            "SRR0 and SRR1 are set, and others are not; nothing fails",
        ),
    ],
    // mfspr
    [MOVES; 5],
    // ld
    LOADS,
    // std
    STORES,
    // addi
    [MOVES; 5],
    // disallowed
    [
        OUTSIDE,
        OUTSIDE,
        (&[20], "in T it always fails, and is handled at once"),
        (&[0], "only T is failed by it"),
        (&[0], "only T is failed by it"),
    ],
    // interrupt
    [MOVES; 5],
    // host
    [MOVES, MOVES, (&[5], "refused in T"), MOVES, MOVES],
    // rfid
    ASKS,
    // mtmsrd
    ASKS,
    // lbz
    LOADS,
    // lhz
    LOADS,
    // lwz
    LOADS,
    // stb
    STORES,
    // sth
    STORES,
    // stw
    STORES,
    // tlbie
    INVALIDATES,
];

/// The place of a kind among [`KINDS`], if it is one.
pub fn place(kind: u8) -> Option<usize> {
    KINDS.iter().position(|row| row.number == kind)
}

/// 0, which stands for all that are no kinds, and then the kinds, as the tables
/// have them.
pub fn kinds() -> impl Iterator<Item = u8> {
    std::iter::once(0).chain(KINDS.iter().map(|row| row.number))
}

/// The name of a kind; 0 stands for all that are none.
pub fn name(kind: u8) -> &'static str {
    Kind::of(kind).map_or("no kind", |row| row.name)
}

/// Why this answer cannot be met there, or none if it can. Kind 0 stands for
/// all that are none.
pub fn why_not(kind: u8, before: Before, answer: u8) -> Option<&'static str> {
    let cannot = |can: bool, why| if can { None } else { Some(why) };
    let Some(place) = place(kind) else {
        let can = before == Before::Nobody && matches!(answer, 1 | 2 | 8);
        return cannot(can, "what is no kind is refused by 1, 2 or 8");
    };
    let Some(state) = (before as usize).checked_sub(1) else {
        let can = matches!(answer, 1 | 2 | 3 | 9);
        return cannot(can, "without a state only 1, 2, 3 or 9 is given");
    };
    let (row, (met, why)) = (&KINDS[place], CELLS[place][state]);
    let ranges = row.operands.iter().any(|operand| operand.has_range());
    match answer {
        0 | 5 | 13 | 20 | 21 => cannot(met.contains(&answer), why),
        4 => cannot(ranges, "no operand of it can be out of range"),
        11 => cannot(row.tm, "no TM instruction"),
        12 => cannot(row.privileged, "not privileged"),
        1 | 2 | 3 | 8 | 9 => Some("refused before any state counts"),
        _ => Some("no number of an event"),
    }
}

/// A call of the header that is not an event.
#[derive(Clone, Copy, PartialEq, Eq, Debug)]
pub enum Call {
    /// valid.
    Valid,
    /// A run that did no record.
    RunNone,
    /// A run that did some.
    RunSome,
    /// read.
    Read,
    /// write.
    Write,
    /// valid of bits that are no machine.
    BitsValid,
    /// step on bits that are no machine.
    BitsStep,
    /// run on bits that are no machine.
    BitsRun,
}

/// How many calls there are.
pub const CALLS: usize = 8;

/// Each call, its name, and the numbers that it can give.
pub const CALL_ROWS: [(Call, &str, &[u8]); CALLS] = [
    (Call::Valid, "valid", &[0, 1, 2]),
    // 0 is the empty tape. 20 and 21 never stop a run.
    (
        Call::RunNone,
        "run, none done",
        &[0, 1, 2, 3, 4, 5, 6, 7, 8, 9, 11, 12, 13],
    ),
    // 1, 2 and 6 to 9 are tested first: then no record is done.
    (Call::RunSome, "run, some done", &[0, 3, 4, 5, 11, 12, 13]),
    (Call::Read, "read", &[0, 6, 7, 8, 9]),
    (Call::Write, "write", &[0, 8, 9, 10]),
    // A wrong size comes before a wrong bit.
    (Call::BitsValid, "valid, no machine", &[1, 2]),
    (Call::BitsStep, "step, no machine", &[1, 2]),
    (Call::BitsRun, "run, no machine", &[1, 2]),
];
