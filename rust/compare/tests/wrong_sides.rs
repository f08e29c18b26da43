//! The comparison itself: sides that are wrong in one thing are found out,
//! and their tapes shrunk to what shows it.

use compare::batch::{compare, Failure};
use compare::cells::{Before, Call};
use compare::counts::{Counts, ALL_MET_FROM};
use compare::shrink::Case;
use compare::sides::{Archive, Side};
use compare::sights::Seen;
use compare::start::{Kind, Start};
use model::machine::{texasr, MAX_LEVEL};
use model::{Done, Edition, Ended};
use naszeptan::raw;

const SEED: u64 = 7;
/// Enough for the rarest to be met; a test ends where it finds the first.
const EVENTS: u64 = 40_000;

/// The failure that the comparison finds.
fn found(side: &dyn Side) -> Failure {
    let (_, failure) = compare(side, SEED, EVENTS, (0, 1));
    failure.expect("a wrong side is found out")
}

/// The failure's shrunk tape, on which the sides still differ, and its text.
fn shrunk(side: &dyn Side) -> (Case, String) {
    let failure = found(side);
    let text = failure.to_string();
    let case = failure.case.expect("a tape");
    assert!(case.differs(side).is_some());
    assert!(case.differs(&Archive).is_none());
    (case, text)
}

/// The kinds of a tape's records.
fn kinds(case: &Case) -> Vec<u8> {
    case.records.iter().map(|record| record[1]).collect()
}

/// Misanswers tcheck into CR field 3 of a suspended thread.
struct Misanswers;

impl Side for Misanswers {
    fn step(&self, m: &mut raw::Machine, memory: &mut [u64], e: raw::Event) -> Done {
        let suspended = m
            .threads
            .get(usize::from(e.thread))
            .is_some_and(|t| t.control.state == 2);
        let done = Archive.step(m, memory, e);
        let answer = match done.answer {
            0 if e.kind == 7 && e.x == 3 && suspended => 21,
            answer => answer,
        };
        Done { answer, ..done }
    }
}

#[test]
fn a_wrong_answer_is_shrunk_to_its_event() {
    let (case, text) = shrunk(&Misanswers);
    // From some start the thread is suspended at once; else it takes two
    // events to get there.
    assert!(case.records.len() <= 3, "{case}");
    let last = case.records.last().expect("a record");
    assert_eq!((last[1], last[3]), (7, 3), "{case}");
    assert!(text.contains("answer: model 0, proved 21"), "{text}");
    assert!(text.contains("Tcheck { bf: 3 }"), "{text}");
    assert!(text.contains("E3 07 0"), "{text}");
}

/// A thread's state as the header has it.
fn state(m: &raw::Machine, thread: u8) -> Option<u8> {
    let thread = m.threads.get(usize::from(thread));
    thread.map(|t| t.control.state)
}

/// Whether this was a commit, by the state before it and the machine after.
fn commits(e: raw::Event, before: Option<u8>, done: &Done, m: &raw::Machine) -> bool {
    let ended = before == Some(1) && state(m, e.thread) == Some(0);
    e.kind == 2 && done.answer == 0 && ended
}

/// Leaves a bit in a register of another thread at a commit.
struct Meddles;

impl Side for Meddles {
    fn step(&self, m: &mut raw::Machine, memory: &mut [u64], e: raw::Event) -> Done {
        let before = state(m, e.thread);
        let done = Archive.step(m, memory, e);
        if commits(e, before, &done, m) {
            m.threads[usize::from(e.thread) ^ 1].checkpoint.gpr[31] ^= 1 << 63;
        }
        done
    }
}

#[test]
fn a_wrong_field_is_shrunk_to_begin_and_end() {
    let (case, text) = shrunk(&Meddles);
    assert!(
        matches!(kinds(&case)[..], [2] | [1, 2]),
        "one commit is enough\n{case}"
    );
    assert!(text.contains("checkpoint"), "{text}");
}

/// Tells a commit as a failure of its thread.
struct TellsCommits;

impl Side for TellsCommits {
    fn step(&self, m: &mut raw::Machine, memory: &mut [u64], e: raw::Event) -> Done {
        let before = state(m, e.thread);
        let mut done = Archive.step(m, memory, e);
        if commits(e, before, &done, m) {
            done.failed |= 1 << e.thread;
        }
        done
    }
}

#[test]
fn a_commit_told_as_a_failure_is_shrunk_to_begin_and_end() {
    let (case, text) = shrunk(&TellsCommits);
    assert!(matches!(kinds(&case)[..], [2] | [1, 2]), "{case}");
    assert!(text.contains("failed: model 0000, proved 0"), "{text}");
}

/// Tells a failure of its own thread alone.
struct TellsItself;

impl Side for TellsItself {
    fn step(&self, m: &mut raw::Machine, memory: &mut [u64], e: raw::Event) -> Done {
        let mut done = Archive.step(m, memory, e);
        done.failed &= 1u8.checked_shl(e.thread.into()).unwrap_or(0);
        done
    }
}

#[test]
fn another_thread_s_failure_not_told_is_found() {
    let (case, text) = shrunk(&TellsItself);
    let last = case.records.last().expect("a record");
    assert!(
        matches!(last[1], 12 | 13 | 20..=26),
        "only an access or a tlbie fails others\n{case}"
    );
    assert!(text.contains("failed: model "), "{text}");
}

/// Tells thread 0 where bits that are no machine are refused.
struct TellsOfNoMachine;

impl Side for TellsOfNoMachine {
    fn step(&self, m: &mut raw::Machine, memory: &mut [u64], e: raw::Event) -> Done {
        let mut done = Archive.step(m, memory, e);
        if m.threads.iter().any(|t| t.control.state > 2) {
            done.failed = 1;
        }
        done
    }
}

/// TEXASR's bit 38.
const ROT: u64 = 1 << (63 - 38);

/// Leaves ROT on at a nested tbegin. with R = 0.
struct LeavesRot;

impl Side for LeavesRot {
    fn step(&self, m: &mut raw::Machine, memory: &mut [u64], e: raw::Event) -> Done {
        let thread = usize::from(e.thread);
        let before = m.threads.get(thread).map(|t| t.control);
        let done = Archive.step(m, memory, e);
        if let (1, 0, Some(before)) = (e.kind, done.answer, before) {
            if before.state == 1 {
                m.threads[thread].control.texasr |= before.texasr & ROT;
            }
        }
        done
    }
}

#[test]
fn rot_left_on_is_shrunk_to_two_begins() {
    let (case, text) = shrunk(&LeavesRot);
    assert!(
        matches!(kinds(&case)[..], [1] | [1, 1]),
        "one nested tbegin. is enough\n{case}"
    );
    assert!(text.contains("TEXASR"), "{text}");
}

/// A side that differs in what becomes of rfid and mtmsrd, or of an interrupt:
/// what it makes of the thread's record from before and of the right outcome.
struct Returns(fn(&raw::Thread, raw::Event, &mut Done, &mut raw::Thread));

impl Side for Returns {
    fn step(&self, m: &mut raw::Machine, memory: &mut [u64], e: raw::Event) -> Done {
        let thread = usize::from(e.thread);
        let before = m.threads.get(thread).copied();
        let mut done = Archive.step(m, memory, e);
        if let (Some(before), 16 | 18 | 19) = (before, e.kind) {
            if model::answer::is_done(done.answer) {
                self.0(&before, e, &mut done, &mut m.threads[thread]);
            }
        }
        done
    }
}

/// The kind of the last record, and what differs first.
fn last_and_what(side: &Returns) -> (u8, String) {
    let (case, text) = shrunk(side);
    let last = kinds(&case).pop().expect("a record");
    (last, text)
}

/// S with TM = 0 that asks for N with TM = 0 becomes N. (That TM is then taken
/// shows nowhere: it is 0 before, and 0 is asked.)
const TAKES_N: Returns = Returns(|before, e, done, after| {
    let stays = before.control.state == 2 && after.control.state == 2;
    let asks_n = match e.kind {
        18 => before.control.srr1 >> 33 & 3 == 0,
        19 => e.flags & 3 == 0,
        _ => false,
    };
    if stays && asks_n && done.answer == 0 {
        after.control.state = 0;
    }
});

/// SRR1 is saved after PR was cleared.
const SAVES_LATE: Returns = Returns(|_, e, _, after| {
    if e.kind == 16 {
        after.control.srr1 &= !(1 << 14);
    }
});

/// SRR1 is saved after T became S.
const SAVES_S: Returns = Returns(|_, e, _, after| {
    if e.kind == 16 && after.control.srr1 >> 34 & 1 != 0 {
        after.control.srr1 ^= 3 << 33;
    }
});

/// An interrupt leaves NIA.
const LEAVES_NIA: Returns = Returns(|before, e, _, after| {
    if e.kind == 16 {
        after.control.nia = before.control.nia;
    }
});

/// A doomed transaction goes on in T, and nothing is handled.
const HANDLES_NOT: Returns = Returns(|before, _, done, after| {
    if before.control.state == 2 && done.answer == 20 {
        let (pr, tm) = (after.control.pr, after.control.tm);
        *after = *before;
        (after.control.pr, after.control.tm) = (pr, tm);
        after.control.state = 1;
        *done = Done {
            answer: 0,
            failed: 0,
        };
    }
});

/// Where it is handled, PR stays.
const HANDLES_FIRST: Returns = Returns(|before, _, done, after| {
    if done.answer == 20 {
        after.control.pr = before.control.pr;
    }
});

/// PR is not taken.
const LEAVES_PR: Returns = Returns(|before, e, _, after| {
    if e.kind != 16 {
        after.control.pr = before.control.pr;
    }
});

/// rfid keeps the two low bits of SRR0.
const KEEPS_LOW_BITS: Returns = Returns(|before, e, done, after| {
    if e.kind == 18 && done.answer == 0 {
        after.control.nia = before.control.srr0;
    }
});

/// rfid sets CR0 from the state, as tresume does.
const SETS_CR0: Returns = Returns(|before, e, done, after| {
    if e.kind == 18 && done.answer == 0 {
        after.cr0 = [0b0000, 0b0100, 0b0010][usize::from(before.control.state)];
    }
});

/// rfid clears SRR1.
const CLEARS_SRR1: Returns = Returns(|_, e, _, after| {
    if e.kind == 18 {
        after.control.srr1 = 0;
    }
});

#[test]
fn wrong_interrupts_are_found() {
    for (side, field) in [
        (&SAVES_LATE, "SRR1"),
        (&SAVES_S, "SRR1"),
        (&LEAVES_NIA, "NIA"),
    ] {
        let (last, text) = last_and_what(side);
        assert_eq!(last, 16, "{text}");
        assert!(text.contains(field), "{text}");
    }
}

#[test]
fn wrong_returns_are_found() {
    for (side, field) in [
        (&TAKES_N, "state"),
        (&HANDLES_NOT, "answer: model 20, proved 0"),
        (&HANDLES_FIRST, "PR"),
        (&LEAVES_PR, "PR"),
        (&KEEPS_LOW_BITS, "NIA"),
        (&SETS_CR0, "CR0"),
        (&CLEARS_SRR1, "SRR1"),
    ] {
        let (last, text) = last_and_what(side);
        assert!(matches!(last, 18 | 19), "{text}");
        assert!(text.contains(field), "{text}");
    }
}

/// A side that gives another answer to some events of a thread as it stands,
/// and does not do them.
struct Refuses(fn(&raw::Control, raw::Event) -> bool, u8);

impl Side for Refuses {
    fn step(&self, m: &mut raw::Machine, memory: &mut [u64], e: raw::Event) -> Done {
        let (before, kept) = (*m, memory.to_vec());
        let done = Archive.step(m, memory, e);
        let thread = before.threads.get(usize::from(e.thread));
        let refuses = thread.is_some_and(|t| self.0(&t.control, e));
        if !refuses || !model::answer::is_done(done.answer) {
            return done;
        }
        *m = before;
        memory.copy_from_slice(&kept);
        Done::refused(self.1)
    }
}

/// mtspr and mfspr of SRR0 or SRR1.
fn of_srr(e: raw::Event) -> bool {
    matches!((e.kind, e.x), (10 | 11, 26 | 27))
}

/// SRR0 and SRR1 are taken for a part of the facility.
const ASKS_FOR_TM: Refuses = Refuses(|control, e| of_srr(e) && control.tm == 0, 11);
/// They are not set in S.
const BAD_IN_S: Refuses = Refuses(
    |control, e| of_srr(e) && e.kind == 10 && control.state == 2,
    13,
);
/// rfid and mtmsrd are taken for TM instructions.
const TM_INSTRUCTIONS: Refuses = Refuses(
    |control, e| matches!(e.kind, 18 | 19) && control.tm == 0,
    11,
);
/// In T they are a Bad Thing.
const BAD_IN_T: Refuses = Refuses(
    |control, e| matches!(e.kind, 18 | 19) && control.state == 1 && control.pr == 0,
    13,
);

/// tlbie is taken for a TM instruction.
const TLBIE_OF_TM: Refuses = Refuses(|control, e| e.kind == 26 && control.tm == 0, 11);
/// In T it is a Bad Thing.
const TLBIE_BAD: Refuses = Refuses(|control, e| e.kind == 26 && control.state == 1, 13);

#[test]
fn wrong_refusals_of_the_system_are_found() {
    for (side, last) in [
        (&ASKS_FOR_TM, [10, 11]),
        (&BAD_IN_S, [10, 10]),
        (&TM_INSTRUCTIONS, [18, 19]),
        (&BAD_IN_T, [18, 19]),
        (&TLBIE_OF_TM, [26, 26]),
        (&TLBIE_BAD, [26, 26]),
    ] {
        let (case, text) = shrunk(side);
        let kind = kinds(&case).pop().expect("a record");
        assert!(last.contains(&kind), "{text}");
        let answer = format!("proved {}", side.1);
        assert!(text.contains(&answer), "{text}");
    }
}

/// A side that differs in what becomes of a tlbie that is done in N or S: what it
/// makes of the machine from before and of the right outcome.
struct Invalidates(fn(&raw::Machine, raw::Event, &mut Done, &mut raw::Machine));

impl Side for Invalidates {
    fn step(&self, m: &mut raw::Machine, memory: &mut [u64], e: raw::Event) -> Done {
        let before = *m;
        let mut done = Archive.step(m, memory, e);
        if e.kind == 26 && matches!(done.answer, 0 | 21) {
            self.0(&before, e, &mut done, m);
        }
        done
    }
}

/// The lines of this page in a set.
fn in_page(lines: &raw::Lines, page: u32) -> bool {
    lines.iter().any(|line| u32::from(line) / 32 == page)
}

/// TFIAR is told to be exact for its own.
const EXACT: Invalidates = Invalidates(|_, e, done, after| {
    if done.answer == 21 {
        after.threads[usize::from(e.thread)].control.texasr |= texasr::EXACT;
    }
});

/// Its own is recorded as a conflict of its own.
const SELF_INDUCED: Invalidates = Invalidates(|_, e, done, after| {
    if done.answer == 21 {
        after.threads[usize::from(e.thread)].control.texasr ^= 0x0012_0000 << 32;
    }
});

/// Its own is spared.
const SPARES_ITSELF: Invalidates = Invalidates(|before, e, done, after| {
    if done.answer == 21 {
        let me = usize::from(e.thread);
        let nia = after.threads[me].control.nia;
        after.threads[me] = before.threads[me];
        after.threads[me].control.nia = nia;
        done.answer = 0;
        done.failed &= !(1 << me);
    }
});

/// Others that only loaded of the page are spared, as by a load.
const SPARES_READERS: Invalidates = Invalidates(|before, e, done, after| {
    for (n, old) in before.threads.iter().enumerate() {
        let wrote = in_page(&old.transaction.writes, e.index);
        if n != usize::from(e.thread) && done.failed >> n & 1 != 0 && !wrote {
            after.threads[n] = *old;
            done.failed &= !(1 << n);
        }
    }
});

/// Its own is handled in S, and the answer is 20.
const HANDLES_IN_S: Invalidates = Invalidates(|_, e, done, after| {
    if done.answer == 21 {
        handle(&mut after.threads[usize::from(e.thread)]);
        done.answer = 20;
    }
});

/// Others are handled in S.
const HANDLES_OTHERS: Invalidates = Invalidates(|before, e, done, after| {
    for n in (0..4).filter(|&n| n != usize::from(e.thread)) {
        if done.failed >> n & 1 != 0 && before.threads[n].control.state == 2 {
            handle(&mut after.threads[n]);
        }
    }
});

/// Handling, by rule F6.
fn handle(t: &mut raw::Thread) {
    t.live = t.checkpoint;
    t.cr0 = 0b1010;
    t.control.nia = t.control.tfhar;
    t.control.state = 0;
    t.control.doomed = 0;
}

#[test]
fn wrong_invalidations_are_found() {
    for (side, field) in [
        (&EXACT, "TEXASR"),
        (&SELF_INDUCED, "TEXASR"),
        (&SPARES_ITSELF, "answer: model 21, proved 0"),
        (&SPARES_READERS, "failed: model"),
        (&HANDLES_IN_S, "answer: model 21, proved 20"),
        (&HANDLES_OTHERS, "live registers"),
    ] {
        let (case, text) = shrunk(side);
        assert_eq!(kinds(&case).last(), Some(&26), "{text}");
        assert!(text.contains(field), "{text}");
    }
}

/// Does a tlbie of the page behind, too.
struct HitsNeighbour;

impl Side for HitsNeighbour {
    fn step(&self, m: &mut raw::Machine, memory: &mut [u64], e: raw::Event) -> Done {
        let me = usize::from(e.thread);
        let nia = m.threads.get(me).map(|t| t.control.nia);
        let done = Archive.step(m, memory, e);
        let (26, 0 | 21, Some(nia)) = (e.kind, done.answer, nia) else {
            return done;
        };
        let mut again = *m;
        again.threads[me].control.nia = nia;
        let index = e.index + 1;
        let more = Archive.step(&mut again, memory, raw::Event { index, ..e });
        if !model::answer::is_done(more.answer) {
            return done;
        }
        *m = again;
        Done {
            answer: done.answer.max(more.answer),
            failed: done.failed | more.failed,
        }
    }
}

/// Takes a page that ends past the memory for one that is not in it.
struct WantsWholePages;

impl Side for WantsWholePages {
    fn step(&self, m: &mut raw::Machine, memory: &mut [u64], e: raw::Event) -> Done {
        let (before, len) = (*m, memory.len() as u64);
        let done = Archive.step(m, memory, e);
        let ends_past = 512 * (u64::from(e.index) + 1) > len;
        if e.kind != 26 || !ends_past || !model::answer::is_done(done.answer) {
            return done;
        }
        *m = before;
        Done::refused(4)
    }
}

#[test]
fn wrong_pages_are_found() {
    let (case, text) = shrunk(&HitsNeighbour);
    assert_eq!(kinds(&case).last(), Some(&26), "{text}");
    let (case, text) = shrunk(&WantsWholePages);
    assert_eq!(kinds(&case).last(), Some(&26), "{text}");
    assert!(text.contains("proved 4"), "{text}");
}

/// A side that differs in what becomes of an access or of a commit: what it makes
/// of the machine and the memory from before and of the right outcome.
struct Bytes(fn(&raw::Machine, &[u64], raw::Event, &mut raw::Machine, &mut [u64]));

impl Side for Bytes {
    fn step(&self, m: &mut raw::Machine, memory: &mut [u64], e: raw::Event) -> Done {
        let (before, kept) = (*m, memory.to_vec());
        let done = Archive.step(m, memory, e);
        if done.answer == 0 && matches!(e.kind, 2 | 12 | 13 | 20..=25) {
            self.0(&before, &kept, e, m, memory);
        }
        done
    }
}

/// The places that this thread's log had, if the event was its commit.
fn committed(before: &raw::Machine, e: raw::Event, after: &raw::Machine) -> Vec<raw::Entry> {
    let me = usize::from(e.thread);
    let ended = before.threads[me].control.state == 1 && after.threads[me].control.state == 0;
    let log = &before.threads[me].transaction;
    match e.kind == 2 && ended {
        true => log.log[..log.count].to_vec(),
        false => vec![],
    }
}

/// A commit writes whole doublewords (rule S7).
const COMMITS_ALL: Bytes = Bytes(|before, _, e, after, memory| {
    for place in committed(before, e, after) {
        memory[place.index as usize] = place.value;
    }
});

/// A commit leaves a stored byte that is 0.
const SKIPS_ZEROS: Bytes = Bytes(|before, kept, e, after, memory| {
    for place in committed(before, e, after) {
        let index = place.index as usize;
        let (was, is) = (kept[index].to_be_bytes(), memory[index].to_be_bytes());
        let bytes = std::array::from_fn(|k| if is[k] == 0 { was[k] } else { is[k] });
        memory[index] = u64::from_be_bytes(bytes);
    }
});

/// The place of a thread's log with this doubleword.
fn placed(m: &mut raw::Machine, thread: u8, index: u32) -> Option<&mut raw::Entry> {
    let transaction = &mut m.threads[usize::from(thread)].transaction;
    let used = transaction.log[..transaction.count].iter_mut();
    used.into_iter().find(|place| place.index == index)
}

/// A narrow store in T marks all eight bytes.
const MARKS_ALL: Bytes = Bytes(|_, _, e, after, _| {
    let in_t = after.threads[usize::from(e.thread)].control.state == 1;
    if matches!(e.kind, 23..=25) && in_t {
        if let Some(place) = placed(after, e.thread, e.index / 8) {
            place.marks = raw::ALL_MARKS;
        }
    }
});

/// A second store to a place forgets what the first has marked.
const FORGETS_MARKS: Bytes = Bytes(|before, _, e, after, _| {
    let mut before = *before;
    let in_t = after.threads[usize::from(e.thread)].control.state == 1;
    if !matches!(e.kind, 23..=25) || !in_t {
        return;
    }
    if let Some(old) = placed(&mut before, e.thread, e.index / 8) {
        let width = 1 << (e.kind - 23);
        let stored = 0xFF_u8 >> (8 - width) << (8 - width - e.index % 8);
        if let Some(place) = placed(after, e.thread, e.index / 8) {
            if old.marks & !stored != 0 {
                place.marks = stored;
            }
        }
    }
});

/// A load that finds its doubleword in the log takes all bytes from there.
const LOADS_THE_PLACE: Bytes = Bytes(|before, _, e, after, _| {
    let mut before = *before;
    if e.kind == 12 {
        if let Some(place) = placed(&mut before, e.thread, e.index) {
            after.threads[usize::from(e.thread)].live.gpr[usize::from(e.x)] = place.value;
        }
    }
});

/// Byte 0 is the lowest.
const LOWEST_FIRST: Bytes = Bytes(|before, kept, e, after, _| {
    let mut before = *before;
    if e.kind == 20 && placed(&mut before, e.thread, e.index / 8).is_none() {
        let byte = kept[e.index as usize / 8].to_le_bytes()[e.index as usize % 8];
        after.threads[usize::from(e.thread)].live.gpr[usize::from(e.x)] = byte.into();
    }
});

/// lhz extends the sign.
const EXTENDS: Bytes = Bytes(|_, _, e, after, _| {
    if e.kind == 21 {
        let r = &mut after.threads[usize::from(e.thread)].live.gpr[usize::from(e.x)];
        *r = *r as u16 as i16 as u64;
    }
});

/// A store of four bytes in N or S writes eight.
const STORES_EIGHT: Bytes = Bytes(|before, _, e, _, memory| {
    let t = &before.threads[usize::from(e.thread)];
    if e.kind == 25 && t.control.state != 1 {
        memory[e.index as usize / 8] = t.live.gpr[usize::from(e.ra)];
    }
});

#[test]
fn wrong_bytes_are_found() {
    for (side, last, field) in [
        (&COMMITS_ALL, &[2][..], "memory at"),
        (&SKIPS_ZEROS, &[2], "memory at"),
        (&MARKS_ALL, &[23, 24, 25], "log"),
        (&FORGETS_MARKS, &[23, 24, 25], "log"),
        (&LOADS_THE_PLACE, &[12], "live registers"),
        (&LOWEST_FIRST, &[20], "live registers"),
        (&EXTENDS, &[21], "live registers"),
        (&STORES_EIGHT, &[25], "memory at"),
    ] {
        let (case, text) = shrunk(side);
        let kind = kinds(&case).pop().expect("a record");
        assert!(last.contains(&kind), "{text}");
        assert!(text.contains(field), "{text}");
    }
}

/// A narrow access that is refused by 4 for its address alone is done at the
/// multiple below.
struct RoundsDown;

impl Side for RoundsDown {
    fn step(&self, m: &mut raw::Machine, memory: &mut [u64], e: raw::Event) -> Done {
        let done = Archive.step(m, memory, e);
        if done.answer != 4 || !matches!(e.kind, 20..=25) {
            return done;
        }
        let width = 1 << ((e.kind - 20) % 3);
        let index = e.index / width * width;
        Archive.step(m, memory, raw::Event { index, ..e })
    }
}

/// Takes the memory's length for the end of the addresses.
struct EndsEarly;

impl Side for EndsEarly {
    fn step(&self, m: &mut raw::Machine, memory: &mut [u64], e: raw::Event) -> Done {
        let (before, kept) = (*m, memory.to_vec());
        let done = Archive.step(m, memory, e);
        let past = e.index as usize >= kept.len();
        if !matches!(e.kind, 20..=25) || !past || !model::answer::is_done(done.answer) {
            return done;
        }
        *m = before;
        memory.copy_from_slice(&kept);
        Done::refused(4)
    }
}

#[test]
fn wrong_addresses_are_found() {
    let (case, text) = shrunk(&RoundsDown);
    assert!(matches!(kinds(&case)[..], [21 | 22 | 24 | 25]), "{text}");
    assert!(text.contains("answer: model 4, proved 0"), "{text}");
    let (case, text) = shrunk(&EndsEarly);
    assert!(matches!(kinds(&case)[..], [20..=25]), "{text}");
    assert!(text.contains("answer: model 0, proved 4"), "{text}");
}

/// Lets a machine pass whose log has wrong marks: a place past the count is not
/// looked at, nor are the bytes without a mark.
struct TakesAnyMarks;

impl Side for TakesAnyMarks {
    fn valid(&self, m: &raw::Machine, len: usize) -> u8 {
        let mut mended = *m;
        for t in &mut mended.threads {
            let used = t.transaction.count;
            for (n, place) in t.transaction.log.iter_mut().enumerate() {
                place.marks = if n < used { raw::ALL_MARKS } else { 0 };
            }
        }
        Archive.valid(&mended, len)
    }
}

#[test]
fn wrong_marks_are_found() {
    let failure = found(&TakesAnyMarks);
    assert!(failure.what.contains("valid of "), "{failure}");
    assert!(failure.what.contains("model 2, proved 0"), "{failure}");
}

/// Has one level less: a tbegin. overflows at the last level but one.
struct Shallow;

impl Side for Shallow {
    fn step(&self, m: &mut raw::Machine, memory: &mut [u64], e: raw::Event) -> Done {
        if let Some(t) = m.threads.get_mut(usize::from(e.thread)) {
            let last_but_one = t.control.texasr & texasr::TL == MAX_LEVEL - 1;
            if e.kind == 1 && t.control.state == 1 && last_but_one {
                t.control.texasr += 1;
            }
        }
        Archive.step(m, memory, e)
    }
}

/// No tape climbs that far: a start is at the level, or near it.
#[test]
fn one_level_less_is_shrunk_to_few_records() {
    let (case, _) = shrunk(&Shallow);
    assert_eq!(kinds(&case).last(), Some(&1), "{case}");
    assert!(case.records.len() <= 8, "{case}");
    assert_ne!(case.start, Start::FRESH, "{case}");
}

/// Writes one doubleword too many: the one after a plain store's.
struct Spills;

impl Side for Spills {
    fn step(&self, m: &mut raw::Machine, memory: &mut [u64], e: raw::Event) -> Done {
        let done = Archive.step(m, memory, e);
        if e.kind == 13 && done.answer == 0 {
            if let Some(next) = memory.get_mut(e.index as usize + 1) {
                *next ^= 1;
            }
        }
        done
    }
}

#[test]
fn a_wrong_doubleword_is_shrunk_to_one_store_from_fresh() {
    let (case, _) = shrunk(&Spills);
    assert_eq!(case.start, Start::FRESH, "{case}");
    assert_eq!(kinds(&case), [13], "{case}");
    // Nothing of the record is needed but its kind.
    assert_eq!(case.records[0][2..], [0; 14], "{case}");
}

/// Does one record too few when a run is stopped by 13.
struct Miscounts;

impl Side for Miscounts {
    fn run(&self, m: &mut raw::Machine, memory: &mut [u64], tape: &[u8]) -> Ended {
        let mut ended = Archive.run(m, memory, tape);
        if ended.answer == 13 && ended.count > 0 {
            ended.count -= 1;
        }
        ended
    }
}

#[test]
fn a_wrong_run_is_shrunk_to_two_records() {
    let (case, _) = shrunk(&Miscounts);
    assert!(case.tail.is_some());
    assert_eq!(case.records.len(), 2, "{case}");
}

/// Whether the tape was refused for a record.
fn is_bad(ended: Ended) -> bool {
    matches!(ended.answer, 7..=9)
}

/// Does the events before a bad record.
struct RunsHalf;

impl Side for RunsHalf {
    fn run(&self, m: &mut raw::Machine, memory: &mut [u64], tape: &[u8]) -> Ended {
        let ended = Archive.run(m, memory, tape);
        if is_bad(ended) {
            Archive.run(m, memory, &tape[..16 * ended.index]);
        }
        ended
    }
}

/// Stops at a refused event before it reads what is behind.
struct ReadsLate;

impl Side for ReadsLate {
    fn run(&self, m: &mut raw::Machine, memory: &mut [u64], tape: &[u8]) -> Ended {
        let (mut other, mut copy) = (*m, memory.to_vec());
        let ended = Archive.run(m, memory, tape);
        if !is_bad(ended) {
            return ended;
        }
        let before = Archive.run(&mut other, &mut copy, &tape[..16 * ended.index]);
        match (before.answer, before.count) {
            (0, _) | (_, 1..) => ended,
            _ => before,
        }
    }
}

/// Tells the last bad record and not the first.
struct RunsFromTheEnd;

impl Side for RunsFromTheEnd {
    fn run(&self, m: &mut raw::Machine, memory: &mut [u64], tape: &[u8]) -> Ended {
        let ended = Archive.run(m, memory, tape);
        let answers = tape.chunks(16).map(|record| Archive.read(record).answer);
        match answers.enumerate().rfind(|(_, answer)| *answer != 0) {
            Some((index, answer)) if is_bad(ended) => Ended {
                answer,
                count: 0,
                index,
            },
            _ => ended,
        }
    }
}

/// Tells no index where the tape is ragged.
struct LosesIndex;

impl Side for LosesIndex {
    fn run(&self, m: &mut raw::Machine, memory: &mut [u64], tape: &[u8]) -> Ended {
        let mut ended = Archive.run(m, memory, tape);
        if ended.answer == 6 {
            ended.index = 0;
        }
        ended
    }
}

#[test]
fn half_runs_are_shrunk_to_few_records() {
    // An event that is done, and a bad record.
    let (case, _) = shrunk(&RunsHalf);
    assert_eq!(case.records.len(), 2, "{case}");
    // An event that is refused, and a bad record.
    let (case, text) = shrunk(&ReadsLate);
    assert_eq!(case.records.len(), 2, "{case}");
    assert!(text.contains("run: model Ended { answer: "), "{text}");
    // Two bad records.
    let (case, _) = shrunk(&RunsFromTheEnd);
    assert_eq!(case.records.len(), 2, "{case}");
    // A record, and a piece of one.
    let (case, _) = shrunk(&LosesIndex);
    assert_eq!(case.records.len(), 1, "{case}");
    assert!(case.tail.is_some_and(|tail| !tail.is_empty()));
}

/// Lets an event of a broken machine through, if its bits are one.
struct Trusts;

impl Side for Trusts {
    fn step(&self, m: &mut raw::Machine, memory: &mut [u64], e: raw::Event) -> Done {
        let is_machine = naszeptan::Machine::try_from(&*m).is_ok();
        let done = Archive.step(m, memory, e);
        let answer = match done.answer {
            2 if is_machine => 0,
            answer => answer,
        };
        Done { answer, ..done }
    }
}

#[test]
fn a_broken_machine_let_through_is_found_with_its_start() {
    let (case, _) = shrunk(&Trusts);
    assert!(
        matches!(case.start.kind, Kind::Broken | Kind::Shaken),
        "{case}"
    );
    assert_eq!(case.records.len(), 1, "{case}");
}

/// Takes any odd byte for TM = 1 and any even one for 0.
struct Lax;

impl Side for Lax {
    fn valid(&self, m: &raw::Machine, len: usize) -> u8 {
        let mut m = *m;
        m.threads.iter_mut().for_each(|t| t.control.tm &= 1);
        Archive.valid(&m, len)
    }
}

/// Takes any byte for the last of a record.
struct ReadsLess;

impl Side for ReadsLess {
    fn read(&self, record: &[u8]) -> raw::Record {
        match *record {
            [ref first @ .., _] if record.len() == 16 => Archive.read(&[first, &[0]].concat()),
            _ => Archive.read(record),
        }
    }
}

/// Writes one byte past the sixteenth.
struct WritesMore;

impl Side for WritesMore {
    fn write(&self, e: raw::Event, buffer: &mut [u8]) -> u8 {
        let answer = Archive.write(e, buffer);
        if let (0, Some(next)) = (answer, buffer.get_mut(16)) {
            *next = !*next;
        }
        answer
    }
}

#[test]
fn wrong_calls_are_found() {
    assert!(found(&Lax).what.starts_with("valid of"));
    assert!(found(&TellsOfNoMachine).what.starts_with("step of"));
    assert!(found(&ReadsLess).what.starts_with("read of"));
    assert!(found(&WritesMore).what.starts_with("write of"));
}

/// Reads an index of edition two highest byte first.
struct ReadsHighFirst;

impl Side for ReadsHighFirst {
    fn read_two(&self, record: &[u8]) -> raw::Record {
        let mut record = Archive.read_two(record);
        record.event.index = record.event.index.swap_bytes();
        record
    }
}

/// Writes a record of edition two by a thread above 3 for the one that it is
/// modulo 4.
struct WritesAnyThread;

impl Side for WritesAnyThread {
    fn write_two(&self, e: raw::Event, buffer: &mut [u8]) -> u8 {
        let thread = e.thread & 3;
        Archive.write_two(raw::Event { thread, ..e }, buffer)
    }
}

/// Tests the buffer before the thread.
struct WritesBufferFirst;

impl Side for WritesBufferFirst {
    fn write_two(&self, e: raw::Event, buffer: &mut [u8]) -> u8 {
        match Archive.write_two(e, buffer) {
            3 if buffer.len() < 16 => 10,
            answer => answer,
        }
    }
}

#[test]
fn wrong_records_of_edition_two_are_found() {
    assert!(found(&ReadsHighFirst).what.starts_with("read of"));
    assert!(found(&WritesAnyThread).what.starts_with("write of"));
    assert!(found(&WritesBufferFirst).what.starts_with("write of"));
}

/// Leaves in the buffer what it converted before the record that is refused.
struct ConvertsSome;

impl Side for ConvertsSome {
    fn convert(&self, from: Edition, tape: &[u8], buffer: &mut [u8]) -> (u8, usize) {
        let (answer, index) = Archive.convert(from, tape, buffer);
        if matches!(answer, 3 | 7 | 8 | 9) {
            Archive.convert(from, &tape[..16 * index], buffer);
        }
        (answer, index)
    }
}

/// Tells the last record that is refused and not the first.
struct ConvertsFromTheEnd;

impl Side for ConvertsFromTheEnd {
    fn convert(&self, from: Edition, tape: &[u8], buffer: &mut [u8]) -> (u8, usize) {
        let told = Archive.convert(from, tape, buffer);
        if !matches!(told.0, 3 | 7 | 8 | 9) {
            return told;
        }
        let mut refused = tape
            .chunks(16)
            .enumerate()
            .map(|(n, record)| (Archive.convert(from, record, &mut [0; 16]).0, n));
        refused.rfind(|(answer, _)| *answer != 0).unwrap_or(told)
    }
}

/// Takes edition three for edition two where the first record is refused so.
struct Guesses;

impl Side for Guesses {
    fn convert(&self, from: Edition, tape: &[u8], buffer: &mut [u8]) -> (u8, usize) {
        match Archive.convert(from, tape, buffer) {
            (7, 0) => Archive.convert(from.other(), tape, buffer),
            told => told,
        }
    }
}

/// Tests the buffer before the tape's length.
struct ConvertsBufferFirst;

impl Side for ConvertsBufferFirst {
    fn convert(&self, from: Edition, tape: &[u8], buffer: &mut [u8]) -> (u8, usize) {
        match buffer.len() < tape.len() {
            true => (10, 0),
            false => Archive.convert(from, tape, buffer),
        }
    }
}

/// Writes over the whole buffer, and not only as much as the tape has.
struct ConvertsMore;

impl Side for ConvertsMore {
    fn convert(&self, from: Edition, tape: &[u8], buffer: &mut [u8]) -> (u8, usize) {
        let told = Archive.convert(from, tape, buffer);
        if told.0 == 0 {
            buffer[tape.len()..].fill(0);
        }
        told
    }
}

#[test]
fn wrong_converters_are_found() {
    assert!(found(&ConvertsSome).what.starts_with("converting"));
    assert!(found(&ConvertsFromTheEnd).what.starts_with("converting"));
    assert!(found(&Guesses).what.starts_with("converting"));
    assert!(found(&ConvertsBufferFirst).what.starts_with("converting"));
    assert!(found(&ConvertsMore).what.starts_with("converting"));
}

#[test]
fn the_counts_do_not_depend_on_the_workers() {
    let events = 2100;
    let (alone, failure) = compare(&Archive, SEED, events, (0, 1));
    assert_eq!(failure, None);
    assert_eq!(alone.events(), events);
    let mut shared = Counts::default();
    for share in 0..3 {
        let (counts, _) = compare(&Archive, SEED, events, (share, 3));
        shared.add(counts.numbers());
    }
    assert_eq!(alone, shared);
}

#[test]
fn what_was_not_met_is_told() {
    let nothing = Counts::default();
    assert_eq!(nothing.wrong(ALL_MET_FROM - 1), [""; 0]);
    let unmet = nothing.wrong(ALL_MET_FROM);
    for cell in [
        "tbegin., T, 20",
        "std, S, 21",
        "std, S, failed: and 3",
        "tlbie, S, failed: and 3",
        "tlbie, S, doomed, 4",
        "tlbie spares a load under ROT",
        "tsr., S, doomed, failed: itself",
        "rfid, S, TM = 0, doomed, asks T,1, PR 1: 20",
        "mtmsrd, S, TM = 0, asks N,0, PR 0: 0",
        "mtspr SRR0, T, PR=0 TM=0: 13",
        "rfid to an SRR0 with low bits",
        "run, none done, 6",
        "run: 7 behind records that would be done",
        "run: 9 behind a refusal by 3",
        "run: 8 behind a refusal by 13",
        "run: 6, some whole records",
        "write, 10",
        "write two, 3",
        "read two, std",
        "two to three: all of the other edition",
        "three to two: 6 before 10",
    ] {
        assert!(unmet.contains(&format!("not met: {cell}")), "{cell}");
    }
}

/// Whatever the number of events.
#[test]
fn what_cannot_be_met_is_told() {
    let mut counts = Counts::default();
    counts.event(2, Before::T, 21, &Seen::default());
    let tend = raw::Event {
        kind: 2,
        thread: 1,
        ..raw::Event::default()
    };
    let (answer, failed) = (0, 0b0010);
    counts.failed(tend, Before::T, Done { answer, failed });
    let (answer, failed) = (4, 0b0001);
    counts.failed(tend, Before::T, Done { answer, failed });
    counts.call(Call::RunSome, 7);
    counts.call(Call::Write, 6);
    assert_eq!(
        counts.wrong(1),
        [
            "met 1 times: tend., T, 21, though a commit cannot fail",
            "met 1 times: tend., -, failed: 1 other, though a refused event fails no one",
            "met 1 times: tend., T, failed: itself, though 20, 21 and treclaim. of a live \
             transaction tell its own thread, nothing else",
            "met 1 times: run, some done, 7, though it never gives that",
            "met 1 times: write, 6, though it never gives that"
        ]
    );
}
