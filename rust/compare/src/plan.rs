//! Which event comes next: random ones for the machine as it is, among them
//! scenes of many events that random ones would seldom complete.

use std::collections::VecDeque;

use model::gen::{self, Rng};
use model::machine::{LINE, LOG, MAX_FOOTPRINT, MAX_LEVEL, PAGE};
use model::{Event, Machine, Msr, State, Thread};
use naszeptan::raw;

use crate::sides::event;

/// The rest of the scene that is being played.
#[derive(Default)]
pub struct Plan {
    waiting: VecDeque<(u8, Event)>,
}

impl Plan {
    /// The next event for this machine with a memory of `len`. Once in a
    /// while it is no event: a wrong kind, or a field that must be 0.
    pub fn next(&mut self, rng: &mut Rng, m: &Machine, len: usize) -> raw::Event {
        if rng.one_in(24) {
            return damaged(rng, m, len);
        }
        if self.waiting.is_empty() && rng.one_in(20) {
            self.waiting.extend(scene(rng, m, len));
        }
        // Others go between the events of a scene, so that threads meet.
        if !rng.one_in(8) {
            if let Some((thread, e)) = self.waiting.pop_front() {
                return event(thread, e);
            }
        }
        let (thread, e) = gen::event(rng, m, len);
        event(thread, mended(rng, m, len, (thread, e)))
    }
}

/// Turns some events so that live transactions are met more often: left to
/// itself, a thread is mostly failed, doomed or without the facility.
fn mended(rng: &mut Rng, m: &Machine, len: usize, (thread, e): (u8, Event)) -> Event {
    let Some(t) = m.threads.get(usize::from(thread)) else {
        return e;
    };
    let tm = true;
    match t.state {
        // No event leads to T with TM = 0: what is met there is met soon.
        State::T if !t.tm && !rng.one_in(4) => system(rng),
        State::N | State::S if !t.tm && rng.one_in(4) => system(rng),
        State::N | State::S if !t.tm && rng.one_in(3) => Event::Host { pr: rng.flag(), tm },
        State::N if rng.one_in(4) => Event::Tbegin { r: rng.one_in(4) },
        State::S if t.doomed && rng.one_in(4) => Event::Tsr { l: true },
        State::T if is_deep(t) && rng.one_in(4) => Event::Tbegin { r: rng.flag() },
        State::T if is_full(t) && rng.flag() => pressed(rng, m, len),
        _ => e,
    }
}

/// What the handler of an interrupt does and a program may not: it asks for any
/// state, or moves SRR0 or SRR1.
fn system(rng: &mut Rng) -> Event {
    let (r, spr) = (rng.below(32) as u8, rng.pick([26, 27]));
    match rng.below(6) {
        0 | 1 => Event::Rfid,
        2 => Event::Mtspr { spr, ra: r },
        3 => Event::Mfspr { rt: r, spr },
        _ => {
            let Msr { ts, tm, pr } = gen::msr(rng);
            Event::Mtmsrd { ts, tm, pr }
        }
    }
}

/// The levels that a transaction has left (rule E1), in T.
fn levels_left(t: &Thread) -> u64 {
    MAX_LEVEL.saturating_sub(t.level())
}

/// Whether its next tbegin. overflows, or the one after that.
fn is_deep(t: &Thread) -> bool {
    levels_left(t) <= 1
}

/// Whether the footprint or the log takes no more.
fn is_full(t: &Thread) -> bool {
    t.footprint() == MAX_FOOTPRINT || t.count == LOG
}

/// An access that a full transaction mostly cannot make, often to a line that
/// some thread has.
fn pressed(rng: &mut Rng, m: &Machine, len: usize) -> Event {
    let lines = (len / LINE).max(1);
    let had = rng.pick([0, 1, 2, 3]);
    let had = m.threads[had].reads.union(&m.threads[had].writes);
    let from = rng.below(lines);
    let line = (from..lines).chain(0..from).find(|&l| had.contains(l));
    let index = (line.unwrap_or(from) * LINE + rng.below(LINE)) as u32;
    let store = rng.flag();
    access(rng, store, 5, index)
}

/// A load or a store of any width in this doubleword.
fn access(rng: &mut Rng, store: bool, r: u8, index: u32) -> Event {
    let width = rng.pick([1, 2, 4, 8]);
    let address = index.wrapping_mul(8) + rng.below(8) as u32 / width * width;
    match (store, width) {
        (false, 1) => Event::Lbz { rt: r, address },
        (false, 2) => Event::Lhz { rt: r, address },
        (false, 4) => Event::Lwz { rt: r, address },
        (false, _) => Event::Ld { rt: r, index },
        (true, 1) => Event::Stb { ra: r, address },
        (true, 2) => Event::Sth { ra: r, address },
        (true, 4) => Event::Stw { ra: r, address },
        (true, _) => Event::Std { ra: r, index },
    }
}

/// Fields that are mostly no event. Whether they are is for the model to say.
pub fn damaged(rng: &mut Rng, m: &Machine, len: usize) -> raw::Event {
    let (thread, e) = gen::event(rng, m, len);
    let mut e = event(thread, e);
    let byte = rng.byte();
    let small = rng.pick([1, 2, 3, 4, 16, 32, 128, 255, byte]);
    for _ in 0..rng.pick([1, 1, 2]) {
        match rng.below(8) {
            0 => e.kind = rng.pick([0, 18, 19, 20, 21, 22, 23, 24, 25, 26, 27, 28, 255, byte]),
            1 => e.thread = rng.pick([4, 255, byte]),
            2 => e.x = small,
            3 => e.ra = small,
            4 => e.rb = small,
            5 => e.flags = small,
            6 => e.index = 1 << rng.below(32),
            _ => e.si = 1 << rng.below(16),
        }
    }
    e
}

/// Where a scene is played: its thread, another thread, and its first line.
struct Stage {
    me: u8,
    other: u8,
    first: usize,
    len: usize,
}

impl Stage {
    /// The index of a doubleword of the nth line from the first, around the
    /// end of memory.
    fn index(&self, nth: usize, within: usize) -> u32 {
        let lines = (self.len / LINE).max(1);
        ((self.first + nth) % lines * LINE + within % LINE) as u32
    }
}

/// A scene on this machine: the events of one thread, and of others where
/// they belong to it.
fn scene(rng: &mut Rng, m: &Machine, len: usize) -> Vec<(u8, Event)> {
    let count = m.count.clamp(1, 4);
    let me = rng.below(count);
    let stage = Stage {
        me: me as u8,
        other: ((me + 1) % count) as u8,
        first: rng.below((len / LINE).max(1)),
        len,
    };
    if rng.one_in(6) {
        return rot_off(rng, &stage);
    }
    // Stores of four widths by which two and three others fail, in each state.
    if count > 2 && rng.one_in(2) {
        return shared(rng, &stage, count as u8);
    }
    let r = rng.one_in(4);
    let begin = Event::Tbegin { r };
    match rng.below(13) {
        0 => full_log(rng, &stage, begin),
        1 => full_footprint(rng, &stage, begin),
        2 => too_deep(m, me, begin),
        3 => nested(rng, me, begin),
        4 => doomed(rng, &stage, begin),
        5 => reclaimed(rng, &stage, begin),
        6 => shared(rng, &stage, count as u8),
        7 => interrupted(rng, &stage, begin),
        8..=9 => invalidated(rng, &stage, begin),
        10..=11 => merged(rng, &stage, begin),
        _ => overwritten(rng, &stage, begin),
    }
}

/// All events by one thread.
fn alone(me: usize, events: impl IntoIterator<Item = Event>) -> Vec<(u8, Event)> {
    events.into_iter().map(|e| (me as u8, e)).collect()
}

/// 65 doublewords of five lines: one more than the log takes, whole or in part.
/// Before the last, one that has a place is stored to once more.
fn full_log(rng: &mut Rng, stage: &Stage, begin: Event) -> Vec<(u8, Event)> {
    let narrow = rng.flag();
    let mut store = |n: usize| {
        let (ra, index) = ((n % 32) as u8, stage.index(n / LINE, n));
        match narrow {
            true => access(rng, true, ra, index),
            false => Event::Std { ra, index },
        }
    };
    let mut events = vec![begin];
    events.extend((0..64).map(&mut store));
    events.extend([store(17), store(64)]);
    alone(stage.me.into(), events)
}

/// One or two doublewords stored to and loaded in all widths, in T, some in S too
/// while the transaction lives, then mostly committed, and loaded by another.
fn merged(rng: &mut Rng, stage: &Stage, begin: Event) -> Vec<(u8, Event)> {
    let within = rng.below(LINE);
    let indices = [stage.index(0, within), stage.index(0, within + 1)];
    let two = rng.one_in(3);
    let mut events = vec![begin];
    for n in 0..4 + rng.below(8) {
        let index = indices[usize::from(two && rng.flag())];
        let store = rng.below(5) < 3;
        let r = (1 + n % 30) as u8;
        events.push(access(rng, store, r, index));
    }
    if rng.flag() {
        events.push(Event::Tsr { l: false });
        for _ in 0..1 + rng.below(4) {
            events.push(access(rng, false, 6, indices[0]));
        }
        if rng.one_in(3) {
            events.push(access(rng, true, 7, indices[0]));
        }
        events.push(Event::Tsr { l: true });
    }
    events.push(match rng.one_in(6) {
        true => Event::Tabort { ra: 0 },
        false => Event::Tend { a: true },
    });
    let mut scene = alone(stage.me.into(), events);
    for index in indices {
        scene.push((stage.other, Event::Ld { rt: 6, index }));
    }
    scene
}

/// 33 lines, one more than the footprint takes, read or written.
fn full_footprint(rng: &mut Rng, stage: &Stage, begin: Event) -> Vec<(u8, Event)> {
    let accesses: Vec<Event> = (0..33)
        .map(|n| {
            let index = stage.index(n, rng.below(LINE));
            let store = rng.flag();
            access(rng, store, 5, index)
        })
        .collect();
    alone(stage.me.into(), std::iter::once(begin).chain(accesses))
}

/// A ROT that loads, tracks its loads from a nested tbegin. on, ends that level,
/// and meets another thread's stores to what it loaded before and after. Some
/// have written all lines that they may, so that the tracked load overflows.
fn rot_off(rng: &mut Rng, stage: &Stage) -> Vec<(u8, Event)> {
    let (before, after) = (stage.index(0, 1), stage.index(1, 2));
    let lines = if rng.one_in(3) { MAX_FOOTPRINT } else { 0 };
    let stores = (0..lines as usize).map(|n| Event::Std {
        ra: 5,
        index: stage.index(n + 2, n),
    });
    let (rot, plain) = (Event::Tbegin { r: true }, Event::Tbegin { r: false });
    let load = |index| Event::Ld { rt: 6, index };
    let events = [rot, load(before)].into_iter().chain(stores);
    let events = events.chain([plain, load(after), Event::Tend { a: false }]);
    let mut scene = alone(stage.me.into(), events);
    for index in [before, after] {
        scene.push((stage.other, Event::Std { ra: 3, index }));
    }
    scene
}

/// One tbegin. more than the deepest transaction has levels left. Where it has
/// many left, or none is in T, this thread goes some levels down.
fn too_deep(m: &Machine, me: usize, begin: Event) -> Vec<(u8, Event)> {
    const MANY: u64 = 8;
    let threads = m.threads.iter().take(m.count).enumerate();
    let deepest = threads
        .filter(|(_, t)| t.state == State::T)
        .map(|(n, t)| (levels_left(t), n))
        .min();
    let (left, who) = deepest
        .filter(|&(left, _)| left <= MANY)
        .unwrap_or((MANY, me));
    alone(who, (0..=left).map(|_| begin))
}

/// Some levels down and up again, with a store at the bottom.
fn nested(rng: &mut Rng, me: usize, begin: Event) -> Vec<(u8, Event)> {
    let levels = 1 + rng.below(5);
    let a = rng.one_in(6);
    let down = (0..levels).map(|_| begin);
    let store = Event::Std { ra: 4, index: 3 };
    let up = (0..levels).map(|_| Event::Tend { a });
    alone(me, down.chain([store]).chain(up))
}

/// A suspended transaction that fails by its own store or by another
/// thread's, fails once more, and is resumed.
fn doomed(rng: &mut Rng, stage: &Stage, begin: Event) -> Vec<(u8, Event)> {
    let index = stage.index(0, 1);
    let by = rng.pick([stage.me, stage.other]);
    let me = stage.me;
    vec![
        (me, begin),
        (me, Event::Std { ra: 2, index }),
        (me, Event::Tsr { l: false }),
        (me, Event::Ld { rt: 6, index }),
        (by, Event::Std { ra: 3, index }),
        (me, Event::Tcheck { bf: 1 }),
        (me, Event::Tabort { ra: 3 }),
        (me, Event::Ld { rt: 6, index }),
        (me, Event::Tsr { l: true }),
    ]
}

/// What a system does at a switch: interrupt, reclaim, read and write the
/// special registers, recheckpoint, resume.
fn reclaimed(rng: &mut Rng, stage: &Stage, begin: Event) -> Vec<(u8, Event)> {
    let index = stage.index(0, 2);
    let host = Event::Host {
        pr: false,
        tm: true,
    };
    let spr = 128 + rng.below(4) as u8;
    alone(
        stage.me.into(),
        [
            begin,
            Event::Std { ra: 2, index },
            Event::Interrupt,
            host,
            Event::Treclaim { ra: 3 },
            Event::Mfspr { rt: 7, spr },
            Event::Mtspr { spr, ra: 7 },
            Event::Trechkpt,
            Event::Tcheck { bf: 7 },
            Event::Tsr { l: true },
        ],
    )
}

/// All threads read one line, and then one of them stores to it or does a tlbie
/// of its page, so that all others fail in one event: that one as it stood, or in
/// T, in S, doomed or after a commit, with the line in its own sets or not.
fn shared(rng: &mut Rng, stage: &Stage, count: u8) -> Vec<(u8, Event)> {
    let index = stage.index(0, rng.below(LINE));
    let tlbie = rng.one_in(3);
    // Into T from any state but that of a full transaction.
    let (pr, tm) = (!tlbie && rng.flag(), true);
    let enter = [
        Event::Host { pr, tm },
        Event::Tsr { l: true },
        Event::Tbegin { r: false },
    ];
    let load = access(rng, false, 6, index);
    let store = access(rng, true, 5, index);
    let (suspend, abort) = (Event::Tsr { l: false }, Event::Tabort { ra: 0 });
    let mut mine = match rng.below(4) {
        0 => Vec::from_iter(tlbie.then_some(Event::Host { pr, tm })),
        _ => enter.to_vec(),
    };
    mine.extend(rng.flag().then_some(load));
    let end = Event::Tend { a: true };
    let ways: [&[Event]; 5] = [&[], &[suspend], &[suspend], &[suspend, abort], &[end]];
    mine.extend(rng.pick(ways));
    mine.push(match tlbie {
        true => Event::Tlbie {
            page: page_of(index),
        },
        false => store,
    });
    let others = (0..count).filter(|&thread| thread != stage.me);
    let others = others.flat_map(|thread| {
        enter
            .map(|e| (thread, e))
            .into_iter()
            .chain([(thread, load)])
    });
    others
        .chain(mine.into_iter().map(|e| (stage.me, e)))
        .collect()
}

/// The page of a doubleword.
fn page_of(index: u32) -> u32 {
    index / (PAGE * LINE) as u32
}

/// A transaction with one line, mostly at the border of a page, loaded or stored
/// to, and a tlbie of its page or the one beside it: by its own thread, in T, in S
/// or doomed, or by another.
fn invalidated(rng: &mut Rng, stage: &Stage, begin: Event) -> Vec<(u8, Event)> {
    let lines = (stage.len / LINE).max(1);
    let border = PAGE * (1 + rng.below(lines.div_ceil(PAGE)));
    let line = match rng.one_in(4) {
        true => stage.first,
        false => (border - rng.below(2)).min(lines - 1),
    };
    let index = (line * LINE + rng.below(LINE)) as u32;
    let page = page_of(index);
    let beside = rng.pick([page + 1, page.saturating_sub(1)]);
    let (me, by) = (stage.me, rng.pick([stage.me, stage.other]));
    let (pr, tm) = (false, true);
    let access = match rng.flag() {
        true => Event::Ld { rt: 6, index },
        false => Event::Std { ra: 2, index },
    };
    let mut scene = vec![(by, Event::Host { pr, tm }), (me, begin), (me, access)];
    if !rng.one_in(3) {
        scene.push((me, Event::Tsr { l: false }));
    }
    let first = rng.pick([page, beside, beside]);
    for page in [first, page, page] {
        scene.push((by, Event::Tlbie { page }));
    }
    scene.push((me, Event::Tsr { l: true }));
    scene
}

/// A transaction that an interrupt suspends; the handler looks where it was, and
/// puts it back, mostly. Some are doomed meanwhile.
fn interrupted(rng: &mut Rng, stage: &Stage, begin: Event) -> Vec<(u8, Event)> {
    let index = stage.index(0, rng.below(LINE));
    let mut events = vec![
        begin,
        Event::Std { ra: 2, index },
        Event::Interrupt,
        Event::Mfspr { rt: 10, spr: 26 },
        Event::Mfspr { rt: 11, spr: 27 },
        Event::Addi {
            rt: 2,
            ra: 2,
            si: 1,
        },
    ];
    if rng.flag() {
        events.extend([Event::Interrupt, Event::Rfid]);
    }
    for (spr, ra) in [(26, 10), (27, 11)] {
        events.extend(rng.flag().then_some(Event::Mtspr { spr, ra }));
    }
    let mut scene = alone(stage.me.into(), events);
    if rng.flag() {
        let by = rng.pick([stage.me, stage.other]);
        scene.push((by, Event::Std { ra: 3, index }));
    }
    scene.push((stage.me, Event::Rfid));
    scene
}

/// A doubleword stored twice, loaded, committed, and loaded by another.
fn overwritten(rng: &mut Rng, stage: &Stage, begin: Event) -> Vec<(u8, Event)> {
    let index = stage.index(0, rng.below(LINE));
    let me = stage.me;
    vec![
        (me, begin),
        (me, Event::Std { ra: 2, index }),
        (me, Event::Std { ra: 3, index }),
        (me, Event::Ld { rt: 6, index }),
        (me, Event::Tend { a: true }),
        (stage.other, Event::Ld { rt: 6, index }),
    ]
}
