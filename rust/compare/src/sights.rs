//! Situations that the comparison must meet, finer than kind, state and
//! answer. Each is told from the machine before the event, some from a
//! transaction's past too, and counts if the event was done.

use model::machine::{ALL_BYTES, LINE, LOG, MAX_FOOTPRINT, MAX_LEVEL, PAGE};
use model::{Entry, Event, Machine, Msr, State, Thread};

use crate::accesses::Access;
use crate::past::Past;

/// An event before it is done.
pub struct View<'a> {
    machine: &'a Machine,
    /// The memory's length.
    len: usize,
    past: &'a Past,
    me: usize,
    thread: &'a Thread,
    event: Event,
}

/// The kind, the name, and whether an event of that kind is such a one.
type Sight = (u8, &'static str, fn(&View) -> bool);

/// How many sights there are.
pub const SIGHTS: usize = 142;

/// All of them.
#[rustfmt::skip]
pub const ALL: [Sight; SIGHTS] = [
    (1, "tbegin. at the highest TL overflows", |v| v.state(State::T) && v.thread.level() == MAX_LEVEL),
    (1, "tbegin. one below the highest TL is done", |v| v.state(State::T) && v.thread.level() == MAX_LEVEL - 1),
    (1, "tbegin. starts a ROT", |v| v.state(State::N) && v.flag()),
    (1, "tbegin. R = 0 turns ROT off", |v| v.nested() && v.thread.rot() && !v.flag()),
    (1, "tbegin. R = 1 leaves ROT on", |v| v.nested() && v.thread.rot() && v.flag()),
    (1, "tbegin. R = 1 leaves ROT off", |v| v.nested() && !v.thread.rot() && v.flag()),
    (1, "tbegin. R = 0 at the highest TL leaves ROT on", |v| v.state(State::T) && !v.nested() && v.thread.rot() && !v.flag()),
    (1, "tbegin. R = 0 in S leaves ROT on", |v| v.state(State::S) && v.thread.rot() && !v.flag()),
    (1, "tbegin. at 2^64 - 4", |v| v.state(State::N) && v.thread.nia == !3),
    (2, "tend. commits a full log", |v| v.commits() && v.thread.count == LOG),
    (2, "tend. A = 1 commits a log at TL above 1", |v| v.commits() && v.thread.level() > 1 && v.thread.count > 0),
    (2, "tend. goes up one level", |v| v.state(State::T) && !v.commits()),
    (2, "tend. goes up one level after ROT went off", |v| v.state(State::T) && !v.commits() && v.past.off(v.me)),
    (3, "tabort. RA 0 with r0 not 0", |v| v.thread.is_live() && v.ra() == 0 && v.thread.live.gpr[0] != 0),
    (3, "tabort. with a code", |v| v.thread.is_live() && v.ra() != 0 && v.gpr(v.ra()) & 0xFF != 0),
    (3, "tabort. with bits above the code", |v| v.thread.is_live() && v.ra() != 0 && v.gpr(v.ra()) > 0xFF),
    (3, "tabort. after a failure in S", |v| v.thread.doomed),
    (4, "tabortwc. by 16 alone", |v| v.compares(16)),
    (4, "tabortwc. by 8 alone", |v| v.compares(8)),
    (4, "tabortwc. by 4 alone", |v| v.compares(4)),
    (4, "tabortwc. by 2 alone", |v| v.compares(2)),
    (4, "tabortwc. by 1 alone", |v| v.compares(1)),
    (5, "tabortdc. by 16 alone", |v| v.compares(16)),
    (5, "tabortdc. by 8 alone", |v| v.compares(8)),
    (5, "tabortdc. by 4 alone", |v| v.compares(4)),
    (5, "tabortdc. by 2 alone", |v| v.compares(2)),
    (5, "tabortdc. by 1 alone", |v| v.compares(1)),
    (6, "tresume of a live transaction", |v| v.state(State::S) && v.flag() && !v.thread.doomed),
    (6, "tresume of a doomed one", |v| v.state(State::S) && v.flag() && v.thread.doomed),
    (6, "tsuspend with a full log", |v| v.state(State::T) && !v.flag() && v.thread.count == LOG),
    (7, "tcheck of a doomed thread, CR0", |v| v.thread.doomed && v.x() == 0),
    (7, "tcheck of a doomed thread, CR7", |v| v.thread.doomed && v.x() == 7),
    (8, "treclaim. of a live transaction with a log", |v| v.thread.is_live() && v.thread.count > 0),
    (8, "treclaim. of a doomed one", |v| v.thread.doomed),
    (9, "trechkpt.", |_| true),
    (10, "mtspr TEXASR with FS", |v| v.x() == 130 && v.gpr(v.ra()) & model::machine::texasr::FS != 0),
    (10, "mtspr TFHAR with low bits", |v| v.x() == 128 && v.gpr(v.ra()) & 3 != 0),
    (10, "mtspr TEXASRU", |v| v.x() == 131),
    (11, "mfspr TFIAR hidden", |v| v.x() == 129 && v.thread.pr && v.thread.tfiar & 1 == 0 && v.thread.tfiar != 0),
    (11, "mfspr TEXASRU", |v| v.x() == 131 && v.thread.texasr >> 32 != 0),
    (12, "ld overflows the footprint", |v| v.overflows_lines()),
    (12, "ld in a ROT past a full footprint", |v| v.state(State::T) && v.thread.rot() && !v.has_line() && v.thread.footprint() == MAX_FOOTPRINT),
    (12, "ld overflows a line that another writes", |v| v.overflows_lines() && v.victims() > 0),
    (12, "ld in T after ROT went off", |v| v.state(State::T) && v.past.off(v.me)),
    (12, "ld overflows after ROT went off", |v| v.overflows_lines() && v.past.off(v.me)),
    (12, "ld of its own logged value in T", |v| v.state(State::T) && v.logged()),
    (12, "ld of its own logged value in S", |v| v.state(State::S) && v.logged()),
    (12, "ld in T fails one in T", |v| v.fails(true, State::T)),
    (12, "ld in T fails one in S", |v| v.fails(true, State::S)),
    (12, "ld not in T fails one in T", |v| v.fails(false, State::T)),
    (12, "ld not in T fails one in S", |v| v.fails(false, State::S)),
    (13, "std overflows the footprint", |v| v.overflows_lines()),
    (13, "std overflows the log alone", |v| v.overflows_log() && !v.overflows_lines()),
    (13, "std overflows a line that another has", |v| (v.overflows_log() || v.overflows_lines()) && v.victims() > 0),
    (13, "std replaces a value in a full log", |v| v.state(State::T) && v.logged() && v.thread.count == LOG),
    (13, "std in S to a line that it and another have", |v| v.state(State::S) && v.has_line() && v.victims() > 0),
    (13, "std in T fails one in T", |v| v.fails(true, State::T)),
    (13, "std in T fails one in S", |v| v.fails(true, State::S)),
    (13, "std not in T fails one in T", |v| v.fails(false, State::T)),
    (13, "std not in T fails one in S", |v| v.fails(false, State::S)),
    (13, "std fails two or more", |v| v.victims() > 1 && !v.overflows_log() && !v.overflows_lines()),
    (13, "std to a line loaded before ROT went off", |v| v.others().any(|(n, t)| v.past.loaded(n, v.line()) && !has(t, v.line()))),
    (13, "std fails one by a load after ROT went off", |v| v.others().any(|(n, t)| v.past.off(n) && v.is_victim(n, t) && !t.writes.contains(v.line()))),
    (16, "interrupt of a transaction with a log", |v| v.state(State::T) && v.thread.count > 0),
    (16, "interrupt in T with PR = 1 and TM = 1", |v| v.state(State::T) && v.thread.pr && v.thread.tm),
    (16, "interrupt in T with PR = 0", |v| v.state(State::T) && !v.thread.pr),
    (16, "interrupt in S with TM = 1", |v| v.state(State::S) && v.thread.tm),
    (16, "interrupt in S with TM = 0", |v| v.state(State::S) && !v.thread.tm),
    (16, "interrupt of a doomed thread", |v| v.thread.doomed),
    (16, "interrupt in N with PR = 1", |v| v.state(State::N) && v.thread.pr),
    (16, "interrupt over an SRR1 of other bits", |v| v.thread.srr1 & !ASKING != 0),
    (10, "mtspr SRR0 with low bits", |v| v.x() == 26 && v.gpr(v.ra()) & 3 != 0),
    (10, "mtspr SRR1 with bits that mean nothing", |v| v.x() == 27 && v.gpr(v.ra()) & !ASKING != 0),
    (10, "mtspr SRR1 with bits that ask", |v| v.x() == 27 && v.gpr(v.ra()) & ASKING != 0),
    (11, "mfspr SRR0", |v| v.x() == 26 && v.thread.srr0 != 0),
    (11, "mfspr SRR1", |v| v.x() == 27 && v.thread.srr1 != 0),
    (18, "rfid to an SRR0 with low bits", |v| !v.fails_asking() && v.thread.srr0 & 3 != 0),
    (18, "rfid by an SRR1 with bits that mean nothing", |v| v.thread.srr1 & !ASKING != 0),
    (18, "rfid back to a transaction with a log", |v| v.resumes() && v.thread.count > 0),
    (18, "rfid handles, with registers to bring back", |v| v.resumes() && v.thread.doomed && v.thread.live != v.thread.checkpoint),
    (18, "rfid handles, where SRR0 is not TFHAR", |v| v.resumes() && v.thread.doomed && v.thread.srr0 & !3 != v.thread.tfhar),
    (18, "rfid of S with TM = 0 for N, to problem state", |v| v.state(State::S) && v.asked().ts == 0 && v.asked().pr),
    (19, "mtmsrd of S with TM = 0 for N, to problem state", |v| v.state(State::S) && v.asked().ts == 0 && v.asked().pr),
    (19, "mtmsrd back to a transaction with a log", |v| v.resumes() && v.thread.count > 0),
    (19, "mtmsrd handles, with registers to bring back", |v| v.resumes() && v.thread.doomed && v.thread.live != v.thread.checkpoint),
    (19, "mtmsrd at 2^64 - 4", |v| !v.fails_asking() && v.thread.nia == !3),
    (26, "tlbie in T of a page that others have", |v| v.state(State::T) && v.met().count() > 0),
    (26, "tlbie fails one in T", |v| v.invalidates() && v.met().any(|(_, t)| t.state == State::T)),
    (26, "tlbie fails one in S", |v| v.invalidates() && v.met().any(|(_, t)| t.state == State::S)),
    (26, "tlbie fails two or more", |v| v.invalidates() && v.met().count() > 1),
    (26, "tlbie fails one that only loaded", |v| v.invalidates() && v.met().any(|(_, t)| v.of_page(t).all(|l| !t.writes.contains(l)))),
    (26, "tlbie fails one by the page's first line alone", |v| v.invalidates() && v.met().any(|(_, t)| v.of_page(t).eq([v.first()]))),
    (26, "tlbie fails one by the page's last line alone", |v| v.invalidates() && v.met().any(|(_, t)| v.of_page(t).eq([v.first() + PAGE - 1]))),
    (26, "tlbie spares the last line of the page before", |v| v.invalidates() && v.spared().any(|(_, t)| v.first() > 0 && has(t, v.first() - 1))),
    (26, "tlbie spares the first line of the page behind", |v| v.invalidates() && v.spared().any(|(_, t)| v.first() + PAGE < 256 && has(t, v.first() + PAGE))),
    (26, "tlbie spares a load under ROT", |v| v.invalidates() && v.spared().any(|(n, _)| v.page().any(|l| v.past.untracked(n, l)))),
    (26, "tlbie fails a ROT by its store", |v| v.invalidates() && v.met().any(|(_, t)| t.rot())),
    (26, "tlbie meets no one of those that live", |v| v.invalidates() && v.met().count() == 0 && v.spared().count() > 0),
    (26, "tlbie in S fails its own", |v| v.state(State::S) && v.meets_itself()),
    (26, "tlbie in S fails its own and another", |v| v.state(State::S) && v.meets_itself() && v.met().count() > 0),
    (26, "tlbie in S fails its own that only loaded", |v| v.state(State::S) && v.meets_itself() && v.of_page(v.thread).all(|l| !v.thread.writes.contains(l))),
    (26, "tlbie in S spares its own", |v| v.state(State::S) && v.thread.is_live() && v.thread.footprint() > 0 && !v.meets_itself()),
    (26, "tlbie in S spares its own line beside the page", |v| v.state(State::S) && !v.meets_itself() && (v.first() > 0 && has(v.thread, v.first() - 1) || v.first() + PAGE < 256 && has(v.thread, v.first() + PAGE))),
    (26, "tlbie of a doomed thread", |v| v.thread.doomed),
    (26, "tlbie of a doomed thread fails another", |v| v.thread.doomed && v.met().count() > 0),
    (26, "tlbie of a page that ends past the memory", |v| v.invalidates() && (v.first() + PAGE) * LINE > v.len),
    (26, "tlbie fails one by a page that ends past the memory", |v| v.invalidates() && (v.first() + PAGE) * LINE > v.len && v.met().count() > 0),
    (26, "tlbie at 2^64 - 4", |v| v.invalidates() && v.thread.nia == !3),
    (2, "tend. commits a place stored in part", |v| v.commits() && v.used().iter().any(|e| e.marks != ALL_BYTES)),
    (2, "tend. commits stored bytes with others between", |v| v.commits() && v.used().iter().any(|e| has_gap(e.marks))),
    (3, "tabort. drops a place stored in part", |v| v.used().iter().any(|e| e.marks != ALL_BYTES)),
    (16, "interrupt of a log with a place stored in part", |v| v.state(State::T) && v.used().iter().any(|e| e.marks != ALL_BYTES)),
    (20, "lbz overflows the footprint", |v| v.overflows_lines()),
    (20, "lbz in a ROT past a full footprint", |v| v.state(State::T) && v.thread.rot() && !v.has_line() && v.thread.footprint() == MAX_FOOTPRINT),
    (20, "lbz in a ROT of its own log", |v| v.state(State::T) && v.thread.rot() && v.logged()),
    (20, "lbz of the last bytes of memory", |v| v.ends_memory()),
    (21, "lhz overflows the footprint", |v| v.overflows_lines()),
    (21, "lhz in a ROT past a full footprint", |v| v.state(State::T) && v.thread.rot() && !v.has_line() && v.thread.footprint() == MAX_FOOTPRINT),
    (21, "lhz in a ROT of its own log", |v| v.state(State::T) && v.thread.rot() && v.logged()),
    (21, "lhz of the last bytes of memory", |v| v.ends_memory()),
    (22, "lwz overflows the footprint", |v| v.overflows_lines()),
    (22, "lwz in a ROT past a full footprint", |v| v.state(State::T) && v.thread.rot() && !v.has_line() && v.thread.footprint() == MAX_FOOTPRINT),
    (22, "lwz in a ROT of its own log", |v| v.state(State::T) && v.thread.rot() && v.logged()),
    (22, "lwz of the last bytes of memory", |v| v.ends_memory()),
    (23, "stb overflows the footprint", |v| v.overflows_lines()),
    (23, "stb overflows the log alone", |v| v.overflows_log() && !v.overflows_lines()),
    (23, "stb to a place of a full log", |v| v.state(State::T) && v.logged() && v.thread.count == LOG),
    (23, "stb makes a place whole", |v| v.state(State::T) && v.makes_whole()),
    (23, "stb in S to a doubleword of its own log", |v| v.state(State::S) && v.logged()),
    (23, "stb of the last bytes of memory", |v| v.ends_memory()),
    (24, "sth overflows the footprint", |v| v.overflows_lines()),
    (24, "sth overflows the log alone", |v| v.overflows_log() && !v.overflows_lines()),
    (24, "sth to a place of a full log", |v| v.state(State::T) && v.logged() && v.thread.count == LOG),
    (24, "sth makes a place whole", |v| v.state(State::T) && v.makes_whole()),
    (24, "sth in S to a doubleword of its own log", |v| v.state(State::S) && v.logged()),
    (24, "sth of the last bytes of memory", |v| v.ends_memory()),
    (25, "stw overflows the footprint", |v| v.overflows_lines()),
    (25, "stw overflows the log alone", |v| v.overflows_log() && !v.overflows_lines()),
    (25, "stw to a place of a full log", |v| v.state(State::T) && v.logged() && v.thread.count == LOG),
    (25, "stw makes a place whole", |v| v.state(State::T) && v.makes_whole()),
    (25, "stw in S to a doubleword of its own log", |v| v.state(State::S) && v.logged()),
    (25, "stw of the last bytes of memory", |v| v.ends_memory()),
];

/// The bits of SRR1 by which rfid asks.
const ASKING: u64 = 0x7_0000_4000;

/// The sights of one event, by their places in [`ALL`].
#[derive(Clone, PartialEq, Eq, Default, Debug)]
pub struct Seen([u128; SIGHTS.div_ceil(128)]);

impl Seen {
    /// Whether this one is among them.
    pub fn has(&self, sight: usize) -> bool {
        self.0[sight / 128] >> (sight % 128) & 1 != 0
    }

    fn add(&mut self, sight: usize) {
        self.0[sight / 128] |= 1 << (sight % 128);
    }
}

/// The sights of this event on a machine with a memory of this length.
pub fn seen(lent: (&Machine, usize), past: &Past, thread: u8, event: Event) -> Seen {
    let (machine, len) = lent;
    let me = usize::from(thread);
    let mut seen = Seen::default();
    if me >= machine.count.min(machine.threads.len()) {
        return seen;
    }
    let thread = &machine.threads[me];
    let view = View {
        machine,
        len,
        past,
        me,
        thread,
        event,
    };
    let kind = event.kind();
    for (sight, (of, _, is)) in ALL.iter().enumerate() {
        if *of == kind && is(&view) {
            seen.add(sight);
        }
    }
    seen
}

/// Whether a byte that was not stored stands between two that were.
fn has_gap(marks: u8) -> bool {
    let run = marks >> marks.trailing_zeros().min(7);
    run & run.wrapping_add(1) != 0
}

/// Whether the line is in one of the thread's sets.
fn has(t: &Thread, line: usize) -> bool {
    t.reads.contains(line) || t.writes.contains(line)
}

impl View<'_> {
    fn state(&self, state: State) -> bool {
        self.thread.state == state
    }

    /// R, A or L.
    fn flag(&self) -> bool {
        match self.event {
            Event::Tbegin { r: flag } | Event::Tend { a: flag } | Event::Tsr { l: flag } => flag,
            _ => false,
        }
    }

    fn ra(&self) -> u8 {
        match self.event {
            Event::Tabort { ra } | Event::Mtspr { ra, .. } => ra,
            _ => 0,
        }
    }

    /// BF or SPR.
    fn x(&self) -> u8 {
        match self.event {
            Event::Tcheck { bf } => bf,
            Event::Mtspr { spr, .. } | Event::Mfspr { spr, .. } => spr,
            _ => 0,
        }
    }

    /// The register, or 0 where there is none of this number.
    fn gpr(&self, r: u8) -> u64 {
        self.thread.live.gpr.get(usize::from(r)).map_or(0, |&v| v)
    }

    /// Whether this TO alone is asked for, in a live transaction, on unlike
    /// registers unless for equality.
    fn compares(&self, bit: u8) -> bool {
        match self.event {
            Event::Tabortwc { to, ra, rb } | Event::Tabortdc { to, ra, rb } => {
                let equal = self.gpr(ra) == self.gpr(rb);
                to == bit && self.thread.is_live() && equal == (bit == 4)
            }
            _ => false,
        }
    }

    /// What an rfid or mtmsrd asks for.
    fn asked(&self) -> Msr {
        match self.event {
            Event::Mtmsrd { ts, tm, pr } => Msr { ts, tm, pr },
            _ => Msr::of(self.thread.srr1),
        }
    }

    /// Whether an rfid or mtmsrd that is done goes from S to T.
    fn resumes(&self) -> bool {
        self.state(State::S) && self.asked().ts == 2
    }

    /// Whether an rfid or mtmsrd that is done goes to TFHAR.
    fn fails_asking(&self) -> bool {
        self.state(State::T) || self.resumes() && self.thread.doomed
    }

    /// Whether a tbegin. goes one level down.
    fn nested(&self) -> bool {
        self.state(State::T) && self.thread.level() < MAX_LEVEL
    }

    fn commits(&self) -> bool {
        self.state(State::T) && (self.flag() || self.thread.level() == 1)
    }

    /// The doubleword of a load or store.
    fn index(&self) -> usize {
        Access::of(self.event).map_or(0, Access::index)
    }

    fn line(&self) -> usize {
        self.index() / LINE
    }

    fn is_store(&self) -> bool {
        Access::of(self.event).is_some_and(|access| access.store)
    }

    /// The places of the thread's own log.
    fn used(&self) -> &[Entry] {
        &self.thread.log[..self.thread.count.min(LOG)]
    }

    /// Whether the access has the memory's last byte.
    fn ends_memory(&self) -> bool {
        let end = 8 * self.len as u64;
        Access::of(self.event).is_some_and(|access| access.address + access.width == end)
    }

    /// Whether the stored bytes are all that were missing in a place.
    fn makes_whole(&self) -> bool {
        let stored = Access::of(self.event).map_or(0, Access::marks);
        let place = self
            .used()
            .iter()
            .find(|e| e.index as usize == self.index());
        place.is_some_and(|e| e.marks != ALL_BYTES && e.marks | stored == ALL_BYTES)
    }

    fn has_line(&self) -> bool {
        has(self.thread, self.line())
    }

    /// Whether the doubleword is in the thread's own log.
    fn logged(&self) -> bool {
        let mut used = self.used().iter();
        used.any(|e| e.index as usize == self.index())
    }

    /// Rule A1, for the footprint.
    fn overflows_lines(&self) -> bool {
        self.state(State::T)
            && (self.is_store() || !self.thread.rot())
            && !self.has_line()
            && self.thread.footprint() == MAX_FOOTPRINT
    }

    /// Rule A1, for the log.
    fn overflows_log(&self) -> bool {
        self.state(State::T) && self.thread.count == LOG && !self.logged()
    }

    /// Whether this other thread has the line so that the access fails it.
    fn is_victim(&self, n: usize, t: &Thread) -> bool {
        let store = self.is_store();
        let line = self.line();
        n != self.me && t.is_live() && (t.writes.contains(line) || store && t.reads.contains(line))
    }

    /// Whether a tlbie that is done is not disallowed.
    fn invalidates(&self) -> bool {
        !self.state(State::T)
    }

    /// The first line of a tlbie's page; of one that is in no memory, none.
    fn first(&self) -> usize {
        match self.event {
            Event::Tlbie { page } => (page as usize).min(8) * PAGE,
            _ => 0,
        }
    }

    /// The lines of a tlbie's page that are in some memory.
    fn page(&self) -> impl Iterator<Item = usize> {
        let first = self.first();
        (first..first + PAGE).filter(|&line| line < 256)
    }

    /// The lines of the page in a thread's sets, in order.
    fn of_page<'t>(&self, t: &'t Thread) -> impl Iterator<Item = usize> + 't {
        let first = self.first();
        (first..first + PAGE).filter(move |&line| line < 256 && has(t, line))
    }

    /// The other threads with a live transaction that has a line of the page.
    fn met(&self) -> impl Iterator<Item = (usize, &Thread)> {
        let live = self.others().filter(|(_, t)| t.is_live());
        live.filter(|(_, t)| self.of_page(t).next().is_some())
    }

    /// The other threads with a live transaction that has none.
    fn spared(&self) -> impl Iterator<Item = (usize, &Thread)> {
        let live = self.others().filter(|(_, t)| t.is_live());
        live.filter(|(_, t)| self.of_page(t).next().is_none())
    }

    /// Whether the thread's own live transaction has a line of the page.
    fn meets_itself(&self) -> bool {
        self.thread.is_live() && self.of_page(self.thread).next().is_some()
    }

    /// The other threads' records.
    fn others(&self) -> impl Iterator<Item = (usize, &Thread)> {
        let threads = self.machine.threads.iter().enumerate();
        threads.filter(|(n, _)| *n != self.me)
    }

    fn victims(&self) -> usize {
        let threads = self.machine.threads.iter().enumerate();
        threads.filter(|(n, t)| self.is_victim(*n, t)).count()
    }

    /// Whether the access, in T or not, fails a thread in that state.
    fn fails(&self, in_t: bool, state: State) -> bool {
        if self.state(State::T) != in_t || self.overflows_lines() {
            return false;
        }
        if self.is_store() && self.overflows_log() {
            return false;
        }
        let mut threads = self.machine.threads.iter().enumerate();
        threads.any(|(n, t)| t.state == state && self.is_victim(n, t))
    }
}
