//! Rules V1 to V15: what is valid and what is not.

use std::collections::{BTreeMap, BTreeSet};

use super::*;
use crate::gen::{self, Flaw};
use crate::machine::{Entry, LineSet};

/// Rule V9: a live transaction has a level from one to four thousand and
/// ninety-five.
const LEVELS: std::ops::RangeInclusive<u64> = 1..=4_095;

/// The definition of a valid machine clause by clause, without haste: a list
/// of the clauses that do not hold.
fn faults(m: &Machine, len: usize) -> Vec<&'static str> {
    let mut faults = Faults::default();
    faults.clause((16..=4096).contains(&len) && len % 16 == 0, "memory length");
    faults.clause((1..=4).contains(&m.count), "thread count");
    for (n, t) in m.threads.iter().enumerate() {
        if n >= m.count {
            faults.clause(*t == Thread::ZERO, "records past the count");
            continue;
        }
        faults.of_fields(t);
        faults.of_state(t);
        faults.of_log_and_lines(t, len);
        faults.of_other_threads(m, n);
    }
    faults.0
}

/// The clauses that do not hold, each once.
#[derive(Default)]
struct Faults(Vec<&'static str>);

impl Faults {
    fn clause(&mut self, holds: bool, name: &'static str) {
        if !holds && !self.0.contains(&name) {
            self.0.push(name);
        }
    }

    /// Fields that are judged alone.
    fn of_fields(&mut self, t: &Thread) {
        self.clause(t.count <= 64, "log count");
        let mut unused = t.log.iter().skip(t.count);
        self.clause(
            unused.all(|e| e.index == 0 && e.marks == 0 && e.value == 0),
            "unused places",
        );
        self.clause(t.nia & 3 == 0, "nia");
        self.clause(t.tfhar & 3 == 0, "tfhar");
        self.clause(t.cr0 < 16, "cr0");
        self.clause(t.live.cr.iter().all(|&c| c < 16), "live cr");
        self.clause(t.checkpoint.cr.iter().all(|&c| c < 16), "checkpoint cr");
    }

    /// What each state asks.
    fn of_state(&mut self, t: &Thread) {
        let (reads, writes) = (lines(&t.reads), lines(&t.writes));
        let empty = reads.is_empty() && writes.is_empty() && t.count == 0;
        let fs = t.texasr >> 27 & 1 == 1;
        let tl = t.texasr & 0xFFF;
        let live = t.state == State::T || t.state == State::S && !t.doomed;
        let doomed_s = t.state == State::S && t.doomed;
        if t.state == State::N || doomed_s {
            self.clause(empty, "empty sets and log");
        }
        if t.state == State::N || t.state == State::T {
            self.clause(!t.doomed, "doomed");
        }
        if live {
            self.clause(!fs, "FS in a live transaction");
            self.clause(LEVELS.contains(&tl), "level");
            self.clause(reads.union(&writes).count() <= 32, "footprint");
        }
        if doomed_s {
            self.clause(fs, "FS in doomed S");
        }
    }

    fn of_log_and_lines(&mut self, t: &Thread, len: usize) {
        let used: Vec<Entry> = t.log.iter().copied().take(t.count).collect();
        let (reads, writes) = (lines(&t.reads), lines(&t.writes));
        self.clause(
            used.iter().all(|e| (e.index as usize) < len),
            "indices in memory",
        );
        self.clause(
            reads.iter().chain(&writes).all(|l| l * 16 < len),
            "lines in memory",
        );
        self.clause(used.iter().all(|e| e.marks != 0), "a mark");
        self.clause(used.iter().all(unmarked_are_zero), "bytes without a mark");
        let distinct: BTreeMap<u32, u64> = used.iter().map(|e| (e.index, e.value)).collect();
        self.clause(distinct.len() == used.len(), "distinct indices");
        let logged: BTreeSet<usize> = used.iter().map(|e| e.index as usize / 16).collect();
        self.clause(logged == writes, "write set is the log's lines");
    }

    fn of_other_threads(&mut self, m: &Machine, n: usize) {
        let t = &m.threads[n];
        for (o, other) in m.threads.iter().enumerate() {
            let apart = (0..256).all(|l| {
                !t.writes.contains(l) || !other.writes.contains(l) && !other.reads.contains(l)
            });
            self.clause(o == n || o >= m.count || apart, "lines of another thread");
        }
    }
}

/// The mark of byte k has weight 2^(7 - k), and byte 0 is the highest.
fn unmarked_are_zero(e: &Entry) -> bool {
    let mut bytes = e.value.to_be_bytes().into_iter().zip((0..8).rev());
    bytes.all(|(byte, bit)| byte == 0 || e.marks >> bit & 1 == 1)
}

fn lines(set: &LineSet) -> BTreeSet<usize> {
    (0..256).filter(|&l| set.contains(l)).collect()
}

#[test]
fn fresh() {
    let m = Machine::fresh();
    assert!(valid(&m, 4096));
    assert_eq!(m.count, 4);
    for t in &m.threads {
        let zero = Thread {
            pr: true,
            tm: true,
            ..Thread::ZERO
        };
        assert_eq!(*t, zero);
    }
    for len in (0..9000).chain([usize::MAX, usize::MAX - 15]) {
        let fits = (16..=4096).contains(&len) && len % 16 == 0;
        assert_eq!(valid(&m, len), fits);
    }
}

#[test]
fn generated_machines_are_valid() {
    seeds(5000, |rng| {
        let (m, mem) = gen::valid_machine(rng);
        assert_eq!(faults(&m, mem.len()), [""; 0]);
        assert!(valid(&m, mem.len()));
    });
}

#[test]
fn each_flaw_is_found() {
    for flaw in Flaw::ALL {
        let mut alone = 0;
        seeds(300, |rng| {
            let (m, mem) = gen::flawed_machine(rng, flaw);
            assert_ne!(faults(&m, mem.len()), [""; 0], "{flaw:?}");
            assert!(!valid(&m, mem.len()), "{flaw:?}");
            let expected = if flaw.is_shape() { 1 } else { 2 };
            let (thread, e) = gen::event(rng, &m, mem.len());
            let before = Bench { m, mem };
            let mut b = before.clone();
            assert_eq!(step(&mut b.m, &mut b.mem, thread, e), expected);
            assert_eq!(b, before);
        });
        // Most of these break one clause alone.
        for seed in 0..300 {
            let (m, mem) = gen::flawed_machine(&mut Rng::new(seed), flaw);
            alone += usize::from(faults(&m, mem.len()).len() == 1);
        }
        // An index outside memory has its line there too, and a log with no
        // live transaction has no write set to match.
        let never = matches!(flaw, Flaw::IndexOutside | Flaw::LogNotLive);
        assert!(never || alone > 100, "{flaw:?}: {alone}");
    }
}

#[test]
fn shaken_machines_are_judged_by_the_clauses() {
    let (mut good, mut bad) = (0, 0);
    for seed in 0..20_000 {
        let _printed = Seed(seed);
        let rng = &mut Rng::new(seed);
        let (m, mem) = gen::shaken_machine(rng);
        let expected = faults(&m, mem.len()).is_empty();
        assert_eq!(valid(&m, mem.len()), expected);
        if expected {
            good += 1;
        } else {
            bad += 1;
        }
        // And with another length.
        let len = gen::length(rng);
        assert_eq!(valid(&m, len), faults(&m, len).is_empty());
    }
    assert!(good > 1000 && bad > 1000, "{good} {bad}");
}

#[test]
fn t_with_the_facility_off_is_valid() {
    // Though no event leads there.
    let mut b = Bench::fresh();
    b.done(TBEGIN);
    b.m.threads[0].tm = false;
    assert!(valid(&b.m, 4096));
}

#[test]
fn n_asks_little() {
    // Nothing of TEXASR, TFIAR, SRR0, SRR1 and the checkpoint's registers.
    let mut m = Machine::fresh();
    m.threads[1].texasr = u64::MAX;
    m.threads[1].tfiar = u64::MAX;
    m.threads[1].srr0 = u64::MAX;
    m.threads[1].srr1 = u64::MAX;
    m.threads[1].checkpoint.gpr = [u64::MAX; 32];
    m.threads[1].live.gpr = [u64::MAX; 32];
    assert!(valid(&m, 4096));
    m.threads[1].checkpoint.cr[6] = 16;
    assert!(!valid(&m, 4096));
}

#[test]
fn records_past_the_count_are_zero() {
    // PR and TM too.
    let mut m = Machine::fresh();
    m.count = 3;
    assert!(!valid(&m, 4096));
    m.threads[3] = Thread::ZERO;
    assert!(valid(&m, 4096));
    m.threads[3].tm = true;
    assert!(!valid(&m, 4096));
    // And SRR0 and SRR1, each bit.
    for bit in 0..64 {
        for (srr0, srr1) in [(1 << bit, 0), (0, 1 << bit)] {
            m.threads[3] = Thread {
                srr0,
                srr1,
                ..Thread::ZERO
            };
            assert!(!valid(&m, 4096));
        }
    }
}

#[test]
fn a_footprint_counts_a_line_once() {
    // 32 lines, all in both sets.
    let mut b = Bench::fresh();
    b.done(TBEGIN);
    for line in 0..32 {
        b.done(ld(0, line * 16)).done(std(0, line * 16));
    }
    assert_eq!(b.thread(0).footprint(), 32);
}

#[test]
fn two_threads_may_read_a_line() {
    let mut b = Bench::fresh();
    b.done(TBEGIN).done_by(1, TBEGIN);
    b.done(ld(1, 0)).done_by(1, ld(1, 0));
    assert!(b.thread(0).reads.contains(0) && b.thread(1).reads.contains(0));
}

#[test]
fn tl_counts_by_its_twelve_bits() {
    for level in 0..=0xFFF {
        let fits = LEVELS.contains(&level);
        let mut m = Bench::begun().m;
        m.threads[0].texasr = level;
        assert_eq!(valid(&m, 4096), fits, "{level}");
        // No other bit counts, and so none makes up for a level of 0.
        m.threads[0].texasr = level | 0xFFFF_FFFF_F7FF_F000;
        assert_eq!(valid(&m, 4096), fits, "{level}");
        m.threads[0].texasr |= texasr::FS;
        assert!(!valid(&m, 4096), "{level}");
    }
}

/// How often each level is met in the live transactions of 5,000 machines.
fn levels_met() -> BTreeMap<u64, usize> {
    let machines = (0..5000).map(|seed| gen::valid_machine(&mut Rng::new(seed)).0);
    let threads = machines.flat_map(|m| m.threads).filter(Thread::is_live);
    threads.fold(BTreeMap::new(), |mut met, t| {
        *met.entry(t.level()).or_default() += 1;
        met
    })
}

/// The ends and what is near them are met often, so is each length of carry,
/// and so are many others.
#[test]
fn generated_levels() {
    let met = levels_met();
    let (low, top) = (*LEVELS.start(), *LEVELS.end());
    let ends = [low, low + 1, top - 1, top].map(|level| (level, 300));
    let near = (2..6).map(|below| (top - below, 80));
    let carries = (1..=12).map(|bits| ((1 << bits) - 1, 8));
    for (level, least) in ends.into_iter().chain(near).chain(carries) {
        let times = met.get(&level).copied().unwrap_or(0);
        assert!(times > least, "level {level}: {times} times");
    }
    assert!(met.len() > 200, "{} levels", met.len());
}

#[test]
fn line_sets() {
    let mut set = LineSet::EMPTY;
    for line in [0, 1, 63, 64, 127, 128, 191, 192, 255] {
        assert!(!set.contains(line));
        set.insert(line);
        assert!(set.contains(line));
    }
    assert_eq!(set.len(), 9);
    assert_eq!(set.0, [1 << 63 | 3, 1 << 63 | 1, 1 << 63 | 1, 1 << 63 | 1]);
    assert_eq!(set.union(&LineSet([4, 0, 0, 1])).len(), 10);
    assert!(set.meets(&LineSet([0, 0, 1, 0])));
    assert!(!set.meets(&LineSet([4, 2, 2, 2])));
}
