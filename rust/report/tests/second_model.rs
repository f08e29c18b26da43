//! The report's counts are those that the second model gives: of each tape in
//! the repository and of random ones.

use std::collections::BTreeMap;
use std::fs;
use std::path::Path;

use model::gen::{self, Rng};
use model::Machine;
use naszeptan::{Report, Tape, MEMORY};

/// How often each thread failed by each cause, which is bits 8:31 of TEXASR.
type Counts = BTreeMap<(u8, u64), usize>;

/// By the second model: a thread that it says has failed, and that had a live
/// transaction before. (One that failed earlier and is handled now had none.)
fn by_the_model(tape: &[u8]) -> Counts {
    let (mut machine, mut memory) = (Machine::fresh(), vec![0; MEMORY]);
    let mut counts = Counts::new();
    for record in tape.chunks(16) {
        let (thread, event) = model::read(record).expect("a record");
        let live = machine.threads.each_ref().map(|thread| thread.is_live());
        let done = model::step_with_failed(&mut machine, &mut memory, thread, event);
        if !model::answer::is_done(done.answer) {
            break;
        }
        for v in (0..4).filter(|v| done.failed >> v & 1 != 0 && live[usize::from(*v)]) {
            let cause = machine.threads[usize::from(v)].texasr >> 32 & 0xFF_FFFF;
            *counts.entry((v, cause)).or_default() += 1;
        }
    }
    counts
}

fn by_the_report(tape: &[u8]) -> Option<Counts> {
    let report = Report::of(&Tape::from_bytes(tape)).ok()?;
    let counts = report.counts().into_iter().map(|count| {
        let bit = count.cause.bit().expect("one cause");
        ((count.thread, 1 << (31 - bit)), count.failures)
    });
    Some(counts.collect())
}

fn agrees(tape: &[u8], what: &str) -> Option<Counts> {
    let counts = by_the_report(tape)?;
    assert_eq!(counts, by_the_model(tape), "{what}");
    Some(counts)
}

#[test]
fn the_tapes() {
    let root = Path::new(env!("CARGO_MANIFEST_DIR"));
    let mut tapes = 0;
    for folder in [root.join("../../tapes"), root.join("tests/stored")] {
        for entry in fs::read_dir(folder).expect("a folder") {
            let path = entry.expect("an entry").path();
            if path.extension().is_some_and(|end| end == "tape") {
                let tape = fs::read(&path).expect("a tape's file");
                tapes += usize::from(agrees(&tape, &path.display().to_string()).is_some());
            }
        }
    }
    assert!(tapes >= 20, "{tapes} tapes");
}

#[test]
fn random_tapes() {
    let mut met = Counts::new();
    for seed in 0..80 {
        let mut rng = Rng::new(seed);
        let tape = gen::tape(&mut rng, &Machine::fresh(), &vec![0; MEMORY], 200);
        for ((_, cause), n) in agrees(&tape, &format!("seed {seed}")).unwrap_or_default() {
            *met.entry((0, cause)).or_default() += n;
        }
    }
    let causes: Vec<u64> = met.keys().map(|(_, cause)| *cause).collect();
    for bit in [8, 11, 12, 13, 14, 31] {
        assert!(causes.contains(&(1 << (31 - bit))), "bit {bit} was not met");
    }
}
