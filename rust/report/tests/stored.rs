//! A tape for each cause, stored with its report: the tape is what its events
//! make, and text and JSON are as they stand in the files.
//!
//! With NASZEPTAN_STORE=1 in the environment the files are written anew.

use std::fs;
use std::path::PathBuf;

use naszeptan::{Event, Profile, Report, Tape, Verdict};
use report::{json, read, text, Sheet};

/// A name, and the events by their threads.
type Case = (&'static str, Vec<(u8, Event)>);

const BEGIN: Event = Event::Tbegin { r: false };
const SUSPEND: Event = Event::Tsr { l: false };
const RESUME: Event = Event::Tsr { l: true };

/// Problem state left, with TM on.
const PRIVILEGED: Event = Event::Host {
    pr: false,
    tm: true,
};

fn load(index: u32) -> Event {
    Event::Ld { rt: 4, index }
}

fn store(index: u32) -> Event {
    Event::Std { ra: 5, index }
}

/// A failure code in register 3.
const CODE: Event = Event::Addi {
    rt: 3,
    ra: 0,
    si: 0x8D,
};

fn own(events: Vec<Event>) -> Vec<(u8, Event)> {
    events.into_iter().map(|event| (0, event)).collect()
}

fn aborts() -> Vec<Case> {
    let equal = Event::Tabortwc {
        to: 4,
        ra: 0,
        rb: 0,
    };
    vec![
        ("abort", own(vec![BEGIN, Event::Tabort { ra: 0 }])),
        (
            "abort_code",
            own(vec![CODE, BEGIN, Event::Tabort { ra: 3 }]),
        ),
        ("abort_conditional", own(vec![BEGIN, equal])),
        (
            "abort_suspended",
            own(vec![CODE, BEGIN, SUSPEND, Event::Tabort { ra: 3 }, RESUME]),
        ),
        (
            "reclaim",
            own(vec![PRIVILEGED, CODE, BEGIN, Event::Treclaim { ra: 3 }]),
        ),
        (
            "reclaim_doomed",
            vec![
                (0, BEGIN),
                (0, load(0)),
                (0, SUSPEND),
                (1, store(0)),
                (0, PRIVILEGED),
                (0, Event::Treclaim { ra: 0 }),
            ],
        ),
    ]
}

fn others() -> Vec<Case> {
    let lines = (0..33).map(|line| load(16 * line));
    vec![
        ("disallowed", own(vec![BEGIN, BEGIN, Event::Disallowed])),
        ("footprint", own([BEGIN].into_iter().chain(lines).collect())),
        (
            "own_store",
            own(vec![BEGIN, load(0), SUSPEND, store(0), RESUME]),
        ),
        (
            "plain_conflict",
            vec![(0, BEGIN), (0, load(0)), (1, store(0))],
        ),
        (
            "conflict",
            vec![(0, BEGIN), (0, load(0)), (2, BEGIN), (2, store(0))],
        ),
        (
            "translation",
            vec![
                (0, BEGIN),
                (0, load(0)),
                (1, PRIVILEGED),
                (1, Event::Tlbie { page: 0 }),
            ],
        ),
        (
            "own_translation",
            own(vec![
                PRIVILEGED,
                BEGIN,
                load(0),
                SUSPEND,
                Event::Tlbie { page: 0 },
                RESUME,
            ]),
        ),
        // tapes/longest.tape
        ("nesting", own(vec![BEGIN; 4096])),
    ]
}

fn folder() -> PathBuf {
    PathBuf::from(env!("CARGO_MANIFEST_DIR")).join("tests/stored")
}

fn tape_file(name: &str) -> PathBuf {
    match name {
        "nesting" => folder().join("../../../../tapes/longest.tape"),
        name => folder().join(name).with_extension("tape"),
    }
}

/// The file has these bytes; or it gets them.
fn held(path: PathBuf, bytes: &[u8]) {
    if std::env::var_os("NASZEPTAN_STORE").is_some() {
        fs::write(&path, bytes).expect("a stored file that is written");
    }
    let stored = fs::read(&path).expect("a stored file");
    assert!(
        stored == bytes,
        "{}: stored is\n{}\nand made is\n{}",
        path.display(),
        String::from_utf8_lossy(&stored),
        String::from_utf8_lossy(bytes),
    );
}

#[test]
fn each_cause() {
    for (name, events) in aborts().into_iter().chain(others()) {
        let tape: Tape = events.into_iter().collect();
        held(tape_file(name), tape.as_bytes());
        let report = Report::of(&tape).expect("a tape");
        let sheet = Sheet::new(report, Profile::default(), None);
        let file = folder().join(name);
        let text = text::text(&sheet, name);
        held(file.with_extension("txt"), text.as_bytes());
        held(file.with_extension("json"), json::json(&sheet).as_bytes());
    }
}

/// One line read on hardware beside a tape of thread 0, by its verdict.
fn verdict(events: Vec<Event>, line: &str) -> String {
    let tape: Tape = own(events).into_iter().collect();
    let report = Report::of(&tape).expect("a tape");
    let reads = read::reads(line.as_bytes()).expect("lines without a mistake");
    let sheet = Sheet::new(report, Profile::default(), Some(&reads));
    let rows = sheet.entries.iter().filter_map(|entry| entry.judged);
    let mut judged = rows.chain(sheet.further.iter().copied());
    judged.next().expect("a line").said.to_string()
}

/// CR0 right after treclaim., and as the handler reads it after trechkpt.
#[test]
fn reclaims_in_cr0() {
    for (cr0, wanted) in [
        ("0100", "equal"),
        ("0101", "equal"),
        ("1010", "equal"),
        ("1011", "equal"),
        ("-", "equal"),
        ("0010", "contradicts: CR0 bits 0110"),
        ("0000", "contradicts: CR0 bits 0100"),
    ] {
        let events = vec![PRIVILEGED, CODE, BEGIN, Event::Treclaim { ra: 3 }];
        let line = format!("0 0x8D0000010C000001 - - {cr0}");
        assert_eq!(verdict(events, &line), wanted, "{cr0}");
    }
    let abort = verdict(
        vec![BEGIN, Event::Tabort { ra: 0 }],
        "0 0x000000011C000001 - - 0100",
    );
    assert_eq!(abort, "contradicts: CR0 bits 1110");
}

/// A commit under ROT: of the tape's own transaction, and of one behind its
/// last failure, which the tape has not.
#[test]
fn commits_under_rot() {
    let rot = Event::Tbegin { r: true };
    let end = Event::Tend { a: false };
    assert_eq!(verdict(vec![rot, end], "0 0x2000000"), "equal");
    assert_eq!(
        verdict(vec![BEGIN, end], "0 0x2000000"),
        "contradicts: TEXASR 38 ROT"
    );
    let abort = "0 0x000000011E000001";
    let tape: Tape = own(vec![rot, Event::Tabort { ra: 0 }])
        .into_iter()
        .collect();
    for next in ["0 0x2000000", "0 0x0"] {
        let reads = read::reads(format!("{abort}\n{next}").as_bytes()).expect("two lines");
        let report = Report::of(&tape).expect("a tape");
        let sheet = Sheet::new(report, Profile::default(), Some(&reads));
        assert_eq!(sheet.verdicts().collect::<Vec<_>>(), [Verdict::Equal; 2]);
    }
}

/// What was read on hardware, for two threads of a tape with five failures.
#[test]
fn against_hardware() {
    let mut events = vec![(0, CODE)];
    for _ in 0..3 {
        events.extend([(0, BEGIN), (0, Event::Tabort { ra: 3 })]);
    }
    events.extend([(0, BEGIN), (0, load(0)), (1, BEGIN), (1, load(16))]);
    events.extend([(2, store(0)), (2, store(16))]);
    let tape: Tape = events.into_iter().collect();
    held(folder().join("against.tape"), tape.as_bytes());
    let lines = fs::read(folder().join("against.hardware")).expect("a stored file");
    let reads = read::reads(&lines).expect("lines without a mistake");
    let report = Report::of(&tape).expect("a tape");
    let sheet = Sheet::new(report, Profile::default(), Some(&reads));
    let text = text::text(&sheet, "against");
    held(folder().join("against.txt"), text.as_bytes());
    let json = json::json(&sheet);
    held(folder().join("against.json"), json.as_bytes());
}
