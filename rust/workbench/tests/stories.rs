//! The cookbook: what each story shows, by hand from docs/RULES.md; and the
//! pictures that are kept, drawn again.

use std::fs;
use std::path::{Path, PathBuf};

use naszeptan::{Answer, State};
use workbench::files;
use workbench::play::{Play, Sight, Step};
use workbench::show::{self, Range};
use workbench::story::Story;
use workbench::timeline::history::{history, Fate, History, Phase};
use workbench::timeline::pictures;

fn root() -> PathBuf {
    Path::new(env!("CARGO_MANIFEST_DIR")).join("../..")
}

const ALL: Range = Range {
    from: 0,
    to: usize::MAX,
};

fn read(name: &str) -> Story {
    let path = root().join(name);
    files::read_tape(path.as_os_str()).unwrap_or_else(|failed| panic!("{}", failed.why))
}

/// A story of the cookbook, done: each step with the machine after it.
struct Told {
    story: Story,
    steps: Vec<(Step, Sight)>,
}

fn told(name: &str) -> Told {
    let story = read(&format!("stories/{name}.story"));
    let mut play = Play::new(&story.bytes);
    let mut steps = Vec::new();
    while let Some(step) = play.step() {
        steps.push((step, play.now.clone()));
    }
    Told { story, steps }
}

impl Told {
    /// The machine after the record behind a label.
    fn at(&self, label: &str) -> &Sight {
        &self.steps[self.story.names.label(label).expect(label)].1
    }

    fn last(&self) -> &Sight {
        &self.steps.last().expect("a record").1
    }

    fn memory(&self, name: &str) -> u64 {
        let place = self.story.names.place(name).expect(name);
        self.last().memory[place as usize]
    }

    fn answers(&self) -> Vec<Answer> {
        self.steps.iter().map(|(step, _)| step.answer).collect()
    }

    /// Which threads failed, record by record.
    fn failures(&self) -> Vec<(usize, String)> {
        let failed = self
            .steps
            .iter()
            .filter(|(step, _)| !step.failed.is_empty());
        failed
            .map(|(step, _)| (step.index, step.failed.to_string()))
            .collect()
    }
}

fn register(now: &Sight, thread: usize, register: usize) -> u64 {
    now.machine.threads[thread].live.gpr[register]
}

fn texasr(now: &Sight, thread: usize) -> u64 {
    now.machine.threads[thread].control.texasr.0
}

#[test]
fn elision_succeeds() {
    let told = told("elision-succeeds");
    assert_eq!(told.failures(), []);
    assert_eq!(
        (
            told.memory("left"),
            told.memory("right"),
            told.memory("lock")
        ),
        (42, 43, 0)
    );
    assert!(told
        .last()
        .machine
        .threads
        .iter()
        .all(|t| t.control.state == State::N));
}

#[test]
fn elision_fails_on_the_lock() {
    let told = told("elision-lock-taken");
    assert_eq!(told.failures(), [(5, "thread 0".to_string())]);
    assert_eq!(register(told.at("handler"), 0, 6), 0x0008_0000_1800_0001);
    assert_eq!(told.at("handler").memory[16], 0);
    assert_eq!(told.memory("data"), 42);
}

#[test]
fn elision_fails_on_capacity() {
    let told = told("elision-capacity");
    let overflow = told.story.names.label("overflow").unwrap();
    assert_eq!(told.failures(), [(overflow, "thread 0".to_string())]);
    assert_eq!(told.steps[overflow].0.answer, Answer::Handled);
    assert_eq!(texasr(told.last(), 0), 0x0020_0000_1C00_0001);
    // The lock and 31 lines were held before.
    let before = &told.steps[overflow - 1].1.machine.threads[0].transaction;
    assert_eq!(before.footprint(), 32);
}

#[test]
fn lemmings() {
    let told = told("lemmings");
    let failures: Vec<String> = told.failures().into_iter().map(|(_, who)| who).collect();
    assert_eq!(failures, ["thread 0", "threads 1, 2 and 3", "thread 2"]);
    assert_eq!(texasr(told.at("jump"), 0), 0x0080_0000_1C00_0001);
    for thread in 1..4 {
        assert_eq!(texasr(told.at("jump"), thread), 0x0008_0000_1800_0001);
    }
    // The cure: all three commit, at level 0 and with no failure.
    let control = |n: usize| &told.last().machine.threads[n].control;
    assert!((1..4).all(|n| control(n).state == State::N && control(n).texasr.0 == 0));
}

#[test]
fn rollback_only() {
    let told = told("rollback-only");
    let fails = told.story.names.label("fails").unwrap();
    assert_eq!(told.failures(), [(fails, "thread 0".to_string())]);
    assert_eq!(texasr(&told.steps[0].1, 0), 0x0200_0001);
    assert_eq!(texasr(&told.steps[3].1, 0), 0x0000_0002);
    assert_eq!(texasr(told.last(), 0), 0x0008_0000_1800_0001);
}

#[test]
fn suspend_and_log() {
    let told = told("suspend-and-log");
    let dooms = told.at("dooms");
    let control = &dooms.machine.threads[0].control;
    assert_eq!((control.state, control.doomed), (State::S, true));
    assert_eq!(control.texasr.0, 0x0008_0000_9800_0001);
    assert_eq!(
        told.answers()
            .iter()
            .filter(|a| **a == Answer::Handled)
            .count(),
        1
    );
    assert_eq!((told.memory("data"), told.memory("note")), (0, 42));
    assert_eq!(
        (told.last().memory[33], register(told.last(), 0, 3)),
        (43, 42)
    );
    // tcheck: TDOOMED, TS = 01.
    assert_eq!(told.steps[8].1.machine.threads[0].cr(2), 0b1010);
}

#[test]
fn an_interrupt_and_back() {
    let told = told("interrupt");
    let rfids = [told.steps[6].0.answer, told.steps[14].0.answer];
    assert_eq!(rfids, [Answer::Done, Answer::Handled]);
    assert_eq!(told.steps[6].1.machine.threads[0].control.state, State::T);
    assert_eq!((told.memory("stamp"), told.last().memory[129]), (8, 0x14));
    let control = &told.last().machine.threads[0].control;
    assert_eq!(control.texasr.0, 0x0008_0000_8800_0001);
    assert!(control.pr && control.tm && control.state == State::N);
}

#[test]
fn a_context_switch() {
    let told = told("context-switch");
    assert_eq!(
        told.answers()
            .iter()
            .filter(|a| **a != Answer::Done)
            .count(),
        1
    );
    let thread = &told.last().machine.threads[0];
    assert_eq!(thread.live.gpr[6], 0xDE00_0001_8C00_0001);
    assert_eq!((thread.live.gpr[3], thread.cr0), (3, 0b1010));
    assert_eq!((thread.control.tfhar, thread.control.nia), (0x1008, 0x100C));
    assert!(thread.control.pr && thread.control.state == State::N);
    assert_eq!((told.memory("data"), told.memory("a_r3")), (0, 3));
}

/// Whenever the auditor looks, the sum is 100.
#[test]
fn a_ledger() {
    let told = told("ledger");
    let failures: Vec<String> = told.failures().into_iter().map(|(_, who)| who).collect();
    assert_eq!(failures, ["thread 0"]);
    let read = |record: usize| {
        let now = &told.steps[record].1;
        (register(now, 1, 3), register(now, 1, 4))
    };
    assert_eq!((read(11), read(21)), ((100, 0), (70, 30)));
    assert_eq!(told.memory("alice"), 70 << 32 | 30);
    assert_eq!(told.last().memory[17], 7 << 32);
    let log = told.steps[15].1.machine.threads[0].transaction.entries()[0];
    assert_eq!((log.marks, log.value), (0xF0, 70 << 32));
}

/// No one but thread 0 ever has its value, and memory never has.
#[test]
fn the_mishap_of_version_one() {
    let told = told("mishap-one");
    for (step, now) in &told.steps {
        assert!(
            now.memory.iter().all(|word| *word != 42),
            "record {}",
            step.index
        );
        for thread in &now.machine.threads[1..] {
            let registers = thread.live.gpr.iter().chain(&thread.checkpoint.gpr);
            assert!(
                registers.into_iter().all(|value| *value == 0),
                "record {}",
                step.index
            );
        }
    }
    let loaded = |record: usize| register(&told.steps[record].1, 0, 4);
    assert_eq!((loaded(3), loaded(13)), (42, 42));
    assert_eq!(register(&told.steps[15].1, 0, 5), 0);
    let failed: Vec<usize> = told
        .failures()
        .into_iter()
        .map(|(record, _)| record)
        .collect();
    assert_eq!(failed, [4, 8, 14, 16]);
}

/// The handler's registers, address and state stay its own.
#[test]
fn the_mishap_of_version_two() {
    let told = told("mishap-two");
    let at = told.story.names.label("fails").unwrap();
    let (before, after) = (&told.steps[at - 1].1, told.at("fails"));
    let (before, after) = (&before.machine.threads[0], &after.machine.threads[0]);
    assert_eq!((&before.live, before.cr0), (&after.live, after.cr0));
    assert_eq!((before.control.nia, after.control.nia), (0x504, 0x504));
    assert_eq!(
        (after.control.state, after.control.doomed),
        (State::S, true)
    );
    assert_eq!(after.control.texasr.0, 0x0008_0000_8800_0001);
    assert_eq!(told.memory("kept"), 8);
    assert_eq!(register(told.last(), 0, 10), 1);
    assert_eq!(told.steps[8].0.answer, Answer::Handled);
}

/// Nothing of a tape of edition two is done.
#[test]
fn the_mishap_of_version_three() {
    let told = told("mishap-three");
    assert_eq!(told.story.bytes.len(), 32);
    assert_eq!(told.answers(), [Answer::BadFirstByte]);
    assert_eq!(told.last(), &Sight::fresh());
    let mut now = Sight::fresh();
    let ended = now.machine.run(&mut now.memory, &told.story.bytes);
    assert_eq!(
        (ended.bad_record(), ended.count),
        (Some((0, Answer::BadFirstByte)), 0)
    );
}

/// The stories' texts, and every picture that is kept, are those of today.
#[test]
fn what_is_kept_is_made_so() {
    let mut names: Vec<PathBuf> = fs::read_dir(root().join("stories"))
        .unwrap()
        .map(|entry| entry.unwrap().path())
        .filter(|path| files::is_story(path.as_os_str()))
        .collect();
    names.sort();
    assert_eq!(names.len(), 12);
    for path in names {
        let stem = path.file_stem().unwrap().to_str().unwrap();
        let story = read(&format!("stories/{stem}.story"));
        let kept = |end| fs::read_to_string(path.with_extension(end)).unwrap();
        assert_eq!(kept("show"), show::text(&story), "{stem}.show");
        let called = format!("stories/{stem}.story");
        let drawn = pictures(&story, ALL, &called, 12).unwrap();
        assert!(
            drawn == [kept("svg")],
            "{stem}.svg is not what timeline draws"
        );
        let text = workbench::check::written(&story.bytes).join("\n") + "\n";
        assert_eq!(kept("txt"), text, "{stem}.txt");
    }
    for stem in ["elision", "every_kind", "returns"] {
        let called = format!("tapes/{stem}.tape");
        let drawn = pictures(&read(&called), ALL, &called, 12).unwrap();
        let kept = fs::read_to_string(root().join(format!("docs/pictures/{stem}.svg"))).unwrap();
        assert!(
            drawn == [kept],
            "docs/pictures/{stem}.svg is not what timeline draws"
        );
    }
}

/// What became of whom, record by record.
fn ends(history: &History) -> Vec<(usize, usize, Fate, Option<&str>)> {
    let columns = history.columns.iter();
    columns
        .flat_map(|column| {
            let end = |end: &'_ workbench::timeline::history::End| (end.thread, end.fate);
            let ends = column
                .ends
                .iter()
                .map(move |e| (column.index, end(e), e.cause.as_deref()));
            ends.map(|(index, (thread, fate), cause)| (index, thread, fate, cause))
        })
        .collect()
}

#[test]
fn what_pictures_show() {
    let every = history(&read("tapes/every_kind.tape"), ALL);
    assert_eq!(
        ends(&every),
        [
            (10, 0, Fate::Doomed, Some("self-induced conflict")),
            (12, 0, Fate::Failed, None),
            (14, 0, Fate::Committed, None),
            (16, 1, Fate::Failed, Some("disallowed instruction")),
            (19, 2, Fate::Failed, Some("non-transactional conflict")),
            (21, 3, Fate::Failed, Some("abort, code 0x00")),
            (25, 3, Fate::Reclaimed, None),
            (27, 3, Fate::Failed, None),
        ]
    );
    let phases: Vec<_> = every.columns[7..12]
        .iter()
        .map(|c| c.after[0].phase)
        .collect();
    let (t, s, doomed) = (Some(Phase::T), Some(Phase::S), Some(Phase::Doomed));
    assert_eq!(phases, [t, s, s, doomed, doomed]);
    let nested = history(&read("stories/rollback-only.story"), ALL);
    let levels: Vec<u16> = nested.columns.iter().map(|c| c.after[0].level).collect();
    assert_eq!(levels, [1, 1, 1, 2, 2, 2, 1, 0, 0]);
    assert_eq!(nested.columns[5].mark.access, Some((2, false)));
    assert_eq!(nested.columns[7].mark.access, Some((2, true)));
}

/// Long tapes are cut: windows of a picture, and pictures of a tape.
#[test]
fn windows() {
    let longest = read("tapes/longest.tape");
    let drawn = pictures(&longest, ALL, "longest", 12).unwrap();
    assert_eq!(drawn.len(), 4096_usize.div_ceil(240));
    assert!(drawn[0].contains("records 0 to 239<") && drawn[0].contains("it goes on"));
    assert!(drawn[17].contains("records 4080 to 4095<") && drawn[17].contains("nesting"));
    let range = Range { from: 100, to: 104 };
    let drawn = pictures(&longest, range, "longest", 2).unwrap();
    assert_eq!(drawn.len(), 1);
    assert!(drawn[0].contains("records 100 to 104<") && drawn[0].contains("level 105"));
    let nothing = pictures(&read("tapes/nothing.tape"), ALL, "nothing", 12).unwrap();
    assert!(nothing[0].contains("nothing: no record"));
    // More than a hundred pictures are refused.
    let many = Story {
        bytes: longest.bytes[..16].repeat(24_001),
        ..Story::default()
    };
    assert!(pictures(&many, ALL, "many", 12).is_err());
}

/// Each element that is opened is closed, and what is drawn lies in the picture.
#[test]
fn pictures_are_well_formed() {
    for stem in ["lemmings", "context-switch", "mishap-three"] {
        let path = root().join(format!("stories/{stem}.svg"));
        let picture = fs::read_to_string(path).unwrap();
        let mut open: Vec<&str> = Vec::new();
        for element in picture.split('<').skip(1) {
            let (tag, _) = element.split_once('>').expect("a tag that ends");
            let name = tag.split([' ', '/']).find(|word| !word.is_empty()).unwrap();
            match (tag.starts_with('/'), tag.ends_with('/')) {
                (true, _) => assert_eq!(open.pop(), Some(name)),
                (false, false) => open.push(name),
                (false, true) => {}
            }
        }
        assert_eq!(open, [""; 0]);
    }
}
