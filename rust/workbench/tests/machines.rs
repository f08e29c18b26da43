//! What a record changed, told field by field; and where two machines part.

use naszeptan::{Answer, Entry, State, Texasr, KINDS};
use workbench::changes::{changes, whole, How};
use workbench::play::{Play, Sight};
use workbench::show::{parting, text};
use workbench::story::{asm::asm, Names, Story};

fn story(text: &str) -> Story {
    asm(text).unwrap_or_else(|wrong| panic!("{wrong}"))
}

/// Something of thread 1 is made other.
type Poke = fn(&mut Sight);

/// Each field of a thread and memory, made other, and its name.
const POKES: [(&str, Poke); 19] = [
    ("state", |s| s.machine.threads[1].control.state = State::S),
    ("TDOOMED", |s| s.machine.threads[1].control.doomed = true),
    ("PR", |s| s.machine.threads[1].control.pr = false),
    ("TM", |s| s.machine.threads[1].control.tm = false),
    ("NIA", |s| s.machine.threads[1].control.nia = 4),
    ("CR0", |s| s.machine.threads[1].cr0 = 5),
    ("r31", |s| s.machine.threads[1].live.gpr[31] = 1),
    ("cr7", |s| s.machine.threads[1].live.cr[6] = 1),
    ("checkpoint r0", |s| {
        s.machine.threads[1].checkpoint.gpr[0] = 1
    }),
    ("checkpoint cr1", |s| {
        s.machine.threads[1].checkpoint.cr[0] = 1
    }),
    ("TFHAR", |s| s.machine.threads[1].control.tfhar = 4),
    ("TFIAR", |s| s.machine.threads[1].control.tfiar = 4),
    ("TEXASR", |s| {
        s.machine.threads[1].control.texasr = Texasr(1)
    }),
    ("SRR0", |s| s.machine.threads[1].control.srr0 = 4),
    ("SRR1", |s| s.machine.threads[1].control.srr1 = 4),
    ("reads", |s| {
        s.machine.threads[1].transaction.reads.insert(255)
    }),
    ("writes", |s| {
        s.machine.threads[1].transaction.writes.insert(0)
    }),
    ("log 17", |s| {
        let transaction = &mut s.machine.threads[1].transaction;
        transaction.count = 1;
        transaction.log[0] = Entry {
            index: 17,
            marks: 0xFF,
            value: 0,
        };
    }),
    ("memory 4095", |s| s.memory[4095] = 1),
];

#[test]
fn each_field_is_told_and_no_other() {
    for (name, poke) in POKES {
        let (before, mut after) = (Sight::fresh(), Sight::fresh());
        poke(&mut after);
        for (one, other) in [(&before, &after), (&after, &before)] {
            let told = changes(one, other, &Names::default());
            let names: Vec<&str> = told.iter().map(|change| change.name.as_str()).collect();
            assert_eq!(names, [name]);
            let thread = (!name.starts_with("memory")).then_some(1);
            assert_eq!(told[0].thread, thread);
            match &told[0].how {
                How::Value(one, other) => assert_ne!(one, other),
                How::Lines(one, other) => assert_ne!(one, other),
            }
        }
        assert_ne!(
            whole(&before, &Names::default()),
            whole(&after, &Names::default())
        );
    }
}

/// A tape of every kind by each thread, as far as it goes.
fn long() -> Vec<u8> {
    let mut lines = String::from("thread 2 host PR=0, TM=1\n");
    for n in 0..60 {
        let (thread, place) = (n % 3, n * 7 % 40);
        lines += &format!("thread {thread} tbegin. R={}\n", n % 2);
        lines += &format!("thread {thread} addi r3, r3, {n}\n");
        lines += &format!("thread {thread} std r3, {place}\n");
        lines += &format!("thread {} ld r4, {}\n", (n + 1) % 3, place + n % 20);
        lines += &format!("thread {thread} tcheck cr2\n");
        lines += &format!(
            "thread {thread} {}\n",
            ["tend.", "tsuspend.", "disallowed"][n % 3]
        );
        lines += &format!("thread {thread} tresume.\n");
    }
    story(&lines).bytes
}

/// What is told is there, and what is there is told.
#[test]
fn steps_and_sessions_agree() {
    let tape = long();
    let mut play = Play::new(&tape);
    let (mut done, mut failed) = (0, 0);
    loop {
        let before = play.now.clone();
        let Some(step) = play.step() else { break };
        let told = changes(&before, &play.now, &Names::default());
        assert_eq!(told.is_empty(), before == play.now);
        failed += step.failed.len();
        done += 1;
        if done % 20 == 0 {
            let mut skipped = Play::new(&tape);
            skipped.skip_to(done);
            assert_eq!((skipped.index(), &skipped.now), (done, &play.now));
        }
    }
    assert_eq!(done, tape.len() / 16);
    assert!(failed > 10, "only {failed} failures");
    assert_eq!(play.stopped(), None);
}

#[test]
fn a_tape_that_stops() {
    let tape = story("thread 0 tbegin.\nthread 0 trechkpt.\nthread 0 tend.").bytes;
    let mut play = Play::new(&tape);
    play.step().unwrap();
    let step = play.step().unwrap();
    assert_eq!((step.index, step.answer), (1, Answer::Privileged));
    assert_eq!(play.step(), None);
    assert_eq!(play.stopped(), Some(Answer::Privileged));
    // Skipped past, it stops where it stands.
    let mut play = Play::new(&tape);
    play.skip_to(3);
    assert_eq!(
        (play.index(), play.stopped()),
        (2, Some(Answer::Privileged))
    );
    assert_eq!(play.step(), None);
    // A record that is none is a step, too.
    let bytes = story("thread 0 rfid\nbytes 00").bytes;
    let mut play = Play::new(&bytes);
    play.skip_to(9);
    assert_eq!(
        (play.index(), play.stopped()),
        (1, Some(Answer::Privileged))
    );
    let mut play = Play::new(&bytes[16..]);
    let step = play.step().unwrap();
    assert_eq!((step.event, step.answer), (None, Answer::TapeLength));
}

#[test]
fn what_show_writes() {
    let told = text(&story(
        "lock = 0\ndata = line 1\nthread 0 tbegin.\nthread 0 ld r4, lock\nthread 0 std r4, data+1\n\
         take: thread 1 std r5, lock",
    ));
    let wanted = "    2  thread 0  std r4, data+1      0, done
           thread 0  NIA 0xC, was 0x8
           thread 0  writes line 1 (data) added
           thread 0  log 17 (data+1) 0x0, was none
take:
    3  thread 1  std r5, lock        0, done; thread 0 failed
           thread 0  state N, was T
           thread 0  NIA 0x4, was 0xC
           thread 0  CR0 1010, was 0000
           thread 0  TFIAR 0xD, was 0x0
           thread 0  TEXASR 0x0008000018000001 (non-transactional conflict, level 1, exact=0, \
suspended=0, PR=1, ROT=0, code 0x00), was 0x0000000000000001
           thread 0  reads line 0 (lock) gone
           thread 0  writes line 1 (data) gone
           thread 0  log 17 (data+1) none, was 0x0
           thread 1  NIA 0x4, was 0x0
";
    assert!(told.ends_with(wanted), "{told}");
}

#[test]
fn machines_that_part() {
    let begin = "thread 0 tbegin.\nthread 0 ld r4, 0\n";
    let one = story(&format!("{begin}thread 1 std r5, 0"));
    let other = story(&format!("{begin}thread 1 std r5, 16"));
    let (told, status) = parting(&one, &other, ["a", "b"]);
    assert_eq!(status, 1);
    let head = "the machines part at record 2\na\n    2  thread 1  std r5, 0";
    assert!(told.starts_with(head), "{told}");
    assert!(told.contains("thread 0  state: N | T\n"), "{told}");
    assert!(told.contains("thread 0  reads: none | 0\n"), "{told}");
    // One goes on where the other has ended.
    let short = story(begin);
    let (told, status) = parting(&one, &short, ["a", "b"]);
    assert_eq!(status, 1);
    assert!(
        told.contains("b\n    2  nothing: the tape has ended\n"),
        "{told}"
    );
    let (told, status) = parting(&one, &one, ["a", "a"]);
    assert_eq!(
        (told.as_str(), status),
        ("the machines never part: 3 records\n", 0)
    );
}

/// Each instruction of the table can be written in a story.
#[test]
fn names_of_kinds() {
    let names: Vec<&str> = workbench::story::kinds::instructions().collect();
    assert!(KINDS.iter().all(|kind| names.contains(&kind.name)));
    let mut sorted = names.clone();
    sorted.sort_unstable();
    sorted.dedup();
    assert_eq!(sorted.len(), names.len());
}
