//! The stored tapes, stepped and run, give what the text beside them says; and
//! one more, that climbs all levels.

use std::fs;
use std::path::{Path, PathBuf};

use naszeptan::{Answer, Edition, Ended, Event, Machine, NotConverted, Tape, LEVELS, MEMORY};

/// The program's limit (docs/RULES.md, P2). A run has none.
const LONGEST: usize = 65_536;

fn folder() -> PathBuf {
    Path::new(env!("CARGO_MANIFEST_DIR")).join("../../tapes")
}

fn tape(name: &str) -> Tape {
    Tape::from_bytes(fs::read(folder().join(format!("{name}.tape"))).unwrap())
}

fn text(name: &str) -> String {
    fs::read_to_string(folder().join(format!("{name}.txt"))).unwrap()
}

/// The lines that the program writes: the last block of the text.
fn expected(name: &str) -> Vec<String> {
    let text = text(name);
    let (_, block) = text.rsplit_once("\n\n").unwrap();
    lines(block)
}

/// The block below the line of the text that ends so.
fn below(name: &str, words: &str) -> Vec<String> {
    let text = text(name);
    let (_, rest) = text.split_once(&format!("{words}\n\n")).unwrap();
    let (block, _) = rest.split_once("\n\n").unwrap();
    lines(block)
}

fn lines(block: &str) -> Vec<String> {
    block.lines().map(|line| line.trim().to_string()).collect()
}

/// Each event's answer by stepping, and how it ended.
fn stepped(machine: &mut Machine, memory: &mut [u64], tape: &Tape) -> (Vec<Answer>, Ended) {
    let ended = |answer, count| Ended {
        answer,
        count,
        index: count,
    };
    let mut answers = Vec::new();
    for (count, record) in tape.records().enumerate() {
        let (thread, event) = record.unwrap();
        let answer = machine.step(memory, thread, event);
        answers.push(answer);
        if !answer.is_done() {
            return (answers, ended(answer, count));
        }
    }
    (answers, ended(Answer::Done, tape.len()))
}

/// The first record that is none.
fn bad_record(tape: &Tape) -> Option<(usize, Answer)> {
    let length = tape.is_ragged().then_some(Answer::TapeLength);
    let mut records = tape.records().enumerate();
    match length {
        Some(answer) => Some((tape.len() - 1, answer)),
        None => records.find_map(|(index, record)| Some((index, record.err()?))),
    }
}

/// What the program would write. A run must end as the steps do.
fn written(tape: &Tape) -> Vec<String> {
    if tape.as_bytes().len() > LONGEST {
        return vec!["long".to_string()];
    }
    let (mut machine, mut memory) = (Machine::fresh(), vec![0; MEMORY]);
    let ended = machine.run(&mut memory, tape);
    assert_eq!(ended.bad_record(), bad_record(tape));
    if let Some((index, answer)) = ended.bad_record() {
        assert_eq!((machine, ended.count), (Machine::fresh(), 0));
        assert_eq!(memory, [0; MEMORY]);
        return vec![format!("bad {index} {}", answer.number())];
    }
    let (mut other, mut other_memory) = (Machine::fresh(), vec![0; MEMORY]);
    let (answers, also) = stepped(&mut other, &mut other_memory, tape);
    assert_eq!(ended, also);
    assert_eq!(machine, other);
    assert_eq!(memory, other_memory);
    let numbered = answers.iter().enumerate();
    let mut lines: Vec<_> = numbered
        .map(|(n, a)| format!("{n} {}", a.number()))
        .collect();
    lines.push(format!("end {}", ended.count));
    lines
}

/// The text of a long tape leaves lines out at "..".
fn hold(name: &str) {
    let (given, expected) = (written(&tape(name)), expected(name));
    match expected.iter().position(|line| line == "..") {
        None => assert_eq!(given, expected),
        Some(gap) => {
            assert_eq!(given[..gap], expected[..gap]);
            let tail = &expected[gap + 1..];
            assert_eq!(given[given.len() - tail.len()..], *tail);
        }
    }
}

/// The tape is of edition two. Converted it runs as the text says, and
/// converted back it is the same bytes.
fn hold_converted(name: &str) {
    hold(name);
    let two = tape(name);
    let three = two.convert(Edition::Two).unwrap();
    assert_eq!(
        written(&three),
        below(name, "Converted from edition two, it runs:")
    );
    assert_eq!(three.convert(Edition::Three), Ok(two));
}

/// Taken for edition two, the tape is refused as the text says.
fn hold_not_converted(name: &str) {
    hold(name);
    let NotConverted { answer, index, .. } = tape(name).convert(Edition::Two).unwrap_err();
    let told = below(name, "is refused, by this number at this record:");
    assert_eq!(told, [format!("{} {index}", answer.number())]);
}

/// The same bytes as the wrong edition, both ways.
#[test]
fn the_wrong_edition() {
    for (name, taken_for) in [
        ("edition_two", Edition::Three),
        ("edition_two_elision", Edition::Three),
        ("edition_two_thread_4", Edition::Three),
        ("elision", Edition::Two),
        ("every_kind", Edition::Two),
        ("pair", Edition::Two),
    ] {
        let refused = tape(name).convert(taken_for).unwrap_err();
        assert_eq!((refused.answer, refused.index), (Answer::BadFirstByte, 0));
    }
}

/// The highest level is reached by events: the longest tape of the program
/// climbs to it and overflows at its last record.
#[test]
fn all_levels() {
    let mut tape = Tape::new();
    for _ in 0..=LEVELS {
        tape.push(0, Event::Tbegin { r: false });
    }
    assert_eq!(tape.as_bytes().len(), LONGEST);
    let climb = (0..LEVELS).map(|n| format!("{n} 0"));
    let expected: Vec<String> = climb
        .chain(["4095 20", "end 4096"].map(String::from))
        .collect();
    assert_eq!(written(&tape), expected);
}

#[test]
fn edition_two() {
    hold_converted("edition_two");
}

#[test]
fn edition_two_elision() {
    hold_converted("edition_two_elision");
    let three = tape("edition_two_elision").convert(Edition::Two).unwrap();
    let mut memory = vec![0; MEMORY];
    let ended = Machine::fresh().run(&mut memory, three);
    assert_eq!(ended.answer, Answer::Done);
    assert_eq!((memory[272], memory.iter().sum()), (298, 298));
}

#[test]
fn edition_two_thread_4() {
    hold_not_converted("edition_two_thread_4");
}

#[test]
fn elision() {
    hold_not_converted("elision");
}

#[test]
fn every_kind() {
    hold("every_kind");
}

#[test]
fn first_byte() {
    hold("first_byte");
}

#[test]
fn hidden() {
    hold("hidden");
}

#[test]
fn longest() {
    hold("longest");
}

#[test]
fn nothing() {
    hold("nothing");
}

#[test]
fn pair() {
    hold("pair");
}

#[test]
fn ragged() {
    hold("ragged");
}

#[test]
fn returns() {
    hold("returns");
}

#[test]
fn too_long() {
    hold("too_long");
}

/// The stores of words, and nothing of the bytes that a failed transaction had.
#[test]
fn words() {
    hold("words");
    let (mut machine, mut memory) = (Machine::fresh(), vec![0; MEMORY]);
    let ended = machine.run(&mut memory, tape("words"));
    assert_eq!((ended.answer, ended.count), (Answer::Operand, 14));
    assert_eq!(memory[..2], [0x0000_0001_0000_0001, 0x0001_0000_0000_0000]);
    assert!(memory[2..].iter().all(|&doubleword| doubleword == 0));
    assert_eq!(machine.threads[1].live.gpr[7], 1);
    let control = &machine.threads[0].control;
    assert_eq!(control.texasr.0, 0x0008_0000_1800_0001);
}
