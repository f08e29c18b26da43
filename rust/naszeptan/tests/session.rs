//! A tape in pieces through the archive: however it is cut, however it is
//! stopped, from readers, and from bits (docs/RULES.md, Q1 to Q9 and H10).

use std::io::{self, ErrorKind, Read};

use naszeptan::{raw, Answer, Ended, Event, Machine, Session, Tape, HELD, MEMORY, PIECE};

const BEGIN: Event = Event::Tbegin { r: false };
const ABORT: Event = Event::Tabort { ra: 0 };
const SUSPEND: Event = Event::Tsr { l: false };

/// Events of which each is done.
const GOOD: [(u8, Event); 6] = [
    (0, BEGIN),
    (0, Event::Std { ra: 0, index: 1 }),
    (0, ABORT),
    (1, BEGIN),
    (1, SUSPEND),
    (1, ABORT),
];
const ANSWERS: [Answer; 6] = [
    Answer::Done,
    Answer::Done,
    Answer::Handled,
    Answer::Done,
    Answer::Done,
    Answer::Recorded,
];

/// Those, and one that is refused behind them, and one that is not reached.
fn stopped_tape() -> Vec<u8> {
    let mut tape = Tape::from_iter(GOOD);
    tape.push(1, Event::Tend { a: false }).push(0, BEGIN);
    tape.into_bytes()
}

fn good_tape() -> Vec<u8> {
    Tape::from_iter(GOOD).into_bytes()
}

fn open(memory: &mut [u64]) -> Session<'_> {
    Session::open(&Machine::fresh(), memory).unwrap()
}

fn ended(answer: Answer, count: usize) -> Ended {
    Ended {
        answer,
        count,
        index: count,
    }
}

/// All answers over pieces of this length, the end, the machine and the memory.
fn fed(tape: &[u8], length: usize) -> (Vec<Answer>, Ended, Machine, Vec<u64>) {
    let mut memory = vec![0; MEMORY];
    let mut session = open(&mut memory);
    let mut answers = Vec::new();
    for piece in tape.chunks(length) {
        answers.extend(session.feed(piece));
    }
    let (ended, machine) = (session.close(), session.machine());
    (answers, ended, machine, memory)
}

#[test]
fn any_cutting_is_the_run() {
    for (tape, last) in [
        (good_tape(), Answer::Done),
        (stopped_tape(), Answer::BadThing),
    ] {
        let (mut machine, mut memory) = (Machine::fresh(), vec![0; MEMORY]);
        let run = machine.run(&mut memory, &tape);
        assert_eq!(run, ended(last, 6));
        let mut answers = ANSWERS.to_vec();
        answers.extend((last != Answer::Done).then_some(last));
        for length in 1..=tape.len() {
            let right = (answers.clone(), run, machine.clone(), memory.clone());
            assert_eq!(fed(&tape, length), right);
        }
    }
}

#[test]
fn pieces_of_each_length() {
    let tape = good_tape();
    for length in [0, 1, 15, 16, 17, 40, 96] {
        let mut memory = [0; 16];
        let mut session = open(&mut memory);
        let finished = length / 16;
        assert_eq!(session.feed(&tape[..length]).len(), finished);
        assert_eq!(session.count(), finished as u64);
        assert_eq!(session.held(), &tape[16 * finished..length]);
        assert_eq!(session.answer(), Answer::Done);
        // What is held counts for the next piece.
        assert!(session
            .feed(&tape[length..])
            .eq(ANSWERS[finished..].to_vec()));
        assert_eq!(session.close(), ended(Answer::Done, 6));
    }
}

/// The answers from both ends, and as often as they are asked for.
#[test]
fn answers_of_a_piece() {
    let mut memory = [0; 16];
    let mut session = open(&mut memory);
    let tape = stopped_tape();
    let answers = session.feed(&tape);
    assert_eq!(answers.len(), 7);
    assert_eq!(answers.clone().next_back(), Some(Answer::BadThing));
    assert_eq!(answers.clone().filter(|a| a.is_done()).count(), 6);
    assert!(answers.take(6).eq(ANSWERS));
}

#[test]
fn a_stopped_session_takes_no_more() {
    let mut memory = vec![0; MEMORY];
    let mut session = open(&mut memory);
    assert_eq!(session.feed(&stopped_tape()).len(), 7);
    let (bits, before) = (*session.as_raw(), session.memory().to_vec());
    assert!(session.has_stopped());
    assert_eq!(session.held(), []);
    for piece in [&[][..], &[0], &[0; 16], &good_tape()] {
        assert_eq!(session.feed(piece).len(), 0);
        assert_eq!((session.as_raw(), session.memory()), (&bits, &before[..]));
        assert_eq!(session.answer(), Answer::BadThing);
        assert_eq!(session.close(), ended(Answer::BadThing, 6));
    }
    let text = "record 6: 13, TM Bad Thing";
    assert_eq!(session.close().to_string(), text);
}

/// Bytes of a record that make it none, each with its place and the answer.
const SPOILT: [(usize, u8, Answer); 3] = [
    (0, 0xE2, Answer::BadFirstByte),
    (1, 0, Answer::NoKind),
    (15, 1, Answer::Field),
];

/// What was done before a bad record stays, other than in a run.
#[test]
fn a_bad_record_stops_it_where_it_stands() {
    for (place, byte, answer) in SPOILT {
        for index in 0..6 {
            let mut tape = good_tape();
            tape[16 * index + place] = byte;
            let (_, _, machine, memory) = fed(&good_tape()[..16 * index], 1000);
            let mut answers = ANSWERS[..index].to_vec();
            answers.push(answer);
            for length in [1, 15, 16, 17, 1000] {
                let (given, end, after, lent) = fed(&tape, length);
                assert_eq!((&given, end), (&answers, ended(answer, index)));
                assert_eq!((after, lent), (machine.clone(), memory.clone()));
                assert_eq!(end.bad_record(), Some((index, answer)));
            }
        }
    }
}

#[test]
fn an_unfinished_record_is_not_looked_at() {
    for length in 1..=HELD {
        let mut memory = [0; 16];
        let mut session = open(&mut memory);
        session.feed(&good_tape());
        assert_eq!(session.feed(&vec![0; length]).len(), 0);
        assert_eq!(session.answer(), Answer::Done);
        assert_eq!(session.close(), ended(Answer::TapeLength, 6));
        assert_eq!(
            session.close().to_string(),
            "the tape: 6, the length is not a multiple of 16 bytes"
        );
        // It is, once it is whole.
        let rest = vec![0; 16 - length];
        assert!(session.feed(&rest).eq([Answer::BadFirstByte]));
    }
}

#[test]
fn opening_refuses_what_is_no_machine() {
    let (mut memory, fresh) = ([0; 17], Machine::fresh());
    let refused = |session: Result<Session, Answer>| session.unwrap_err();
    assert_eq!(refused(Session::open(&fresh, &mut memory)), Answer::Size);
    let mut broken = fresh.clone();
    broken.threads[3].control.nia = 1;
    let short = &mut memory[..16];
    assert_eq!(refused(Session::open(&broken, short)), Answer::NoMachine);
    broken.count = 5;
    assert_eq!(refused(Session::open(&broken, short)), Answer::Size);
}

/// A session that is kept as its bits and goes on elsewhere.
#[test]
fn bits_of_a_session() {
    let (tape, mut memory) = (good_tape(), vec![0; MEMORY]);
    let mut bits = raw::open(raw::fresh(), MEMORY);
    for byte in &tape {
        let mut session = Session::from_raw(bits, &mut memory).unwrap();
        session.feed(&[*byte]);
        bits = *session.as_raw();
    }
    let (_, end, machine, right) = fed(&tape, 1000);
    let session = Session::from_raw(bits, &mut memory).unwrap();
    assert_eq!((session.close(), session.machine()), (end, machine));
    assert_eq!(session.memory(), right);
    // One that has stopped is one too.
    bits.answer = 13;
    let session = Session::from_raw(bits, &mut memory).unwrap();
    assert_eq!(session.answer(), Answer::BadThing);
}

/// A name of some bits, and the bits.
type Wrong = (&'static str, fn(&mut raw::Session));

/// What makes a session none, by 2.
const WRONG: [Wrong; 11] = [
    ("16 bytes held", |s| s.held = 16),
    ("all bytes held", |s| s.held = usize::MAX),
    ("a byte past those held", |s| s.bytes[5] = 1),
    ("the last byte", |s| s.bytes[14] = 1),
    ("6", |s| s.answer = 6),
    ("10", |s| s.answer = 10),
    ("20", |s| s.answer = 20),
    ("99", |s| s.answer = 99),
    ("stopped, and bytes held", |s| s.answer = 13),
    ("not valid", |s| s.machine.threads[0].control.nia += 1),
    ("no machine", |s| s.machine.threads[2].control.state = 3),
];

/// Feeding and closing these bits is refused by the number; nothing changes.
fn refused(bits: raw::Session, len: usize, number: u8, name: &str) {
    let mut memory = vec![5; len];
    for piece in [&[][..], &[0], &good_tape()] {
        let mut answers = [7; 8];
        let fed = raw::feed(bits, &mut memory, piece, &mut answers);
        assert_eq!((fed.answer, fed.finished), (number, 0), "{name}");
        assert_eq!((fed.session, answers), (bits, [7; 8]), "{name}");
        assert!(memory.iter().all(|&word| word == 5), "{name}");
    }
    let end = raw::close(bits, len);
    assert_eq!((end.answer, end.count, end.index), (number, 0, 0), "{name}");
    assert_eq!(end.machine, bits.machine, "{name}");
    let session = Session::from_raw(bits, &mut memory);
    assert_eq!(session.unwrap_err().number(), number, "{name}");
}

#[test]
fn bits_that_are_no_session() {
    let opened = raw::open(raw::fresh(), 16);
    let tape = &good_tape()[..37];
    let busy = raw::feed(opened, &mut [0; 16], tape, &mut []).session;
    assert_eq!((busy.count, busy.held), (2, 5));
    for (name, make_wrong) in WRONG {
        let mut bits = busy;
        make_wrong(&mut bits);
        refused(bits, 16, 2, name);
        // 1 comes first.
        refused(bits, 17, 1, name);
        bits.machine.count = 0;
        refused(bits, 16, 1, name);
    }
    refused(busy, 24, 1, "a session over another memory");
    refused(raw::Session::default(), 16, 1, "no threads");
}

/// Where opening refuses, the value is no session.
#[test]
fn bits_of_a_refused_opening() {
    let mut machine = raw::fresh();
    machine.threads[1].control.pr = 2;
    for (machine, len, number) in [(raw::fresh(), 17, 1), (machine, 16, 2), (machine, 0, 1)] {
        let bits = raw::open(machine, len);
        let nothing = (0, 0, [0; HELD]);
        assert_eq!((bits.count, bits.held, bits.bytes), nothing);
        assert_eq!((bits.answer, bits.machine), (number, machine));
        refused(bits, len, number, "a refused opening");
    }
}

#[test]
fn the_count_wraps() {
    let mut memory = [0; 16];
    let mut bits = raw::open(raw::fresh(), 16);
    bits.count = u64::MAX - 1;
    let mut session = Session::from_raw(bits, &mut memory).unwrap();
    session.feed(&good_tape());
    assert_eq!(session.count(), 4);
    assert_eq!(session.close(), ended(Answer::Done, 4));
}

/// The answers that find no place are left out; nothing else of the buffer
/// changes.
#[test]
fn a_short_buffer() {
    let all = [0, 0, 20, 0, 0, 21, 13, 7];
    for room in 0..=all.len() {
        let mut answers = vec![7; room];
        let bits = raw::open(raw::fresh(), 16);
        let fed = raw::feed(bits, &mut [0; 16], &stopped_tape(), &mut answers);
        assert_eq!((fed.answer, fed.finished, fed.session.count), (13, 7, 6));
        assert_eq!(answers, all[..room]);
    }
}

/// A reader that gives so many bytes at a time, and fails now and then.
struct Pipe<'a> {
    rest: &'a [u8],
    most: usize,
    fails: Vec<ErrorKind>,
}

impl Read for Pipe<'_> {
    fn read(&mut self, buffer: &mut [u8]) -> io::Result<usize> {
        if let Some(kind) = self.fails.pop() {
            return Err(kind.into());
        }
        let most = self.most.min(buffer.len());
        (&mut self.rest).take(most as u64).read(buffer)
    }
}

/// A reader over these bytes that breaks off once, and then goes on.
fn pipe(rest: &[u8], most: usize) -> Pipe<'_> {
    Pipe {
        rest,
        most,
        fails: vec![ErrorKind::Interrupted],
    }
}

#[test]
fn from_a_reader() {
    for most in [1, 15, 16, 17, 1000] {
        let (tape, mut memory) = (good_tape(), vec![0; MEMORY]);
        let mut session = open(&mut memory);
        let mut counts = Vec::new();
        let watch = |session: &Session| counts.push(session.count());
        let answer = session.read_to_end(pipe(&tape, most), watch).unwrap();
        assert_eq!(answer, Answer::Done);
        let right = (1..=tape.len().div_ceil(most)).map(|n| (n * most).min(96) as u64 / 16);
        assert!(counts.into_iter().eq(right));
        let (_, end, machine, right) = fed(&tape, 1000);
        assert_eq!((session.close(), session.machine()), (end, machine));
        assert_eq!(session.memory(), right);
    }
}

/// What stands behind the stop is not read, or as little as can be.
#[test]
fn a_reader_is_left_where_the_session_stops() {
    let tape = [stopped_tape(), vec![9; 100]].concat();
    let mut memory = [0; 16];
    let mut session = open(&mut memory);
    let mut reader = pipe(&tape, 16);
    let answer = session.read_to_end(&mut reader, |_| {}).unwrap();
    assert_eq!(answer, Answer::BadThing);
    assert_eq!(reader.rest.len(), 16 + 100);
    assert!(session.read_piece(&mut reader).unwrap().is_none());
    assert_eq!(reader.rest.len(), 16 + 100);
}

#[test]
fn a_read_that_fails_may_be_tried_again() {
    let (tape, mut memory) = (good_tape(), [0; 16]);
    let mut session = open(&mut memory);
    let mut reader = pipe(&tape, 20);
    session.read_piece(&mut reader).unwrap().unwrap();
    let before = *session.as_raw();
    reader.fails = vec![ErrorKind::Other];
    let why = session.read_to_end(&mut reader, |_| {}).unwrap_err();
    assert_eq!((why.kind(), *session.as_raw()), (ErrorKind::Other, before));
    session.read_to_end(&mut reader, |_| {}).unwrap();
    assert_eq!(session.close(), ended(Answer::Done, 6));
}

/// A read takes one piece of what there is.
#[test]
fn a_long_tape_from_a_reader() {
    let records = 3 * PIECE / 16 + 5;
    let tape = Tape::from_iter((0..records).map(|n| (n as u8 % 4, Event::Interrupt)));
    let mut memory = [0; 16];
    let mut session = open(&mut memory);
    let (mut reader, mut counts) = (tape.as_bytes(), Vec::new());
    while let Some(answers) = session.read_piece(&mut reader).unwrap() {
        assert!(answers.clone().all(|answer| answer == Answer::Done));
        counts.push(answers.len());
    }
    assert_eq!(counts, [4096, 4096, 4096, 5]);
    assert_eq!(session.close(), ended(Answer::Done, records));
}

#[test]
fn shown_for_debugging() {
    let mut memory = [0; 16];
    let mut session = open(&mut memory);
    session.feed(&good_tape()[..18]);
    let text = format!("{session:?}");
    let start = "Session { count: 1, answer: Done, held: [227, 13], machine: Machine {";
    assert!(text.starts_with(start), "{text}");
}
