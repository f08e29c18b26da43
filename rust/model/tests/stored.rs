//! The stored expectations of the proved programs, held to this model: every line of the vectors and the text of every tape.
//! Two readings of docs/RULES.md made apart so agree on them.

use model::{program, read, step, Edition, Entry, Machine, Registers, State, Thread};
use std::fmt::Write;
use std::fs;
use std::path::PathBuf;

const MEMORY: usize = 4112;

fn crates() -> PathBuf {
    PathBuf::from(env!("CARGO_MANIFEST_DIR")).join("../../crates")
}

fn bytes(item: &str) -> [u8; 16] {
    let mut b = [0; 16];
    for (i, byte) in b.iter_mut().enumerate() {
        *byte = u8::from_str_radix(&item[2 * i..2 * i + 2], 16).expect("hexadecimal digits");
    }
    b
}

fn put_cr(r: &mut Registers, field: usize, v: u64) {
    if (1..=7).contains(&field) {
        r.cr[field - 1] = v as u8;
    }
}

/// The pokes of a thread, numbered as in the vectors' library.
fn poke_thread(t: &mut Thread, field: u8, i: usize, index: u64, v: u64) {
    match field {
        3 if i < 32 => t.live.gpr[i] = v,
        4 if i < 32 => t.checkpoint.gpr[i] = v,
        5 if i == 0 => t.cr0 = v as u8,
        5 => put_cr(&mut t.live, i, v),
        6 => put_cr(&mut t.checkpoint, i, v),
        7 => t.nia = v,
        8 => t.pr = v == 1,
        9 => t.tm = v == 1,
        10 => {
            t.state = match v {
                0 => State::N,
                1 => State::T,
                _ => State::S,
            }
        }
        11 => t.doomed = v == 1,
        12 => t.tfhar = v,
        13 => t.tfiar = v,
        14 => t.texasr = v,
        21 => t.srr0 = v,
        22 => t.srr1 = v,
        15 if i < 4 => t.reads.0[i] = v,
        16 if i < 4 => t.writes.0[i] = v,
        17 => t.count = v as usize,
        18 if i < 64 => {
            t.log[i].index = v as u32;
            t.log[i].marks = 0xFF;
        }
        19 if i < 64 => {
            t.log[i].value = v;
            t.log[i].marks = 0xFF;
        }
        20 => {
            for k in 0..i.min(64) {
                t.log[k] = Entry {
                    index: index.wrapping_add(k as u64) as u32,
                    marks: 0xFF,
                    value: v,
                };
            }
            t.count = i;
        }
        23 if i < 64 => t.log[i].marks = v as u8,
        _ => {}
    }
}

fn poke(m: &mut Machine, mem: &mut [u64], lent: &mut usize, b: [u8; 16]) {
    let index = u64::from(u32::from_be_bytes([b[4], b[5], b[6], b[7]]));
    let v = u64::from_be_bytes(b[8..].try_into().expect("eight bytes"));
    match b[1] {
        0 => m.count = v as usize,
        1 => *lent = v as usize,
        2 => {
            if let Some(word) = mem.get_mut(index as usize) {
                *word = v;
            }
        }
        field => {
            if let Some(t) = m.threads.get_mut(usize::from(b[2])) {
                poke_thread(t, field, usize::from(b[3]), index, v);
            }
        }
    }
}

fn show(out: &mut String, name: String, v: u64, fresh: u64) {
    if v != fresh {
        write!(out, " {name}={v:x}").expect("a string takes all");
    }
}

fn show_registers(out: &mut String, w: usize, saved: &str, r: &Registers, cr0: Option<u8>) {
    for (i, v) in r.gpr.iter().enumerate() {
        show(out, format!("t{w}.{saved}r{i}"), *v, 0);
    }
    if let Some(v) = cr0 {
        show(out, format!("t{w}.cr0"), u64::from(v), 0);
    }
    for (i, v) in r.cr.iter().enumerate() {
        show(out, format!("t{w}.{saved}cr{}", i + 1), u64::from(*v), 0);
    }
}

fn show_thread(out: &mut String, w: usize, t: &Thread) {
    show_registers(out, w, "", &t.live, Some(t.cr0));
    show_registers(out, w, "saved_", &t.checkpoint, None);
    let state = match t.state {
        State::N => 0,
        State::T => 1,
        State::S => 2,
    };
    for (name, v, fresh) in [
        ("nia", t.nia, 0),
        ("pr", u64::from(t.pr), 1),
        ("tm", u64::from(t.tm), 1),
        ("state", state, 0),
        ("doomed", u64::from(t.doomed), 0),
        ("tfhar", t.tfhar, 0),
        ("tfiar", t.tfiar, 0),
        ("texasr", t.texasr, 0),
        ("srr0", t.srr0, 0),
        ("srr1", t.srr1, 0),
    ] {
        show(out, format!("t{w}.{name}"), v, fresh);
    }
    for i in 0..4 {
        show(out, format!("t{w}.reads{i}"), t.reads.0[i], 0);
    }
    for i in 0..4 {
        show(out, format!("t{w}.writes{i}"), t.writes.0[i], 0);
    }
    show(out, format!("t{w}.used"), t.count as u64, 0);
    for (i, e) in t.log.iter().enumerate() {
        // All eight bytes stored are the marks that need no word; none are, too,
        // in a place that is else zero.
        let unused = e.index == 0 && e.value == 0 && e.marks == 0;
        let usual = if unused { 0 } else { 0xFF };
        show(out, format!("t{w}.index{i}"), u64::from(e.index), 0);
        show(out, format!("t{w}.marks{i}"), u64::from(e.marks), usual);
        show(out, format!("t{w}.value{i}"), e.value, 0);
    }
}

/// What this model gives for a line `RULE: ITEM ITEM ..`.
fn vector(line: &str) -> String {
    let (rule, items) = line.split_once(':').expect("a rule and a colon");
    let mut out = format!("{rule}:");
    let mut m = Machine::fresh();
    let mut mem = vec![0u64; MEMORY];
    let mut lent = 64;
    for item in items.split_whitespace() {
        let b = bytes(item);
        if b[0] != 0xE3 {
            poke(&mut m, &mut mem, &mut lent, b);
            continue;
        }
        let answer = match read(&b) {
            Ok((thread, event)) => step(&mut m, &mut mem[..lent], thread, event),
            Err(number) => number,
        };
        write!(out, " {answer}").expect("a string takes all");
    }
    for (w, t) in m.threads.iter().enumerate() {
        show_thread(&mut out, w, t);
    }
    for (i, v) in mem.iter().enumerate() {
        show(&mut out, format!("mem[{i}]"), *v, 0);
    }
    show(&mut out, "count".to_string(), m.count as u64, 4);
    out
}

fn hold_vectors(name: &str) -> usize {
    let given = fs::read_to_string(crates().join(name).join("stdin")).expect("the vectors");
    let stored = fs::read_to_string(crates().join(name).join("stdout")).expect("what they show");
    assert_eq!(
        given.lines().count(),
        stored.lines().count(),
        "{name}: a line for a line"
    );
    for (line, expected) in given.lines().zip(stored.lines()) {
        assert_eq!(vector(line), expected, "{name}");
    }
    given.lines().count()
}

#[test]
fn vectors_agree() {
    assert!(hold_vectors("test_vectors") > 1300);
}

/// What the program writes for a tape, where it is stored: the program's own, and those beside the tapes.
fn stored_texts() -> Vec<(PathBuf, PathBuf)> {
    let own = crates().join("naszeptan");
    let mut stored = vec![(own.join("stdin"), own.join("stdout"))];
    for entry in fs::read_dir(crates().join("../tapes")).expect("the tapes") {
        let path = entry.expect("a file").path();
        if path.extension().is_some_and(|e| e == "stdout") {
            stored.push((path.with_extension("tape"), path));
        }
    }
    stored
}

#[test]
fn tapes_agree() {
    let stored = stored_texts();
    assert_eq!(stored.len(), 4);
    for (tape, text) in stored {
        let given = fs::read(&tape).expect("the tape");
        let written = fs::read_to_string(&text).expect("the program's text");
        assert_eq!(program(&given), written, "{}", tape.display());
    }
}

#[test]
fn the_tape_of_every_kind_is_that_of_the_program() {
    let shown = fs::read(crates().join("../tapes/every_kind.tape")).expect("the tape");
    let tested = fs::read(crates().join("naszeptan/stdin")).expect("the program's tape");
    assert_eq!(shown, tested);
}

/// What a tape's text says that the program writes; ".." stands for lines left out.
fn told(text: &str) -> Vec<&str> {
    let lines = text.lines();
    let behind = lines.skip_while(|line| !line.contains("The program writes"));
    behind
        .filter_map(|line| line.strip_prefix("    "))
        .collect()
}

/// Every tape for a reader, with the text beside it.
fn tapes() -> Vec<(PathBuf, Vec<u8>, String)> {
    let files = fs::read_dir(crates().join("../tapes")).expect("the tapes");
    let paths = files.map(|file| file.expect("a file").path());
    let tapes = paths.filter(|path| path.extension().is_some_and(|e| e == "tape"));
    tapes
        .map(|path| {
            let tape = fs::read(&path).expect("the tape");
            let text = fs::read_to_string(path.with_extension("txt")).expect("the text");
            (path, tape, text)
        })
        .collect()
}

#[test]
fn texts_beside_the_tapes_agree() {
    let tapes = tapes();
    assert_eq!(tapes.len(), 14);
    for (path, tape, text) in tapes {
        let given = program(&tape);
        let given: Vec<&str> = given.lines().collect();
        let told = told(&text);
        let mut parts = told.split(|line| *line == "..");
        let start = parts.next().unwrap_or_default();
        assert!(!start.is_empty(), "{path:?}");
        match parts.next() {
            None => assert_eq!(given, start, "{path:?}"),
            Some(end) => {
                assert!(given.starts_with(start) && given.ends_with(end), "{path:?}");
            }
        }
    }
}

/// What a text says below the line that begins so; none if it has no such line.
fn below<'a>(text: &'a str, words: &str) -> Option<Vec<&'a str>> {
    let mut lines = text.lines().skip_while(|line| !line.starts_with(words));
    lines.next()?;
    let block = lines.skip(1).map_while(|line| line.strip_prefix("    "));
    Some(block.collect())
}

/// Tapes that are converted, or not, as their texts say.
#[test]
fn texts_agree_on_what_is_converted() {
    let (mut converted, mut refused) = (0, 0);
    for (path, tape, text) in tapes() {
        let mut three = vec![0; tape.len()];
        let (number, index) = Edition::Two.convert(&tape, &mut three);
        if let Some(told) = below(&text, "Converted from edition two, it runs:") {
            assert_eq!((number, index), (0, tape.len() / 16), "{path:?}");
            assert!(program(&three).lines().eq(told), "{path:?}");
            let mut two = vec![0; tape.len()];
            assert_eq!(Edition::Three.convert(&three, &mut two), (0, index));
            assert_eq!(two, tape, "{path:?}");
            converted += 1;
        }
        if let Some(told) = below(&text, "Converting it from edition two is refused,") {
            assert_eq!(told, [format!("{number} {index}")], "{path:?}");
            assert!(three.iter().all(|&byte| byte == 0), "{path:?}");
            refused += 1;
        }
    }
    assert_eq!((converted, refused), (2, 2));
}

/// What the text says of memory: the bytes of SI and of the index are in order.
#[test]
fn the_elision_of_edition_two_stores_298() {
    let path = crates().join("../tapes/edition_two_elision.tape");
    let two = fs::read(path).expect("the tape");
    let mut three = vec![0; two.len()];
    assert_eq!(Edition::Two.convert(&two, &mut three), (0, 9));
    let (mut m, mut mem) = (Machine::fresh(), vec![0; 4096]);
    let ended = model::run(&mut m, &mut mem, &three);
    assert_eq!((ended.answer, ended.count, ended.index), (0, 9, 9));
    assert_eq!((mem[272], mem.iter().sum()), (298, 298));
}

/// Rule T13: the same bytes as the wrong edition, both ways.
#[test]
fn tapes_are_refused_as_the_wrong_edition() {
    let mut mixed_up = 0;
    for (path, tape, _) in tapes() {
        if tape.is_empty() || tape.len() % 16 != 0 {
            continue;
        }
        let name = path.file_name().and_then(|n| n.to_str());
        let edition = match name.is_some_and(|n| n.starts_with("edition_two")) {
            true => Edition::Two,
            false => Edition::Three,
        };
        let mut buf = vec![0; tape.len()];
        assert_eq!(edition.other().convert(&tape, &mut buf), (7, 0), "{path:?}");
        mixed_up += 1;
    }
    assert_eq!(mixed_up, 11);
}
