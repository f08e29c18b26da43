//! The command: what it writes, and what it refuses. tools/test-command has its
//! statuses.

use std::fs;
use std::path::{Path, PathBuf};

use report::command::command;

fn stored(name: &str) -> PathBuf {
    let root = Path::new(env!("CARGO_MANIFEST_DIR"));
    root.join("tests/stored").join(name)
}

/// What is written, and whether all is well; or why not. `@` in a word is the
/// folder of the stored files.
fn said(words: &[&str], mut input: &[u8]) -> Result<(String, bool), String> {
    let folder = stored("").display().to_string();
    let words = words.iter().map(|word| word.replace('@', &folder).into());
    let told = command(words, &mut input)?;
    Ok((told.report.replace(&folder, "@"), told.well))
}

/// Nothing is written, and one line says why.
fn refused(words: &[&str], input: &[u8], why: &str) {
    let folder = stored("").display().to_string();
    let said = said(words, input).map_err(|why| why.replace(&folder, "@"));
    assert_eq!(said, Err(why.into()), "{words:?}");
}

#[test]
fn reports() {
    let text = fs::read_to_string(stored("abort.txt")).unwrap();
    let named = text.replacen("abort:", "@abort.tape:", 1);
    assert_eq!(said(&["@abort.tape"], b""), Ok((named, true)));
    let tape = fs::read(stored("abort.tape")).unwrap();
    let named = text.replacen("abort:", "standard input:", 1);
    assert_eq!(said(&["-"], &tape), Ok((named, true)));
    let json = fs::read_to_string(stored("abort.json")).unwrap();
    assert_eq!(said(&["--json", "@abort.tape"], b""), Ok((json, true)));
}

#[test]
fn contradictions_and_stops() {
    let json = fs::read_to_string(stored("against.json")).unwrap();
    let words = ["@against.tape", "--json", "--against", "@against.hardware"];
    assert_eq!(said(&words, b""), Ok((json, false)));
    // trechkpt. in problem state
    let mut tape = [0; 16];
    tape[..2].copy_from_slice(&[0xE3, 9]);
    let (out, well) = said(&["-"], &tape).unwrap();
    assert!(!well);
    assert!(out.ends_with("stopped at record 0: 12, a privileged instruction in problem state\n"));
}

#[test]
fn no_tape() {
    refused(
        &["@none.tape"],
        b"",
        "@none.tape: No such file or directory",
    );
    refused(
        &["-"],
        &[0xE3; 17],
        "standard input: the tape: 6, the length is not a multiple of 16 bytes",
    );
    let first =
        "standard input: record 0: 7, the first byte is not 0xE3, or above 3 in edition two";
    refused(&["-"], &[0; 16], first);
}

#[test]
fn ragged_lines() {
    let value = "is 0x and 1 to 16 hexadecimal digits, and not";
    for (lines, why) in [
        (
            "\n# a remark\n0",
            "line 3: a thread and a TEXASR are wanted".to_string(),
        ),
        (
            "4 0x1",
            "line 1: the thread is 0 to 3, and not \"4\"".into(),
        ),
        ("0 1", format!("line 1: TEXASR {value} \"1\"")),
        ("0 0x1\n0 0x", format!("line 2: TEXASR {value} \"0x\"")),
        ("0 0x+1", format!("line 1: TEXASR {value} \"0x+1\"")),
        ("0 0x1 x", format!("line 1: TFIAR {value} \"x\"")),
        ("0 0x1 - 4", format!("line 1: TFHAR {value} \"4\"")),
        (
            "0 0x1 - - 10",
            "line 1: CR0 is four binary digits, and not \"10\"".into(),
        ),
        (
            "0 0x1 - - - -",
            "line 1: at most a thread, TEXASR, TFIAR, TFHAR and CR0 are wanted".into(),
        ),
    ] {
        let why = format!("standard input: {why}");
        refused(&["@abort.tape", "--against", "-"], lines.as_bytes(), &why);
    }
    refused(
        &["@abort.tape", "--against", "-"],
        b"0 0x1\n\xFF",
        "standard input: line 2: it is no text",
    );
}

#[test]
fn mistakes_of_use() {
    let levels = "the highest level is 15, 31, 63, 127, 255, 511, 1023, 2047 or 4095";
    for (words, why) in [
        (vec![], "a tape is wanted".to_string()),
        (vec!["a", "b"], "one tape is wanted".into()),
        (vec!["a", "--all"], "no such option: --all".into()),
        (
            vec!["a", "--against"],
            "--against wants a word behind it".into(),
        ),
        (vec!["a", "--hv", "2"], "--hv is 0 or 1".into()),
        (
            vec!["a", "--nesting", "2"],
            "--nesting is free, 0 or 1".into(),
        ),
        (
            vec!["a", "--highest", "x"],
            "--highest x: it is no level".into(),
        ),
        (
            vec!["a", "--highest", "16"],
            format!("--highest 16: {levels}"),
        ),
    ] {
        refused(&words, b"", &why);
    }
}

#[test]
fn profiles() {
    let words = [
        "@abort.tape",
        "--highest",
        "63",
        "--hv",
        "1",
        "--at-once",
        "--nesting",
        "0",
    ];
    let (out, well) = said(&words, b"").unwrap();
    assert!(well);
    let wanted = "processor: highest level 63, HV 1, at once, bit 7 of nesting 0\n";
    assert!(out.contains(wanted), "{out}");
    assert!(
        out.contains("hardware  0x000000013C000001, free: 33, 39:57\n"),
        "{out}"
    );
}
