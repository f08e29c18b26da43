//! The text form: tapes told and made again, over every kind, random tapes and
//! damaged ones; and every mistake by line, column and what was expected.

use naszeptan::{raw, Event, KINDS, RECORD_SIZE};
use workbench::story::asm::asm;
use workbench::story::kinds::kinds_in_words;
use workbench::story::list::list;

/// Numbers that are the same in every run.
struct Random(u64);

impl Random {
    fn next(&mut self) -> u64 {
        self.0 ^= self.0 << 13;
        self.0 ^= self.0 >> 7;
        self.0 ^= self.0 << 17;
        self.0
    }

    fn below(&mut self, most: usize) -> usize {
        (self.next() >> 16) as usize % most
    }
}

/// The tape that a story is.
fn tape(story: &str) -> Vec<u8> {
    asm(story)
        .unwrap_or_else(|wrong| panic!("{wrong}\n{story}"))
        .bytes
}

/// Told, it is this text, of which it is made again.
fn round_trip(bytes: &[u8]) -> String {
    let text = list(bytes, false);
    assert_eq!(tape(&text), bytes, "{text}");
    assert_eq!(tape(&list(bytes, true)), bytes);
    assert_eq!(list(&tape(&text), false), text);
    text
}

#[test]
fn every_kind_with_every_operand() {
    for kind in KINDS {
        let mut seen = Vec::new();
        for value in [
            0,
            1,
            2,
            3,
            7,
            31,
            255,
            0x7FFF,
            0x8000,
            0xFFFF,
            4095,
            u32::MAX,
        ] {
            for only in 0..=kind.operands.len() {
                let mut fields = raw::Event {
                    kind: kind.number,
                    thread: value as u8,
                    ..raw::Event::default()
                };
                for (n, operand) in kind.operands.iter().enumerate() {
                    if only == n || only == kind.operands.len() {
                        operand.put(&mut fields, value);
                    }
                }
                let (thread, event) = Event::from_raw(fields).unwrap();
                let mut record = [0; RECORD_SIZE];
                assert_eq!(raw::write(fields, &mut record), 0);
                let text = round_trip(&record);
                assert_eq!(text, format!("thread {thread}  {event}\n"));
                seen.push((fields, text));
            }
        }
        // What differs looks different.
        for (one, text) in &seen {
            assert!(seen
                .iter()
                .all(|(other, same)| (one == other) == (text == same)));
        }
    }
}

#[test]
fn random_tapes() {
    let mut random = Random(0x9E37_79B9_7F4A_7C15);
    for _ in 0..400 {
        let mut bytes = Vec::new();
        for _ in 0..random.below(12) {
            let kind = KINDS[random.below(KINDS.len())];
            let mut fields = raw::Event {
                kind: kind.number,
                thread: random.below(4) as u8,
                ..raw::Event::default()
            };
            for operand in kind.operands {
                operand.put(&mut fields, random.next() as u32 >> random.below(32));
            }
            let mut record = [0; RECORD_SIZE];
            assert_eq!(raw::write(fields, &mut record), 0);
            bytes.extend(record);
        }
        // Some are damaged, some ragged.
        if !bytes.is_empty() && random.below(2) == 0 {
            let at = random.below(bytes.len());
            bytes[at] = random.next() as u8;
        }
        let cut = random.below(3 * RECORD_SIZE).min(RECORD_SIZE - 1);
        bytes.truncate(bytes.len().saturating_sub(cut % RECORD_SIZE));
        round_trip(&bytes);
    }
}

#[test]
fn any_bytes() {
    let mut random = Random(7);
    for length in 0..100 {
        let bytes: Vec<u8> = (0..length).map(|_| random.next() as u8).collect();
        round_trip(&bytes);
    }
}

#[test]
fn damaged_records_are_told() {
    let good = tape("thread 0  std r3, 17");
    for (n, byte, words) in [
        (
            0,
            0xE4,
            "7, a record's first byte (0xe4, not 0xe3)".to_string(),
        ),
        (
            1,
            0,
            format!("8, a record's kind (kind 0, not {})", kinds_in_words()),
        ),
        (
            7,
            1,
            "9, an unused field or a fixed byte that is not 0, or flags too big (kind 13)"
                .to_string(),
        ),
    ] {
        let mut bad = good.clone();
        bad[n] = byte;
        let hex: Vec<String> = bad.iter().map(|byte| format!("{byte:02X}")).collect();
        let text = round_trip(&[&good[..], &bad, &good].concat());
        let line = format!("bytes {}  # {words}", hex.join(" "));
        assert_eq!(text.lines().nth(1), Some(line.as_str()));
        assert_eq!(text.lines().count(), 3);
    }
    let text = round_trip(&good[..3]);
    assert_eq!(
        text,
        "bytes E3 0D 00                        # 6, tape length (3 bytes, not 16)\n"
    );
}

#[test]
fn what_is_written_in_other_ways() {
    let canonical = "\
thread 0  addi r3, 0, 42
thread 0  tbegin. R=0
thread 0  ld r4, 0
thread 0  std r3, 18
thread 0  tsr. L=0
thread 0  tsr. L=1
thread 0  tend. A=1
thread 1  mfspr r6, 130
thread 1  addi r5, 0, -1
thread 1  mtmsrd TS=10, TM=0, PR=1
thread 1  tlbie page 3
thread 1  stw r5, address 148
thread 1  lbz r5, address 17
";
    let story = "\
# a story
lock = 0
data = line 1   # the first doubleword of line 1
two=data + 2
        thread 0 li r3,0x2A
again:  thread 0\ttbegin.
thread 0 ld r4, lock
here: there:
thread 0x0 std r3 , two
thread 0 tsuspend.
thread 0 tresume.
thread 0 tendall.
thread 1 mfspr r6, TEXASR
thread 1 addi r5, r0, 0xFFFF
thread 1 mtmsrd PR=1, TS=10
thread 1 tlbie page 0x3
thread 1 stw r5, two+4
thread 1 lbz r5, address 0x11
end:
";
    let made = asm(story).unwrap();
    assert_eq!(list(&made.bytes, false), canonical);
    assert_eq!(list(&tape(canonical), false), canonical);
    let names = made.names;
    assert_eq!(names.label("again"), Some(1));
    assert_eq!(names.labels_at(3).collect::<Vec<_>>(), ["here", "there"]);
    assert_eq!(names.label("end"), Some(13));
    assert_eq!((names.place("two"), names.place("three")), (Some(18), None));
    assert_eq!(names.called(0).as_deref(), Some("lock"));
    assert_eq!(names.called(17).as_deref(), Some("data+1"));
    assert_eq!(names.called(18).as_deref(), Some("two"));
    assert_eq!((names.called(32), names.line_called(2)), (None, None));
    assert_eq!(names.byte_called(148).as_deref(), Some("two+4"));
    assert_eq!(names.byte_called(141).as_deref(), Some("data+13"));
    assert_eq!(names.line_called(1), Some("data"));
}

/// What is said of a story that is wrong.
fn wrong(story: &str) -> String {
    asm(story).expect_err(story).to_string()
}

#[test]
fn mistakes_in_a_record() {
    let place = "a place: a number, a name, or line and its number";
    for (line, said) in [
        ("thread", "7: expected a thread, 0 to 255, found the end of the line"),
        ("thread x", "8: expected a thread, 0 to 255, found \"x\""),
        ("thread 256 rfid", "8: expected a thread, 0 to 255, found \"256\""),
        ("thread 0", "9: expected an instruction, found the end of the line"),
        ("thread 0 tbegn.", "10: expected an instruction, found \"tbegn.\"; is tbegin. meant?"),
        ("thread 0 nop", "10: expected an instruction, found \"nop\""),
        ("thread 0 std", "13: expected a register, r0 to r255, found the end of the line"),
        ("thread 0 std 3, 17", "14: expected a register, r0 to r255, found \"3\""),
        ("thread 0 std r256, 17", "14: expected a register, r0 to r255, found \"r256\""),
        ("thread 0 std r3 17", "17: expected a comma, found \"17\""),
        ("thread 0 std r3, 17 18", "21: expected the end of the line, found \"18\""),
        ("thread 0 std r3, 4294967296", "18: expected a place, 0 to 4294967295, found \"4294967296\""),
        ("thread 0 std r3, 1+4294967295", "18: expected a place, 0 to 4294967295, found \"1\""),
        ("thread 0 std r3, line", "22: expected a line's number, 0 to 268435455, found the end of the line"),
        ("thread 0 std r3, 1+", "20: expected a number, found the end of the line"),
        ("thread 0 addi r3, x, 1", "19: expected a register, r1 to r255, or 0, found \"x\""),
        ("thread 0 addi r3, 0, 32768", "22: expected a number, -32768 to 32767, or 0x0 to 0xFFFF, found \"32768\""),
        ("thread 0 addi r3, 0, -32769", "23: expected a number, 1 to 32768, found \"32769\""),
        ("thread 0 addi r3, 0, 0x10000", "22: expected a number, -32768 to 32767, or 0x0 to 0xFFFF, found \"0x10000\""),
        ("thread 0 tbegin. A=0", "18: expected R and =, found \"A\""),
        ("thread 0 tbegin. R", "19: expected =, found the end of the line"),
        ("thread 0 tbegin. R=2", "20: expected 0 or 1, found \"2\""),
        ("thread 0 host PR=1, PR=0", "21: expected TM and =, found \"PR\""),
        ("thread 0 host PR=1,", "20: expected a flag, found the end of the line"),
        ("thread 0 mtmsrd TS=2", "20: expected 00, 01, 10 or 11, found \"2\""),
        ("thread 0 tcheck 2", "17: expected a CR field, cr0 to cr255, found \"2\""),
        ("thread 0 tabortwc. 256, r1, r2", "20: expected TO, 0 to 255, found \"256\""),
        (
            "thread 0 mfspr r1, LR",
            "20: expected an SPR, 0 to 255 or SRR0, SRR1, TFHAR, TFIAR, TEXASR, TEXASRU, found \"LR\"",
        ),
        ("thread 0 tlbie 3", "16: expected page and its number, found \"3\""),
        ("thread 0 rfid r1", "15: expected the end of the line, found \"r1\""),
        ("thread 0 lwz r3, 4", "18: expected a byte: address and its number, a name, or line and its number, found \"4\""),
        ("thread 0 lwz r3, address", "25: expected a byte's address, 0 to 4294967295, found the end of the line"),
        ("thread 0 lwz r3, line 268435455", "18: expected a byte's address, 0 to 4294967295, found \"line\""),
        ("bytes", "6: expected a byte, two hexadecimal digits, found the end of the line"),
        ("bytes E3 D", "10: expected a byte, two hexadecimal digits, found \"D\""),
        (
            "bytes 00 01 02 03 04 05 06 07 08 09 0A 0B 0C 0D 0E 0F 10",
            "55: expected 16 bytes at most, found \"10\"",
        ),
    ] {
        assert_eq!(wrong(&format!("# first\n{line}")), format!("2:{said}"));
    }
    assert_eq!(
        wrong("thread 0 ld r3, lokc"),
        format!("1:17: expected {place}, found \"lokc\"")
    );
    let near = format!("2:17: expected {place}, found \"lokc\"; is lock meant?");
    assert_eq!(wrong("lock = 0\nthread 0 ld r3, lokc"), near);
}

#[test]
fn mistakes_in_names() {
    let all = "thread, bytes, a name and =, or a label and :";
    let name = "letters, digits and _, and no word of the form itself";
    for (story, said) in [
        ("std r3, 17", format!("1:1: expected {all}, found \"std\"")),
        ("\n  lock", format!("2:3: expected {all}, found \"lock\"")),
        ("= 3", format!("1:1: expected {all}, found \"=\"")),
        (
            "lock = x",
            "1:8: expected a place: a number, a name, or line and its number, found \"x\"".into(),
        ),
        (
            "lock = 1 2",
            "1:10: expected the end of the line, found \"2\"".into(),
        ),
        (
            "a = 1\na = 1",
            "2:1: expected another name, since line 1 has this, found \"a\"".into(),
        ),
        (
            "a = 1\na:",
            "2:1: expected another name, since line 1 has this, found \"a\"".into(),
        ),
        (
            "a: b: a: rfid",
            "1:7: expected another name, since line 1 has this, found \"a\"".into(),
        ),
        (
            "3 = 3",
            format!("1:1: expected a name: {name}, found \"3\""),
        ),
        (
            "r3 = 3",
            format!("1:1: expected a name: {name}, found \"r3\""),
        ),
        (
            "line = 3",
            format!("1:1: expected a name: {name}, found \"line\""),
        ),
        (
            "cr0: rfid",
            format!("1:1: expected a label: {name}, found \"cr0\""),
        ),
        (
            "a.b = 3",
            format!("1:1: expected a name: {name}, found \"a.b\""),
        ),
        (
            "TEXASR = 3",
            format!("1:1: expected a name: {name}, found \"TEXASR\""),
        ),
        // A name is known from its line on.
        (
            "thread 0 ld r1, a\na = 1",
            "1:17: expected a place: a number, a name, or line and its number, found \"a\"".into(),
        ),
    ] {
        assert_eq!(wrong(story), said);
    }
    let short = "\n bytes E3\nthread 0 rfid";
    let said = "2:2: expected 16 bytes, since this record is not the last, not 1, found \"bytes\"";
    assert_eq!(wrong(short), said);
}
