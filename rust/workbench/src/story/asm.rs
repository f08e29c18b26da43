//! A story made a tape.

use naszeptan::{raw, RECORD_SIZE};

use super::line::{number, Line};
use super::{kinds, Names, Story, Wrong};

/// Reads a story. The first thing that is wrong with it is told.
pub fn asm(text: &str) -> Result<Story, Wrong> {
    let mut reader = Reader::default();
    for (n, text) in text.lines().enumerate() {
        reader.line(n + 1, text)?;
    }
    Ok(reader.story)
}

#[derive(Default)]
struct Reader {
    story: Story,
    /// Where a record of fewer than 16 bytes stands, behind which none may.
    short: Option<Wrong>,
}

impl Reader {
    fn line(&mut self, number: usize, text: &str) -> Result<(), Wrong> {
        let mut line = Line::new(number, text);
        while let (Some(_), Some(colon)) = (line.peek(), line.peek_at(1)) {
            if colon.text != ":" {
                break;
            }
            let label = name(&mut line, &self.story.names, "a label")?;
            line.pass();
            let record = self.story.bytes.len().div_ceil(RECORD_SIZE);
            self.story.names.labels.push((label, record, number));
        }
        match (line.peek().map(|token| token.text), line.peek_at(1)) {
            (None, _) => Ok(()),
            (Some("thread"), _) => self.thread(&mut line),
            (Some("bytes"), _) => self.bytes(&mut line),
            (_, Some(sign)) if sign.text == "=" => self.definition(&mut line, number),
            _ => Err(line.wrong("thread, bytes, a name and =, or a label and :")),
        }
    }

    fn definition(&mut self, line: &mut Line, number: usize) -> Result<(), Wrong> {
        let name = name(line, &self.story.names, "a name")?;
        line.pass();
        let place = kinds::place(line, &self.story.names)?;
        line.end()?;
        self.story.names.places.push((name, place, number));
        Ok(())
    }

    fn thread(&mut self, line: &mut Line) -> Result<(), Wrong> {
        let at = line.clone();
        line.pass();
        let thread = line.read("a thread, 0 to 255", |text| {
            u8::try_from(number(text)?).ok()
        })?;
        let event = kinds::event(line, thread, &self.story.names)?;
        let mut record = [0; RECORD_SIZE];
        match raw::write(event, &mut record) {
            0 => self.push(&at, &record),
            refused => Err(at.wrong(format!(
                "an event that the writer takes, not one of {refused}"
            ))),
        }
    }

    fn bytes(&mut self, line: &mut Line) -> Result<(), Wrong> {
        let at = line.clone();
        line.pass();
        let mut record = Vec::new();
        while record.is_empty() || line.peek().is_some() {
            if record.len() == RECORD_SIZE {
                return Err(line.wrong("16 bytes at most"));
            }
            record.push(line.read("a byte, two hexadecimal digits", two_digits)?);
        }
        self.push(&at, &record)
    }

    fn push(&mut self, at: &Line, record: &[u8]) -> Result<(), Wrong> {
        if let Some(short) = self.short.take() {
            return Err(short);
        }
        if record.len() < RECORD_SIZE {
            let expected = format!(
                "16 bytes, since this record is not the last, not {}",
                record.len()
            );
            self.short = Some(at.wrong(expected));
        }
        self.story.bytes.extend_from_slice(record);
        Ok(())
    }
}

fn two_digits(text: &str) -> Option<u8> {
    let right = text.len() == 2 && text.chars().all(|digit| digit.is_ascii_hexdigit());
    right.then(|| u8::from_str_radix(text, 16).ok())?
}

/// A new name, which the next token is.
fn name(line: &mut Line, names: &Names, what: &str) -> Result<String, Wrong> {
    let found = line.peek().map_or("", |token| token.text);
    if let Some(defined) = names.line_of(found) {
        return Err(line.wrong(format!("another name, since line {defined} has this")));
    }
    let expected = format!("{what}: letters, digits and _, and no word of the form itself");
    line.read(expected, |text| is_name(text).then(|| text.to_string()))
}

fn is_name(text: &str) -> bool {
    let letters = text.chars().all(|c| c.is_ascii_alphanumeric() || c == '_');
    let first = !text.starts_with(|c: char| c.is_ascii_digit());
    let numbered = |letters| {
        text.strip_prefix(letters)
            .is_some_and(|n| number(n).is_some())
    };
    let taken = ["thread", "bytes", "line", "page", "address"].contains(&text)
        || kinds::SPRS.iter().any(|(spr, _)| *spr == text)
        || numbered("r")
        || numbered("cr");
    letters && first && !taken
}
