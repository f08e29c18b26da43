//! A line of a story, cut into words.

use super::Wrong;

/// A word or a sign, and the column that it stands in.
#[derive(Clone, Copy, Debug, PartialEq, Eq)]
pub struct Token<'a> {
    /// The letters.
    pub text: &'a str,
    /// From 1, in characters.
    pub column: usize,
}

/// A line, from which tokens are taken one after the other.
#[derive(Clone, Debug)]
pub struct Line<'a> {
    number: usize,
    tokens: Vec<Token<'a>>,
    /// How many were taken.
    taken: usize,
    /// The column behind the last token.
    end: usize,
}

/// The letters of words: a number, a register, an instruction or a name is one.
fn in_word(letter: char) -> bool {
    letter.is_ascii_alphanumeric() || letter == '_' || letter == '.'
}

impl<'a> Line<'a> {
    /// Cuts a line, whose comment is left out.
    pub fn new(number: usize, text: &'a str) -> Line<'a> {
        let text = text.split('#').next().unwrap_or_default().trim_end();
        let (mut tokens, mut rest, mut column) = (Vec::new(), text, 1);
        while let Some(first) = rest.chars().next() {
            let bytes = match rest.find(|letter| !in_word(letter)) {
                Some(0) => first.len_utf8(),
                Some(end) => end,
                None => rest.len(),
            };
            let (text, behind) = rest.split_at(bytes);
            if !first.is_whitespace() {
                tokens.push(Token { text, column });
            }
            column += text.chars().count();
            rest = behind;
        }
        Line {
            number,
            tokens,
            taken: 0,
            end: column,
        }
    }

    /// The token that is taken next.
    pub fn peek(&self) -> Option<Token<'a>> {
        self.peek_at(0)
    }

    /// The token so many behind the next.
    pub fn peek_at(&self, behind: usize) -> Option<Token<'a>> {
        self.tokens.get(self.taken + behind).copied()
    }

    /// Passes over the next token.
    pub fn pass(&mut self) {
        self.taken += 1;
    }

    /// Takes this sign or word, if it is next.
    pub fn take(&mut self, text: &str) -> bool {
        let there = self.peek().is_some_and(|token| token.text == text);
        self.taken += usize::from(there);
        there
    }

    /// Takes this sign or word.
    pub fn want(&mut self, text: &str, expected: &str) -> Result<(), Wrong> {
        match self.take(text) {
            true => Ok(()),
            false => Err(self.wrong(expected)),
        }
    }

    /// Takes a token that means something.
    pub fn read<T>(
        &mut self,
        expected: impl Into<String>,
        means: impl FnOnce(&'a str) -> Option<T>,
    ) -> Result<T, Wrong> {
        match self.peek().and_then(|token| means(token.text)) {
            Some(found) => {
                self.taken += 1;
                Ok(found)
            }
            None => Err(self.wrong(expected)),
        }
    }

    /// Nothing may follow.
    pub fn end(&self) -> Result<(), Wrong> {
        match self.peek() {
            None => Ok(()),
            Some(_) => Err(self.wrong("the end of the line")),
        }
    }

    /// What stands next is not what was expected.
    pub fn wrong(&self, expected: impl Into<String>) -> Wrong {
        let (column, found) = match self.peek() {
            Some(token) => (token.column, format!("\"{}\"", token.text)),
            None => (self.end, "the end of the line".to_string()),
        };
        Wrong {
            line: self.number,
            column,
            expected: expected.into(),
            found,
            hint: String::new(),
        }
    }
}

/// A number without a sign: decimal, or hexadecimal behind 0x.
pub fn number(text: &str) -> Option<u64> {
    let (digits, radix) = match text.strip_prefix("0x") {
        Some(digits) => (digits, 16),
        None => (text, 10),
    };
    // The library would take a sign.
    let all = digits.chars().all(|digit| digit.is_digit(radix));
    all.then(|| u64::from_str_radix(digits, radix).ok())?
}

#[cfg(test)]
mod tests {
    use super::*;

    fn cut(text: &str) -> Vec<(&str, usize)> {
        let line = Line::new(1, text);
        line.tokens.iter().map(|t| (t.text, t.column)).collect()
    }

    #[test]
    fn tokens() {
        assert_eq!(cut(""), []);
        assert_eq!(cut("   # all a comment"), []);
        assert_eq!(
            cut("thread 0\tstd r3,data+2 # r4"),
            [
                ("thread", 1),
                ("0", 8),
                ("std", 10),
                ("r3", 14),
                (",", 16),
                ("data", 17),
                ("+", 21),
                ("2", 22)
            ]
        );
        assert_eq!(
            cut("a:tbegin. R=1"),
            [
                ("a", 1),
                (":", 2),
                ("tbegin.", 3),
                ("R", 11),
                ("=", 12),
                ("1", 13)
            ]
        );
        // Columns are characters, not bytes.
        assert_eq!(cut("ä lock"), [("ä", 1), ("lock", 3)]);
        assert_eq!(cut("\u{3000}x"), [("x", 2)]);
    }

    #[test]
    fn numbers() {
        for (text, value) in [
            ("0", Some(0)),
            ("017", Some(17)),
            ("0x1F", Some(31)),
            ("0xff", Some(255)),
            ("18446744073709551615", Some(u64::MAX)),
            ("18446744073709551616", None),
            ("+1", None),
            ("-1", None),
            ("0x", None),
            ("", None),
            ("1F", None),
            ("0X1", None),
        ] {
            assert_eq!(number(text), value, "{text}");
        }
    }
}
