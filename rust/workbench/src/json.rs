//! JSON, as much of it as is written here.

use std::fmt::Write;

/// A string, in its quotes.
pub fn string(text: &str) -> String {
    let mut json = String::from('"');
    for letter in text.chars() {
        let written = match letter {
            '"' | '\\' => write!(json, "\\{letter}"),
            '\n' => write!(json, "\\n"),
            letter if letter < ' ' => write!(json, "\\u{:04x}", letter as u32),
            letter => write!(json, "{letter}"),
        };
        written.expect("a string takes all");
    }
    json + "\""
}

/// An object of these names and values.
pub fn object(members: &[(&str, String)]) -> String {
    let members = members
        .iter()
        .map(|(name, value)| format!("{}: {value}", string(name)));
    format!("{{{}}}", members.collect::<Vec<_>>().join(", "))
}

#[cfg(test)]
mod tests {
    use super::*;

    #[test]
    fn strings_and_objects() {
        assert_eq!(
            string("a \"b\"\\\n\u{1}ä"),
            "\"a \\\"b\\\"\\\\\\n\\u0001ä\""
        );
        let members = [("answer", "0".to_string()), ("words", string("done"))];
        assert_eq!(object(&members), "{\"answer\": 0, \"words\": \"done\"}");
        assert_eq!(object(&[]), "{}");
    }
}
