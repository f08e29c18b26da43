//! SVG, as much of it as is drawn here.

use std::fmt::Write;

/// A picture that grows.
#[derive(Default)]
pub struct Svg {
    body: String,
}

/// How a text lies to its place.
#[derive(Clone, Copy)]
pub enum Anchor {
    /// It begins there.
    Start,
    /// Its middle is there.
    Middle,
    /// It ends there.
    End,
}

impl Anchor {
    fn word(self) -> &'static str {
        match self {
            Anchor::Start => "start",
            Anchor::Middle => "middle",
            Anchor::End => "end",
        }
    }
}

/// Text as XML has it.
pub fn escaped(text: &str) -> String {
    let mut xml = String::new();
    for letter in text.chars() {
        match letter {
            '&' => xml += "&amp;",
            '<' => xml += "&lt;",
            '>' => xml += "&gt;",
            '"' => xml += "&quot;",
            letter if letter < ' ' => xml.push(' '),
            letter => xml.push(letter),
        }
    }
    xml
}

impl Svg {
    /// An element that has nothing in it.
    pub fn element(&mut self, name: &str, attributes: &str) {
        writeln!(self.body, "<{name} {attributes}/>").expect("a string takes all");
    }

    /// A rectangle.
    pub fn rect(&mut self, x: f64, y: f64, width: f64, height: f64, attributes: &str) {
        let place = format!("x=\"{x}\" y=\"{y}\" width=\"{width}\" height=\"{height}\"");
        self.element("rect", &format!("{place} {attributes}"));
    }

    /// A line.
    pub fn line(&mut self, from: (f64, f64), to: (f64, f64), attributes: &str) {
        let ((x1, y1), (x2, y2)) = (from, to);
        let place = format!("x1=\"{x1}\" y1=\"{y1}\" x2=\"{x2}\" y2=\"{y2}\"");
        self.element("line", &format!("{place} {attributes}"));
    }

    /// A line of text.
    pub fn text(&mut self, at: (f64, f64), anchor: Anchor, class: &str, text: &str) {
        let (x, y, anchor) = (at.0, at.1, anchor.word());
        let words = escaped(text);
        writeln!(
            self.body,
            "<text x=\"{x}\" y=\"{y}\" text-anchor=\"{anchor}\" class=\"{class}\">{words}</text>"
        )
        .expect("a string takes all");
    }

    /// Opens a group, with what is said where a pointer rests on it.
    pub fn open(&mut self, title: &str) {
        let title = escaped(title);
        writeln!(self.body, "<g><title>{title}</title>").expect("a string takes all");
    }

    /// Closes a group.
    pub fn close(&mut self) {
        self.body += "</g>\n";
    }

    /// The whole picture.
    pub fn finish(self, width: f64, height: f64, title: &str, head: &str) -> String {
        let title = escaped(title);
        format!(
            "<svg xmlns=\"http://www.w3.org/2000/svg\" width=\"{width}\" height=\"{height}\" \
             viewBox=\"0 0 {width} {height}\">\n<title>{title}</title>\n{head}{}</svg>\n",
            self.body
        )
    }
}

#[cfg(test)]
mod tests {
    use super::*;

    #[test]
    fn words_are_escaped() {
        assert_eq!(escaped("a<b & \"c\">\t"), "a&lt;b &amp; &quot;c&quot;&gt; ");
        let mut svg = Svg::default();
        svg.text((1.0, 2.5), Anchor::Middle, "x", "<");
        let picture = svg.finish(10.0, 20.0, "&", "");
        assert!(picture
            .contains("<text x=\"1\" y=\"2.5\" text-anchor=\"middle\" class=\"x\">&lt;</text>"));
        assert!(picture.contains("<title>&amp;</title>"));
    }
}
