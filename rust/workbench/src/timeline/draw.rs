//! A history as a picture: a lane for each thread, a column for each record,
//! windows one below the other.

use super::history::{Column, End, Fate, History, Phase, Standing};
use super::svg::{Anchor, Svg};

/// Width of a column.
const COLUMN: f64 = 80.0;
/// Room for the threads' names, left of the first column.
const LEFT: f64 = 82.0;
/// Room right of the last column.
const RIGHT: f64 = 64.0;
/// Height of a lane, and of one in which nothing happens.
const LANE: f64 = 122.0;
const IDLE: f64 = 40.0;
/// Where a lane's bar begins, also in an idle lane, and how high it is.
const BAR: f64 = 42.0;
const IDLE_BAR: f64 = 6.0;
const HIGH: f64 = 26.0;
/// Room above the first lane of a window, for indices and labels.
const RULER: f64 = 34.0;
/// Room for the title, between windows, and for the legend.
const HEAD: f64 = 34.0;
const BETWEEN: f64 = 14.0;
const LEGEND: f64 = 36.0;

const STYLE: &str = "<style>\
text{font-family:'DejaVu Sans',Verdana,sans-serif;font-size:11px;fill:#222}\
.title{font-size:14px;font-weight:bold}.lane{font-size:13px;font-weight:bold}\
.index{fill:#777;font-size:10px}.label{fill:#555;font-style:italic}\
.name{font-weight:bold}.light{fill:#fff;font-weight:bold}\
.cause{fill:#a01818;font-weight:bold;font-size:10.5px}.answer{fill:#a01818;font-size:10px}\
.level{fill:#fff;font-size:10px}.good{fill:#1d7a46;font-weight:bold;font-size:10.5px}\
</style>\n";

const DEFS: &str = "<defs>\
<pattern id=\"doomed\" width=\"8\" height=\"8\" patternUnits=\"userSpaceOnUse\" patternTransform=\"rotate(45)\">\
<rect width=\"8\" height=\"8\" fill=\"#f3c1bb\"/><rect width=\"4\" height=\"8\" fill=\"#d9534f\"/></pattern>\
<pattern id=\"suspended\" width=\"6\" height=\"6\" patternUnits=\"userSpaceOnUse\">\
<rect width=\"6\" height=\"6\" fill=\"#f7d98c\"/><rect width=\"3\" height=\"6\" fill=\"#f0c75a\"/></pattern>\
<marker id=\"tip\" markerWidth=\"9\" markerHeight=\"9\" refX=\"7\" refY=\"4\" orient=\"auto\">\
<path d=\"M0,0 L8,4 L0,8 z\" fill=\"#a01818\"/></marker></defs>\n";

/// Colours of lines, by the order in which they are met.
const COLOURS: [&str; 8] = [
    "#7b3fa0", "#0f7b6c", "#b5651d", "#3b5bdb", "#a61e4d", "#5c7c1a", "#364fc7", "#862e9c",
];

/// A thread's lane in a window.
#[derive(Clone, Copy)]
struct Lane {
    thread: usize,
    top: f64,
    height: f64,
    /// Where its bar begins.
    bar: f64,
}

/// A picture that is drawn.
struct Picture<'a> {
    svg: Svg,
    history: &'a History,
    /// The threads that have a lane.
    threads: Vec<usize>,
    /// The lanes of the window that is drawn.
    lanes: Vec<Lane>,
    /// The lines, in the order in which they are met.
    lines: Vec<u32>,
}

/// Draws a history, at most so many columns in a window.
pub fn draw(history: &History, title: &str, outcome: &str, columns: usize) -> String {
    // As many in each window, so that the last is no remnant.
    let windows = history.columns.len().div_ceil(columns).max(1);
    let columns = history.columns.len().div_ceil(windows).max(1);
    let mut picture = Picture {
        svg: Svg::default(),
        history,
        threads: threads(history),
        lanes: Vec::new(),
        lines: lines(history),
    };
    let widest = columns.min(history.columns.len()).max(8);
    let width = LEFT + widest as f64 * COLUMN + RIGHT;
    let mut top = HEAD;
    for n in 0..windows {
        let first = n * columns;
        let last = (first + columns).min(history.columns.len());
        top = picture.window(first, last, top, width) + BETWEEN;
    }
    picture.legend(top);
    let height = top + LEGEND;
    let svg = &mut picture.svg;
    svg.text((12.0, 22.0), Anchor::Start, "title", title);
    svg.text((width - 12.0, 22.0), Anchor::End, "name", outcome);
    let head =
        format!("{STYLE}{DEFS}<rect width=\"{width}\" height=\"{height}\" fill=\"#fff\"/>\n");
    picture.svg.finish(width, height, title, &head)
}

/// The threads that do something or have a transaction; thread 0 if none does.
fn threads(history: &History) -> Vec<usize> {
    let active = |thread: &usize| {
        let before = history
            .before
            .get(*thread)
            .is_some_and(|s| s.phase.is_some());
        before
            || history
                .columns
                .iter()
                .any(|column| column.mark.thread == *thread)
    };
    let mut threads: Vec<usize> = (0..256).filter(active).collect();
    if threads.is_empty() {
        threads.push(0);
    }
    threads
}

fn lines(history: &History) -> Vec<u32> {
    let mut lines = Vec::new();
    for (line, _) in history
        .columns
        .iter()
        .filter_map(|column| column.mark.access)
    {
        if !lines.contains(&line) {
            lines.push(line);
        }
    }
    lines
}

impl Picture<'_> {
    /// The middle of a column, counted from its window's first.
    fn middle(column: usize) -> f64 {
        LEFT + column as f64 * COLUMN + COLUMN / 2.0
    }

    /// How a thread stands before a record.
    fn standing(&self, column: usize, thread: usize) -> Standing {
        let after = match column {
            0 => &self.history.before,
            column => &self.history.columns[column - 1].after,
        };
        after.get(thread).copied().unwrap_or_default()
    }

    /// Lays out the lanes of a window, and gives where it ends.
    fn lay(&mut self, first: usize, last: usize, top: f64) -> f64 {
        let columns = &self.history.columns[first..last];
        let mut y = top + RULER;
        self.lanes.clear();
        for thread in &self.threads {
            let acts = |column: &Column| {
                let ends = column.ends.iter().any(|end| end.thread == *thread);
                column.mark.thread == *thread || ends
            };
            let (height, bar) = match columns.iter().any(acts) {
                true => (LANE, BAR),
                false => (IDLE, IDLE_BAR),
            };
            self.lanes.push(Lane {
                thread: *thread,
                top: y,
                height,
                bar: y + bar,
            });
            y += height;
        }
        y
    }

    /// A thread's lane in the window that is drawn.
    fn lane(&self, thread: usize) -> Lane {
        let found = self.lanes.iter().find(|lane| lane.thread == thread);
        *found.unwrap_or(&self.lanes[0])
    }

    /// Draws a window, and gives where it ends.
    fn window(&mut self, first: usize, last: usize, top: f64, width: f64) -> f64 {
        let end = self.lay(first, last, top);
        for (place, lane) in self.lanes.clone().into_iter().enumerate() {
            if place % 2 == 0 {
                let shade = "fill=\"#f3f5f8\"";
                self.svg
                    .rect(0.0, lane.top - 2.0, width, lane.height, shade);
            }
            let name = format!("thread {}", lane.thread);
            self.svg
                .text((12.0, lane.bar + 17.0), Anchor::Start, "lane", &name);
            self.bars(first, last, lane);
        }
        let history = self.history;
        for (n, column) in history.columns[first..last].iter().enumerate() {
            self.ruler(column, Self::middle(n), top);
            self.arrows(column, Self::middle(n));
        }
        for (n, column) in history.columns[first..last].iter().enumerate() {
            self.mark(column, Self::middle(n));
            for end in &column.ends {
                self.end(end, Self::middle(n));
            }
        }
        end
    }

    fn ruler(&mut self, column: &Column, x: f64, top: f64) {
        let index = column.index.to_string();
        self.svg
            .text((x, top + 12.0), Anchor::Middle, "index", &index);
        let labels = column.labels.join(" ");
        if !labels.is_empty() {
            self.svg
                .text((x, top + 26.0), Anchor::Middle, "label", &labels);
        }
    }

    /// A thread's bars: from the middle of a column to that of the next, and
    /// from edge to edge of the window.
    fn bars(&mut self, first: usize, last: usize, lane: Lane) {
        let end = LEFT + (last - first).max(1) as f64 * COLUMN;
        let (thread, base) = (lane.thread, lane.bar + HIGH / 2.0);
        self.svg.line(
            (LEFT, base),
            (end, base),
            "stroke=\"#b8bec6\" stroke-width=\"1.5\"",
        );
        let mut from = first;
        while from <= last {
            let standing = self.standing(from, thread);
            let same = |column: &usize| self.standing(*column, thread) == standing;
            let to = (from + 1..=last).take_while(same).last().unwrap_or(from);
            let x = |column: usize| match column {
                column if column == first => LEFT,
                column => Self::middle(column - first - 1),
            };
            let right = match to == last {
                true => end,
                false => x(to + 1),
            };
            self.bar(standing, x(from), right, lane.bar);
            from = to + 1;
        }
    }

    fn bar(&mut self, standing: Standing, left: f64, right: f64, y: f64) {
        if standing.privileged {
            let below = y + HIGH + 3.0;
            self.svg
                .rect(left, below, right - left, 3.0, "fill=\"#6b4fa0\"");
        }
        let Some(phase) = standing.phase else {
            return;
        };
        let fill = match phase {
            Phase::T => "fill=\"#4a90d9\"",
            Phase::S => "fill=\"url(#suspended)\"",
            Phase::Doomed => "fill=\"url(#doomed)\"",
        };
        self.svg.rect(left, y, right - left, HIGH, fill);
        // Inner levels: bars within the bar.
        for level in 2..=standing.level.min(4) {
            let inset = f64::from(level - 1) * 4.0;
            let shade = "fill=\"#123a6b\" fill-opacity=\"0.28\"";
            self.svg
                .rect(left, y + inset, right - left, HIGH - 2.0 * inset, shade);
        }
        if standing.level > 1 {
            let at = ((left + right) / 2.0, y + HIGH / 2.0 + 3.5);
            let words = format!("level {}", standing.level);
            let class = match phase {
                Phase::T => "level",
                Phase::S | Phase::Doomed => "name",
            };
            self.svg.text(at, Anchor::Middle, class, &words);
        }
    }

    /// The instruction above the bar, a load's or store's line by its colour.
    fn mark(&mut self, column: &Column, x: f64) {
        let mark = &column.mark;
        let Lane { top: y, bar, .. } = self.lane(mark.thread);
        self.svg.open(&mark.words);
        let name = match mark.access {
            Some((line, _)) => format!("{} line {line}", mark.name),
            None => mark.name.clone(),
        };
        self.svg.text((x, y + 13.0), Anchor::Middle, "name", &name);
        match mark.access {
            Some((line, store)) => self.chip((x, y + 19.0), line, store, &mark.operand),
            None => self
                .svg
                .text((x, y + 29.0), Anchor::Middle, "", &mark.operand),
        }
        let at = format!("cx=\"{x}\" cy=\"{}\" r=\"3.5\"", bar + HIGH / 2.0);
        self.svg.element("circle", &format!("{at} fill=\"#222\""));
        let number = column.answer.number();
        if number != 0 {
            let below = (x, bar + HIGH + 16.0);
            self.svg
                .text(below, Anchor::Middle, "answer", &number.to_string());
        }
        if !column.answer.is_done() {
            let words = crate::told::words(column.answer);
            self.words((x, bar + HIGH + 16.0), "cause", words);
        }
        self.svg.close();
    }

    fn chip(&mut self, at: (f64, f64), line: u32, store: bool, words: &str) {
        let place = self.lines.iter().position(|known| *known == line);
        let colour = COLOURS[place.unwrap_or_default() % COLOURS.len()];
        let width = (words.chars().count() as f64 * 6.9 + 12.0).min(COLUMN - 2.0);
        let (fill, class) = match store {
            true => (colour, "light"),
            false => ("#fff", "name"),
        };
        let paint = format!("rx=\"7\" fill=\"{fill}\" stroke=\"{colour}\" stroke-width=\"2\"");
        self.svg.rect(at.0 - width / 2.0, at.1, width, 15.0, &paint);
        self.svg
            .text((at.0, at.1 + 11.5), Anchor::Middle, class, words);
    }

    /// From the record to each transaction of another thread that it failed.
    fn arrows(&mut self, column: &Column, x: f64) {
        let from = self.lane(column.mark.thread);
        for end in column.ends.iter().filter(|end| end.thread != from.thread) {
            let to = self.lane(end.thread);
            let (start, tip) = match to.top < from.top {
                true => (from.top, to.bar + HIGH + 1.0),
                false => (from.bar + HIGH, to.bar - 1.0),
            };
            let paint = "stroke=\"#a01818\" stroke-width=\"2.5\" marker-end=\"url(#tip)\"";
            self.svg.line((x, start), (x, tip), paint);
        }
    }

    /// How a transaction ended, on its bar, and why beside it.
    fn end(&mut self, end: &End, x: f64) {
        let Lane { bar, .. } = self.lane(end.thread);
        let middle = bar + HIGH / 2.0;
        let (path, colour, word) = match end.fate {
            Fate::Committed => ("M-7,0 L-2,6 L8,-7", "#1d7a46", "commit"),
            Fate::Failed => ("M-7,-7 L7,7 M7,-7 L-7,7", "#a01818", "handled"),
            Fate::Doomed => ("M-7,-7 L7,7 M7,-7 L-7,7", "#a01818", "doomed"),
            Fate::Reclaimed => ("M-7,-7 L7,-7 L7,7 L-7,7 z", "#333", "reclaimed"),
        };
        let ring = format!("cx=\"{x}\" cy=\"{middle}\" r=\"11\" fill=\"#fff\"");
        let stroke = format!("stroke=\"{colour}\" stroke-width");
        self.svg
            .element("circle", &format!("{ring} {stroke}=\"2\""));
        let place = format!("d=\"{path}\" transform=\"translate({x},{middle}) scale(0.8)\"");
        self.svg
            .element("path", &format!("{place} fill=\"none\" {stroke}=\"3\""));
        let class = match end.fate {
            Fate::Committed => "good",
            _ => "cause",
        };
        let words = end.cause.as_deref().unwrap_or(word);
        self.words((x, bar + HIGH + 16.0), class, words);
    }

    /// Words beside a column's middle, one below the other.
    fn words(&mut self, at: (f64, f64), class: &str, words: &str) {
        for (n, line) in wrapped(words).iter().enumerate() {
            let at = (at.0 + 11.0, at.1 + n as f64 * 12.0);
            self.svg.text(at, Anchor::Start, class, line);
        }
    }

    fn legend(&mut self, y: f64) {
        let mut x = 12.0;
        for (phase, words) in [
            (Phase::T, "Transactional"),
            (Phase::S, "Suspended"),
            (Phase::Doomed, "doomed"),
        ] {
            let standing = Standing {
                phase: Some(phase),
                level: 1,
                privileged: false,
            };
            self.bar(standing, x, x + 26.0, y - 4.0);
            self.svg
                .text((x + 31.0, y + 13.0), Anchor::Start, "", words);
            x += 44.0 + words.len() as f64 * 7.0;
        }
        let marks = [(false, "ld"), (true, "std")];
        for (store, words) in marks {
            self.chip((x + 14.0, y + 2.0), u32::MAX, store, words);
            x += 44.0;
        }
        self.svg.text(
            (x - 8.0, y + 13.0),
            Anchor::Start,
            "",
            "(a colour for each line)",
        );
        x += 148.0;
        self.svg.rect(x, y + 8.0, 24.0, 3.0, "fill=\"#6b4fa0\"");
        self.svg
            .text((x + 30.0, y + 13.0), Anchor::Start, "", "privileged");
    }
}

/// Words in lines of about a column's width.
fn wrapped(words: &str) -> Vec<String> {
    let words = words.replace("non-transactional", "non- transactional");
    let mut lines: Vec<String> = Vec::new();
    for word in words.split_whitespace() {
        match lines.last_mut() {
            Some(line) if line.len() + word.len() < 12 => {
                line.push(' ');
                line.push_str(word);
            }
            _ => lines.push(word.to_string()),
        }
    }
    lines
}
