//! What stands in the box of each condition.

use super::graph::Graph;
use crate::area::{Interval, Reading};
use crate::page::Page;
use crate::readings::{self, Readings};

pub struct Content {
    pub condition: usize,
    /// The name, in lines that fit the box.
    pub name: Vec<String>,
    pub plain: Interval,
    /// The closed reading, where it differs from the plain one.
    pub closed: Option<Interval>,
    pub reached: bool,
    pub without_lines: bool,
    pub unknown_by_default: bool,
    /// The readings that queries ask for.
    pub asked: Vec<&'static str>,
    /// What a browser shows when the pointer rests on the box: the condition and its lines.
    pub tip: String,
}

pub struct Boxes {
    pub all: Vec<Content>,
    pub width: f64,
    pub height: f64,
    /// How many lines the longest name takes.
    pub name_lines: usize,
}

/// Letters that fit a line of a name, and the most lines.
const LETTERS: usize = 21;
const NAME_LINES: usize = 2;

impl Boxes {
    pub fn of(page: &Page, graph: &Graph) -> Boxes {
        let readings = Readings::of(page);
        let reached = readings::reached(page);
        let one = |condition: &usize| content(page, &readings, &reached, *condition);
        let all: Vec<Content> = graph.conditions.iter().map(one).collect();
        let name_lines = all
            .iter()
            .map(|content| content.name.len())
            .max()
            .unwrap_or(0);
        let more = all
            .iter()
            .any(|content| content.closed.is_some() || content.without_lines);
        Boxes {
            width: if page.names.any() { 152.0 } else { 124.0 },
            height: 39.0 + 13.0 * name_lines as f64 + if more { 24.0 } else { 0.0 },
            all,
            name_lines,
        }
    }
}

fn content(page: &Page, readings: &Readings, reached: &[bool], condition: usize) -> Content {
    let (plain, closed) = (readings.plain[condition], readings.closed[condition]);
    let own = page.own_lines(condition);
    let asks = |reading: Reading| {
        let queries = page.queries();
        queries
            .iter()
            .any(|query| query.condition == condition && query.reading == reading)
    };
    let asked = [("K", Reading::Plain), ("W", Reading::Closed)];
    let mut tip = vec![format!(
        "{}: plain {plain}, closed {closed}",
        page.label(condition)
    )];
    tip.extend(own.iter().map(|line| page.shown_line(*line)));
    Content {
        condition,
        name: wrapped(page.names.of(condition).unwrap_or_default()),
        plain,
        closed: (plain != closed).then_some(closed),
        reached: reached[condition],
        without_lines: own.is_empty(),
        unknown_by_default: page.default_line(condition).is_some(),
        asked: asked
            .into_iter()
            .filter(|(_, reading)| asks(*reading))
            .map(|(letter, _)| letter)
            .collect(),
        tip: tip.join("\n"),
    }
}

/// A name in lines of whole words; what does not fit ends with an ellipsis.
fn wrapped(name: &str) -> Vec<String> {
    let mut lines: Vec<String> = Vec::new();
    for word in name.split_whitespace() {
        let fits = |line: &&mut String| line.chars().count() + 1 + word.chars().count() <= LETTERS;
        match lines.last_mut().filter(fits) {
            Some(line) => *line = format!("{line} {word}"),
            None => lines.push(word.to_string()),
        }
    }
    if lines.len() > NAME_LINES {
        lines.truncate(NAME_LINES);
        lines[NAME_LINES - 1].push_str(" …");
    }
    lines.into_iter().map(shortened).collect()
}

fn shortened(line: String) -> String {
    if line.chars().count() <= LETTERS {
        return line;
    }
    let kept: String = line.chars().take(LETTERS - 1).collect();
    kept.trim_end_matches([' ', '…']).to_string() + "…"
}
