//! A page that the engine accepted: its text, its lines, and the words for its conditions.

use std::fs::File;
use std::io::Read;

use crate::area::{self, Body, Line, Literal, Reading};
use crate::ffi;
use crate::header;
use crate::names::Names;
use crate::refusal;

pub struct Page {
    pub path: String,
    pub text: Vec<u8>,
    pub area: Vec<u16>,
    pub top: u16,
    pub conditions: usize,
    pub lines: Vec<Line>,
    pub names: Names,
}

/// Why a command has no page to work on.
pub enum Stop {
    /// It could not be done: a file, an argument.
    Failed(String),
    /// The page is refused; the report says where and why.
    Refused(String),
}

/// A query of the page.
#[derive(Clone, Copy)]
pub struct Query {
    pub line: usize,
    pub reading: Reading,
    pub condition: usize,
}

/// The bytes of a file, but no more than show that it is too long for a page.
fn bytes(path: &str) -> Result<Vec<u8>, Stop> {
    let most = header::TEXT_MAX as u64 + 1;
    let mut bytes = Vec::new();
    let read = File::open(path).and_then(|file| file.take(most).read_to_end(&mut bytes));
    read.map_err(|error| Stop::Failed(format!("{path} cannot be read: {error}")))?;
    Ok(bytes)
}

impl Page {
    /// Reads the page in a file, and the names beside it.
    pub fn open(path: &str) -> Result<Page, Stop> {
        let text = bytes(path)?;
        match ffi::read(&text) {
            Ok(area) => Ok(Page {
                path: path.to_string(),
                top: area::top(&area),
                conditions: area::conditions(&area),
                lines: area::lines(&area),
                names: Names::beside(path, area::conditions(&area)),
                text,
                area,
            }),
            Err(refusal) => Err(Stop::Refused(refusal::report(path, &text, &refusal))),
        }
    }

    /// The text of a line.
    pub fn line_text(&self, number: usize) -> String {
        String::from_utf8_lossy(ffi::show_line(&self.text, number)).into_owned()
    }

    /// A line with its number, as `line 3: F,0,2,2`.
    pub fn shown_line(&self, number: usize) -> String {
        format!("line {number}: {}", self.line_text(number))
    }

    /// A condition in words: its number, and its name if it has one.
    pub fn label(&self, condition: usize) -> String {
        match self.names.of(condition) {
            Some(name) => format!("{condition} ({name})"),
            None => condition.to_string(),
        }
    }

    /// A literal in words.
    pub fn literal_label(&self, literal: Literal) -> String {
        let condition = literal.condition;
        match (literal.negated, self.names.of(condition)) {
            (false, _) => self.label(condition),
            (true, Some(name)) => format!("!{condition} (not {name})"),
            (true, None) => format!("!{condition}"),
        }
    }

    pub fn queries(&self) -> Vec<Query> {
        let query = |line: &Line| match line.body {
            Body::Query(reading) => Some(Query {
                line: line.number,
                reading,
                condition: line.condition,
            }),
            _ => None,
        };
        self.lines.iter().filter_map(query).collect()
    }

    /// The rules: line number, condition, literals.
    pub fn rules(&self) -> impl Iterator<Item = (usize, usize, &Vec<Literal>)> {
        self.lines.iter().filter_map(|line| match &line.body {
            Body::Rule(literals) => Some((line.number, line.condition, literals)),
            _ => None,
        })
    }

    /// The literals of the rule in a line; none if it is a fact.
    pub fn literals(&self, number: usize) -> &[Literal] {
        let rule = self.rules().find(|(line, _, _)| *line == number);
        rule.map_or(&[], |(_, _, literals)| literals)
    }

    /// The D line of a condition that is unknown by default.
    pub fn default_line(&self, condition: usize) -> Option<usize> {
        let own = |line: &&Line| line.condition == condition && matches!(line.body, Body::Unknown);
        self.lines.iter().find(own).map(|line| line.number)
    }

    /// What a condition without F and R lines has instead, in words: its D line, or none.
    pub fn bodyless(&self, condition: usize) -> String {
        match self.default_line(condition) {
            Some(line) => format!(
                "no F or R line, unknown by default by {}",
                self.shown_line(line)
            ),
            None => "no F or R line".to_string(),
        }
    }

    /// The F and R lines of a condition, and its D line.
    pub fn own_lines(&self, condition: usize) -> Vec<usize> {
        let own = |line: &&Line| line.condition == condition && !is_query(line);
        self.lines
            .iter()
            .filter(own)
            .map(|line| line.number)
            .collect()
    }

    /// The lines that name a condition: rules with such a literal, and queries.
    pub fn naming_lines(&self, condition: usize) -> Vec<usize> {
        let names = |line: &&Line| match &line.body {
            Body::Rule(literals) => literals.iter().any(|l| l.condition == condition),
            Body::Query(_) => line.condition == condition,
            _ => false,
        };
        self.lines
            .iter()
            .filter(names)
            .map(|line| line.number)
            .collect()
    }

    /// A query as it stands in the page, with the name of its condition.
    pub fn shown_query(&self, query: Query) -> String {
        let text = self.line_text(query.line);
        match self.names.of(query.condition) {
            Some(name) => format!("{text} ({name})"),
            None => text,
        }
    }
}

fn is_query(line: &Line) -> bool {
    matches!(line.body, Body::Query(_))
}

/// A condition given as an argument: its number, or its name.
pub fn condition(page: &Page, given: &str) -> Result<usize, Stop> {
    let number: Option<usize> = given.parse().ok();
    let number = number.filter(|number| *number < page.conditions);
    number
        .or_else(|| page.names.condition(given))
        .ok_or_else(|| {
            let last = page.conditions - 1;
            Stop::Failed(format!(
                "{given:?} is no condition of {}: it has 0 to {last}{}",
                page.path,
                if page.names.any() { ", and names" } else { "" }
            ))
        })
}
