//! The layout of a page area and of a run area (docs/RULES.md, "Areas"): what the desk reads of an accepted page, in this file and nowhere else.
//! A change of layout changes `first_line` (where the lines begin) and `body` (the kinds of lines).

use std::fmt;

use crate::header;

const _: () = assert!(header::LAYOUT == 2, "this file knows layout 2");

/// An interval [low;high] of grades.
#[derive(Clone, Copy, Debug, PartialEq, Eq)]
pub struct Interval {
    pub low: u16,
    pub high: u16,
}

impl fmt::Display for Interval {
    fn fmt(&self, out: &mut fmt::Formatter) -> fmt::Result {
        out.pad(&format!("[{};{}]", self.low, self.high))
    }
}

/// A condition, or its negation.
#[derive(Clone, Copy, Debug, PartialEq, Eq)]
pub struct Literal {
    pub condition: usize,
    pub negated: bool,
}

/// The reading that a query asks for.
#[derive(Clone, Copy, Debug, PartialEq, Eq)]
pub enum Reading {
    Plain,
    Closed,
}

/// What a line says of its condition.
pub enum Body {
    Fact(Interval),
    Rule(Vec<Literal>),
    Query(Reading),
    /// `D,cond,U`: unknown by default.
    Unknown,
}

/// A line after the first: its number in the text, its condition, and what it says.
pub struct Line {
    pub number: usize,
    pub condition: usize,
    pub body: Body,
}

/// The page's top.
pub fn top(area: &[u16]) -> u16 {
    area[0]
}

/// C, the count of conditions.
pub fn conditions(area: &[u16]) -> usize {
    usize::from(area[1])
}

/// Where the lines begin: behind the four head numbers and one number for each condition, which says whether it is unknown by default.
fn first_line(area: &[u16]) -> usize {
    4 + conditions(area)
}

/// The lines after the first, in page order.
pub fn lines(area: &[u16]) -> Vec<Line> {
    let mut lines = Vec::new();
    let mut rest = &area[first_line(area)..];
    while let [condition, kind, third, fourth, after @ ..] = rest {
        let literals = if is_rule(*kind) {
            usize::from(*fourth)
        } else {
            0
        };
        lines.push(Line {
            number: lines.len() + 2,
            condition: usize::from(*condition),
            body: body(*kind, *third, *fourth, &after[..literals]),
        });
        rest = &after[literals..];
    }
    lines
}

fn is_rule(kind: u16) -> bool {
    (1..=5).contains(&kind)
}

fn body(kind: u16, third: u16, fourth: u16, literals: &[u16]) -> Body {
    match kind {
        0 => Body::Fact(Interval {
            low: third,
            high: fourth,
        }),
        6 if third == 0 => Body::Query(Reading::Plain),
        6 => Body::Query(Reading::Closed),
        7 => Body::Unknown,
        _ => Body::Rule(literals.iter().map(literal).collect()),
    }
}

fn literal(number: &u16) -> Literal {
    Literal {
        condition: usize::from(number / 2),
        negated: number % 2 == 1,
    }
}

/// A run area at rest in which every condition is reached and holds the interval given.
pub fn run_holding(intervals: &[Interval]) -> Vec<u16> {
    let cell = |interval: &Interval| [interval.low, interval.high, 1];
    intervals.iter().flat_map(cell).collect()
}
