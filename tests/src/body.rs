//! Grades, pairs, the five ops and the body value T: sections "Grades and intervals" and "The page".

use crate::page::{Line, Literal, Op, Page};

/// A pair [low;high]; low may be above high where a definition speaks of all pairs.
#[derive(Clone, Copy, Debug, PartialEq, Eq)]
pub struct Pair {
    pub low: u16,
    pub high: u16,
}

impl Pair {
    pub fn new(low: u16, high: u16) -> Pair {
        Pair { low, high }
    }

    /// [0;top], the least pair in knowledge order.
    pub fn unknown(top: u16) -> Pair {
        Pair::new(0, top)
    }

    pub fn negation(self, top: u16) -> Pair {
        Pair::new(top - self.high, top - self.low)
    }

    /// Joins knowledge: the larger low and the smaller high.
    pub fn join(self, other: Pair) -> Pair {
        Pair::new(self.low.max(other.low), self.high.min(other.high))
    }

    /// [larger low; larger high].
    pub fn largest(self, other: Pair) -> Pair {
        Pair::new(self.low.max(other.low), self.high.max(other.high))
    }

    /// Whether this pair is at or under the other in knowledge order.
    pub fn at_or_under(self, other: Pair) -> bool {
        self.low <= other.low && other.high <= self.high
    }
}

/// An end of an interval: the two round apart.
#[derive(Clone, Copy, Debug, PartialEq, Eq)]
pub enum End {
    Low,
    High,
}

/// A number divided by top: the low end rounds down, the high end up.
pub fn divided(end: End, number: u32, top: u32) -> u32 {
    let whole = number / top;
    let left_over = number % top > 0;
    whole + u32::from(left_over && end == End::High)
}

/// One step of an op, for one end.
pub fn combine(op: Op, end: End, top: u16, p: u16, q: u16) -> u16 {
    let (top, p, q) = (u32::from(top), u32::from(p), u32::from(q));
    let result = match op {
        Op::M => p.min(q),
        Op::X => p.max(q),
        Op::L => (p + q).saturating_sub(top),
        Op::B => (p + q).min(top),
        Op::P => divided(end, p * q, top),
    };
    result as u16
}

/// One end of a rule's value, from that end of its literals.
fn rule_end(op: Op, end: End, top: u16, weight: u16, ends: impl Iterator<Item = u16>) -> u16 {
    let result = ends
        .reduce(|p, q| combine(op, end, top, p, q))
        .expect("a rule has a literal");
    divided(end, u32::from(result) * u32::from(weight), top.into()) as u16
}

fn literal_value(literal: Literal, top: u16, held: &[Pair]) -> Pair {
    let pair = held[usize::from(literal.cond)];
    if literal.negated {
        pair.negation(top)
    } else {
        pair
    }
}

/// The condition that a line gives a value, and the value; none for a query or a D line.
pub fn line_value(line: &Line, top: u16, held: &[Pair]) -> Option<(u16, Pair)> {
    match line {
        Line::Fact { cond, low, high } => Some((*cond, Pair::new(*low, *high))),
        Line::Rule {
            head,
            weight,
            op,
            body,
        } => {
            let values = || {
                body.iter()
                    .map(|literal| literal_value(*literal, top, held))
            };
            Some((
                *head,
                Pair::new(
                    rule_end(*op, End::Low, top, *weight, values().map(|pair| pair.low)),
                    rule_end(*op, End::High, top, *weight, values().map(|pair| pair.high)),
                ),
            ))
        }
        Line::Query { .. } | Line::Default { .. } => None,
    }
}

/// The body value of a condition without F and R lines: [0;0], or [0;top] where it is unknown by default.
pub fn bodyless(page: &Page, cond: u16) -> Pair {
    if page.unknown_by_default(cond) {
        Pair::unknown(page.top)
    } else {
        Pair::new(0, 0)
    }
}

/// Which line holds the low end: the number of the condition's first F or R line whose low end at the pairs held is that of T, 0 if it has
/// no such lines. Every line of the page counts, and the G line is line 1.
pub fn holding_line(page: &Page, held: &[Pair], cond: u16) -> u32 {
    let new = body_value(page, held, cond);
    for (line, number) in page.lines.iter().zip(2..) {
        if let Some((head, value)) = line_value(line, page.top, held) {
            if head == cond && value.low == new.low {
                return number;
            }
        }
    }
    0
}

/// T of every condition at the pairs held.
pub fn body_values(page: &Page, held: &[Pair]) -> Vec<Pair> {
    let mut values: Vec<Option<Pair>> = vec![None; usize::from(page.count)];
    for line in &page.lines {
        if let Some((cond, value)) = line_value(line, page.top, held) {
            let so_far = &mut values[usize::from(cond)];
            *so_far = Some(so_far.map_or(value, |pair| pair.largest(value)));
        }
    }
    let pairs = (0..page.count).zip(values);
    pairs
        .map(|(cond, value)| value.unwrap_or_else(|| bodyless(page, cond)))
        .collect()
}

/// T of one condition at the pairs held.
pub fn body_value(page: &Page, held: &[Pair], cond: u16) -> Pair {
    let mut total: Option<Pair> = None;
    for line in &page.lines {
        let is_for_cond = match line {
            Line::Fact { cond: head, .. } | Line::Rule { head, .. } => *head == cond,
            Line::Query { .. } | Line::Default { .. } => false,
        };
        if is_for_cond {
            let (_, value) = line_value(line, page.top, held).expect("the line has a value");
            total = Some(total.map_or(value, |pair| pair.largest(value)));
        }
    }
    total.unwrap_or_else(|| bodyless(page, cond))
}
