//! Questions that the page does not ask: small or changed pages, written as text and answered by the engine.

use crate::area::{Interval, Literal};
use crate::ffi;
use crate::page::{Page, Query};
use crate::readings;

/// The page area of a text that is a page.
fn area_of(text: &str) -> Vec<u16> {
    ffi::read(text.as_bytes())
        .unwrap_or_else(|refusal| panic!("the engine refused {}: {text:?}", refusal.number))
}

/// The value of a rule on intervals for its literals' conditions: that of a page that has these as facts.
fn value(top: u16, weight: &str, op: &str, literals: &[(Literal, Interval)]) -> Interval {
    let mut text = format!("G,{top},{}\n", literals.len() + 1);
    let mut rule = format!("R,0,{weight},{op}");
    for (place, (literal, held)) in literals.iter().enumerate() {
        let condition = place + 1;
        text.push_str(&format!("F,{condition},{},{}\n", held.low, held.high));
        let sign = if literal.negated { "!" } else { "" };
        rule.push_str(&format!(",{sign}{condition}"));
    }
    text.push_str(&rule);
    text.push('\n');
    readings::plain(&area_of(&text), &[0])[0]
}

/// The value of the rule in a line of a page on these intervals.
pub fn rule_value(page: &Page, line: usize, held: &[Interval]) -> Interval {
    let text = page.line_text(line);
    let fields: Vec<&str> = text.split(',').collect();
    let literals = page.literals(line).iter();
    let literals: Vec<(Literal, Interval)> = literals.map(|l| (*l, held[l.condition])).collect();
    value(page.top, fields[2], fields[3], &literals)
}

/// The interval of a literal whose condition has this interval.
pub fn literal_value(top: u16, literal: Literal, held: Interval) -> Interval {
    value(top, &top.to_string(), "M", &[(literal, held)])
}

/// The answers to queries if a condition without lines were unknown by default. Q lines add nothing and are left out, so there is room for
/// its D line.
pub fn answers_if_unknown(page: &Page, condition: usize, queries: &[Query]) -> Vec<Interval> {
    let asked: Vec<usize> = page.queries().iter().map(|query| query.line).collect();
    let mut text = String::new();
    for number in (1..=page.lines.len() + 1).filter(|number| !asked.contains(number)) {
        text.push_str(&page.line_text(number));
        text.push('\n');
    }
    text.push_str(&format!("D,{condition},U\n"));
    let area = area_of(&text);
    let wanted: Vec<usize> = queries.iter().map(|query| query.condition).collect();
    let readings = readings::Readings {
        plain: readings::plain(&area, &wanted),
        closed: readings::closed(&area, &wanted),
    };
    let answer = |(place, query): (usize, &Query)| {
        readings.answer(Query {
            condition: place,
            ..*query
        })
    };
    queries.iter().enumerate().map(answer).collect()
}
