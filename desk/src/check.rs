//! `check PAGE`: warnings on an accepted page, each with its lines. The exit status is 0 without a warning and 1 with one.

use crate::area::{Body, Interval, Line, Literal};
use crate::chain;
use crate::ffi;
use crate::page::{Page, Query};
use crate::probe;
use crate::readings::{self, Readings};
use crate::report::{counted, joined, Report};

/// A warning: what is the matter, and the lines that it speaks of.
struct Warning {
    text: String,
    more: Vec<String>,
}

pub fn run(page: &Page) -> Report {
    let readings = Readings::of(page);
    let warnings: Vec<Warning> = [
        bad_names(page),
        loop_through_absence(page),
        without_lines(page, &readings),
        raised_facts(page, &readings),
        differing(page, &readings),
        not_reached(page),
        unused(page),
    ]
    .into_iter()
    .flatten()
    .collect();
    let mut out = head(page) + &unknown_by_default(page);
    for warning in &warnings {
        out.push_str(&format!("\nwarning: {}\n", warning.text));
        for line in &warning.more {
            out.push_str(&format!("  {line}\n"));
        }
    }
    out.push('\n');
    out.push_str(&match warnings.len() {
        0 => "no warnings\n".to_string(),
        count => counted(count, "warning", "warnings") + "\n",
    });
    Report {
        out,
        notes: Vec::new(),
        status: u8::from(!warnings.is_empty()),
    }
}

fn head(page: &Page) -> String {
    format!(
        "{}: accepted: top {}, {}, {} after the first, {}\n",
        page.path,
        page.top,
        counted(page.conditions, "condition", "conditions"),
        counted(page.lines.len(), "line", "lines"),
        counted(page.queries().len(), "query", "queries"),
    )
}

/// The conditions that are unknown by default, each with its D line. That is no warning.
fn unknown_by_default(page: &Page) -> String {
    let mut out = String::new();
    for condition in 0..page.conditions {
        if let Some(line) = page.default_line(condition) {
            let (label, line) = (page.label(condition), page.shown_line(line));
            out.push_str(&format!("{label} is unknown by default: {line}\n"));
        }
    }
    out
}

fn bad_names(page: &Page) -> Vec<Warning> {
    let warning = |fault: &String| Warning {
        text: fault.clone(),
        more: Vec::new(),
    };
    page.names.fault.iter().map(warning).collect()
}

/// A loop through an absence: its lowest condition, and the way from it back to it.
fn loop_through_absence(page: &Page) -> Vec<Warning> {
    let Err(condition) = ffi::layers(&page.area, page.conditions) else {
        return Vec::new();
    };
    let step = |step: chain::Step| {
        let line = page.shown_line(step.line);
        format!("{line} leads to {}", page.literal_label(step.literal))
    };
    let way = chain::back_to(page, condition);
    vec![Warning {
        text: format!(
            "a loop through an absence: {} leads back to itself through a negation",
            page.label(condition)
        ),
        more: way.into_iter().map(step).collect(),
    }]
}

/// Conditions that are named but have no line, not even one that makes them unknown by default.
fn without_lines(page: &Page, readings: &Readings) -> Vec<Warning> {
    let named = |condition: &usize| {
        page.own_lines(*condition).is_empty() && !page.naming_lines(*condition).is_empty()
    };
    let warning = |condition: usize| {
        let label = page.label(condition);
        let mut more = named_lines(page, readings, condition);
        more.extend(opened_or_shut(page, readings, condition));
        more.push(format!("if {label} is not measured, write D,{condition},U"));
        Warning {
            text: format!(
                "{label} has no F or R line: {}, not unknown",
                both(readings, condition)
            ),
            more,
        }
    };
    (0..page.conditions).filter(named).map(warning).collect()
}

/// Both readings of a condition in words.
fn both(readings: &Readings, condition: usize) -> String {
    let (plain, closed) = (readings.plain[condition], readings.closed[condition]);
    match plain == closed {
        true => format!("it is {plain} in both readings"),
        false => format!("it is {plain} plain and {closed} closed"),
    }
}

/// The lines that name a condition, each with what its literal counts as.
fn named_lines(page: &Page, readings: &Readings, condition: usize) -> Vec<String> {
    let held = readings.plain[condition];
    let shown = |number: usize| {
        let mut text = page.shown_line(number);
        for negated in [false, true] {
            let literal = Literal { condition, negated };
            if page.literals(number).contains(&literal) {
                let value = probe::literal_value(page.top, literal, held);
                text.push_str(&format!(
                    ", where {} is {value}",
                    page.literal_label(literal)
                ));
            }
        }
        text
    };
    page.naming_lines(condition)
        .into_iter()
        .map(shown)
        .collect()
}

/// The queries, but no second one for the same condition in the same reading.
fn distinct_queries(page: &Page) -> Vec<Query> {
    let mut kept: Vec<Query> = Vec::new();
    for query in page.queries() {
        let same =
            |other: &Query| other.reading == query.reading && other.condition == query.condition;
        if !kept.iter().any(same) {
            kept.push(query);
        }
    }
    kept
}

/// What a condition without lines opens and shuts: the queries that would be wider if it were unknown. Unknown for 0 opens those whose
/// low end is higher for it, and shuts those whose high end is lower for it.
fn opened_or_shut(page: &Page, readings: &Readings, condition: usize) -> Vec<String> {
    let queries = distinct_queries(page);
    let wider = probe::answers_if_unknown(page, condition, &queries);
    let mut out = Vec::new();
    for (query, wide) in queries.into_iter().zip(wider) {
        let now = readings.answer(query);
        let verb = match (wide.low < now.low, wide.high > now.high) {
            (false, false) => continue,
            (true, false) => "opens",
            (false, true) => "shuts",
            (true, true) => "settles",
        };
        let query_text = page.shown_query(query);
        out.push(format!(
            "this {verb} line {}: {query_text}: {now}, and {wide} if it were unknown",
            query.line
        ));
    }
    if out.is_empty() {
        out.push("no query depends on it".to_string());
    }
    out
}

/// Facts that a rule can raise above their high end: rules whose own value at rest has a higher one.
fn raised_facts(page: &Page, readings: &Readings) -> Vec<Warning> {
    let facts = page.lines.iter().filter_map(|line| match line.body {
        Body::Fact(fact) => Some((line, fact)),
        _ => None,
    });
    facts
        .filter_map(|(line, fact)| raised(page, readings, line, fact))
        .collect()
}

fn raised(page: &Page, readings: &Readings, line: &Line, fact: Interval) -> Option<Warning> {
    let mut more = vec![page.shown_line(line.number)];
    for (number, head, _) in page.rules() {
        if head != line.condition {
            continue;
        }
        let value = probe::rule_value(page, number, &readings.plain);
        if value.high > fact.high {
            more.push(format!("{}, which is {value}", page.shown_line(number)));
        }
    }
    let text = format!(
        "a rule can raise {} above the high end {} of its fact",
        page.label(line.condition),
        fact.high
    );
    (more.len() > 1).then_some(Warning { text, more })
}

/// Queries whose plain and closed answers differ, by condition.
fn differing(page: &Page, readings: &Readings) -> Vec<Warning> {
    let queries = page.queries();
    let differs = |condition: &usize| {
        readings.plain[*condition] != readings.closed[*condition]
            && queries.iter().any(|query| query.condition == *condition)
    };
    let warning = |condition: usize| {
        let asked = queries.iter().filter(|query| query.condition == condition);
        Warning {
            text: format!(
                "the readings of {} differ: {}",
                page.label(condition),
                both(readings, condition)
            ),
            more: asked.map(|query| page.shown_line(query.line)).collect(),
        }
    };
    (0..page.conditions).filter(differs).map(warning).collect()
}

/// Conditions that the page speaks of and no query reaches.
fn not_reached(page: &Page) -> Vec<Warning> {
    if page.queries().is_empty() {
        return vec![Warning {
            text: "no Q line: no condition is asked for".to_string(),
            more: Vec::new(),
        }];
    }
    let reached = readings::reached(page);
    let warning = |condition: usize| {
        let own = page.own_lines(condition);
        let lines = if own.is_empty() {
            page.naming_lines(condition)
        } else {
            own
        };
        let text = format!("no query reaches {}", page.label(condition));
        let more = lines
            .into_iter()
            .map(|line| page.shown_line(line))
            .collect();
        (!reached[condition]).then_some(Warning { text, more })
    };
    let mut warnings: Vec<Warning> = (0..page.conditions).filter_map(warning).collect();
    warnings.retain(|warning| !warning.more.is_empty());
    warnings
}

/// Conditions that the page does not speak of at all, in one warning.
fn unused(page: &Page) -> Vec<Warning> {
    let unused = |condition: &usize| {
        page.own_lines(*condition).is_empty() && page.naming_lines(*condition).is_empty()
    };
    let unused: Vec<usize> = (0..page.conditions).filter(unused).collect();
    if unused.is_empty() {
        return Vec::new();
    }
    let verb = if unused.len() == 1 {
        "has no line and is"
    } else {
        "have no line and are"
    };
    vec![Warning {
        text: format!("{} {verb} named nowhere", joined(&ranges(&unused))),
        more: vec![page.shown_line(1)],
    }]
}

/// Numbers in order, with runs of three or more as `2 to 9`.
fn ranges(numbers: &[usize]) -> Vec<String> {
    let mut out = Vec::new();
    let mut rest = numbers;
    while let [first, ..] = rest {
        let run = rest
            .iter()
            .zip(*first..)
            .take_while(|(a, b)| **a == *b)
            .count();
        match run {
            1 | 2 => out.extend(rest[..run].iter().map(usize::to_string)),
            _ => out.push(format!("{first} to {}", first + run - 1)),
        }
        rest = &rest[run..];
    }
    out
}
