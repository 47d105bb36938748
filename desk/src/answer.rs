//! `answer PAGE`: both readings of every query as a table, each interval with a bar from 0 to top.

use crate::area::Reading;
use crate::bar;
use crate::page::{Page, Query};
use crate::readings::Readings;
use crate::report::Report;

const BAR: usize = 40;

pub fn run(page: &Page) -> Report {
    let queries = page.queries();
    let readings = Readings::of(page);
    let mut out = format!("{}: top {}; {}\n", page.path, page.top, bar::KEY);
    if queries.is_empty() {
        out.push_str("no Q line: nothing is asked\n");
        return Report::new(page, out, 0);
    }
    let label = |query: &Query| page.label(query.condition).chars().count();
    let widest = queries
        .iter()
        .map(label)
        .max()
        .unwrap_or(0)
        .max("condition".len());
    let scale = format!("0{:>1$}", page.top, BAR + 1);
    out.push_str(&format!(
        "\nline  query    {:widest$}  reading  interval   {scale}\n",
        "condition"
    ));
    for query in queries {
        out.push_str(&rows(page, &readings, query, widest));
    }
    out.push_str("\n* the reading that the query asks for\n");
    Report::new(page, out, 0)
}

/// The two rows of a query: plain, closed.
fn rows(page: &Page, readings: &Readings, query: Query, widest: usize) -> String {
    let mut out = String::new();
    let first = format!(
        "{:>4}  {:7}  {:widest$}",
        query.line,
        page.line_text(query.line),
        page.label(query.condition)
    );
    let second = " ".repeat(first.chars().count());
    for (left, reading, word) in [
        (first, Reading::Plain, "plain"),
        (second, Reading::Closed, "closed"),
    ] {
        let interval = readings.answer(Query { reading, ..query });
        let asked = if reading == query.reading { "*" } else { "" };
        let word = format!("{word}{asked}");
        let drawn = bar::text(interval, page.top, BAR);
        out.push_str(&format!("{left}  {word:7}  {interval:9}  {drawn}\n"));
    }
    out
}
