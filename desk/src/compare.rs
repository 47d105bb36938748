//! `compare OLD NEW`: queries whose answers changed, with both intervals and both lines that hold the low end, and queries that only one page has.
//! A query is the same in both pages if it asks for the same condition in the same reading. The exit status is 0 without a difference and 1 with one.

use crate::page::{Page, Query};
use crate::readings::Readings;
use crate::report::{counted, Report};

/// A page with its readings and the word for it.
struct Side<'a> {
    page: &'a Page,
    readings: Readings,
    word: &'static str,
}

pub fn run(old: &Page, new: &Page) -> Report {
    let (old, new) = (Side::of(old, "old"), Side::of(new, "new"));
    let mut same = 0;
    let mut differences: Vec<String> = tops(&old, &new).into_iter().collect();
    for query in old.queries() {
        match difference(&old, &new, query) {
            Some(text) => differences.push(text),
            None => same += 1,
        }
    }
    let added = new.queries().into_iter();
    let added = added.filter(|query| old.same_query(*query).is_none());
    differences.extend(added.map(|query| new.only(query)));
    let out = format!(
        "old: {}\nnew: {}\n{}\n{}, {} with the same answer\n",
        old.page.path,
        new.page.path,
        differences.concat(),
        counted(differences.len(), "difference", "differences"),
        counted(same, "query", "queries")
    );
    let faults = [old.page, new.page].into_iter();
    Report {
        out,
        notes: faults.filter_map(|page| page.names.fault.clone()).collect(),
        status: u8::from(!differences.is_empty()),
    }
}

fn tops(old: &Side, new: &Side) -> Option<String> {
    let (old, new) = (old.page.top, new.page.top);
    (old != new)
        .then(|| format!("\nthe tops differ, {old} and {new}: no answers are on one scale\n"))
}

/// What is different about a query of the old page.
fn difference(old: &Side, new: &Side, query: Query) -> Option<String> {
    let Some(other) = new.same_query(query) else {
        return Some(old.only(query));
    };
    (!old.agrees(new, query, other)).then(|| {
        let shown = old.page.shown_query(query);
        let (before, after) = (old.answer(query), new.answer(other));
        format!("\nchanged: {shown}\n{before}{after}")
    })
}

impl Side<'_> {
    fn of<'a>(page: &'a Page, word: &'static str) -> Side<'a> {
        Side {
            page,
            readings: Readings::of(page),
            word,
        }
    }

    /// The queries, each once.
    fn queries(&self) -> Vec<Query> {
        let queries = self.page.queries();
        let first = |query: &Query| {
            self.same_query(*query)
                .is_some_and(|found| found.line == query.line)
        };
        queries.into_iter().filter(first).collect()
    }

    /// The first query of this page for the same condition in the same reading.
    fn same_query(&self, query: Query) -> Option<Query> {
        let same =
            |other: &Query| other.reading == query.reading && other.condition == query.condition;
        self.page.queries().into_iter().find(same)
    }

    /// Whether both pages give the same answer, on the same scale.
    fn agrees(&self, new: &Side, query: Query, other: Query) -> bool {
        self.page.top == new.page.top && self.readings.answer(query) == new.readings.answer(other)
    }

    /// The answer to a query, and the line that holds its low end.
    fn answer(&self, query: Query) -> String {
        let interval = self.readings.answer(query);
        let line = self
            .readings
            .line(self.page, query.reading, query.condition);
        let held = match line {
            Some(line) => format!("low end by {}", self.page.shown_line(line)),
            None => self.page.bodyless(query.condition),
        };
        format!("  {} {interval:9}  {held}\n", self.word)
    }

    fn only(&self, query: Query) -> String {
        let shown = self.page.shown_query(query);
        format!(
            "\nonly in the {} page: {shown}\n{}",
            self.word,
            self.answer(query)
        )
    }
}
