//! The two readings of conditions. Every interval is one that the engine gave.

use crate::area::{self, Interval, Reading};
use crate::ffi;
use crate::header;
use crate::page::{Page, Query};

/// Both readings of every condition of a page.
pub struct Readings {
    pub plain: Vec<Interval>,
    pub closed: Vec<Interval>,
}

impl Readings {
    pub fn of(page: &Page) -> Readings {
        let all: Vec<usize> = (0..page.conditions).collect();
        Readings {
            plain: plain(&page.area, &all),
            closed: closed(&page.area, &all),
        }
    }

    /// The answer to a query, in its reading.
    pub fn answer(&self, query: Query) -> Interval {
        match query.reading {
            Reading::Plain => self.plain[query.condition],
            Reading::Closed => self.closed[query.condition],
        }
    }

    /// The line that holds the low end of a condition in a reading. Both readings hold at each condition its body value on
    /// the intervals held, so the engine is asked on a run area with these.
    pub fn line(&self, page: &Page, reading: Reading, condition: usize) -> Option<usize> {
        let intervals = match reading {
            Reading::Plain => &self.plain,
            Reading::Closed => &self.closed,
        };
        ffi::line(&page.area, &area::run_holding(intervals), condition)
    }
}

/// A query list as the engine takes it.
fn list(conditions: &[usize]) -> Vec<u16> {
    conditions
        .iter()
        .map(|condition| *condition as u16)
        .collect()
}

/// The plain reading of some conditions: runs at rest, opened on as many of them at once as a list may hold.
pub fn plain(area: &[u16], wanted: &[usize]) -> Vec<Interval> {
    let conditions = area::conditions(area);
    let mut held: Vec<Option<Interval>> = vec![None; conditions];
    loop {
        let missing = wanted.iter().filter(|wanted| held[**wanted].is_none());
        let batch: Vec<usize> = missing.take(header::QUERIES_MAX).copied().collect();
        if batch.is_empty() {
            break;
        }
        let run = ffi::run_at_rest(area, conditions, &list(&batch));
        for (condition, known) in held.iter_mut().enumerate() {
            *known = known.or_else(|| ffi::value(area, &run, condition));
        }
    }
    wanted.iter().filter_map(|wanted| held[*wanted]).collect()
}

/// The closed reading of some conditions.
pub fn closed(area: &[u16], wanted: &[usize]) -> Vec<Interval> {
    let conditions = area::conditions(area);
    let batches = wanted.chunks(header::QUERIES_MAX);
    let answers = batches.map(|batch| ffi::closed(area, conditions, &list(batch)));
    answers.flatten().collect()
}

/// Which conditions the page's queries reach.
pub fn reached(page: &Page) -> Vec<bool> {
    let mut reached = vec![false; page.conditions];
    let asked: Vec<usize> = page.queries().iter().map(|query| query.condition).collect();
    for batch in asked.chunks(header::QUERIES_MAX) {
        let run = ffi::run_at_rest(&page.area, page.conditions, &list(batch));
        for (condition, mark) in reached.iter_mut().enumerate() {
            *mark |= ffi::value(&page.area, &run, condition).is_some();
        }
    }
    reached
}
