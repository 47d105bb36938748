//! Who names whom, who is reached, R and E: the end of section "The two readings"; the passes of ticket 5.

use std::collections::BTreeSet;

use crate::answer::Opened;
use crate::page::{Line, Page};

/// The ordered pairs (A, B) where some R line with head A names B.
pub fn names(page: &Page) -> BTreeSet<(u16, u16)> {
    let mut pairs = BTreeSet::new();
    for line in &page.lines {
        if let Line::Rule { head, body, .. } = line {
            pairs.extend(body.iter().map(|literal| (*head, literal.cond)));
        }
    }
    pairs
}

/// The conditions reached from the queries, and how many passes find them: each adds what those found before it name, and the
/// first that adds none is the last.
fn found(page: &Page, queries: &[u16]) -> (BTreeSet<u16>, u32) {
    let names = names(page);
    let mut reached: BTreeSet<u16> = queries.iter().copied().collect();
    let mut passes = 0;
    loop {
        passes += 1;
        let more: Vec<u16> = names
            .iter()
            .filter(|(a, b)| reached.contains(a) && !reached.contains(b))
            .map(|(_, b)| *b)
            .collect();
        if more.is_empty() {
            return (reached, passes);
        }
        reached.extend(more);
    }
}

/// The conditions reached from the queries.
pub fn reached(page: &Page, queries: &[u16]) -> BTreeSet<u16> {
    found(page, queries).0
}

/// R, E, the bound and the passes of a run opened with these queries.
pub fn measure(page: &Page, queries: &[u16]) -> Opened {
    let (reached, passes) = found(page, queries);
    let edges = names(page)
        .iter()
        .filter(|(a, b)| reached.contains(a) && reached.contains(b))
        .count() as u32;
    Opened {
        reached: reached.len() as u32,
        edges,
        bound: reached.len() as u32 + u32::from(page.top) * edges,
        passes,
    }
}
