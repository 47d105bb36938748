//! The book of a run: an abstract state fed only the page, the queries and the calls.
//! Section "The book of a run".

use std::collections::BTreeSet;

use crate::answer::*;
use crate::area::{NOT_REACHED_MARK, REACHED_MARK, WAITING_MARK};
use crate::body::{line_value, Pair};
use crate::page::{Line, Page};
use crate::reach;

#[derive(Clone, Debug)]
pub struct Book {
    top: u16,
    /// Who is unknown by default.
    unknown: Vec<bool>,
    /// The F and R lines of each condition, with their numbers.
    lines: Vec<Vec<(u32, Line)>>,
    /// For each condition, those with an R line naming it.
    followers: Vec<BTreeSet<u16>>,
    reached: BTreeSet<u16>,
    pairs: Vec<Pair>,
    waiting: BTreeSet<u16>,
}

impl Book {
    /// The book of a run opened with these queries.
    pub fn new(page: &Page, queries: &[u16]) -> Book {
        let count = usize::from(page.count);
        let mut lines = vec![Vec::new(); count];
        for (line, number) in page.lines.iter().zip(2..) {
            match line {
                Line::Fact { cond: head, .. } | Line::Rule { head, .. } => {
                    lines[usize::from(*head)].push((number, line.clone()))
                }
                Line::Query { .. } | Line::Default { .. } => {}
            }
        }
        let mut followers = vec![BTreeSet::new(); count];
        for (a, b) in reach::names(page) {
            followers[usize::from(b)].insert(a);
        }
        let reached = reach::reached(page, queries);
        Book {
            top: page.top,
            unknown: page.unknown(),
            lines,
            followers,
            waiting: reached.clone(),
            reached,
            pairs: vec![Pair::unknown(page.top); count],
        }
    }

    pub fn at_rest(&self) -> bool {
        self.waiting.is_empty()
    }

    pub fn pairs(&self) -> &[Pair] {
        &self.pairs
    }

    pub fn reached(&self) -> &BTreeSet<u16> {
        &self.reached
    }

    pub fn waiting(&self) -> &BTreeSet<u16> {
        &self.waiting
    }

    /// T of a condition, and the first of its lines that has the low end of T; 0 if it has no lines.
    fn body(&self, cond: u16) -> (Pair, u32) {
        let own = &self.lines[usize::from(cond)];
        if own.is_empty() && self.unknown[usize::from(cond)] {
            return (Pair::unknown(self.top), 0);
        }
        let mut total = Pair::new(0, 0);
        let mut holder = 0;
        for (number, line) in own {
            let (_, value) = line_value(line, self.top, &self.pairs).expect("the line has a value");
            if holder == 0 || value.low > total.low {
                holder = *number;
            }
            total = Pair::new(total.low.max(value.low), total.high.max(value.high));
        }
        (total, holder)
    }

    /// Evaluates a waiting condition; whether its pair changed, and the line.
    fn take(&mut self, cond: u16) -> (bool, u32) {
        self.waiting.remove(&cond);
        let (total, line) = self.body(cond);
        let changed = total != self.pairs[usize::from(cond)];
        self.pairs[usize::from(cond)] = total;
        if changed {
            let woken = self.followers[usize::from(cond)].intersection(&self.reached);
            self.waiting.extend(woken);
        }
        (changed, line)
    }

    fn in_range(&self, cond: u32) -> Result<u16, Refusal> {
        if cond < self.pairs.len() as u32 {
            Ok(cond as u16)
        } else {
            Err(CONDITION_RANGE)
        }
    }

    pub fn evaluate(&mut self, cond: u32) -> Result<bool, Refusal> {
        let cond = self.in_range(cond)?;
        if !self.waiting.contains(&cond) {
            return Err(NOT_WAITING);
        }
        Ok(self.take(cond).0)
    }

    pub fn drive(&mut self, allowance: u32) -> Driven {
        let mut taken = 0;
        let mut line = 0;
        while let Some(cond) = self.waiting.first().copied() {
            if taken == allowance {
                break;
            }
            line = self.take(cond).1;
            taken += 1;
        }
        Driven {
            taken,
            line,
            rest: self.at_rest(),
        }
    }

    pub fn value(&self, cond: u32) -> Result<Valued, Refusal> {
        let cond = self.in_range(cond)?;
        if !self.reached.contains(&cond) {
            return Err(NOT_REACHED);
        }
        let pair = self.pairs[usize::from(cond)];
        Ok(Valued {
            low: pair.low,
            high: pair.high,
            rest: self.at_rest(),
        })
    }

    pub fn line(&self, cond: u32) -> Result<u32, Refusal> {
        let cond = self.in_range(cond)?;
        if !self.reached.contains(&cond) {
            return Err(NOT_REACHED);
        }
        Ok(self.body(cond).1)
    }

    /// The run area that the book stands for.
    pub fn run_area(&self) -> Vec<u16> {
        let mut run = Vec::with_capacity(3 * self.pairs.len());
        for (pair, cond) in self.pairs.iter().zip(0u16..) {
            let mark = if self.waiting.contains(&cond) {
                WAITING_MARK
            } else if self.reached.contains(&cond) {
                REACHED_MARK
            } else {
                NOT_REACHED_MARK
            };
            run.extend([pair.low, pair.high, mark]);
        }
        run
    }
}
