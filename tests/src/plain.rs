//! The plain reading, and a run over lent areas: sections "The two readings" (plain), "Open a run",
//! "Evaluate", "Drive", "Value" and "Line held".

use crate::answer::*;
use crate::area::*;
use crate::body::{body_value, body_values, holding_line, Pair};
use crate::page::{Line, Page, QUERIES_MAX};
use crate::reach;

/// The plain reading: T applied from [0;top] until nothing changes.
pub fn reading(page: &Page) -> Vec<Pair> {
    let mut held = vec![Pair::unknown(page.top); usize::from(page.count)];
    loop {
        let next = body_values(page, &held);
        if next == held {
            return held;
        }
        held = next;
    }
}

/// The refusals 11 and 12 of a query list.
pub fn check_queries(page: &Page, queries: &[u16]) -> Result<(), Refusal> {
    if queries.is_empty() || queries.len() > QUERIES_MAX {
        return Err(QUERY_COUNT);
    }
    if queries.iter().any(|query| *query >= page.count) {
        return Err(QUERY_RANGE);
    }
    Ok(())
}

/// The refusals 10 and 14, and the page if neither comes.
fn check_areas(page_area: &[u16], run: &[u16]) -> Result<Page, Refusal> {
    let page = decode(page_area).ok_or(PAGE_UNSOUND)?;
    if run_is_sound(&page, run) {
        Ok(page)
    } else {
        Err(RUN_UNSOUND)
    }
}

/// The refusal 15, and the condition as a short number if it does not come.
fn check_condition(page: &Page, cond: u32) -> Result<u16, Refusal> {
    if cond >= u32::from(page.count) {
        Err(CONDITION_RANGE)
    } else {
        Ok(cond as u16)
    }
}

fn mark(run: &[u16], cond: u16) -> u16 {
    run[3 * usize::from(cond) + 2]
}

fn set_mark(run: &mut [u16], cond: u16, mark: u16) {
    run[3 * usize::from(cond) + 2] = mark;
}

fn lowest_waiting(page: &Page, run: &[u16]) -> Option<u16> {
    (0..page.count).find(|cond| mark(run, *cond) == WAITING_MARK)
}

pub fn open(page_area: &[u16], queries: &[u16], run: &mut [u16]) -> Result<Opened, Refusal> {
    let page = decode(page_area).ok_or(PAGE_UNSOUND)?;
    check_queries(&page, queries)?;
    if run.len() < 3 * usize::from(page.count) {
        return Err(RUN_SHORT);
    }
    let reached = reach::reached(&page, queries);
    for cond in 0..page.count {
        let at = 3 * usize::from(cond);
        run[at] = 0;
        run[at + 1] = page.top;
        run[at + 2] = if reached.contains(&cond) {
            WAITING_MARK
        } else {
            NOT_REACHED_MARK
        };
    }
    Ok(reach::measure(&page, queries))
}

/// Evaluates a waiting condition of a sound run area; tells whether its interval changed.
fn evaluate_waiting(page: &Page, run: &mut [u16], cond: u16) -> bool {
    let at = 3 * usize::from(cond);
    let old = Pair::new(run[at], run[at + 1]);
    let new = body_value(page, &held_pairs(page, run), cond);
    run[at] = new.low;
    run[at + 1] = new.high;
    set_mark(run, cond, REACHED_MARK);
    if new == old {
        return false;
    }
    for line in &page.lines {
        if let Line::Rule { head, body, .. } = line {
            let names_it = body.iter().any(|literal| literal.cond == cond);
            if names_it && mark(run, *head) != NOT_REACHED_MARK {
                set_mark(run, *head, WAITING_MARK);
            }
        }
    }
    true
}

pub fn evaluate(page_area: &[u16], run: &mut [u16], cond: u32) -> Result<bool, Refusal> {
    let page = check_areas(page_area, run)?;
    let cond = check_condition(&page, cond)?;
    if mark(run, cond) != WAITING_MARK {
        return Err(NOT_WAITING);
    }
    Ok(evaluate_waiting(&page, run, cond))
}

pub fn drive(page_area: &[u16], run: &mut [u16], allowance: u32) -> Result<Driven, Refusal> {
    let page = check_areas(page_area, run)?;
    let mut taken = 0;
    let mut line = 0;
    loop {
        let waiting = lowest_waiting(&page, run);
        let rest = waiting.is_none();
        let (Some(cond), false) = (waiting, taken == allowance) else {
            return Ok(Driven { taken, line, rest });
        };
        line = holding_line(&page, &held_pairs(&page, run), cond);
        evaluate_waiting(&page, run, cond);
        taken += 1;
    }
}

pub fn value(page_area: &[u16], run: &[u16], cond: u32) -> Result<Valued, Refusal> {
    let page = check_areas(page_area, run)?;
    let cond = check_condition(&page, cond)?;
    if mark(run, cond) == NOT_REACHED_MARK {
        return Err(NOT_REACHED);
    }
    let at = 3 * usize::from(cond);
    Ok(Valued {
        low: run[at],
        high: run[at + 1],
        rest: lowest_waiting(&page, run).is_none(),
    })
}

/// Which line holds the low end of T of the intervals held.
pub fn line(page_area: &[u16], run: &[u16], cond: u32) -> Result<u32, Refusal> {
    let page = check_areas(page_area, run)?;
    let cond = check_condition(&page, cond)?;
    if mark(run, cond) == NOT_REACHED_MARK {
        return Err(NOT_REACHED);
    }
    Ok(holding_line(&page, &held_pairs(&page, run), cond))
}
