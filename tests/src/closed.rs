//! The closed reading by its definition: sections "The two readings" (closed) and "Closed reading"; the count of rounds of ticket 10.

use crate::answer::*;
use crate::area::decode;
use crate::body::{body_values, Pair};
use crate::page::Page;
use crate::plain::check_queries;
use crate::reach::reached;

fn join_all(left: &[Pair], right: &[Pair]) -> Vec<Pair> {
    left.iter().zip(right).map(|(a, b)| a.join(*b)).collect()
}

/// The support of an assignment.
///
/// A safe J holds [0;top] where a condition is unknown by default. Elsewhere it has every low end 0 and every high end at or above
/// that of T at (I joined with J). The greatest in knowledge order has the least high ends: the least fixed point, found from there upwards.
pub fn support(page: &Page, assignment: &[Pair]) -> Vec<Pair> {
    let unknown = page.unknown();
    let safe_pair = |(value, unknown): (Pair, &bool)| match unknown {
        true => Pair::unknown(page.top),
        false => Pair::new(0, value.high),
    };
    let least = vec![Pair::new(0, 0); usize::from(page.count)];
    let mut safe: Vec<Pair> = least.into_iter().zip(&unknown).map(safe_pair).collect();
    loop {
        let values = body_values(page, &join_all(assignment, &safe));
        let next: Vec<Pair> = values.into_iter().zip(&unknown).map(safe_pair).collect();
        if next == safe {
            return safe;
        }
        safe = next;
    }
}

/// T at (an assignment joined with its support).
fn next(page: &Page, assignment: &[Pair]) -> Vec<Pair> {
    body_values(page, &join_all(assignment, &support(page, assignment)))
}

/// The assignments from [0;top] on, until one equals the next at these conditions: its number, and the assignment.
fn settled(page: &Page, conditions: &[u16]) -> (u32, Vec<Pair>) {
    let mut assignment = vec![Pair::unknown(page.top); usize::from(page.count)];
    for number in 0.. {
        let next = next(page, &assignment);
        let equal = |cond: &u16| next[usize::from(*cond)] == assignment[usize::from(*cond)];
        if conditions.iter().all(equal) {
            return (number, assignment);
        }
        assignment = next;
    }
    unreachable!("the assignments narrow")
}

/// The closed reading: I becomes T at (I joined with its support), from [0;top] until nothing changes.
pub fn reading(page: &Page) -> Vec<Pair> {
    let all: Vec<u16> = (0..page.count).collect();
    settled(page, &all).1
}

/// The count of rounds: the number of the first assignment that the next one equals on what the queries reach.
pub fn rounds(page: &Page, queries: &[u16]) -> u32 {
    let reached: Vec<u16> = reached(page, queries).into_iter().collect();
    settled(page, &reached).0
}

/// The numbers of scratch that a page of so many conditions takes.
pub fn scratch_length(count: u16) -> usize {
    4 * usize::from(count)
}

/// What the call writes, and the count of rounds that it tells.
pub fn closed(
    page_area: &[u16],
    queries: &[u16],
    scratch: &mut [u16],
    answers: &mut [u16],
) -> Result<u32, Refusal> {
    let page = decode(page_area).ok_or(PAGE_UNSOUND)?;
    check_queries(&page, queries)?;
    let needed = scratch_length(page.count);
    if scratch.len() < needed {
        return Err(SCRATCH_SHORT);
    }
    if answers.len() < 2 * queries.len() {
        return Err(ANSWERS_SHORT);
    }
    let reading = reading(&page);
    scratch[..needed].fill(0);
    for (query, answer) in queries.iter().zip(answers.chunks_exact_mut(2)) {
        let pair = reading[usize::from(*query)];
        answer[0] = pair.low;
        answer[1] = pair.high;
    }
    Ok(rounds(&page, queries))
}
