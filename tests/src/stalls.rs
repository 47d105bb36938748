//! Two runs of one page in one shared area (document 02, ticket 11), by what each needs: section "Two stalls".

use std::ops::Range;

use crate::answer::*;
use crate::area::{decode, run_is_sound};
use crate::page::Page;
use crate::plain;

/// One of the two runs.
#[derive(Clone, Copy, Debug, PartialEq, Eq)]
pub enum Stall {
    First,
    Second,
}

pub const STALLS: [Stall; 2] = [Stall::First, Stall::Second];

impl Stall {
    pub fn other(self) -> Stall {
        match self {
            Stall::First => Stall::Second,
            Stall::Second => Stall::First,
        }
    }

    /// Its numbers in the shared area.
    pub fn part(self, count: u16) -> Range<usize> {
        let length = 3 * usize::from(count);
        match self {
            Stall::First => 0..length,
            Stall::Second => length..2 * length,
        }
    }
}

/// The length of a shared area for this many conditions.
pub fn shared_length(count: u16) -> usize {
    6 * usize::from(count)
}

/// The refusals 10 and 60, and the page if neither comes.
fn check_shared(page_area: &[u16], area: &[u16]) -> Result<Page, Refusal> {
    let page = decode(page_area).ok_or(PAGE_UNSOUND)?;
    if area.len() < shared_length(page.count) {
        return Err(SHARED_SHORT);
    }
    Ok(page)
}

pub fn open(
    page_area: &[u16],
    stall: Stall,
    area: &mut [u16],
    queries: &[u16],
) -> Result<Opened, Refusal> {
    let page = check_shared(page_area, area)?;
    plain::open(page_area, queries, &mut area[stall.part(page.count)])
}

pub fn evaluate(
    page_area: &[u16],
    stall: Stall,
    area: &mut [u16],
    cond: u32,
) -> Result<bool, Refusal> {
    let page = check_shared(page_area, area)?;
    plain::evaluate(page_area, &mut area[stall.part(page.count)], cond)
}

/// The half of a turn that a stall has.
pub fn half(allowance: u32, stall: Stall) -> u32 {
    match stall {
        Stall::First => allowance.div_ceil(2),
        Stall::Second => allowance / 2,
    }
}

/// The evaluations that a run takes before its rest, and the whole turn if it would not rest within it.
pub fn need(page_area: &[u16], run: &[u16], allowance: u32) -> Result<u32, Refusal> {
    let driven = plain::drive(page_area, &mut run.to_vec(), allowance)?;
    Ok(if driven.rest { driven.taken } else { allowance })
}

/// What the split gives a stall: what it needs of its half, and what the other leaves of its own.
pub fn share(allowance: u32, stall: Stall, own: u32, others: u32) -> u32 {
    half(allowance, stall).min(own) + half(allowance, stall.other()).saturating_sub(others)
}

pub fn turn(
    page_area: &[u16],
    area: &mut [u16],
    allowance: u32,
) -> Result<[StallTurn; 2], TurnRefusal> {
    let refuse = |number, stall| TurnRefusal { number, stall };
    let page = check_shared(page_area, area).map_err(|number| refuse(number, 0))?;
    for (stall, number) in STALLS.into_iter().zip(1..) {
        if !run_is_sound(&page, &area[stall.part(page.count)]) {
            return Err(refuse(RUN_UNSOUND, number));
        }
    }
    let needs = STALLS.map(|stall| need(page_area, &area[stall.part(page.count)], allowance));
    let mut told = Vec::new();
    for stall in STALLS {
        let of = |stall| needs[stall as usize].map_err(|number| refuse(number, 0));
        let given = share(allowance, stall, of(stall)?, of(stall.other())?);
        let driven = plain::drive(page_area, &mut area[stall.part(page.count)], given)
            .map_err(|number| refuse(number, 0))?;
        told.push(StallTurn {
            taken: driven.taken,
            rest: driven.rest,
        });
    }
    Ok([told[0], told[1]])
}
