//! Both readings by trying every assignment, for pages of a few conditions and a low top.
//! Section "The two readings", word for word.

use crate::body::{body_values, Pair};
use crate::page::Page;

/// Every assignment over all pairs, low above high included.
fn assignments(page: &Page) -> Vec<Vec<Pair>> {
    let mut all = vec![Vec::new()];
    for _ in 0..page.count {
        let mut longer = Vec::new();
        for start in &all {
            for low in 0..=page.top {
                for high in 0..=page.top {
                    let mut next: Vec<Pair> = start.clone();
                    next.push(Pair::new(low, high));
                    longer.push(next);
                }
            }
        }
        all = longer;
    }
    all
}

fn at_or_under(left: &[Pair], right: &[Pair]) -> bool {
    left.iter().zip(right).all(|(a, b)| a.at_or_under(*b))
}

fn join(left: &[Pair], right: &[Pair]) -> Vec<Pair> {
    left.iter().zip(right).map(|(a, b)| a.join(*b)).collect()
}

/// The least of some assignments in knowledge order, if there is one.
fn least(found: &[Vec<Pair>]) -> Option<Vec<Pair>> {
    found
        .iter()
        .find(|one| found.iter().all(|other| at_or_under(one, other)))
        .cloned()
}

/// The greatest of some assignments in knowledge order, if there is one.
fn greatest(found: &[Vec<Pair>]) -> Option<Vec<Pair>> {
    found
        .iter()
        .find(|one| found.iter().all(|other| at_or_under(other, one)))
        .cloned()
}

/// The number of assignments that the two functions below try (the closed one: its square).
pub fn cost(page: &Page) -> u64 {
    (u64::from(page.top) + 1).pow(2 * u32::from(page.count))
}

/// The least assignment where every condition equals its T.
pub fn plain(page: &Page) -> Option<Vec<Pair>> {
    let fixed: Vec<_> = assignments(page)
        .into_iter()
        .filter(|one| body_values(page, one) == *one)
        .collect();
    least(&fixed)
}

/// The least assignment I equal to T at (I joined with the support of I).
pub fn closed(page: &Page) -> Option<Vec<Pair>> {
    let all = assignments(page);
    let assumption: Vec<Pair> = (0..page.count)
        .map(|cond| match page.unknown_by_default(cond) {
            true => Pair::unknown(page.top),
            false => Pair::new(0, 0),
        })
        .collect();
    let mut fixed = Vec::new();
    for one in &all {
        let safe: Vec<_> = all
            .iter()
            .filter(|j| {
                at_or_under(j, &assumption) && at_or_under(j, &body_values(page, &join(one, j)))
            })
            .cloned()
            .collect();
        let support = greatest(&safe)?;
        if body_values(page, &join(one, &support)) == *one {
            fixed.push(one.clone());
        }
    }
    least(&fixed)
}
