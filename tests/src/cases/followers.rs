//! How many conditions follow one: counts and refusals against the separately written solver.

use crate::answer::*;
use crate::area::encode;
use crate::gen;
use crate::page::{self, Line, Literal, Op, Page};
use crate::runner::Case;
use crate::trial::{figure, Check, Trial};

pub fn cases() -> Vec<Case> {
    vec![
        Case {
            name: "followers_have_their_stated_figures",
            items: 1,
            each: rows,
            must_see: &[
                ("followers", 0),
                ("followers", 10),
                ("followers", 15),
                ("followers, itself among them", 0),
            ],
        },
        Case {
            name: "followers_agree_on_small_pages",
            items: 20_000,
            each: small,
            must_see: EVERY,
        },
        Case {
            name: "followers_agree_on_rings_chains_games_and_knots",
            items: 2_000,
            each: structured,
            must_see: EVERY,
        },
        Case {
            name: "followers_agree_on_pages_at_the_limits",
            items: 14,
            each: at_the_limits,
            must_see: EVERY,
        },
    ]
}

const EVERY: &[(&str, Refusal)] = &[
    ("followers", 0),
    ("followers", 15),
    ("followers, itself among them", 0),
];

/// A page's text, and the count of each condition.
const ROWS: &[(&str, &[u32])] = &[
    ("G,1,1\n", &[0]),
    ("G,1,1\nR,0,1,M,0\n", &[1]),
    ("G,1,1\nR,0,1,M,!0\n", &[1]),
    ("G,1,3\nR,0,1,M,1\nR,1,1,M,2\n", &[0, 1, 2]),
    // The same lines in the other order.
    ("G,1,3\nR,1,1,M,2\nR,0,1,M,1\n", &[0, 1, 2]),
    // Each follows each, itself too.
    ("G,1,3\nR,0,1,M,1\nR,1,1,M,0,!2\nR,2,1,M,1\n", &[3, 3, 3]),
    // 1 follows itself, 0 does not.
    ("G,1,2\nR,0,1,M,1\nR,1,1,M,!1\n", &[0, 2]),
    (
        "G,1,4\nR,0,1,M,1\nR,1,1,M,0,!2\nR,2,1,M,3\nR,3,1,M,!2\n",
        &[2, 2, 4, 4],
    ),
    (
        "G,1,4\nR,0,1,M,!1\nR,1,1,M,!2\nR,3,1,M,1,3\n",
        &[0, 2, 3, 1],
    ),
    // A fact and a query add nothing, and so do a rule's repetition and a literal's.
    (
        "G,1,4\nR,0,1,M,1,2\nR,1,1,M,0,!3\nR,2,1,M,0\nF,3,1,1\nQ,K,0\n",
        &[3, 3, 3, 3],
    ),
    ("G,1,2\nR,0,1,P,1,!1,1\nR,0,1,M,1\n", &[0, 1]),
];

fn rows(trial: &mut Trial, _: u64) -> Check {
    for (text, wanted) in ROWS {
        trial.pages += 1;
        let page =
            page::read(text.as_bytes()).map_err(|refusal| format!("{text:?} {refusal:?}"))?;
        let area = encode(&page);
        for (cond, count) in (0..).zip(*wanted) {
            figure(text, trial.followers(&area, cond)?, Ok(*count))?;
        }
        let past = u32::from(page.count);
        for cond in [past, 65_536, past + 65_536, u32::MAX] {
            figure(text, trial.followers(&area, cond)?, Err(CONDITION_RANGE))?;
        }
        let unsound = &area[..area.len() - 1];
        for cond in [0, past] {
            figure(text, trial.followers(unsound, cond)?, Err(PAGE_UNSOUND))?;
        }
    }
    Ok(())
}

/// Every condition of a page with few, some of one with many, and one that may not be there.
fn one(trial: &mut Trial, page: &Page) -> Check {
    trial.pages += 1;
    let encoded = encode(page);
    let area = trial.with_tail(&encoded);
    let step = usize::from(page.count).div_ceil(12);
    let first = trial.rng.index(step);
    for cond in (first..usize::from(page.count)).step_by(step) {
        let _ = trial.followers(&area, cond as u32)?;
    }
    let cond = gen::condition(&mut trial.rng, page.count);
    let _ = trial.followers(&area, cond)?;
    let cond = gen::wrong_condition(&mut trial.rng, page.count);
    let _ = trial.followers(&area, cond)?;
    Ok(())
}

fn small(trial: &mut Trial, item: u64) -> Check {
    let page = match item % 2 {
        0 => gen::any_page(&mut trial.rng),
        _ => gen::tiny_page(&mut trial.rng),
    };
    one(trial, &page)
}

fn structured(trial: &mut Trial, _: u64) -> Check {
    let most = trial.rng.pick(&[3, 6, 20, 60, 200]);
    let page = gen::structured(&mut trial.rng, most);
    one(trial, &page)
}

/// Pages of 512 conditions and 1,024 lines: those of `gen`, and those that take the most passes.
fn at_the_limits(trial: &mut Trial, item: u64) -> Check {
    let page = match item {
        0 => slow_ring(512),
        1 => slow_ring(449),
        2 => gen::reversed(&slow_ring(512)),
        _ => gen::limit_page(&mut trial.rng, item - 3),
    };
    one(trial, &page)?;
    let area = encode(&page);
    for cond in [0, 63, 64, 448, 511] {
        let _ = trial.followers(&area, cond)?;
    }
    Ok(())
}

/// Each condition but 0 names the one before it, highest first, so that a pass from 0 finds one; 0 names the last in all other lines, which
/// stand first. Every literal that decides is the last of eight.
pub fn slow_ring(count: u16) -> Page {
    let last = count - 1;
    let rule = |head: u16, body: Vec<u16>| Line::Rule {
        head,
        weight: 1,
        op: Op::M,
        body: body
            .into_iter()
            .map(|cond| Literal {
                cond,
                negated: false,
            })
            .collect(),
    };
    let mut lines: Vec<Line> = (0..1024 - last).map(|_| rule(0, vec![last; 8])).collect();
    for head in (1..count).rev() {
        let mut body = vec![last; 7];
        body.push(head - 1);
        lines.push(rule(head, body));
    }
    Page {
        top: 1,
        count,
        lines,
    }
}
