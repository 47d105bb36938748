//! The check of a simulator's picks and figures: stated answers, simulators that pick in any order, and lists that are spoilt.

use crate::answer::*;
use crate::area::{encode, WAITING_MARK};
use crate::book::Book;
use crate::gen::{self, Size};
use crate::page::{self, Page};
use crate::picks::plain_figures;
use crate::runner::Case;
use crate::trial::{figure, Check, Trial};

pub fn cases() -> Vec<Case> {
    vec![
        Case {
            name: "picks_have_their_stated_answers",
            items: 1,
            each: rows,
            must_see: ALL,
        },
        Case {
            name: "any_order_of_picks_to_rest_is_accepted",
            items: 3_000,
            each: simulated,
            must_see: &[("check_picks", 0)],
        },
        Case {
            name: "spoilt_picks_and_figures_are_judged_alike",
            items: 3_000,
            each: spoilt,
            must_see: &[
                ("check_picks", 0),
                ("check_picks", 50),
                ("check_picks", 51),
                ("check_picks", 52),
            ],
        },
        Case {
            name: "picks_agree_on_pages_at_the_limits",
            items: 8,
            each: at_the_limits,
            must_see: &[("check_picks", 50), ("check_picks", 51)],
        },
        Case {
            name: "a_run_of_all_its_bound_is_accepted_and_no_longer_one",
            items: 4,
            each: to_the_bound,
            must_see: &[("check_picks", 0), ("check_picks", 50)],
        },
    ]
}

const ALL: &[(&str, Refusal)] = &[
    ("check_picks", 0),
    ("check_picks", 10),
    ("check_picks", 11),
    ("check_picks", 12),
    ("check_picks", 50),
    ("check_picks", 51),
    ("check_picks", 52),
];

/// Queries, picks and figures of a page, and the number and place that they have.
type Row = (
    &'static str,
    &'static [u16],
    &'static [u16],
    &'static [u16],
    (Refusal, u32),
);

const RIVALS: &str = "G,10,2\nF,0,2,2\nF,1,3,3\nR,0,10,M,!1\nR,1,10,M,!0\n";
const CHAIN: &str = "G,10,3\nR,0,10,M,1\nR,1,10,M,2\n";
const NINE: &str = "G,10,1\nR,0,9,M,0\n";
const LONG: &str = "G,10,300\nF,0,1,1\n";

const ROWS: &[Row] = &[
    // In the order of a drive, in another order, and for two queries in list order.
    (RIVALS, &[0], &[0, 1, 0, 1], &[2, 7], (0, 0)),
    (RIVALS, &[0], &[1, 0, 1, 0], &[2, 7], (0, 0)),
    (RIVALS, &[1, 0], &[1, 0, 1, 0], &[3, 8, 2, 7], (0, 0)),
    // Not waiting any longer, after rest, the first of two, not a condition, not reached.
    (RIVALS, &[0], &[0, 0, 1], &[2, 7], (50, 2)),
    (RIVALS, &[0], &[0, 1, 0, 1, 0], &[2, 7], (50, 5)),
    (RIVALS, &[0], &[0, 9, 9], &[2, 7], (50, 2)),
    (RIVALS, &[0], &[2], &[2, 7], (50, 1)),
    (RIVALS, &[0], &[65_535], &[2, 7], (50, 1)),
    (CHAIN, &[1], &[0], &[0, 0], (50, 1)),
    (LONG, &[0], &[256], &[1, 1], (50, 1)),
    // Too few picks, and none.
    (RIVALS, &[0], &[0, 1, 0], &[2, 7], (51, 0)),
    (RIVALS, &[0], &[], &[0, 10], (51, 0)),
    // Another low end, another high end, another order, too few and too many.
    (RIVALS, &[0], &[0, 1, 0, 1], &[3, 7], (52, 0)),
    (RIVALS, &[0], &[0, 1, 0, 1], &[2, 8], (52, 0)),
    (RIVALS, &[1, 0], &[0, 1, 0, 1], &[2, 7, 3, 8], (52, 0)),
    (RIVALS, &[1, 0], &[0, 1, 0, 1], &[3, 8, 2], (52, 0)),
    (RIVALS, &[0], &[0, 1, 0, 1], &[2, 7, 3, 8], (52, 0)),
    (RIVALS, &[0], &[0, 1, 0, 1], &[], (52, 0)),
    // A query twice; a condition that names itself.
    (CHAIN, &[1, 1], &[2, 1], &[0, 0, 0, 0], (0, 0)),
    (NINE, &[0], &[0, 0], &[0, 9], (0, 0)),
    (NINE, &[0], &[0], &[0, 9], (51, 0)),
    // The order of the causes.
    (RIVALS, &[], &[9], &[], (11, 0)),
    (RIVALS, &[2; 17], &[9], &[], (11, 0)),
    (RIVALS, &[0, 2], &[9], &[], (12, 0)),
    (RIVALS, &[0], &[9], &[], (50, 1)),
    (RIVALS, &[0], &[0], &[], (51, 0)),
];

/// The answer of the check as a number and a place.
fn told(answer: Result<(), PicksRefusal>) -> (Refusal, u32) {
    answer.map_or_else(|refusal| (refusal.number, refusal.place), |()| (0, 0))
}

fn rows(trial: &mut Trial, _: u64) -> Check {
    for (text, queries, picks, figures, wanted) in ROWS {
        trial.pages += 1;
        let page =
            page::read(text.as_bytes()).map_err(|refusal| format!("{text:?} {refusal:?}"))?;
        let mut area = encode(&page);
        let got = trial.check_picks(&area, queries, picks, figures)?;
        figure(&format!("{text:?} {picks:?}"), told(got), *wanted)?;
        area[3] += 1;
        let got = trial.check_picks(&area, queries, picks, figures)?;
        figure("an unsound page", told(got), (10, 0))?;
    }
    Ok(())
}

/// A page of a size at which an order of evaluations is soon at rest.
fn small_page(trial: &mut Trial, item: u64) -> Page {
    trial.pages += 1;
    match item % 3 {
        0 => gen::tiny_page(&mut trial.rng),
        1 => gen::page(&mut trial.rng, Size::Small),
        _ => gen::structured(&mut trial.rng, 9),
    }
}

/// A simulator on a run area of its own: it evaluates waiting conditions in some order until none waits.
fn simulated(trial: &mut Trial, item: u64) -> Check {
    let page = small_page(trial, item);
    let area = encode(&page);
    let queries = gen::queries(&mut trial.rng, page.count);
    let mut run = trial.rubbish(3 * usize::from(page.count));
    let opened = trial.open(&area, &queries, &mut run)?;
    figure("the opening's success", opened.is_ok(), true)?;
    let mut picks = Vec::new();
    loop {
        let waiting: Vec<u16> = (0..page.count)
            .filter(|cond| run[3 * usize::from(*cond) + 2] == WAITING_MARK)
            .collect();
        if waiting.is_empty() {
            break;
        }
        let pick = match item % 4 {
            0 => waiting[waiting.len() - 1],
            _ => trial.rng.pick(&waiting),
        };
        let evaluated = trial.evaluate(&area, &mut run, u32::from(pick))?;
        figure("the evaluation's success", evaluated.is_ok(), true)?;
        picks.push(pick);
    }
    let held = |query: &u16| [0, 1].map(|end| run[3 * usize::from(*query) + end]);
    let figures: Vec<u16> = queries.iter().flat_map(held).collect();
    let answer = trial.check_picks(&area, &queries, &picks, &figures)?;
    figure("the simulator's answer", told(answer), (0, 0))
}

/// Picks of waiting conditions in a random order, until rest or for so many evaluations.
fn some_picks(trial: &mut Trial, book: &mut Book, most: usize) -> Vec<u16> {
    let mut picks = Vec::new();
    while picks.len() < most && !book.at_rest() {
        let waiting: Vec<u16> = book.waiting().iter().copied().collect();
        let pick = trial.rng.pick(&waiting);
        let _ = book.evaluate(u32::from(pick));
        picks.push(pick);
    }
    picks
}

fn spoilt(trial: &mut Trial, item: u64) -> Check {
    let page = small_page(trial, item);
    let area = encode(&page);
    let queries = gen::queries(&mut trial.rng, page.count);
    let good = some_picks(trial, &mut Book::new(&page, &queries), 4_000);
    let right = plain_figures(&page, &queries);
    let _ = trial.check_picks(&area, &queries, &good, &right)?;
    for _ in 0..6 {
        let (mut picks, mut figures) = (good.clone(), right.clone());
        let at = trial.rng.index(picks.len());
        match trial.rng.below(8) {
            0 => picks[at] = trial.rng.range(0, page.count),
            1 => picks.truncate(at),
            2 => picks.insert(at, trial.rng.range(0, page.count)),
            3 => picks.push(trial.rng.number() as u16),
            4 => {
                let other = trial.rng.index(picks.len());
                picks.swap(at, other);
            }
            5 => {
                let number = trial.rng.index(figures.len());
                figures[number] = trial.rng.range(0, page.top + 1);
            }
            6 => figures.truncate(trial.rng.index(right.len())),
            _ => {
                let (one, other) = (trial.rng.index(right.len()), trial.rng.index(right.len()));
                figures.swap(one, other);
            }
        }
        let _ = trial.check_picks(&area, &queries, &picks, &figures)?;
    }
    Ok(())
}

fn at_the_limits(trial: &mut Trial, item: u64) -> Check {
    let page = gen::limit_page(&mut trial.rng, item);
    trial.pages += 1;
    let area = encode(&page);
    let queries: Vec<u16> = (0..16).map(|n| 511 - 34 * n).collect();
    let mut picks = some_picks(trial, &mut Book::new(&page, &queries), 600);
    let figures = vec![0; 32];
    let _ = trial.check_picks(&area, &queries, &picks, &figures)?;
    picks.push(512);
    let _ = trial.check_picks(&area, &queries, &picks, &figures)?;
    Ok(())
}

/// A loop that falls by 1 at each turn takes nearly all evaluations of its bound; one more is refused.
fn to_the_bound(trial: &mut Trial, item: u64) -> Check {
    let page = gen::falling(2 + item as u16, 200);
    trial.pages += 1;
    let area = encode(&page);
    let mut picks = some_picks(trial, &mut Book::new(&page, &[0]), usize::MAX);
    let figures = plain_figures(&page, &[0]);
    let _ = trial.check_picks(&area, &[0], &picks, &figures)?;
    picks.push(0);
    let answer = trial.check_picks(&area, &[0], &picks, &figures)?;
    figure(
        "one pick more",
        told(answer),
        (PICK_NOT_WAITING, picks.len() as u32),
    )
}
