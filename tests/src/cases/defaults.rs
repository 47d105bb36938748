//! Conditions that are unknown by default (document 02, ticket 7): stated readings, counts of rounds and sound areas, and what D lines leave
//! as it is.

use crate::answer::*;
use crate::area::{assembled, decode, encode};
use crate::body::Pair;
use crate::closed::{self, scratch_length};
use crate::enumerate;
use crate::fast::Index;
use crate::gen::{self, Size};
use crate::page::{self, Line, Page};
use crate::plain;
use crate::runner::Case;
use crate::trial::{figure, Check, Trial};

pub fn cases() -> Vec<Case> {
    let stated = |name, each| Case {
        name,
        items: 1,
        each,
        must_see: &[],
    };
    vec![
        stated(
            "unknown_by_default_has_its_stated_readings",
            stated_readings,
        ),
        stated("unknown_by_default_has_its_stated_rounds", stated_rounds),
        stated("d_numbers_and_d_lines_are_sound_as_stated", stated_areas),
        Case {
            name: "unknown_by_default_agrees_with_every_assignment_tried",
            items: 1_500,
            each: every_assignment,
            must_see: &[("a D line of a condition with other lines", 0)],
        },
        Case {
            name: "rings_unknown_by_default_agree_in_both_readings",
            items: 1_500,
            each: rings,
            must_see: &[
                ("closed and plain apart", 0),
                ("closed and plain apart", 1),
                ("closed", 0),
                ("closed_indexed", 0),
            ],
        },
        Case {
            name: "slow_falls_of_conditions_unknown_by_default",
            items: SLOW,
            each: slow_falls,
            must_see: &[],
        },
        Case {
            name: "d_lines_change_no_layers_followers_or_openings",
            items: 3_000,
            each: unaffected,
            must_see: &[
                ("open", 0),
                ("layers", 0),
                ("layers", 30),
                ("followers", 0),
                ("page with a D line", 1),
            ],
        },
    ]
}

/// The page of a text that must be read, and its area, as the call writes it.
fn load(trial: &mut Trial, text: &str) -> Check<(Page, Vec<u16>)> {
    trial.pages += 1;
    let page = page::read(text.as_bytes()).map_err(|refusal| format!("{text:?} {refusal:?}"))?;
    let mut area = vec![0; encode(&page).len()];
    let used = trial.read(text.as_bytes(), &mut area)?;
    figure(text, used, Ok(area.len()))?;
    Ok((page, area))
}

/// The plain and the closed interval of a condition, and the count of rounds.
fn readings(trial: &mut Trial, area: &[u16], cond: u16) -> Check<(Pair, Pair, u32)> {
    let mut run = trial.rubbish(3 * usize::from(area[1]));
    let opened = trial.open(area, &[cond], &mut run)?;
    let bound = opened.map_err(|number| format!("refused {number}"))?.bound;
    let driven = trial.drive(area, &mut run, bound)?;
    figure("at rest", driven.map(|driven| driven.rest), Ok(true))?;
    let valued = trial.value(area, &run, cond.into())?;
    let valued = valued.map_err(|number| format!("refused {number}"))?;
    let mut scratch = trial.rubbish(scratch_length(area[1]));
    let mut answers = trial.rubbish(2);
    let rounds = trial.rounds(area, &[cond], &mut scratch, &mut answers)?;
    let rounds = rounds.map_err(|number| format!("refused {number}"))?;
    let plain = Pair::new(valued.low, valued.high);
    Ok((plain, Pair::new(answers[0], answers[1]), rounds))
}

/// A page, a condition, its plain and its closed interval.
type Reading = (&'static str, u16, (u16, u16), (u16, u16));

const READINGS: &[Reading] = &[
    // A camera that is not fitted is unknown, and so is what denies it; without the D line it is false.
    ("G,10,2\nD,1,U\nR,0,10,M,!1\n", 1, (0, 10), (0, 10)),
    ("G,10,2\nD,1,U\nR,0,10,M,!1\n", 0, (0, 10), (0, 10)),
    ("G,10,2\nR,0,10,M,!1\n", 0, (10, 10), (10, 10)),
    ("G,10,2\nF,1,0,10\nR,0,10,M,!1\n", 0, (0, 10), (0, 10)),
    // A fact or a rule decides over the D line, and adds to a fact of [0;top].
    ("G,10,1\nD,0,U\nF,0,2,3\n", 0, (2, 3), (2, 3)),
    ("G,10,1\nF,0,0,10\nF,0,2,3\n", 0, (2, 10), (2, 10)),
    ("G,10,2\nF,1,6,6\nD,0,U\nR,0,5,M,1\n", 0, (3, 3), (3, 3)),
    (
        "G,10,2\nF,1,6,6\nF,0,0,10\nR,0,5,M,1\n",
        0,
        (3, 10),
        (3, 10),
    ),
    ("G,10,2\nD,0,U\nR,0,10,M,1\n", 0, (0, 0), (0, 0)),
    // What only itself supports stays unknown if it is so by default.
    ("G,10,1\nD,0,U\nR,0,10,M,0\n", 0, (0, 10), (0, 10)),
    ("G,10,1\nR,0,10,M,0\n", 0, (0, 10), (0, 0)),
    ("G,10,1\nR,0,9,M,0\nD,0,U\n", 0, (0, 9), (0, 9)),
    ("G,10,1\nR,0,9,M,0\n", 0, (0, 9), (0, 0)),
    ("G,10,2\nD,0,U\nR,0,10,M,0,!1\nF,1,4,4\n", 0, (0, 6), (0, 6)),
    ("G,10,2\nR,0,10,M,0,!1\nF,1,4,4\n", 0, (0, 6), (0, 0)),
    // One of a ring is enough for the whole ring.
    (
        "G,10,2\nR,0,10,M,1\nR,1,10,M,0\nD,1,U\n",
        0,
        (0, 10),
        (0, 10),
    ),
    (
        "G,10,2\nR,0,10,M,1\nR,1,10,M,0\nD,1,U\n",
        1,
        (0, 10),
        (0, 10),
    ),
    // It falls with what it names.
    (
        "G,10,2\nD,0,U\nR,0,10,M,1\nR,1,10,M,1\n",
        0,
        (0, 10),
        (0, 0),
    ),
    ("G,10,2\nD,0,U\nF,1,9,9\nR,0,10,L,0,1\n", 0, (0, 0), (0, 0)),
    // It also denies itself.
    ("G,10,1\nD,0,U\nR,0,10,M,!0\n", 0, (0, 10), (0, 10)),
];

fn stated_readings(trial: &mut Trial, _: u64) -> Check {
    let pair = |(low, high)| Pair::new(low, high);
    for (text, cond, plain, closed) in READINGS {
        let (_, area) = load(trial, text)?;
        let got = readings(trial, &area, *cond)?;
        figure(text, (got.0, got.1), (pair(*plain), pair(*closed)))?;
    }
    Ok(())
}

/// A page, a query and the count of rounds.
const ROUNDS: &[(&str, u16, u32)] = &[
    ("G,10,1\nD,0,U\n", 0, 0),
    ("G,10,1\n", 0, 1),
    ("G,10,2\nD,1,U\nR,0,10,M,!1\n", 0, 0),
    ("G,10,1\nD,0,U\nR,0,10,M,0\n", 0, 0),
    ("G,10,1\nR,0,10,M,0\n", 0, 1),
    ("G,10,2\nD,0,U\nF,1,9,9\nR,0,10,L,0,1\n", 0, 10),
    ("G,10,2\nF,1,9,9\nR,0,10,L,0,1\n", 0, 1),
    ("G,10,2\nD,0,U\nF,0,3,4\nR,1,10,M,!0\n", 1, 2),
];

fn stated_rounds(trial: &mut Trial, _: u64) -> Check {
    for (text, query, wanted) in ROUNDS {
        let (_, area) = load(trial, text)?;
        figure(text, readings(trial, &area, *query)?.2, *wanted)?;
    }
    Ok(())
}

/// D numbers of two conditions, lines and their numbers, and whether the area is sound.
type Area = (&'static [u16], u16, &'static [u16], bool);

const AREAS: &[Area] = &[
    (&[0, 0], 0, &[], true),
    (&[0, 1], 1, &[1, 7, 0, 0], true),
    (&[1, 1], 2, &[1, 7, 0, 0, 0, 7, 0, 0], true),
    (&[1, 1], 3, &[1, 7, 0, 0, 0, 0, 2, 3, 0, 7, 0, 0], true),
    // A number without its entry, an entry without its number.
    (&[0, 1], 0, &[], false),
    (&[1, 0], 0, &[], false),
    (&[0, 0], 1, &[1, 7, 0, 0], false),
    (&[1, 0], 1, &[1, 7, 0, 0], false),
    (&[1, 1], 1, &[1, 7, 0, 0], false),
    // Two entries.
    (&[0, 0], 2, &[1, 7, 0, 0, 1, 7, 0, 0], false),
    (&[0, 1], 2, &[1, 7, 0, 0, 1, 7, 0, 0], false),
    (&[0, 2], 2, &[1, 7, 0, 0, 1, 7, 0, 0], false),
    (&[0, 1], 3, &[1, 7, 0, 0, 0, 6, 0, 0, 1, 7, 0, 0], false),
    // No number but 0 and 1.
    (&[0, 2], 1, &[1, 7, 0, 0], false),
    (&[2, 0], 0, &[], false),
    (&[0, 256], 0, &[], false),
    (&[0, 257], 1, &[1, 7, 0, 0], false),
    (&[0, 65_535], 1, &[1, 7, 0, 0], false),
    // The fields of an entry, and the kind after it.
    (&[0, 1], 1, &[1, 7, 1, 0], false),
    (&[0, 1], 1, &[1, 7, 0, 1], false),
    (&[0, 1], 1, &[2, 7, 0, 0], false),
    (&[0, 1], 1, &[1, 8, 0, 0], false),
    (&[0, 0], 1, &[1, 8, 0, 0], false),
    (&[0, 1], 1, &[1, 263, 0, 0], false),
    (&[0, 1], 1, &[1, 7, 0], false),
];

fn stated_areas(trial: &mut Trial, _: u64) -> Check {
    for (defaults, lines, numbers, sound) in AREAS {
        trial.pages += 1;
        let area = assembled(10, defaults, *lines, numbers);
        let what = format!("{area:?}");
        figure(&what, decode(&area).is_some(), *sound)?;
        let mut run = trial.rubbish(6);
        let wanted = (!sound).then_some(PAGE_UNSOUND);
        let got = trial.open(&area, &[0], &mut run)?.err();
        figure(&what, got, wanted)?;
        let mut scratch = trial.rubbish(scratch_length(2));
        let mut answers = trial.rubbish(2);
        let got = trial.closed(&area, &[0], &mut scratch, &mut answers)?.err();
        figure(&what, got, wanted)?;
        // The used length counts the D numbers, and does not end among them.
        for used in [4, 5, area[3] - 2, area[3] + 2] {
            let mut other = area.clone();
            other[3] = used;
            let got = trial.open(&other, &[0], &mut run)?.err();
            figure(&what, got, Some(PAGE_UNSOUND))?;
        }
    }
    Ok(())
}

/// Whether a condition with a D line has an F or R line too.
fn has_ruled_default(page: &Page) -> bool {
    page.lines.iter().any(|line| match line {
        Line::Fact { cond, .. } | Line::Rule { head: cond, .. } => page.unknown_by_default(*cond),
        _ => false,
    })
}

fn every_assignment(trial: &mut Trial, _: u64) -> Check {
    let page = loop {
        let mut page = gen::tiny_page(&mut trial.rng);
        if page.unknown().iter().all(|unknown| !unknown) {
            let cond = trial.rng.range(0, page.count - 1);
            page.lines.push(Line::Default { cond });
        }
        if enumerate::cost(&page) <= 256 {
            break page;
        }
    };
    if has_ruled_default(&page) {
        trial.saw("a D line of a condition with other lines", 0);
    }
    let text = String::from_utf8_lossy(&page.text()).into_owned();
    let (_, area) = load(trial, &text)?;
    figure(&text, enumerate::plain(&page), Some(plain::reading(&page)))?;
    figure(
        &text,
        enumerate::closed(&page),
        Some(closed::reading(&page)),
    )?;
    let (plain, closed) = (plain::reading(&page), closed::reading(&page));
    for cond in 0..page.count {
        let at = usize::from(cond);
        let got = readings(trial, &area, cond)?;
        figure(&text, (got.0, got.1), (plain[at], closed[at]))?;
    }
    Ok(())
}

fn rings(trial: &mut Trial, item: u64) -> Check {
    let top = gen::top(&mut trial.rng);
    let count = trial.rng.range(1, 12);
    let weight = trial.rng.range(top.div_ceil(2), top);
    let page = match item % 3 {
        0 => gen::unknown_ring(count, top, weight),
        _ => gen::mixed_ring(&mut trial.rng, count, top),
    };
    let text = String::from_utf8_lossy(&page.text()).into_owned();
    let (_, area) = load(trial, &text)?;
    let (plain, closed) = (plain::reading(&page), closed::reading(&page));
    figure(&text, Index::new(&page).closed(), closed.clone())?;
    trial.saw("closed and plain apart", (plain != closed).into());
    let cond = trial.rng.range(0, page.count - 1);
    let rounds = closed::rounds(&page, &[cond]);
    figure(&text, Index::new(&page).rounds(&[cond]), rounds)?;
    let got = readings(trial, &area, cond)?;
    let at = usize::from(cond);
    figure(&text, got, (plain[at], closed[at], rounds))
}

const SLOW: u64 = 5;

/// High ends that fall by single steps, a round each.
fn slow_falls(trial: &mut Trial, item: u64) -> Check {
    trial.pages += 1;
    let (page, wanted) = match item {
        0 => (gen::falling_ring(512, 200), 102_200),
        1 => (gen::falling_ring(256, 200), 51_000),
        2 => (gen::falling_ring(4, 2), 6),
        3 => (gen::falling_ring(2, 200), 200),
        _ => (gen::unknown_ring(512, 200, 199), 1),
    };
    let index = Index::new(&page);
    figure("the count of rounds", index.rounds(&[0]), wanted)?;
    let pair = index.closed()[0];
    let answers = [pair.low, pair.high];
    trial.closed_answers(&encode(&page), &[0], (&answers, wanted), false)
}

/// The page without its D lines has the same layers, followers and openings.
fn unaffected(trial: &mut Trial, item: u64) -> Check {
    let page = match item % 3 {
        0 => gen::structured(&mut trial.rng, 20),
        1 => gen::page(&mut trial.rng, Size::Medium),
        _ => gen::page(&mut trial.rng, Size::Small),
    };
    trial.pages += 2;
    let mut other = page.clone();
    other
        .lines
        .retain(|line| !matches!(line, Line::Default { .. }));
    trial.saw("page with a D line", (page != other).into());
    let areas = [encode(&page), encode(&other)];
    let queries = gen::queries(&mut trial.rng, page.count);
    let cond = u32::from(trial.rng.range(0, page.count - 1));
    let mut told = Vec::new();
    for area in &areas {
        let mut layers = vec![0; usize::from(page.count)];
        let code = trial.layers(area, &mut layers)?;
        let followers = trial.followers(area, cond)?;
        let mut run = trial.rubbish(3 * usize::from(page.count));
        let opened = trial.open(area, &queries, &mut run)?;
        told.push((layers, code, followers, opened, run));
    }
    figure("without the D lines", told[0].clone(), told[1].clone())
}
