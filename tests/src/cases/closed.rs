//! The closed reading against its definition.

use crate::answer::{Refusal, SCRATCH_SHORT};
use crate::area::{encode, PAGE_MAX};
use crate::body::Pair;
use crate::closed;
use crate::enumerate;
use crate::fast::Index;
use crate::gen::{self, Size};
use crate::page::{self, Page, QUERIES_MAX};
use crate::plain;
use crate::runner::Case;
use crate::trial::{figure, Check, Trial};

pub fn cases() -> Vec<Case> {
    vec![
        Case {
            name: "closed_reading_agrees_with_trying_every_assignment",
            items: 3_000,
            each: by_enumeration,
            must_see: &[("closed", 0)],
        },
        Case {
            name: "closed_reading_agrees_with_the_definition_on_small_pages",
            items: 15_000,
            each: |trial, _| random(trial, Size::Small),
            must_see: MANY_SIDED,
        },
        Case {
            name: "closed_reading_agrees_with_the_definition_on_medium_pages",
            items: 5_000,
            each: |trial, _| random(trial, Size::Medium),
            must_see: MANY_SIDED,
        },
        Case {
            name: "closed_reading_agrees_on_rings_chains_games_and_counters",
            items: 4_000,
            each: structured,
            must_see: MANY_SIDED,
        },
        Case {
            name: "closed_reading_agrees_on_knots_of_support_and_negation",
            items: 7_000,
            each: knots,
            must_see: MANY_SIDED,
        },
        Case {
            name: "closed_reading_agrees_on_pages_at_the_limits",
            items: 6,
            each: at_the_limits,
            must_see: &[("closed", 0)],
        },
        Case {
            name: "closed_reading_takes_4c_of_the_scratch_and_leaves_the_rest",
            items: 600,
            each: parts_of_the_scratch,
            must_see: &[
                ("closed", 0),
                ("closed", SCRATCH_SHORT),
                ("closed_indexed", 0),
                ("closed_indexed", SCRATCH_SHORT),
                ("closed_indexed without room", 0),
            ],
        },
        Case {
            name: "rounds_of_worked_pages",
            items: 1,
            each: worked_rounds,
            must_see: &[("closed", 0), ("closed_indexed", 0)],
        },
        Case {
            name: "rounds_of_rings_and_counters",
            items: 4,
            each: many_rounds,
            must_see: &[("closed_indexed", 0)],
        },
        Case {
            name: "closed_answers_lie_inside_the_plain_ones",
            items: 1_500,
            each: inside_plain,
            must_see: &[("closed", 0), ("drive", 1)],
        },
    ]
}

/// Among the answers are some unlike the plain ones, some with low under high and some between 0 and top.
const MANY_SIDED: &[(&str, Refusal)] = &[
    ("closed", 0),
    ("closed_indexed", 0),
    ("closed_indexed without room", 0),
    ("closed unlike plain", 0),
    ("closed with low under high", 0),
    ("closed with low between 0 and top", 0),
];

/// Notes which kinds of answers a page gives.
fn note_sides(trial: &mut Trial, page: &Page, pairs: &[Pair]) {
    for (closed, plain) in pairs.iter().zip(plain::reading(page)) {
        if *closed != plain {
            trial.saw("closed unlike plain", 0);
        }
        if closed.low < closed.high {
            trial.saw("closed with low under high", 0);
        }
        if 0 < closed.low && closed.low < page.top {
            trial.saw("closed with low between 0 and top", 0);
        }
    }
}

/// The closed answers of all conditions in order, asked for in lists of up to 16.
fn all_answers(trial: &mut Trial, page: &Page) -> Check<Vec<Pair>> {
    let encoded = encode(page);
    let area = trial.with_tail(&encoded);
    let conditions: Vec<u16> = (0..page.count).collect();
    let mut pairs = Vec::new();
    for queries in conditions.chunks(QUERIES_MAX) {
        let extra = trial.rng.index(5);
        let mut scratch = trial.rubbish(closed::scratch_length(page.count) + extra);
        let mut answers = trial.rubbish(2 * queries.len() + extra);
        let code = trial.closed(&area, queries, &mut scratch, &mut answers)?;
        figure("the closed reading's success", code, Ok(()))?;
        pairs.extend(
            answers[..2 * queries.len()]
                .chunks_exact(2)
                .map(|answer| Pair::new(answer[0], answer[1])),
        );
    }
    note_sides(trial, page, &pairs);
    Ok(pairs)
}

/// Some lists of queries in any order, with repeats.
fn some_lists(trial: &mut Trial, page: &Page, times: usize) -> Check {
    let encoded = encode(page);
    for _ in 0..times {
        let area = trial.with_tail(&encoded);
        let queries = gen::queries(&mut trial.rng, page.count);
        let extra = trial.rng.index(5);
        let mut scratch = trial.rubbish(closed::scratch_length(page.count) + extra);
        let mut answers = trial.rubbish(2 * queries.len() + extra);
        let _ = trial.closed(&area, &queries, &mut scratch, &mut answers)?;
    }
    Ok(())
}

fn by_enumeration(trial: &mut Trial, _: u64) -> Check {
    let mut page = gen::tiny_page(&mut trial.rng);
    while enumerate::cost(&page) > 256 {
        page = gen::tiny_page(&mut trial.rng);
    }
    trial.pages += 1;
    let wanted = enumerate::closed(&page).ok_or("no least assignment")?;
    let got = all_answers(trial, &page)?;
    figure("the closed reading by enumeration", got, wanted)
}

fn random(trial: &mut Trial, size: Size) -> Check {
    trial.pages += 1;
    let page = gen::page(&mut trial.rng, size);
    all_answers(trial, &page)?;
    some_lists(trial, &page, 2)
}

fn structured(trial: &mut Trial, item: u64) -> Check {
    trial.pages += 1;
    let most = match item % 20 {
        0 => 60,
        1..=5 => 30,
        _ => 12,
    };
    let page = gen::structured(&mut trial.rng, most);
    all_answers(trial, &page)?;
    some_lists(trial, &page, 1)
}

fn knots(trial: &mut Trial, item: u64) -> Check {
    trial.pages += 1;
    let top = gen::top(&mut trial.rng);
    let most = if item.is_multiple_of(10) { 80 } else { 24 };
    let count = trial.rng.range(1, most);
    let page = gen::knots(&mut trial.rng, count, top);
    all_answers(trial, &page)?;
    some_lists(trial, &page, 1)
}

fn at_the_limits(trial: &mut Trial, _: u64) -> Check {
    trial.pages += 1;
    let page = gen::page(&mut trial.rng, Size::Limit);
    let area = encode(&page);
    figure("the used length", area.len(), PAGE_MAX)?;
    some_lists(trial, &page, 1)
}

/// A scratch of 4 * C is enough. Of 6 * C the last 2 * C stay, and are not looked at: the call does not notice if they are no memory.
fn parts_of_the_scratch(trial: &mut Trial, item: u64) -> Check {
    trial.pages += 1;
    let size = match item % 20 {
        0 => Size::Medium,
        _ => Size::Small,
    };
    let page = gen::page(&mut trial.rng, size);
    let area = encode(&page);
    let queries = gen::queries(&mut trial.rng, page.count);
    let count = usize::from(page.count);
    for (lent, announced) in [(4, 4), (6, 6), (4, 6)] {
        let before = trial.rubbish(lent * count);
        let (mut scratch, mut answers) = (before.clone(), trial.rubbish(2 * queries.len()));
        trial.engine.overstate = (announced - lent) * count;
        let code = trial.closed(&area, &queries, &mut scratch, &mut answers)?;
        figure("the closed reading's success", code, Ok(()))?;
        let (taken, rest) = scratch.split_at(4 * count);
        figure("the zeros", taken.iter().all(|number| *number == 0), true)?;
        figure("the rest", rest, &before[4 * count..])?;
    }
    trial.engine.overstate = 0;
    let before = trial.rubbish(4 * count - 1);
    let (mut scratch, mut answers) = (before.clone(), trial.rubbish(2 * queries.len()));
    let code = trial.closed(&area, &queries, &mut scratch, &mut answers)?;
    figure("one number short", code, Err(SCRATCH_SHORT))?;
    figure("the refused scratch", scratch, before)
}

/// The count of rounds of some pages, by the lines of the page and the query. Most have loops without negation, where the support
/// decides.
const WORKED: &[(&str, u16, u32)] = &[
    ("G,10,2\nF,0,2,2\nF,1,3,3\nR,0,10,M,!1\nR,1,10,M,!0\n", 0, 2),
    ("G,10,3\nF,0,3,3\nF,2,6,6\nR,0,10,M,1,2\nR,1,10,M,1\n", 0, 1),
    ("G,1,1\n", 0, 1),
    ("G,1,1\nR,0,1,M,!0\n", 0, 0),
    ("G,1,1\nR,0,1,M,0\n", 0, 1),
    ("G,10,1\nF,0,0,10\n", 0, 0),
    // A chain: only what is reached counts.
    ("G,10,3\nR,0,10,M,1\nR,1,10,M,2\nF,2,5,5\n", 0, 3),
    ("G,10,3\nR,0,10,M,1\nR,1,10,M,2\nF,2,5,5\n", 1, 2),
    ("G,10,3\nR,0,10,M,1\nR,1,10,M,2\nF,2,5,5\n", 2, 1),
    // A loop of two that nothing supports, its negation, and the negation of that.
    (
        "G,1,4\nR,0,1,M,1\nR,1,1,M,0\nR,2,1,M,!0\nR,3,1,M,!2\n",
        0,
        1,
    ),
    (
        "G,1,4\nR,0,1,M,1\nR,1,1,M,0\nR,2,1,M,!0\nR,3,1,M,!2\n",
        2,
        1,
    ),
    (
        "G,1,4\nR,0,1,M,1\nR,1,1,M,0\nR,2,1,M,!0\nR,3,1,M,!2\n",
        3,
        2,
    ),
    // A loop that a fact supports in part: the low end climbs one grade a round.
    ("G,10,2\nF,1,1,1\nF,0,0,4\nR,0,10,B,0,1\n", 0, 11),
    // The loop of 0 and 1 loses its support when 2 is known to be true.
    (
        "G,1,3\nR,0,1,M,1,!2\nR,1,1,M,0\nF,2,1,1\nR,0,1,M,!2\n",
        0,
        2,
    ),
];

fn worked_rounds(trial: &mut Trial, _: u64) -> Check {
    for (text, query, wanted) in WORKED {
        trial.pages += 1;
        let page = page::read(text.as_bytes()).map_err(|_| format!("{text} is refused"))?;
        let mut scratch = trial.rubbish(closed::scratch_length(page.count));
        let mut answers = trial.rubbish(2);
        let area = encode(&page);
        let got = trial.rounds(&area, &[*query], &mut scratch, &mut answers)?;
        figure(text, got, Ok(*wanted))?;
    }
    Ok(())
}

/// Pages of many rounds, as the fast reference counts them: the count needs more than 16 bits.
fn many_rounds(trial: &mut Trial, item: u64) -> Check {
    trial.pages += 1;
    let (page, wanted) = match item {
        0 => (gen::adding_ring(512, 200), 102_201),
        1 => (gen::weak_ring(255, 200), 51_001),
        2 => (gen::adding_ring(256, 200), 51_001),
        _ => (gen::adding_ring(4, 2), 7),
    };
    let index = Index::new(&page);
    figure("the count of rounds", index.rounds(&[0]), wanted)?;
    let pair = index.closed()[0];
    let answers = [pair.low, pair.high];
    trial.closed_answers(&encode(&page), &[0], (&answers, wanted), false)
}

fn inside_plain(trial: &mut Trial, item: u64) -> Check {
    trial.pages += 1;
    let page = match item % 3 {
        0 => gen::structured(&mut trial.rng, 16),
        _ => gen::page(&mut trial.rng, Size::Small),
    };
    let area = encode(&page);
    let closed_pairs = all_answers(trial, &page)?;
    figure(
        "the closed reading",
        closed_pairs.clone(),
        closed::reading(&page),
    )?;
    let conditions: Vec<u16> = (0..page.count).collect();
    for queries in conditions.chunks(QUERIES_MAX) {
        let mut run = trial.rubbish(3 * usize::from(page.count));
        let opened = trial.open(&area, queries, &mut run)?;
        figure("the opening's success", opened.is_ok(), true)?;
        let _ = trial.drive(&area, &mut run, u32::MAX)?;
        for cond in queries {
            let valued = trial.value(&area, &run, u32::from(*cond))?;
            let valued = valued.map_err(|number| format!("value is refused {number}"))?;
            let plain = Pair::new(valued.low, valued.high);
            let closed = closed_pairs[usize::from(*cond)];
            if !plain.at_or_under(closed) || closed.low > closed.high {
                return Err(format!(
                    "condition {cond}: closed {closed:?} is not inside plain {plain:?}; {}",
                    String::from_utf8_lossy(&page.text()).replace('\n', "\\n")
                ));
            }
        }
    }
    Ok(())
}
