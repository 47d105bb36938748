//! Loops through an absence: layers and refusals against the separately written solver, and what layers say of the closed reading.

use crate::answer::*;
use crate::area::encode;
use crate::closed;
use crate::gen;
use crate::layers;
use crate::page::{self, Line, Literal, Op, Page};
use crate::rng::Rng;
use crate::runner::Case;
use crate::trial::{figure, Check, Trial};

pub fn cases() -> Vec<Case> {
    vec![
        Case {
            name: "layers_have_their_stated_figures",
            items: 1,
            each: rows,
            must_see: &[
                ("layers", 0),
                ("layers", 10),
                ("layers", 30),
                ("layers", 31),
            ],
        },
        Case {
            name: "layers_agree_on_small_pages",
            items: 20_000,
            each: small,
            must_see: BOTH,
        },
        Case {
            name: "layers_agree_on_rings_chains_games_and_knots",
            items: 2_000,
            each: structured,
            must_see: BOTH,
        },
        Case {
            name: "layers_agree_on_parts_that_name_one_another",
            items: 4_000,
            each: parts,
            must_see: BOTH,
        },
        Case {
            name: "layers_agree_on_pages_at_the_limits",
            items: 14,
            each: at_the_limits,
            must_see: BOTH,
        },
        Case {
            name: "layered_pages_of_exact_lines_have_exact_closed_answers",
            items: 3_000,
            each: exact,
            must_see: &[
                ("layers", 0),
                ("closed", 0),
                ("exact page with a layer above 0", 0),
            ],
        },
        Case {
            name: "each_condition_of_exactness_is_needed",
            items: 1,
            each: needed,
            must_see: &[],
        },
    ]
}

const BOTH: &[(&str, Refusal)] = &[("layers", 0), ("layers", 30)];

/// A page's text, and its layers or the condition told.
const ROWS: &[(&str, Result<&[u16], u32>)] = &[
    ("G,1,1\n", Ok(&[0])),
    ("G,1,1\nR,0,1,M,0\n", Ok(&[0])),
    ("G,1,1\nR,0,1,M,!0\n", Err(0)),
    // The chain 0, 1, 2, 1, 0 repeats 1.
    ("G,1,3\nR,0,1,M,1\nR,1,1,M,0,!2\nR,2,1,M,1\n", Err(0)),
    // 0 reaches a loop and is on none.
    ("G,1,2\nR,0,1,M,1\nR,1,1,M,!1\n", Err(1)),
    // 0 and 1 name each other and the loop of 2 and 3.
    (
        "G,1,4\nR,0,1,M,1\nR,1,1,M,0,!2\nR,2,1,M,3\nR,3,1,M,!2\n",
        Err(2),
    ),
    (
        "G,1,4\nR,0,1,M,!1\nR,1,1,M,!2\nR,3,1,M,1,3\n",
        Ok(&[2, 1, 0, 1]),
    ),
    // A negation may lead out of a loop; a fact and a query add nothing.
    (
        "G,1,4\nR,0,1,M,1,2\nR,1,1,M,0,!3\nR,2,1,M,0\nF,3,1,1\nQ,K,0\n",
        Ok(&[1, 1, 1, 0]),
    ),
    // The loop of 0 and 1 shows in the second pass only.
    ("G,1,2\nR,0,1,M,1\nR,1,1,M,!0\n", Err(0)),
    // Plain and negated in one rule; a rule and its repetition.
    ("G,1,2\nR,0,1,M,1,!1\n", Ok(&[1, 0])),
    (
        "G,1,3\nR,2,1,M,!1\nR,2,1,M,!1\nR,1,1,M,!0\n",
        Ok(&[0, 1, 2]),
    ),
    // Two loops: the lowest condition of both is told.
    ("G,1,4\nR,3,1,M,!1\nR,1,1,M,3\nR,2,1,M,!2\n", Err(1)),
];

fn rows(trial: &mut Trial, _: u64) -> Check {
    for (text, wanted) in ROWS {
        trial.pages += 1;
        let page =
            page::read(text.as_bytes()).map_err(|refusal| format!("{text:?} {refusal:?}"))?;
        let area = encode(&page);
        let count = usize::from(page.count);
        for length in [count, count + 1, count + 7] {
            let before = vec![9; length];
            let mut slice = before.clone();
            let got = trial.layers(&area, &mut slice)?;
            let mut left = before;
            match wanted {
                Ok(layers) => {
                    left[..count].copy_from_slice(layers);
                    figure(text, got, Ok(()))?;
                }
                Err(condition) => figure(text, got, told(NEGATED_LOOP, *condition))?,
            }
            figure(text, slice, left)?;
        }
        let mut short = vec![9; count - 1];
        figure(
            text,
            trial.layers(&area, &mut short)?,
            told(LAYERS_SHORT, 0),
        )?;
        let unsound = &area[..area.len() - 1];
        figure(
            text,
            trial.layers(unsound, &mut short)?,
            told(PAGE_UNSOUND, 0),
        )?;
        figure(text, short, vec![9; count - 1])?;
    }
    Ok(())
}

fn told(number: Refusal, condition: u32) -> Result<(), LayersRefusal> {
    Err(LayersRefusal { number, condition })
}

/// One page, with slices that are too short, just long enough and longer.
fn one(trial: &mut Trial, page: &Page) -> Check {
    trial.pages += 1;
    let encoded = encode(page);
    let area = trial.with_tail(&encoded);
    let count = usize::from(page.count);
    let longer = count + 1 + trial.rng.index(20);
    for length in [count - 1, count, longer] {
        let mut slice = trial.rubbish(length);
        let _ = trial.layers(&area, &mut slice)?;
    }
    Ok(())
}

/// Pages with fewer negations than `gen` makes, so that many pass.
fn small(trial: &mut Trial, item: u64) -> Check {
    let page = match item % 3 {
        0 => gen::any_page(&mut trial.rng),
        1 => gen::tiny_page(&mut trial.rng),
        _ => sparse(&mut trial.rng, 12),
    };
    one(trial, &page)
}

fn structured(trial: &mut Trial, _: u64) -> Check {
    let most = trial.rng.pick(&[3, 6, 20, 60]);
    let page = gen::structured(&mut trial.rng, most);
    one(trial, &page)
}

fn literal(cond: u16, negated: bool) -> Literal {
    Literal { cond, negated }
}

fn rule(head: u16, body: Vec<Literal>) -> Line {
    Line::Rule {
        head,
        weight: 1,
        op: Op::M,
        body,
    }
}

/// A page of rules of one to three literals, few of them negated.
fn sparse(rng: &mut Rng, most: u16) -> Page {
    let count = rng.range(1, most);
    let negated = rng.pick(&[3, 10, 25]);
    let lines = rng.index(2 * usize::from(count) + 1);
    let lines = (0..lines)
        .map(|_| {
            let body = (0..rng.range(1, 3))
                .map(|_| literal(rng.range(0, count - 1), rng.percent(negated)))
                .collect();
            rule(rng.range(0, count - 1), body)
        })
        .collect();
    Page {
        top: 1,
        count,
        lines,
    }
}

/// Rings of conditions that name the rings before them, with the conditions in any order: between rings half of the steps are
/// negations, within a ring few are.
fn parts(trial: &mut Trial, _: u64) -> Check {
    let rng = &mut trial.rng;
    let count = rng.range(1, 40);
    let mut conditions: Vec<u16> = (0..count).collect();
    gen::shuffle(rng, &mut conditions);
    let within = rng.pick(&[0, 0, 2, 10]);
    let mut lines = Vec::new();
    let mut start = 0;
    while start < conditions.len() {
        let end = conditions.len().min(start + 1 + rng.index(5));
        for at in start..end {
            let next = if at + 1 < end { at + 1 } else { start };
            if end > start + 1 || rng.percent(30) {
                let step = literal(conditions[next], rng.percent(within));
                lines.push(rule(conditions[at], vec![step]));
            }
            for _ in 0..rng.index(3).min(start) {
                let earlier = conditions[rng.index(start)];
                let step = literal(earlier, rng.percent(50));
                lines.push(rule(conditions[at], vec![step]));
            }
        }
        start = end;
    }
    gen::shuffle(rng, &mut lines);
    let page = Page {
        top: 1,
        count,
        lines,
    };
    one(trial, &page)
}

/// Pages of 512 conditions and 1,024 lines: those of `gen`, and those on which the check takes longest.
fn at_the_limits(trial: &mut Trial, item: u64) -> Check {
    let page = match item {
        0 => chain(true),
        1 => chain(false),
        2 => hub(0),
        3 => hub(300),
        4 => hub(511),
        5 => two_way_chain(),
        _ => gen::limit_page(&mut trial.rng, item - 6),
    };
    one(trial, &page)
}

/// Each condition names the next, in the order in which a pass brings a layer on by one condition; the last one negates itself, or not.
pub fn chain(looped: bool) -> Page {
    let mut lines: Vec<Line> = (0..1022)
        .map(|number| rule(number / 2, vec![literal(number / 2 + 1, false); 8]))
        .collect();
    lines.push(rule(510, vec![literal(511, true); 8]));
    lines.push(rule(511, vec![literal(511, looped); 8]));
    Page {
        top: 1,
        count: 512,
        lines,
    }
}

/// Condition 0 is the head of the lines that are left and names `leaves` others, which name themselves, at last; it also negates itself.
pub fn hub(leaves: u16) -> Page {
    let naming = leaves.div_ceil(8);
    let mut lines = vec![rule(0, vec![literal(0, true)])];
    for _ in 0..1024 - 1 - leaves - naming {
        lines.push(rule(0, vec![literal(0, false); 8]));
    }
    for leaf in 1..=leaves {
        lines.push(rule(leaf, vec![literal(leaf, false); 8]));
    }
    for first in 0..naming {
        let body = (1..=8).map(|step| literal((8 * first + step).min(leaves), false));
        lines.push(rule(0, body.collect()));
    }
    Page {
        top: 1,
        count: 512,
        lines,
    }
}

/// Each condition names the next and the one before it, and the last one the most.
fn two_way_chain() -> Page {
    let mut lines: Vec<Line> = (0..513)
        .map(|_| rule(511, vec![literal(511, false); 8]))
        .collect();
    for cond in 0..511 {
        let back = literal(u16::max(cond, 1) - 1, false);
        lines.push(rule(cond, vec![literal(cond + 1, false), back]));
    }
    if let Some(Line::Rule { body, .. }) = lines.last_mut() {
        body[1].negated = true;
    }
    Page {
        top: 1,
        count: 512,
        lines,
    }
}

/// The ops whose value on single grades is a single grade at weight top.
const EXACT_OPS: [Op; 4] = [Op::M, Op::X, Op::L, Op::B];

fn exact(trial: &mut Trial, _: u64) -> Check {
    let mut page = sparse(&mut trial.rng, 8);
    page.top = gen::top(&mut trial.rng);
    for line in &mut page.lines {
        if let Line::Rule { weight, op, .. } = line {
            *weight = page.top;
            *op = trial.rng.pick(&EXACT_OPS);
        }
    }
    for _ in 0..trial.rng.index(usize::from(page.count) + 1) {
        let grade = trial.rng.range(0, page.top);
        let cond = trial.rng.range(0, page.count - 1);
        page.lines.push(Line::Fact {
            cond,
            low: grade,
            high: grade,
        });
    }
    one(trial, &page)?;
    let Ok(layers) = layers::layers(&page) else {
        return Ok(());
    };
    if layers.iter().any(|layer| *layer > 0) {
        trial.saw("exact page with a layer above 0", 0);
    }
    let area = encode(&page);
    for cond in 0..page.count {
        let mut scratch = trial.rubbish(6 * usize::from(page.count));
        let mut answers = trial.rubbish(2);
        let code = trial.closed(&area, &[cond], &mut scratch, &mut answers)?;
        figure("the closed reading's success", code, Ok(()))?;
        figure("low and high", answers[0], answers[1])?;
    }
    Ok(())
}

/// A page that lacks one of the five, and the condition whose closed answer then has low below high.
const NEEDED: &[(&str, u16)] = &[
    ("G,1,1\nF,0,0,1\n", 0),
    ("G,1,1\nR,0,1,M,!0\n", 0),
    ("G,1,1\nD,0,U\n", 0),
    ("G,1,1\nD,0,U\nR,0,1,M,0\n", 0),
    ("G,2,2\nF,0,1,1\nR,1,1,M,0\n", 1),
    ("G,2,2\nF,0,1,1\nR,1,2,P,0,0\n", 1),
];

fn needed(trial: &mut Trial, _: u64) -> Check {
    for (text, cond) in NEEDED {
        trial.pages += 1;
        let page =
            page::read(text.as_bytes()).map_err(|refusal| format!("{text:?} {refusal:?}"))?;
        let area = encode(&page);
        let mut scratch = trial.rubbish(6 * usize::from(page.count));
        let mut answers = trial.rubbish(2);
        let code = trial.closed(&area, &[*cond], &mut scratch, &mut answers)?;
        figure(text, code, Ok(()))?;
        figure(text, (answers[0], answers[1]), (0, 1))?;
        let pair = closed::reading(&page)[usize::from(*cond)];
        figure(text, (pair.low, pair.high), (0, 1))?;
        let negated = text.contains('!');
        figure(text, layers::layers(&page).is_err(), negated)?;
    }
    Ok(())
}
