//! Open, Evaluate, Drive and Value on arbitrary good areas.

use crate::area::{encode, without_defaults, WAITING_MARK};
use crate::body::Pair;
use crate::enumerate;
use crate::gen::{self, Size};
use crate::page::Page;
use crate::plain;
use crate::runner::Case;
use crate::trial::{figure, Check, Trial};

pub fn cases() -> Vec<Case> {
    vec![
        Case {
            name: "open_agrees_on_random_pages",
            items: 5_000,
            each: opens,
            must_see: &[("open", 0), ("open", 11), ("open", 12), ("open", 13)],
        },
        Case {
            name: "evaluate_agrees_on_arbitrary_sound_areas",
            items: 4_000,
            each: evaluates,
            must_see: &[
                ("evaluate", 0),
                ("evaluate", 1),
                ("evaluate", 15),
                ("evaluate", 16),
            ],
        },
        Case {
            name: "evaluate_agrees_on_every_pair_of_grades_under_every_op",
            items: 60,
            each: every_pair_of_grades,
            must_see: &[("evaluate", 0), ("evaluate", 1)],
        },
        Case {
            name: "drive_agrees_on_arbitrary_sound_areas",
            items: 4_000,
            each: drives,
            must_see: &[
                ("drive", 0),
                ("drive", 1),
                ("drive_indexed", 0),
                ("drive_indexed", 1),
                ("drive_indexed without room", 0),
                ("drive_indexed without room", 1),
            ],
        },
        Case {
            name: "value_agrees_on_arbitrary_sound_areas",
            items: 3_000,
            each: values,
            must_see: &[("value", 0), ("value", 1), ("value", 15), ("value", 17)],
        },
        Case {
            name: "plain_reading_agrees_with_trying_every_assignment",
            items: 3_000,
            each: plain_by_enumeration,
            must_see: &[("drive", 1), ("value", 1)],
        },
    ]
}

fn page_of(trial: &mut Trial, item: u64) -> Page {
    trial.pages += 1;
    match item % 200 {
        0 => gen::page(&mut trial.rng, Size::Large),
        1..=30 => gen::structured(&mut trial.rng, 30),
        _ => gen::any_page(&mut trial.rng),
    }
}

fn opens(trial: &mut Trial, item: u64) -> Check {
    let page = page_of(trial, item);
    let encoded = encode(&page);
    let length = 3 * usize::from(page.count);
    for length_of_list in [0, 1, 2, 15, 16, 17, 18 + trial.rng.index(60)] {
        let area = trial.with_tail(&encoded);
        let mut queries: Vec<u16> = (0..length_of_list)
            .map(|_| trial.rng.range(0, page.count - 1))
            .collect();
        if trial.rng.percent(30) {
            if let Some(last) = queries.last_mut() {
                *last = trial
                    .rng
                    .pick(&[page.count, 512, 513, 65_535])
                    .max(page.count);
            }
        }
        let run_length = match trial.rng.below(8) {
            0 => length - 1,
            1 => trial.rng.index(length),
            _ => length + trial.rng.index(20),
        };
        let mut run = trial.rubbish(run_length);
        let _ = trial.open(&area, &queries, &mut run)?;
    }
    Ok(())
}

fn evaluates(trial: &mut Trial, item: u64) -> Check {
    let page = page_of(trial, item);
    let encoded = encode(&page);
    let area = trial.with_tail(&encoded);
    for _ in 0..4 {
        let run = gen::sound_run(&mut trial.rng, &page);
        let mut run = trial.with_tail(&run);
        for _ in 0..6 {
            let waiting: Vec<u32> = (0..u32::from(page.count))
                .filter(|cond| run[3 * *cond as usize + 2] == WAITING_MARK)
                .collect();
            let cond = if waiting.is_empty() || trial.rng.percent(25) {
                gen::condition(&mut trial.rng, page.count)
            } else {
                trial.rng.pick(&waiting)
            };
            let _ = trial.evaluate(&area, &mut run, cond)?;
        }
    }
    Ok(())
}

/// A rule over two literals with every pair of grades, the top and weight by the item.
fn every_pair_of_grades(trial: &mut Trial, item: u64) -> Check {
    let top = [1u16, 2, 3, 7, 10, 16][item as usize % 6];
    let kind = 1 + (item / 6 % 5) as u16;
    let negated = (item / 30) as u16;
    trial.pages += 1;
    for weight in [top, 1.max(top - 1), top.div_ceil(2), 1] {
        let area = without_defaults(top, 3, 1, &[2, kind, weight, 2, negated, 2 + negated]);
        for p in 0..=top {
            for q in 0..=top {
                let low = trial.rng.range(0, p);
                let high = trial.rng.range(q, top);
                let mut run = vec![low, p, 1, q, high, 1, 0, top, WAITING_MARK];
                let _ = trial.evaluate(&area, &mut run, 2)?;
            }
        }
    }
    Ok(())
}

fn drives(trial: &mut Trial, item: u64) -> Check {
    const CAP: u32 = 400;
    let page = page_of(trial, item);
    let encoded = encode(&page);
    let area = trial.with_tail(&encoded);
    let run = gen::sound_run(&mut trial.rng, &page);
    let run = trial.with_tail(&run);
    // Far from any run a drive may go on for ever; a large allowance only where it comes to rest.
    let ahead = plain::drive(&area, &mut run.clone(), CAP).map_err(|n| format!("refused {n}"))?;
    let mut allowances = vec![
        0,
        1,
        trial.rng.below(20) as u32,
        trial.rng.below(u64::from(CAP)) as u32,
    ];
    if ahead.rest {
        let random = trial.rng.number() as u32;
        allowances.extend([
            ahead.taken,
            ahead.taken.saturating_sub(1),
            ahead.taken + 1,
            65_536,
            u32::MAX - 1,
            u32::MAX,
            random.max(CAP),
        ]);
    }
    for allowance in allowances {
        let _ = trial.drive(&area, &mut run.clone(), allowance)?;
    }
    // One after the other on the same area.
    let mut run = run;
    for _ in 0..3 {
        let allowance = trial.rng.below(12) as u32;
        let _ = trial.drive(&area, &mut run, allowance)?;
    }
    Ok(())
}

fn values(trial: &mut Trial, item: u64) -> Check {
    let page = page_of(trial, item);
    let encoded = encode(&page);
    let area = trial.with_tail(&encoded);
    for _ in 0..3 {
        let run = gen::sound_run(&mut trial.rng, &page);
        let run = trial.with_tail(&run);
        for _ in 0..6 {
            let cond = gen::condition(&mut trial.rng, page.count);
            let _ = trial.value(&area, &run, cond)?;
        }
    }
    Ok(())
}

fn plain_by_enumeration(trial: &mut Trial, _: u64) -> Check {
    let page = gen::tiny_page(&mut trial.rng);
    trial.pages += 1;
    let area = encode(&page);
    let wanted = enumerate::plain(&page).ok_or("no least assignment")?;
    for cond in 0..page.count {
        let mut run = trial.rubbish(3 * usize::from(page.count));
        let opened = trial.open(&area, &[cond], &mut run)?;
        figure("the opening's success", opened.is_ok(), true)?;
        let _ = trial.drive(&area, &mut run, u32::MAX)?;
        let valued = trial.value(&area, &run, u32::from(cond))?;
        let pair = valued.map(|valued| Pair::new(valued.low, valued.high));
        figure("the plain answer", pair, Ok(wanted[usize::from(cond)]))?;
    }
    Ok(())
}
