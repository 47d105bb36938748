//! Soundness of page areas and run areas, seen through every operation that is lent one.

use crate::answer::*;
use crate::area::{decode, encode, run_is_sound};
use crate::closed::scratch_length;
use crate::gen::{self, Size};
use crate::page::{Line, Literal, Op, Page};
use crate::runner::Case;
use crate::spoil;
use crate::trial::{figure, Check, Trial};

pub fn cases() -> Vec<Case> {
    vec![
        Case {
            name: "every_wrong_page_area_is_refused_10_by_each_operation",
            items: 500,
            each: wrong_page_areas,
            must_see: &[
                ("open", 10),
                ("evaluate", 10),
                ("drive", 10),
                ("drive_indexed", 10),
                ("value", 10),
                ("closed", 10),
                ("closed_indexed", 10),
                ("layers", 10),
                ("check_picks", 10),
                ("followers", 10),
            ],
        },
        Case {
            name: "page_area_with_one_number_changed_is_judged_alike",
            items: 3_000,
            each: one_number_changed,
            must_see: &[("open", 0), ("open", 10), ("closed", 0), ("closed", 10)],
        },
        Case {
            name: "page_area_with_1025_lines_is_refused_10",
            items: 1,
            each: too_many_lines,
            must_see: &[],
        },
        Case {
            name: "every_wrong_run_area_is_refused_14_by_each_operation",
            items: 700,
            each: wrong_run_areas,
            must_see: &[
                ("evaluate", 14),
                ("drive", 14),
                ("drive_indexed", 14),
                ("drive_indexed without room", 14),
                ("value", 14),
            ],
        },
        Case {
            name: "run_area_with_one_number_changed_is_judged_alike",
            items: 3_000,
            each: run_number_changed,
            must_see: &[("value", 14), ("value", 0), ("value", 1)],
        },
        Case {
            name: "numbers_past_the_stated_parts_are_not_touched",
            items: 1_500,
            each: past_the_parts,
            must_see: &[
                ("read", 0),
                ("open", 0),
                ("drive", 1),
                ("drive_indexed", 1),
                ("value", 1),
                ("closed", 0),
                ("closed_indexed", 0),
                ("layers", 0),
                ("layers", 30),
                ("followers", 0),
            ],
        },
    ]
}

/// Calls every operation that is lent a page area; the rest of the input is good for `page`.
fn each_operation(trial: &mut Trial, page: &Page, area: &[u16]) -> Check<Vec<Option<Refusal>>> {
    let queries = gen::queries(&mut trial.rng, page.count);
    let cond = u32::from(trial.rng.range(0, page.count - 1));
    let run = gen::sound_run(&mut trial.rng, page);
    let run = trial.with_tail(&run);
    let mut codes = Vec::new();
    let mut opened = trial.rubbish(run.len());
    codes.push(trial.open(area, &queries, &mut opened)?.err());
    codes.push(trial.evaluate(area, &mut run.clone(), cond)?.err());
    let allowance = trial.rng.below(30) as u32;
    codes.push(trial.drive(area, &mut run.clone(), allowance)?.err());
    codes.push(trial.value(area, &run, cond)?.err());
    let mut scratch = trial.rubbish(scratch_length(page.count));
    let mut answers = trial.rubbish(2 * queries.len());
    let code = trial.closed(area, &queries, &mut scratch, &mut answers)?;
    codes.push(code.err());
    let mut layers = trial.rubbish(usize::from(page.count));
    let code = trial.layers(area, &mut layers)?;
    codes.push(code.err().map(|refusal| refusal.number));
    let code = trial.check_picks(area, &queries, &[cond as u16], &answers)?;
    codes.push(code.err().map(|refusal| refusal.number));
    codes.push(trial.followers(area, cond)?.err());
    Ok(codes)
}

fn wrong_page_areas(trial: &mut Trial, item: u64) -> Check {
    let size = if item.is_multiple_of(20) {
        Size::Medium
    } else {
        Size::Small
    };
    let page = gen::page(&mut trial.rng, size);
    let good = encode(&page);
    for bad in spoil::areas(&mut trial.rng, &page, &good) {
        trial.pages += 1;
        figure(&bad.how, decode(&bad.numbers), None)?;
        let codes = each_operation(trial, &page, &bad.numbers)?;
        figure(&bad.how, codes, vec![Some(PAGE_UNSOUND); 8])?;
    }
    Ok(())
}

fn one_number_changed(trial: &mut Trial, item: u64) -> Check {
    let page = if item.is_multiple_of(300) {
        gen::page(&mut trial.rng, Size::Large)
    } else {
        gen::page(&mut trial.rng, Size::Small)
    };
    let good = encode(&page);
    for _ in 0..4 {
        trial.pages += 1;
        let changed = spoil::one_number(&mut trial.rng, &page, &good);
        let changed = trial.with_tail(&changed);
        each_operation(trial, &page, &changed)?;
    }
    Ok(())
}

fn too_many_lines(trial: &mut Trial, _: u64) -> Check {
    let page = Page {
        top: 10,
        count: 3,
        lines: Vec::new(),
    };
    let lines = [
        Line::Fact {
            cond: 2,
            low: 1,
            high: 4,
        },
        Line::Query {
            closed: true,
            cond: 1,
        },
        Line::Rule {
            head: 0,
            weight: 10,
            op: Op::X,
            body: vec![
                Literal {
                    cond: 1,
                    negated: true,
                };
                8
            ],
        },
    ];
    for line in lines {
        trial.pages += 2;
        let area = spoil::too_many_lines(&page, &line);
        let codes = each_operation(trial, &page, &area)?;
        figure("1,025 lines", codes, vec![Some(PAGE_UNSOUND); 8])?;
        let full = Page {
            lines: vec![line; 1024],
            ..page.clone()
        };
        let area = encode(&full);
        let mut run = trial.rubbish(9);
        let opened = trial.open(&area, &[0], &mut run)?;
        figure("1,024 lines", opened.is_ok(), true)?;
    }
    Ok(())
}

/// The three operations that are lent a run area to go on with.
fn each_run_operation(
    trial: &mut Trial,
    area: &[u16],
    run: &[u16],
    cond: u32,
) -> Check<Vec<Option<Refusal>>> {
    let mut codes = Vec::new();
    codes.push(trial.evaluate(area, &mut run.to_vec(), cond)?.err());
    let allowance = trial.rng.below(40) as u32;
    codes.push(trial.drive(area, &mut run.to_vec(), allowance)?.err());
    codes.push(trial.value(area, run, cond)?.err());
    Ok(codes)
}

fn wrong_run_areas(trial: &mut Trial, item: u64) -> Check {
    trial.pages += 1;
    let page = if item.is_multiple_of(100) {
        gen::page(&mut trial.rng, Size::Large)
    } else {
        gen::any_page(&mut trial.rng)
    };
    let encoded = encode(&page);
    let area = trial.with_tail(&encoded);
    let good = gen::sound_run(&mut trial.rng, &page);
    let good = trial.with_tail(&good);
    figure("the good run", run_is_sound(&page, &good), true)?;
    for (how, run) in spoil::runs(&mut trial.rng, &page, &good) {
        figure(&how, run_is_sound(&page, &run), false)?;
        let cond = gen::condition(&mut trial.rng, page.count);
        let codes = each_run_operation(trial, &area, &run, cond)?;
        figure(&how, codes, vec![Some(RUN_UNSOUND); 3])?;
    }
    Ok(())
}

fn run_number_changed(trial: &mut Trial, _: u64) -> Check {
    trial.pages += 1;
    let page = gen::page(&mut trial.rng, Size::Small);
    let area = encode(&page);
    let good = gen::sound_run(&mut trial.rng, &page);
    for _ in 0..8 {
        let mut run = good.clone();
        let at = trial.rng.index(run.len());
        run[at] = match trial.rng.below(5) {
            0 => run[at].wrapping_add(1),
            1 => run[at].wrapping_sub(1),
            2 => page.top + trial.rng.range(0, 1),
            3 => trial.rng.range(0, 3),
            _ => trial.rng.number() as u16,
        };
        let cond = gen::condition(&mut trial.rng, page.count);
        each_run_operation(trial, &area, &run, cond)?;
    }
    Ok(())
}

/// Areas are announced longer than they are: behind the stated parts there is no memory.
fn past_the_parts(trial: &mut Trial, item: u64) -> Check {
    trial.pages += 1;
    let page = if item.is_multiple_of(50) {
        gen::page(&mut trial.rng, Size::Medium)
    } else {
        gen::page(&mut trial.rng, Size::Small)
    };
    let encoded = encode(&page);
    trial.engine.overstate = trial.rng.pick(&[1, 2, 3, 1000, 2000]);
    let mut area = trial.rubbish(encoded.len());
    trial
        .read(&page.text(), &mut area)?
        .map_err(|refusal| format!("refused {refusal:?}"))?;
    figure("the area", area.clone(), encoded)?;
    let queries = gen::queries(&mut trial.rng, page.count);
    let mut run = trial.rubbish(3 * usize::from(page.count));
    let opened = trial.open(&area, &queries, &mut run)?;
    figure("the opening's success", opened.is_ok(), true)?;
    let cond = u32::from(queries[0]);
    let _ = trial.evaluate(&area, &mut run, cond)?;
    let _ = trial.value(&area, &run, cond)?;
    let allowance = trial.rng.below(6) as u32;
    let _ = trial.drive(&area, &mut run, allowance)?;
    let _ = trial.drive(&area, &mut run, u32::MAX)?;
    let _ = trial.value(&area, &run, cond)?;
    let mut scratch = trial.rubbish(scratch_length(page.count));
    let mut answers = trial.rubbish(2 * queries.len());
    let closed = trial.closed(&area, &queries, &mut scratch, &mut answers)?;
    figure("the closed reading's success", closed.is_ok(), true)?;
    let mut layers = trial.rubbish(usize::from(page.count));
    let _ = trial.layers(&area, &mut layers)?;
    let _ = trial.followers(&area, cond)?;
    Ok(())
}
