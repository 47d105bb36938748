//! Both sides of every threshold in the code, each with its stated outcome: lengths of slices, ranges of fields at every top and every
//! count of conditions, and every place in a set of conditions.

use crate::answer::*;
use crate::area::{encode, without_defaults, HEAD, PAGE_MAX, REACHED_MARK, WAITING_MARK};
use crate::closed::scratch_length;
use crate::gen;
use crate::page::{Page, CONDITIONS_MAX, TOP_MAX};
use crate::runner::Case;
use crate::trial::{figure, Check, Trial};
use crate::workspace;

pub fn cases() -> Vec<Case> {
    let case = |name, items, each, must_see| Case {
        name,
        items,
        each,
        must_see,
    };
    vec![
        case(
            "both_sides_of_every_length",
            COUNTS.len() as u64,
            lengths,
            &[],
        ),
        case(
            "both_sides_of_every_range_of_a_text_at_every_top_and_count",
            u64::from(CONDITIONS_MAX),
            text_ranges,
            &[("read", 0), ("read", 4)],
        ),
        case(
            "both_sides_of_every_range_of_a_page_area_at_every_top_and_count",
            u64::from(CONDITIONS_MAX),
            area_ranges,
            &[("value", 10), ("value", 15)],
        ),
        case(
            "a_waiting_condition_is_found_and_woken_wherever_it_is",
            u64::from(CONDITIONS_MAX),
            every_place,
            &[("drive", 0), ("drive", 1), ("evaluate", 1)],
        ),
        case(
            "queries_may_lie_inside_the_page_area",
            2_000,
            queries_inside,
            &[
                ("open", 0),
                ("open", 11),
                ("open", 12),
                ("closed", 0),
                ("closed", 12),
            ],
        ),
    ]
}

/// Both sides of each word of a set of conditions.
const COUNTS: [u16; 26] = [
    1, 2, 3, 63, 64, 65, 127, 128, 129, 191, 192, 193, 255, 256, 257, 319, 320, 321, 383, 384, 385,
    447, 448, 449, 511, 512,
];

/// One slice is a number short, or one number is one too large; everything else is good.
fn lengths(trial: &mut Trial, item: u64) -> Check {
    let count = COUNTS[item as usize];
    trial.pages += 1;
    let page = gen::exact(&mut trial.rng, count, usize::from(count));
    let area = encode(&page);
    for (length, wanted) in [
        (area.len() - 1, Err(AREA_SHORT)),
        (area.len(), Ok(area.len())),
    ] {
        let mut lent = trial.rubbish(length);
        let got = trial.read(&page.text(), &mut lent)?;
        figure("read", got.map_err(|refusal| refusal.number), wanted)?;
    }
    open_lengths(trial, &area, count)?;
    run_lengths(trial, &area, count)?;
    workspace_lengths(trial, &area, count)?;
    closed_lengths(trial, &area, count)
}

fn open_lengths(trial: &mut Trial, area: &[u16], count: u16) -> Check {
    let (last, whole) = (count - 1, 3 * usize::from(count));
    let short = &area[..area.len() - 1];
    let openings: [(&[u16], &[u16], usize, Option<Refusal>); 7] = [
        (area, &[0, last], whole, None),
        (area, &[0, last], whole - 1, Some(RUN_SHORT)),
        (area, &[0, count], whole, Some(QUERY_RANGE)),
        (area, &[], whole, Some(QUERY_COUNT)),
        (area, &[last; 16], whole, None),
        (area, &[last; 17], whole, Some(QUERY_COUNT)),
        (short, &[0, last], whole, Some(PAGE_UNSOUND)),
    ];
    for (area, queries, length, wanted) in openings {
        let mut run = trial.rubbish(length);
        let got = trial.open(area, queries, &mut run)?.err();
        figure("open", got, wanted)?;
    }
    Ok(())
}

/// A run in which the first and the last condition are asked for.
fn opened(trial: &mut Trial, area: &[u16], count: u16) -> Check<Vec<u16>> {
    let mut run = trial.rubbish(3 * usize::from(count));
    let opened = trial.open(area, &[0, count - 1], &mut run)?;
    figure("open", opened.err(), None)?;
    Ok(run)
}

fn run_lengths(trial: &mut Trial, area: &[u16], count: u16) -> Check {
    let run = opened(trial, area, count)?;
    for (cond, wanted) in [(count - 1, None), (count, Some(CONDITION_RANGE))] {
        let got = trial.evaluate(area, &mut run.clone(), cond.into())?.err();
        figure("evaluate", got, wanted)?;
        let got = trial.value(area, &run, cond.into())?.err();
        figure("value", got, wanted)?;
    }
    let short = &run[..run.len() - 1];
    let got = trial.evaluate(area, &mut short.to_vec(), 0)?.err();
    figure("evaluate", got, Some(RUN_UNSOUND))?;
    let got = trial.drive(area, &mut short.to_vec(), 5)?.err();
    figure("drive", got, Some(RUN_UNSOUND))?;
    let got = trial.value(area, short, 0)?.err();
    figure("value", got, Some(RUN_UNSOUND))
}

/// A workspace of one number short, just enough and more; `drive` tries others.
fn workspace_lengths(trial: &mut Trial, area: &[u16], count: u16) -> Check {
    let needed = workspace::needed(area);
    let run = opened(trial, area, count)?;
    let mut driven = run.clone();
    let wanted = trial.drive(area, &mut driven, 3)?;
    figure("drive", wanted.err(), None)?;
    for length in [needed - 1, needed, needed + 1, workspace::WORKSPACE_MAX] {
        trial.drive_in(area, &run, 3, (wanted, &driven), length)?;
    }
    Ok(())
}

fn closed_lengths(trial: &mut Trial, area: &[u16], count: u16) -> Check {
    let needed = scratch_length(count);
    for (scratch, answers, wanted) in [
        (needed, 4, None),
        (needed - 1, 4, Some(SCRATCH_SHORT)),
        (needed, 3, Some(ANSWERS_SHORT)),
    ] {
        let (mut scratch, mut answers) = (trial.rubbish(scratch), trial.rubbish(answers));
        let got = trial.closed(area, &[0, count - 1], &mut scratch, &mut answers)?;
        figure("closed", got.err(), wanted)?;
    }
    Ok(())
}

/// The item's count of conditions, and a top: every one comes up.
fn count_and_top(item: u64) -> (u16, u16) {
    let count = item as u16 + 1;
    (count, item as u16 % TOP_MAX + 1)
}

fn text_ranges(trial: &mut Trial, item: u64) -> Check {
    let (count, top) = count_and_top(item);
    let last = count - 1;
    let far = |place| Some((LINE_RANGE, place));
    let lines = [
        (format!("F,{last},0,{top}"), None),
        (format!("F,{count},0,{top}"), far(2)),
        (format!("F,0,{top},{top}"), None),
        (format!("F,0,0,{}", top + 1), Some((GRADE_RANGE, 4))),
        (format!("F,0,{},{top}", top + 1), Some((GRADE_RANGE, 3))),
        (format!("F,0,{top},{}", top - 1), Some((LOW_ABOVE_HIGH, 4))),
        (format!("F,{count},{},{top}", top + 1), far(2)),
        (format!("R,{last},{top},M,{last}"), None),
        (format!("R,{count},1,X,0"), far(2)),
        (format!("R,0,{},L,0", top + 1), Some((WEIGHT_RANGE, 3))),
        ("R,0,0,B,0".to_string(), Some((WEIGHT_RANGE, 3))),
        (format!("R,0,0,B,{count}"), Some((WEIGHT_RANGE, 3))),
        ("R,0,1,P,0".to_string(), None),
        (format!("R,0,1,P,0,0,0,0,0,0,0,{last}"), None),
        (format!("R,0,1,P,0,0,0,0,0,0,0,{count}"), far(12)),
        (format!("R,0,1,P,0,0,{count},0,!{count},0,0,0"), far(7)),
        (format!("R,0,1,M,!{last}"), None),
        (format!("R,0,1,M,!{count},0"), far(5)),
        (format!("Q,K,{last}"), None),
        (format!("Q,W,{last}"), None),
        (format!("Q,K,{count}"), far(3)),
        (format!("Q,W,{count}"), far(3)),
        (format!("D,{last},U"), None),
        (format!("D,{count},U"), far(2)),
    ];
    let head = HEAD + usize::from(count);
    for (line, wanted) in lines {
        trial.pages += 1;
        let mut area = trial.rubbish(head + 40);
        let got = trial.read(format!("G,{top},{count}\n{line}\n").as_bytes(), &mut area)?;
        let wanted = wanted.map(|(number, place)| ReadRefusal::new(number, 2, place));
        figure(
            &format!("{line} with top {top}, {count} conditions"),
            got.err(),
            wanted,
        )?;
    }
    for (first, place) in [
        (format!("G,{top},{count}"), None),
        (format!("G,0,{count}"), Some(2)),
        (format!("G,{top},0"), Some(3)),
        (format!("G,{},{count}", 200 + top), Some(2)),
        (format!("G,{top},{}", 513 + u64::from(last) % 487), Some(3)),
    ] {
        trial.pages += 1;
        let mut area = trial.rubbish(head);
        let got = trial.read(format!("{first}\n").as_bytes(), &mut area)?;
        let wanted = place.map(|place| ReadRefusal::new(LINE_RANGE, 1, place));
        figure(&first, got.err(), wanted)?;
    }
    Ok(())
}

/// A value call of a condition that is out of range tells whether the page area is sound: 15 if it is, else 10.
fn area_ranges(trial: &mut Trial, item: u64) -> Check {
    let (count, top) = count_and_top(item);
    let last = count - 1;
    let literal = 2 * last;
    let rule = |weight, n, literals: &[u16]| [&[0, 5, weight, n], literals].concat();
    let lines: Vec<(Vec<u16>, bool)> = vec![
        (vec![last, 0, 0, top], true),
        (vec![count, 0, 0, top], false),
        (vec![0, 0, top, top], true),
        (vec![0, 0, top, top + 1], false),
        (vec![0, 0, top, top - 1], false),
        (rule(top, 1, &[0]), true),
        (rule(1, 1, &[literal + 1]), true),
        (rule(top + 1, 1, &[0]), false),
        (rule(0, 1, &[0]), false),
        (rule(1, 0, &[]), false),
        (rule(1, 8, &[0, 1, 0, 1, 0, 1, 0, literal + 1]), true),
        (rule(1, 8, &[0, 1, 0, 1, 0, 1, 0, literal + 2]), false),
        (rule(1, 8, &[literal + 2, 1, 0, 1, 0, 1, 0, 0]), false),
        (rule(1, 9, &[0; 9]), false),
        (rule(1, 2, &[0]), false),
        (vec![last, 1, 1, 1, 0], true),
        (vec![count, 1, 1, 1, 0], false),
        (vec![last, 6, 0, 0], true),
        (vec![last, 6, 1, 0], true),
        (vec![last, 6, 2, 0], false),
        (vec![last, 6, 1, 1], false),
        (vec![count, 6, 1, 0], false),
        (vec![0, 7, 0, 0], false),
        (vec![0, 7, 1, 0], false),
        (vec![0, 8, 0, 0], false),
        (vec![0, 256, 0, 0], false),
        (vec![0, 262, 0, 0], false),
    ];
    let mut run = [0, top, 0].repeat(usize::from(count));
    for (line, good) in lines {
        trial.pages += 1;
        let area = without_defaults(top, count, 1, &line);
        let used = area[3];
        let wanted = if good { CONDITION_RANGE } else { PAGE_UNSOUND };
        let got = trial.value(&area, &run, u32::from(count))?.err();
        figure(&format!("{area:?}"), got, Some(wanted))?;
        // The head of the area, one number at a time.
        if good {
            for (at, number) in [(0, 0), (1, 0), (2, 0), (2, 2), (3, used - 1), (3, used + 1)] {
                let mut bad = area.clone();
                bad[at] = number;
                let got = trial.value(&bad, &run, u32::from(count))?.err();
                figure(&format!("{bad:?}"), got, Some(PAGE_UNSOUND))?;
            }
        }
    }
    for (top, count, wanted) in [
        (200, 512, CONDITION_RANGE),
        (201, 512, PAGE_UNSOUND),
        (200, 513, PAGE_UNSOUND),
    ] {
        run = [0, top, 0].repeat(usize::from(count));
        let area = without_defaults(top, count, 0, &[]);
        let got = trial.value(&area, &run, 600)?.err();
        figure("the head", got, Some(wanted))?;
    }
    Ok(())
}

/// Condition `item` waits alone, with each neighbour and with the ends; and it is woken by another.
fn every_place(trial: &mut Trial, item: u64) -> Check {
    let count = CONDITIONS_MAX;
    let here = item as u16;
    let facts: Vec<u16> = (0..count)
        .flat_map(|cond| [cond, 0, cond % 7, 7 + cond % 3])
        .collect();
    let area = without_defaults(10, count, count, &facts);
    let others = [here, here ^ 1, (here + 64) % count, 0, count - 1];
    for other in others {
        trial.pages += 1;
        let mut run = [0, 10, REACHED_MARK].repeat(usize::from(count));
        run[3 * usize::from(here) + 2] = WAITING_MARK;
        run[3 * usize::from(other) + 2] = WAITING_MARK;
        let first = here.min(other);
        let driven = trial.drive(&area, &mut run, 1)?;
        let wanted = Driven {
            taken: 1,
            line: u32::from(first) + 2,
            rest: here == other,
        };
        figure("the drive", driven, Ok(wanted))?;
        let at = 3 * usize::from(first);
        let got = run[at..at + 3].to_vec();
        figure(
            "the lowest",
            got,
            vec![first % 7, 7 + first % 3, REACHED_MARK],
        )?;
    }
    // `here` names `other`, which changes.
    for other in others {
        trial.pages += 1;
        let rule = [other, 0, 3, 5, here, 1, 10, 1, 2 * other];
        let rule = without_defaults(10, count, 2, &rule);
        let mut run = [0, 10, REACHED_MARK].repeat(usize::from(count));
        run[3 * usize::from(other) + 2] = WAITING_MARK;
        let changed = trial.evaluate(&rule, &mut run.clone(), u32::from(other))?;
        figure("the evaluation", changed, Ok(true))?;
        let _ = trial.drive(&rule, &mut run, 1)?;
        let mark = run[3 * usize::from(here) + 2];
        figure("the mark", mark, WAITING_MARK)?;
    }
    Ok(())
}

/// The query list is a part of the page area: of its head, of its lines, or of what lies behind them.
fn queries_inside(trial: &mut Trial, item: u64) -> Check {
    trial.pages += 1;
    let lines = trial.rng.index(12);
    let mut page: Page = gen::exact(&mut trial.rng, 300, lines);
    if item.is_multiple_of(4) {
        let count = trial.rng.range(1, 20);
        page = gen::exact(&mut trial.rng, count, lines);
    }
    let mut area = encode(&page);
    area.extend((0..20).map(|_| trial.rng.range(0, page.count - 1)));
    let length = trial.rng.index(18);
    let at = trial.rng.index(area.len() - length + 1);
    let queries = area[at..at + length].to_vec();
    let mut run = trial.rubbish(3 * usize::from(page.count));
    trial.engine.queries_at = Some(at);
    let _ = trial.open(&area, &queries, &mut run)?;
    let mut scratch = trial.rubbish(scratch_length(page.count));
    let mut answers = trial.rubbish(2 * length);
    let _ = trial.closed(&area, &queries, &mut scratch, &mut answers)?;
    trial.engine.queries_at = None;
    figure("the area's length", area.len() <= PAGE_MAX, true)
}
