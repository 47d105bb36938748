//! The order of the refusals: where several causes hold at once, the first in the list wins.

use crate::answer::*;
use crate::area::{encode, NOT_REACHED_MARK, REACHED_MARK, WAITING_MARK};
use crate::cases::reader::EVERY_READ;
use crate::closed::scratch_length;
use crate::gen::{self, Size};
use crate::page::Page;
use crate::runner::Case;
use crate::spoil;
use crate::trial::{figure, Check, Trial};

pub fn cases() -> Vec<Case> {
    vec![
        Case {
            name: "refusal_order_of_open",
            items: 300,
            each: open_order,
            must_see: &[
                ("open", 0),
                ("open", 10),
                ("open", 11),
                ("open", 12),
                ("open", 13),
            ],
        },
        Case {
            name: "refusal_order_of_closed",
            items: 300,
            each: closed_order,
            must_see: &[
                ("closed", 0),
                ("closed", 10),
                ("closed", 11),
                ("closed", 12),
                ("closed", 18),
                ("closed", 19),
                ("closed_indexed", 11),
                ("closed_indexed", 12),
                ("closed_indexed", 18),
                ("closed_indexed", 19),
            ],
        },
        Case {
            name: "refusal_order_of_evaluate_drive_and_value",
            items: 300,
            each: run_order,
            must_see: &[
                ("evaluate", 10),
                ("evaluate", 14),
                ("evaluate", 15),
                ("evaluate", 16),
                ("drive", 10),
                ("drive", 14),
                ("drive_indexed", 10),
                ("drive_indexed", 14),
                ("value", 10),
                ("value", 14),
                ("value", 15),
                ("value", 17),
            ],
        },
        Case {
            name: "refusal_order_of_read",
            items: 300,
            each: read_order,
            must_see: EVERY_READ,
        },
    ]
}

/// The first cause that holds, by the bits of `causes`.
fn first(list: &[Refusal], causes: u32) -> Option<Refusal> {
    list.iter()
        .enumerate()
        .find(|(bit, _)| causes & (1 << bit) != 0)
        .map(|(_, number)| *number)
}

/// A sound area, or one that is not.
fn page_area(trial: &mut Trial, page: &Page, wrong: bool) -> Vec<u16> {
    let good = encode(page);
    if !wrong {
        return trial.with_tail(&good);
    }
    let mut all = spoil::areas(&mut trial.rng, page, &good);
    let choice = trial.rng.index(all.len());
    all.swap_remove(choice).numbers
}

/// A query list that is too long or too short, or holds a wrong entry, or both.
fn query_list(trial: &mut Trial, page: &Page, wrong_count: bool, wrong_entry: bool) -> Vec<u16> {
    let rng = &mut trial.rng;
    let length = match (wrong_count, wrong_entry) {
        (true, true) => rng.pick(&[17, 18, 40, 300]),
        (true, false) => rng.pick(&[0, 17, 18, 300]),
        _ => rng.pick(&[1, 2, 15, 16]),
    };
    let mut list: Vec<u16> = (0..length).map(|_| rng.range(0, page.count - 1)).collect();
    if wrong_entry {
        let at = match rng.below(3) {
            0 => 0,
            1 => list.len() - 1,
            _ => rng.index(list.len()),
        };
        list[at] = rng
            .pick(&[page.count, page.count + 1, 512, 65_535])
            .max(page.count);
    }
    list
}

fn open_order(trial: &mut Trial, _: u64) -> Check {
    let page = gen::page(&mut trial.rng, Size::Small);
    trial.pages += 1;
    let length = 3 * usize::from(page.count);
    let list = [PAGE_UNSOUND, QUERY_COUNT, QUERY_RANGE, RUN_SHORT];
    for causes in 0..16 {
        let area = page_area(trial, &page, causes & 1 != 0);
        let queries = query_list(trial, &page, causes & 2 != 0, causes & 4 != 0);
        let run_length = if causes & 8 != 0 {
            trial.rng.pick(&[length - 1, length - 3, 0])
        } else {
            length + trial.rng.index(4)
        };
        let mut run = trial.rubbish(run_length);
        let got = trial.open(&area, &queries, &mut run)?;
        figure("the refusal of open", got.err(), first(&list, causes))?;
    }
    Ok(())
}

fn closed_order(trial: &mut Trial, _: u64) -> Check {
    let page = gen::page(&mut trial.rng, Size::Small);
    trial.pages += 1;
    let length = scratch_length(page.count);
    let list = [
        PAGE_UNSOUND,
        QUERY_COUNT,
        QUERY_RANGE,
        SCRATCH_SHORT,
        ANSWERS_SHORT,
    ];
    for causes in 0..32 {
        let area = page_area(trial, &page, causes & 1 != 0);
        let mut queries = query_list(trial, &page, causes & 2 != 0, causes & 4 != 0);
        if causes & 16 != 0 && queries.is_empty() {
            queries = vec![0; 17];
        }
        let scratch_length = if causes & 8 != 0 {
            trial.rng.pick(&[length - 1, length / 2, 0])
        } else {
            length + trial.rng.index(4)
        };
        let needed = 2 * queries.len();
        let answers_length = if causes & 16 != 0 {
            trial.rng.pick(&[needed - 1, needed / 2, 0])
        } else {
            needed + trial.rng.index(4)
        };
        let mut scratch = trial.rubbish(scratch_length);
        let mut answers = trial.rubbish(answers_length);
        let got = trial.closed(&area, &queries, &mut scratch, &mut answers)?;
        figure("the refusal of closed", got.err(), first(&list, causes))?;
    }
    Ok(())
}

fn run_order(trial: &mut Trial, _: u64) -> Check {
    let page = gen::page(&mut trial.rng, Size::Small);
    trial.pages += 1;
    for causes in 0..8 {
        let area = page_area(trial, &page, causes & 1 != 0);
        let inside = trial.rng.range(0, page.count - 1);
        for mark in [NOT_REACHED_MARK, REACHED_MARK, WAITING_MARK] {
            let good = gen::sound_run(&mut trial.rng, &page);
            let mut run = trial.with_tail(&good);
            run[3 * usize::from(inside) + 2] = mark;
            if mark == NOT_REACHED_MARK {
                let at = 3 * usize::from(inside);
                run[at] = 0;
                run[at + 1] = page.top;
            }
            if causes & 2 != 0 {
                let mut all = spoil::runs(&mut trial.rng, &page, &run);
                let choice = trial.rng.index(all.len());
                run = all.swap_remove(choice).1;
            }
            let cond = if causes & 4 != 0 {
                gen::wrong_condition(&mut trial.rng, page.count)
            } else {
                u32::from(inside)
            };
            let areas = first(&[PAGE_UNSOUND, RUN_UNSOUND], causes & 3);
            let range = first(&[PAGE_UNSOUND, RUN_UNSOUND, CONDITION_RANGE], causes);
            let got = trial.evaluate(&area, &mut run.clone(), cond)?;
            let last = (mark != WAITING_MARK).then_some(NOT_WAITING);
            figure("the refusal of evaluate", got.err(), range.or(last))?;
            let got = trial.drive(&area, &mut run.clone(), 3)?;
            figure("the refusal of drive", got.err(), areas)?;
            let got = trial.value(&area, &run, cond)?;
            let last = (mark == NOT_REACHED_MARK).then_some(NOT_REACHED);
            figure("the refusal of value", got.err(), range.or(last))?;
        }
    }
    Ok(())
}

/// Causes of a refused text put together at will.
fn read_order(trial: &mut Trial, item: u64) -> Check {
    let mut page = gen::page(&mut trial.rng, Size::Small);
    page.lines.truncate(20);
    for causes in 0..64u32 {
        // Long texts take long; each item looks at a part of them.
        let long = causes & 1 != 0;
        let many = causes & 16 != 0;
        if (long || many) && !(u64::from(causes) + item).is_multiple_of(8) {
            continue;
        }
        trial.pages += 1;
        let unended = causes & 2 != 0;
        let form = causes & 4 != 0;
        let range = causes & 8 != 0;
        let short = causes & 32 != 0;
        let mut lines: Vec<String> = vec![format!("G,{},{}", page.top, page.count)];
        lines.extend(page.lines.iter().map(|line| line.text()));
        if many {
            lines.resize(1025, "Q,K,0".to_string());
        }
        // Bad lines stand before the 1,026th at a place of their own.
        let mut first_bad = None;
        let mut add = |trial: &mut Trial, text: &str, number: Refusal| {
            let at = 1 + trial.rng.index(if many { 1024 } else { lines.len() });
            if many {
                lines[at] = text.to_string();
            } else {
                lines.insert(at, text.to_string());
            }
            (number, at)
        };
        let out_of_range = format!("Q,W,{}", page.count);
        let mut bad = Vec::new();
        if form {
            bad.push(add(trial, "F,0,00,0", LINE_FORM));
        }
        if range {
            let later = add(trial, &out_of_range, LINE_RANGE);
            // A line put in before moves the other one down, a line put in its stead removes it.
            if let Some(earlier) = bad.pop() {
                if many && earlier.1 == later.1 {
                    bad.clear();
                } else if !many && later.1 <= earlier.1 {
                    bad.push((earlier.0, earlier.1 + 1));
                } else {
                    bad.push(earlier);
                }
            }
            bad.push(later);
        }
        bad.sort_by_key(|(_, at)| *at);
        if let Some((number, at)) = bad.first() {
            first_bad = Some((*number, *at as u32 + 1));
        }
        if many {
            let look = trial.rng.pick(&["Q,K,0", "", "x", "Q,K,999"]);
            lines.push(look.to_string());
        }
        let mut text = (lines.join("\n") + "\n").into_bytes();
        if long {
            text.resize(65_600, b'1');
            text.push(10);
        }
        if unended {
            text.push(b'1');
        }
        let wanted = if long {
            Some((TEXT_TOO_LONG, 0))
        } else if unended {
            Some((TEXT_UNENDED, 0))
        } else if first_bad.is_some() {
            first_bad
        } else if many {
            Some((LINE_COUNT, 1026))
        } else if short {
            Some((AREA_SHORT, 0))
        } else {
            None
        };
        let used = encode(&page).len();
        let length = if short {
            trial.rng.index(used)
        } else {
            used + 5000
        };
        let mut area = trial.rubbish(length);
        let got = trial.read(&text, &mut area)?;
        let got = got.err().map(|refusal| (refusal.number, refusal.line));
        figure("the refusal of read", got, wanted)?;
    }
    Ok(())
}
