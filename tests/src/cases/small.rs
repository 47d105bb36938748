//! All small pages: their texts against the separately written list, and each of them through the reader and both readings.

use std::collections::BTreeSet;

use crate::answer::*;
use crate::area::encode;
use crate::body::Pair;
use crate::closed::scratch_length;
use crate::enumerate;
use crate::page::{self, Page};
use crate::runner::Case;
use crate::small;
use crate::trial::{figure, Check, Trial};

pub fn cases() -> Vec<Case> {
    vec![
        Case {
            name: "small_pages_have_their_stated_texts",
            items: 1,
            each: rows,
            must_see: ALL,
        },
        Case {
            name: "small_pages_agree_on_every_number_and_length",
            items: 242,
            each: lengths,
            must_see: ALL,
        },
        Case {
            name: "small_pages_stand_once_and_in_order",
            items: 1,
            each: order,
            must_see: &[("small_page", 0)],
        },
        Case {
            name: "every_small_page_is_read_and_answered",
            items: 242,
            each: answered,
            must_see: &[("small_page", 0), ("read", 0), ("drive", 1), ("closed", 0)],
        },
    ]
}

const ALL: &[(&str, Refusal)] = &[("small_page", 0), ("small_page", 70), ("small_page", 71)];

const ROWS: &[(u32, &str)] = &[
    (0, "G,1,1\n"),
    // The facts on one condition, by their ends.
    (1, "G,1,1\nF,0,0,0\n"),
    (2, "G,1,1\nF,0,0,1\n"),
    (3, "G,1,1\nF,0,1,1\n"),
    // F before R, `!` before digits.
    (4, "G,1,1\nR,0,1,M,!0\n"),
    (5, "G,1,1\nR,0,1,M,0\n"),
    // Equal lines, and the order of lines counts.
    (6, "G,1,1\nF,0,0,0\nF,0,0,0\n"),
    (7, "G,1,1\nF,0,0,0\nF,0,0,1\n"),
    (11, "G,1,1\nF,0,0,1\nF,0,0,0\n"),
    (20, "G,1,1\nF,0,1,1\nR,0,1,M,0\n"),
    // The longest text.
    (24, "G,1,1\nR,0,1,M,!0\nR,0,1,M,!0\n"),
    (30, "G,1,1\nR,0,1,M,0\nR,0,1,M,0\n"),
    // Two conditions.
    (31, "G,1,2\n"),
    (32, "G,1,2\nF,0,0,0\n"),
    (37, "G,1,2\nF,1,1,1\n"),
    (38, "G,1,2\nR,0,1,M,!0\n"),
    (39, "G,1,2\nR,0,1,M,!1\n"),
    (40, "G,1,2\nR,0,1,M,0\n"),
    (45, "G,1,2\nR,1,1,M,1\n"),
    (46, "G,1,2\nF,0,0,0\nF,0,0,0\n"),
    (211, "G,1,2\nR,1,1,M,!1\nR,1,1,M,!1\n"),
    (241, "G,1,2\nR,1,1,M,1\nR,1,1,M,1\n"),
];

fn rows(trial: &mut Trial, _: u64) -> Check {
    for (number, text) in ROWS {
        for spare in [0, 1, 9] {
            let mut buffer = vec![255; text.len() + spare];
            let got = trial.small_page(*number, &mut buffer)?;
            figure("a small page", got, Ok(text.len()))?;
            let wanted = [text.as_bytes(), &vec![255; spare]].concat();
            figure("the buffer", &buffer, &wanted)?;
        }
        let mut buffer = vec![255; text.len() - 1];
        let got = trial.small_page(*number, &mut buffer)?;
        figure("a buffer too short", got, Err(BUFFER_SHORT))?;
    }
    // 70 before 71.
    for number in [242, 243, 273, 256, 65_536, u32::MAX] {
        for length in [0, 1, 28] {
            let got = trial.small_page(number, &mut vec![255; length])?;
            figure("a number over 241", got, Err(SMALL_NUMBER))?;
        }
    }
    figure(
        "an empty buffer",
        trial.small_page(0, &mut [])?,
        Err(BUFFER_SHORT),
    )
}

/// A number of the list and one over it, with every length of the buffer.
fn lengths(trial: &mut Trial, item: u64) -> Check {
    for number in [item as u32, 242 + item as u32] {
        for length in 0..=40 {
            let mut buffer: Vec<u8> = (0..length).map(|_| trial.rng.number() as u8).collect();
            let _ = trial.small_page(number, &mut buffer)?;
        }
    }
    Ok(())
}

/// The text of the page with a number.
fn text(trial: &mut Trial, number: u32) -> Check<Vec<u8>> {
    let mut buffer = vec![0; 28];
    let length = trial.small_page(number, &mut buffer)?;
    buffer.truncate(length.map_err(|refusal| format!("{number} is refused {refusal}"))?);
    Ok(buffer)
}

/// Each page of the list is of the family, no page comes twice, and each comes before the next.
fn order(trial: &mut Trial, _: u64) -> Check {
    let mut texts = BTreeSet::new();
    let mut last: Option<(u16, usize, Vec<u8>)> = None;
    for number in 0..242 {
        let text = text(trial, number)?;
        let page = page::read(&text).map_err(|refusal| format!("{text:?}: {refusal:?}"))?;
        figure("a page of the family", small::pages().contains(&page), true)?;
        let next = (page.count, page.lines.len(), text.clone());
        figure("the order", last.as_ref() < Some(&next), true)?;
        last = Some(next);
        texts.insert(text);
    }
    figure("the count of pages", texts.len(), 242)?;
    figure("the count of the family", small::pages().len(), 242)
}

/// A page's text is read, and every condition is answered in both readings: as the separately written solver says, and as trying every
/// assignment does.
fn answered(trial: &mut Trial, item: u64) -> Check {
    trial.pages += 1;
    let text = text(trial, item as u32)?;
    let page: Page = page::read(&text).map_err(|refusal| format!("{text:?}: {refusal:?}"))?;
    let used = encode(&page).len();
    let mut area = trial.rubbish(used + 3);
    figure("the used length", trial.read(&text, &mut area)?, Ok(used))?;
    area.truncate(used);
    let plain = enumerate::plain(&page).ok_or("no least assignment")?;
    let closed = enumerate::closed(&page).ok_or("no least assignment")?;
    let pairs = |ends: &[u16]| -> Vec<Pair> {
        let pair = |ends: &[u16]| Pair::new(ends[0], ends[1]);
        ends.chunks(2).map(pair).collect()
    };
    let queries: Vec<u16> = (0..page.count).collect();
    let mut run = trial.rubbish(3 * queries.len());
    let opened = trial.open(&area, &queries, &mut run)?;
    let bound = opened.map_err(|number| format!("refused {number}"))?.bound;
    let driven = trial.drive(&area, &mut run, bound)?;
    figure("at rest", driven.map(|driven| driven.rest), Ok(true))?;
    let held: Vec<u16> = run.chunks(3).flat_map(|run| [run[0], run[1]]).collect();
    figure("the plain answers", pairs(&held), plain)?;
    let mut scratch = trial.rubbish(scratch_length(page.count));
    let mut answers = trial.rubbish(2 * queries.len());
    let code = trial.closed(&area, &queries, &mut scratch, &mut answers)?;
    figure("the closed reading", code, Ok(()))?;
    figure("the closed answers", pairs(&answers), closed)
}
