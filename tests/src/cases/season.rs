//! A season's figures against the separately written ones.

use crate::answer::*;
use crate::runner::Case;
use crate::trial::{figure, Check, Trial};

pub fn cases() -> Vec<Case> {
    vec![
        Case {
            name: "seasons_have_their_stated_figures",
            items: 1,
            each: rows,
            must_see: ALL,
        },
        Case {
            name: "seasons_agree_on_all_short_lists",
            items: 1,
            each: short,
            must_see: ALL,
        },
        Case {
            name: "seasons_agree_on_lists_of_any_length",
            items: 3_000,
            each: any,
            must_see: ALL,
        },
        Case {
            name: "seasons_agree_at_the_greatest_length",
            items: 6,
            each: longest,
            must_see: ALL,
        },
    ]
}

const ALL: &[(&str, Refusal)] = &[("season", 0), ("season", 80), ("season", 81)];

/// The figures in the order of the header, the change last.
type Row = (&'static [u16], [u32; 7], i32);

const ROWS: &[Row] = &[
    // One answer.
    (&[3, 7], [1, 3, 4, 3, 7, 3, 0], 0),
    // A fall of 3, then a rise of 3; and the other way round.
    (&[5, 9, 2, 2, 5, 6], [3, 12, 5, 2, 9, 4, 0], -3),
    (&[2, 9, 5, 5, 2, 6], [3, 9, 11, 2, 9, 3, 0], 3),
    // A rise of 3, a fall of 4, a rise of 4.
    (&[2, 2, 5, 8, 1, 1, 5, 5], [4, 13, 3, 1, 8, 3, 1], -4),
    (&[10, 10, 0, 200, 10, 11], [3, 20, 201, 0, 200, 6, 2], -10),
    (&[4, 4, 4, 4], [2, 8, 0, 4, 4, 4, 0], 0),
    (&[0, 200, 200, 200], [2, 200, 200, 0, 200, 100, 0], 200),
    (&[200, 200, 0, 200], [2, 200, 200, 0, 200, 100, 0], -200),
    (&[200; 8192], [4096, 819_200, 0, 200, 200, 200, 0], 0),
];

const REFUSED: &[(&[u16], Refusal, u32)] = &[
    (&[], SEASON_LENGTH, 0),
    (&[3], SEASON_LENGTH, 0),
    (&[3, 7, 4], SEASON_LENGTH, 0),
    (&[200; 8191], SEASON_LENGTH, 0),
    (&[200; 8194], SEASON_LENGTH, 0),
    (&[8, 7], SEASON_PAIR, 1),
    (&[0, 201], SEASON_PAIR, 1),
    (&[1, 2, 3, 2, 0, 201], SEASON_PAIR, 2),
    (&[1, 2, 2, 3, 201, 201, 4, 3], SEASON_PAIR, 3),
    (&[0, 65_535], SEASON_PAIR, 1),
    // A bad pair in a list of wrong length.
    (&[8, 7, 4], SEASON_LENGTH, 0),
    (&[201; 8194], SEASON_LENGTH, 0),
];

fn rows(trial: &mut Trial, _: u64) -> Check {
    for (pairs, [count, sum_low, sum_width, smallest, largest, mean, remainder], change) in ROWS {
        let wanted = Season {
            count: *count,
            sum_low: *sum_low,
            sum_width: *sum_width,
            smallest: *smallest,
            largest: *largest,
            mean: *mean,
            remainder: *remainder,
            change: *change,
        };
        figure("a season", trial.season(pairs)?, Ok(wanted))?;
    }
    for (pairs, number, place) in REFUSED {
        let wanted = SeasonRefusal {
            number: *number,
            place: *place,
        };
        figure("a refused season", trial.season(pairs)?, Err(wanted))?;
    }
    Ok(())
}

/// Every list of up to six numbers among 0, 1, 3, 200 and 201.
fn short(trial: &mut Trial, _: u64) -> Check {
    const NUMBERS: [u16; 5] = [0, 1, 3, 200, 201];
    for length in 0..=6 {
        for mut code in 0..5_usize.pow(length) {
            let mut pairs = Vec::new();
            for _ in 0..length {
                pairs.push(NUMBERS[code % 5]);
                code /= 5;
            }
            let _ = trial.season(&pairs)?;
        }
    }
    Ok(())
}

/// A list of good pairs; sizes of changes meet often where `most` is small.
fn good(trial: &mut Trial, count: usize, most: u16) -> Vec<u16> {
    let mut pairs = Vec::new();
    for _ in 0..count {
        let (a, b) = (trial.rng.range(0, most), trial.rng.range(0, most));
        pairs.extend([a.min(b), a.max(b)]);
    }
    pairs
}

fn any(trial: &mut Trial, item: u64) -> Check {
    let count = 1 + trial.rng.index(if item % 8 == 0 { 600 } else { 12 });
    let most = trial.rng.pick(&[1, 3, 10, 200]);
    let mut pairs = good(trial, count, most);
    let _ = trial.season(&pairs)?;
    // Any numbers at some places, and one number more or less.
    for _ in 0..trial.rng.index(3) {
        let at = trial.rng.index(pairs.len());
        pairs[at] = trial.rng.number() as u16 % 210;
    }
    let _ = trial.season(&pairs)?;
    pairs.pop();
    let _ = trial.season(&pairs)?;
    Ok(())
}

fn longest(trial: &mut Trial, item: u64) -> Check {
    let mut pairs = good(trial, 4096, [200, 1][item as usize % 2]);
    let _ = trial.season(&pairs)?;
    // The greatest change at the end, and one of its size before it.
    pairs[8188..].copy_from_slice(&[0, 0, 200, 200]);
    let _ = trial.season(&pairs)?;
    pairs[..4].copy_from_slice(&[200, 200, 0, 0]);
    let _ = trial.season(&pairs)?;
    pairs[8190] = 201;
    let _ = trial.season(&pairs)?;
    pairs.extend([0, 0]);
    let _ = trial.season(&pairs)?;
    pairs.pop();
    let _ = trial.season(&pairs)?;
    Ok(())
}
