//! A season's figures (document 02, ticket 14), each by itself over the whole list: section "A season's figures".

use crate::answer::*;

/// What is wrong with a list, if anything.
fn refusal(numbers: &[u16]) -> Option<SeasonRefusal> {
    if numbers.len() % 2 == 1 || !(1..=4096).contains(&(numbers.len() / 2)) {
        return Some(SeasonRefusal {
            number: SEASON_LENGTH,
            place: 0,
        });
    }
    let bad = |pair: &[u16]| pair[0] > pair[1] || pair[1] > 200;
    let at = numbers.chunks(2).position(bad)?;
    Some(SeasonRefusal {
        number: SEASON_PAIR,
        place: at as u32 + 1,
    })
}

pub fn season(numbers: &[u16]) -> Result<Season, SeasonRefusal> {
    if let Some(refusal) = refusal(numbers) {
        return Err(refusal);
    }
    let lows: Vec<u32> = numbers
        .iter()
        .step_by(2)
        .map(|low| u32::from(*low))
        .collect();
    let highs: Vec<u32> = numbers
        .iter()
        .skip(1)
        .step_by(2)
        .map(|high| u32::from(*high))
        .collect();
    let count = lows.len() as u32;
    let sum_low = lows.iter().sum();
    let changes: Vec<i32> = lows
        .windows(2)
        .map(|two| two[1] as i32 - two[0] as i32)
        .collect();
    let size = changes.iter().map(|change| change.abs()).max().unwrap_or(0);
    let greatest = changes.iter().find(|change| change.abs() == size);
    Ok(Season {
        count,
        sum_low,
        sum_width: highs.iter().sum::<u32>() - sum_low,
        smallest: *lows.iter().min().unwrap(),
        largest: *highs.iter().max().unwrap(),
        mean: sum_low / count,
        remainder: sum_low % count,
        change: greatest.copied().unwrap_or(0),
    })
}
