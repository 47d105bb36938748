//! The check of a simulator's picks and figures (document 02, ticket 9), by the book and the plain reading: section "Picks".

use crate::answer::*;
use crate::area::decode;
use crate::book::Book;
use crate::page::Page;
use crate::plain::{self, check_queries};

/// The plain answers of the queries: low, high of each, in list order.
pub fn plain_figures(page: &Page, queries: &[u16]) -> Vec<u16> {
    let reading = plain::reading(page);
    let answers = queries.iter().map(|query| reading[usize::from(*query)]);
    answers.flat_map(|pair| [pair.low, pair.high]).collect()
}

/// The check of picks and figures.
pub fn check(
    page_area: &[u16],
    queries: &[u16],
    picks: &[u16],
    figures: &[u16],
) -> Result<(), PicksRefusal> {
    let refuse = |number, place| Err(PicksRefusal { number, place });
    let Some(page) = decode(page_area) else {
        return refuse(PAGE_UNSOUND, 0);
    };
    if let Err(number) = check_queries(&page, queries) {
        return refuse(number, 0);
    }
    let mut book = Book::new(&page, queries);
    for (pick, place) in picks.iter().zip(1..) {
        if book.evaluate(u32::from(*pick)).is_err() {
            return refuse(PICK_NOT_WAITING, place);
        }
    }
    if !book.at_rest() {
        return refuse(PICKS_NOT_AT_REST, 0);
    }
    if figures != plain_figures(&page, queries) {
        return refuse(FIGURES_WRONG, 0);
    }
    Ok(())
}
