//! The named cases.

mod areas;
mod closed;
mod cover;
mod defaults;
mod figures;
mod followers;
mod grades;
pub mod large;
mod layers;
mod lists;
mod picks;
mod reader;
mod refusals;
mod rows;
mod runs;
mod season;
mod small;
pub mod stack;
mod stalls;
mod thresholds;

use crate::runner::Case;

pub fn all() -> Vec<Case> {
    let mut cases = calls();
    cases.extend(stack::cases());
    cases
}

/// Every case but those that measure the stack, which a build with checks of its own changes.
pub fn calls() -> Vec<Case> {
    let mut cases = figures::cases();
    cases.extend(rows::cases());
    cases.extend(grades::cases());
    cases.extend(reader::cases());
    cases.extend(areas::cases());
    cases.extend(refusals::cases());
    cases.extend(runs::cases());
    cases.extend(closed::cases());
    cases.extend(defaults::cases());
    cases.extend(cover::cases());
    cases.extend(layers::cases());
    cases.extend(picks::cases());
    cases.extend(stalls::cases());
    cases.extend(followers::cases());
    cases.extend(small::cases());
    cases.extend(season::cases());
    cases.extend(thresholds::cases());
    cases.extend(lists::cases());
    cases.extend(large::cases());
    cases
}
