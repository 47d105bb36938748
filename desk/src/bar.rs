//! An interval as a bar from 0 to top.

use crate::area::Interval;

/// What a bar in text means.
pub const KEY: &str = "# at least, = open, . excluded";

/// The parts of a bar of some width: what is at least so, and what is open. An open part is never left out.
pub fn parts(interval: Interval, top: u16, width: usize) -> (usize, usize) {
    let top = usize::from(top);
    let cells = |grade: u16| (usize::from(grade) * width + top / 2) / top;
    let (sure, end) = (cells(interval.low), cells(interval.high));
    match interval.low < interval.high && sure == end {
        true if end == width => (width - 1, 1),
        true => (sure, 1),
        false => (sure, end - sure),
    }
}

/// A bar in text.
pub fn text(interval: Interval, top: u16, width: usize) -> String {
    let (sure, open) = parts(interval, top, width);
    let excluded = width - sure - open;
    format!(
        "|{}{}{}|",
        "#".repeat(sure),
        "=".repeat(open),
        ".".repeat(excluded)
    )
}
