//! Where everything stands: rows from the top, nodes across them.

use super::boxes::Boxes;
use super::order::Routes;
use super::place;
use super::rows::Band;

/// Room at the left for the labels of bands, at the other sides, and between bands.
const LEFT: f64 = 92.0;
pub const MARGIN: f64 = 20.0;
pub const BAND_GAP: f64 = 22.0;
const LEAST_WIDTH: f64 = 640.0;

pub struct Layout {
    /// The middle of each node, and its row.
    pub middle: Vec<f64>,
    pub row_of: Vec<usize>,
    /// The top of each row.
    pub tops: Vec<f64>,
    pub box_width: f64,
    pub box_height: f64,
    pub width: f64,
    pub height: f64,
}

impl Layout {
    /// The layout of a picture whose first band begins below what `head` says for its width.
    pub fn new(
        boxes: &Boxes,
        bands: &[Band],
        routes: &Routes,
        head: impl Fn(f64) -> f64,
    ) -> Layout {
        let (mut middle, wide) = place::across(routes, boxes.width);
        let width = (LEFT + wide + MARGIN).max(LEAST_WIDTH).ceil();
        let shift = LEFT + (width - LEFT - MARGIN - wide) / 2.0;
        middle.iter_mut().for_each(|at| *at += shift);
        let mut row_of = vec![0; routes.kinds.len()];
        for (row, nodes) in routes.rows.iter().enumerate() {
            nodes.iter().for_each(|node| row_of[*node] = row);
        }
        let first = head(width);
        let tops = tops(bands, routes, &row_of, boxes.height, first);
        let last = tops.last().map_or(first, |top| top + boxes.height);
        Layout {
            middle,
            row_of,
            tops,
            box_width: boxes.width,
            box_height: boxes.height,
            width,
            height: last + BAND_GAP + MARGIN,
        }
    }

    /// The top and the bottom of a node's row.
    pub fn top(&self, node: usize) -> f64 {
        self.tops[self.row_of[node]]
    }

    pub fn bottom(&self, node: usize) -> f64 {
        self.top(node) + self.box_height
    }
}

/// The top of each row. The more arrows there are between two rows, the more room they have.
fn tops(bands: &[Band], routes: &Routes, row_of: &[usize], height: f64, first: f64) -> Vec<f64> {
    let mut pieces = vec![0.0f64; routes.rows.len()];
    for piece in &routes.pieces {
        pieces[row_of[piece.upper]] += 1.0;
    }
    let mut tops = Vec::new();
    let mut y = first;
    for band in bands {
        y += BAND_GAP;
        for _ in &band.rows {
            y += tops.len().checked_sub(1).map_or(0.0, |row: usize| {
                height + (30.0 + 1.2 * pieces[row]).clamp(40.0, 130.0)
            });
            tops.push(y);
        }
    }
    tops
}
