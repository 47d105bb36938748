//! Where each node stands across its row. Each is drawn to the middle of its neighbours; those of a row keep their order and their distance.

use super::order::{Kind, Routes};

/// Room that a node takes beside a box.
const BEND: f64 = 12.0;
const LOOSE_END: f64 = 24.0;
const GAP: f64 = 20.0;
const SWEEPS: usize = 30;

/// The middle of each node, and the width of the whole.
pub fn across(routes: &Routes, box_width: f64) -> (Vec<f64>, f64) {
    let width = |node: usize| match routes.kinds[node] {
        Kind::Box(_) => box_width + GAP,
        Kind::Bend => BEND,
        Kind::LooseEnd => LOOSE_END,
    };
    let mut middle = vec![0.0; routes.kinds.len()];
    for row in &routes.rows {
        let offsets = offsets(row, width);
        let whole: f64 = row.iter().map(|node| width(*node)).sum();
        row.iter()
            .zip(offsets)
            .for_each(|(node, at)| middle[*node] = at - whole / 2.0);
    }
    let around = neighbours(routes);
    for sweep in 0..SWEEPS {
        for step in 0..routes.rows.len() {
            let row = if sweep % 2 == 0 {
                step
            } else {
                routes.rows.len() - 1 - step
            };
            settle(&routes.rows[row], &around, width, &mut middle);
        }
    }
    let edge = |sign: f64| {
        let ends = (0..middle.len()).map(|node| sign * middle[node] + width(node) / 2.0);
        ends.fold(0.0, f64::max)
    };
    let (left, right) = (edge(-1.0), edge(1.0));
    middle.iter_mut().for_each(|at| *at += left);
    (middle, left + right)
}

/// The neighbours of each node with their weights: a straight run of bends counts for more.
fn neighbours(routes: &Routes) -> Vec<Vec<(usize, f64)>> {
    let mut around = vec![Vec::new(); routes.kinds.len()];
    for piece in &routes.pieces {
        let bends = [piece.upper, piece.lower]
            .iter()
            .filter(|node| routes.kinds[**node] == Kind::Bend)
            .count();
        let weight = [1.0, 2.0, 6.0][bends];
        around[piece.upper].push((piece.lower, weight));
        around[piece.lower].push((piece.upper, weight));
    }
    around
}

/// The middles of the nodes of a row that is packed from 0 on.
fn offsets(row: &[usize], width: impl Fn(usize) -> f64) -> Vec<f64> {
    let mut end = 0.0;
    let place = |node: &usize| {
        end += width(*node);
        end - width(*node) / 2.0
    };
    row.iter().map(place).collect()
}

/// Puts the nodes of a row as near as may be to where their neighbours draw them. Nodes that would overlap form a block, which stands at the mean
/// of what its nodes wish for.
fn settle(
    row: &[usize],
    around: &[Vec<(usize, f64)>],
    width: impl Fn(usize) -> f64,
    middle: &mut [f64],
) {
    let offsets = offsets(row, width);
    let mut blocks: Vec<(f64, f64, usize)> = Vec::new();
    for (node, offset) in row.iter().zip(&offsets) {
        let (wish, weight) = drawn(*node, &around[*node], middle);
        let mut block = ((wish - offset) * weight, weight, 1);
        while let Some(before) = blocks.last().copied() {
            if before.0 / before.1 <= block.0 / block.1 {
                break;
            }
            block = (block.0 + before.0, block.1 + before.1, block.2 + before.2);
            blocks.pop();
        }
        blocks.push(block);
    }
    let mut at = 0;
    for (sum, weight, count) in blocks {
        for place in at..at + count {
            middle[row[place]] = sum / weight + offsets[place];
        }
        at += count;
    }
}

/// Where the neighbours draw a node, and how strongly.
fn drawn(node: usize, around: &[(usize, f64)], middle: &[f64]) -> (f64, f64) {
    let weight: f64 = around.iter().map(|(_, weight)| weight).sum();
    let sum: f64 = around
        .iter()
        .map(|(other, weight)| middle[*other] * weight)
        .sum();
    if around.is_empty() {
        (middle[node], 0.1)
    } else {
        (sum / weight, weight)
    }
}
