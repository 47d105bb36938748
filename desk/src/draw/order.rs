//! The order in each row. An arrow over more than one row bends in each row between; arrows to one condition share their bends, so that they
//! run together. The order is improved by sweeps that put each node in the middle of its neighbours, and the one with the fewest crossings is kept.

use std::collections::{BTreeMap, BTreeSet};

use super::graph::{Arrow, Graph};

/// A place in a row: the box of a condition, the bend of arrows to a condition, or the loose end of such arrows, which are then not drawn further.
#[derive(Clone, Copy, PartialEq, Eq)]
pub enum Kind {
    Box(usize),
    Bend,
    LooseEnd,
}

/// A piece of an arrow between a row and the next one: both nodes, and what the arrow leads to.
#[derive(Clone, Copy, PartialEq, Eq, PartialOrd, Ord)]
pub struct Piece {
    pub upper: usize,
    pub lower: usize,
    pub to: usize,
    pub negated: bool,
    pub down: bool,
}

pub struct Routes {
    pub kinds: Vec<Kind>,
    /// The nodes of each row from the left.
    pub rows: Vec<Vec<usize>>,
    pub pieces: Vec<Piece>,
}

/// Sweeps over all rows.
const SWEEPS: usize = 24;

/// The most bends of a picture. Where there would be more, no one could follow them: the arrows over the most rows get a loose end.
const BENDS_MAX: usize = 4000;

impl Routes {
    pub fn of(graph: &Graph, rows: Vec<Vec<usize>>) -> Routes {
        let mut routes = laid(graph, rows);
        routes.improve();
        routes
    }

    fn improve(&mut self) {
        let mut best = self.rows.clone();
        let mut fewest = self.crossings();
        for sweep in 0..SWEEPS {
            self.sweep(sweep % 2 == 0);
            let crossings = self.crossings();
            if crossings < fewest {
                fewest = crossings;
                best = self.rows.clone();
            }
        }
        self.rows = best;
    }

    /// Goes through the rows, down or up, and orders each by the middle of the neighbours in the row before.
    fn sweep(&mut self, down: bool) {
        let count = self.rows.len();
        let mut neighbours = vec![Vec::new(); self.kinds.len()];
        for piece in &self.pieces {
            let (before, after) = if down {
                (piece.upper, piece.lower)
            } else {
                (piece.lower, piece.upper)
            };
            neighbours[after].push(before);
        }
        let mut place = self.places();
        for step in 0..count {
            let row = if down { step } else { count - 1 - step };
            let middle = |node: &usize| {
                let around = &neighbours[*node];
                let sum: f64 = around.iter().map(|other| place[*other]).sum();
                if around.is_empty() {
                    place[*node]
                } else {
                    sum / around.len() as f64
                }
            };
            let mut keyed: Vec<(f64, usize)> = self.rows[row]
                .iter()
                .map(|node| (middle(node), *node))
                .collect();
            keyed.sort_by(|a, b| a.0.total_cmp(&b.0));
            self.rows[row] = keyed.into_iter().map(|(_, node)| node).collect();
            set_places(&self.rows[row], &mut place);
        }
    }

    /// Where each node stands in its row, from 0 to 1.
    fn places(&self) -> Vec<f64> {
        let mut place = vec![0.0; self.kinds.len()];
        self.rows.iter().for_each(|row| set_places(row, &mut place));
        place
    }

    /// How often pieces cross, between all rows.
    fn crossings(&self) -> usize {
        let mut at = vec![(0, 0); self.kinds.len()];
        for (row, nodes) in self.rows.iter().enumerate() {
            nodes
                .iter()
                .enumerate()
                .for_each(|(place, node)| at[*node] = (row, place));
        }
        let mut between = vec![Vec::new(); self.rows.len()];
        for piece in &self.pieces {
            let (row, upper) = at[piece.upper];
            between[row].push((upper, at[piece.lower].1));
        }
        between.into_iter().map(crossings_between).sum()
    }
}

fn set_places(row: &[usize], place: &mut [f64]) {
    for (at, node) in row.iter().enumerate() {
        place[*node] = (at as f64 + 0.5) / row.len() as f64;
    }
}

/// The crossings of pieces between two rows, each piece as its places in both: pairs whose orders differ, counted by a tree of sums.
fn crossings_between(mut pieces: Vec<(usize, usize)>) -> usize {
    pieces.sort_unstable();
    let most = pieces.iter().map(|piece| piece.1 + 1).max().unwrap_or(0);
    let mut sums = vec![0; most + 1];
    let mut crossings = 0;
    for (seen, (_, lower)) in pieces.into_iter().enumerate() {
        let mut at = lower + 1;
        let mut before = 0;
        while at > 0 {
            before += sums[at];
            at &= at - 1;
        }
        crossings += seen - before;
        at = lower + 1;
        while at <= most {
            sums[at] += 1;
            at += at & at.wrapping_neg();
        }
    }
    crossings
}

/// The nodes and pieces of all arrows between rows. The nodes of the boxes come first, in the order of the graph.
fn laid(graph: &Graph, rows: Vec<Vec<usize>>) -> Routes {
    let mut row_of = vec![0; graph.conditions.len()];
    for (row, places) in rows.iter().enumerate() {
        places.iter().for_each(|place| row_of[*place] = row);
    }
    let mut routes = Routes {
        kinds: (0..graph.conditions.len()).map(Kind::Box).collect(),
        rows,
        pieces: Vec::new(),
    };
    let farthest = farthest(graph, &row_of);
    let mut bends = BTreeMap::new();
    let mut pieces = BTreeSet::new();
    for arrow in graph.arrows.iter().filter(|arrow| arrow.from != arrow.to) {
        let down = row_of[arrow.from] < row_of[arrow.to];
        let mut way = between(row_of[arrow.from], row_of[arrow.to]);
        let loose = way.len() > farthest;
        way.truncate(if loose { 1 } else { farthest });
        let kind = if loose { Kind::LooseEnd } else { Kind::Bend };
        let mut before = arrow.from;
        for row in way {
            let bend = *bends
                .entry((arrow.to, arrow.negated, down, row, loose))
                .or_insert_with(|| {
                    routes.kinds.push(kind);
                    routes.rows[row].push(routes.kinds.len() - 1);
                    routes.kinds.len() - 1
                });
            pieces.insert(piece(arrow, before, bend, down));
            before = bend;
        }
        if !loose {
            pieces.insert(piece(arrow, before, arrow.to, down));
        }
    }
    routes.pieces = pieces.into_iter().collect();
    routes
}

/// How many rows an arrow may pass without a loose end: as many as keep the bends within their limit.
fn farthest(graph: &Graph, row_of: &[usize]) -> usize {
    let mut passed = vec![0; row_of.len() + 1];
    for arrow in &graph.arrows {
        passed[between(row_of[arrow.from], row_of[arrow.to]).len()] += 1;
    }
    let mut bends = 0;
    for (rows, arrows) in passed.iter().enumerate() {
        bends += rows * arrows;
        if bends > BENDS_MAX {
            return rows.saturating_sub(1).max(1);
        }
    }
    row_of.len()
}

/// The rows between two, in the order from the first.
fn between(from: usize, to: usize) -> Vec<usize> {
    match from < to {
        true => (from + 1..to).collect(),
        false => (to + 1..from).rev().collect(),
    }
}

fn piece(arrow: &Arrow, before: usize, after: usize, down: bool) -> Piece {
    let (upper, lower) = if down {
        (before, after)
    } else {
        (after, before)
    };
    Piece {
        upper,
        lower,
        to: arrow.to,
        negated: arrow.negated,
        down,
    }
}
