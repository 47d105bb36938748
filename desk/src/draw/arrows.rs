//! The arrows, piece by piece.

use super::graph::Graph;
use super::layout::Layout;
use super::order::{Kind, Piece, Routes};
use super::svg::{self, Way};
use crate::area::Literal;
use crate::page::Page;

pub struct Arrows<'a> {
    pub page: &'a Page,
    pub graph: &'a Graph,
    pub routes: &'a Routes,
    pub layout: &'a Layout,
}

/// Where a piece meets a node: where across, and whether a number beside it stands farther away, so that it has room beside the next one's.
#[derive(Clone, Copy, Default)]
struct Port {
    x: f64,
    farther: bool,
}

/// The ports in the order of the pieces: at the lower side of the upper node, at the upper side of the lower node.
struct Ports {
    upper: Vec<Port>,
    lower: Vec<Port>,
}

/// Pieces that share a port: where they come from across, whether they lead up, and their numbers.
type Shared = (f64, bool, Vec<usize>);

/// The most room between two ports, and the least between a port and a corner of the box.
const PORT_GAP: f64 = 20.0;
const CORNER: f64 = 12.0;

/// Room for the number at an arrow, and how much farther away every second one stands where there is less.
const NUMBER_WIDTH: f64 = 19.0;
const NUMBER_HEIGHT: f64 = 8.0;

impl Arrows<'_> {
    pub fn drawn(&self) -> String {
        let ports = self.ports();
        let mut out = String::new();
        for (number, piece) in self.routes.pieces.iter().enumerate() {
            out.push_str(&self.piece(piece, ports.upper[number], ports.lower[number]));
        }
        for (node, kind) in self.routes.kinds.iter().enumerate() {
            match kind {
                Kind::Box(_) => {}
                Kind::Bend => out.push_str(&self.bend(node)),
                Kind::LooseEnd => out.push_str(&self.loose_end(node)),
            }
        }
        for arrow in self
            .graph
            .arrows
            .iter()
            .filter(|arrow| arrow.from == arrow.to)
        {
            out.push_str(&self.own_arrow(arrow.from, arrow.negated));
        }
        out
    }

    /// Whether the arrow of a piece ends at this node of it.
    fn ends_at(&self, piece: &Piece, node: usize) -> bool {
        self.routes.kinds[node] == Kind::Box(piece.to) && piece.down == (piece.lower == node)
    }

    fn ports(&self) -> Ports {
        let count = self.routes.pieces.len();
        let mut ports = Ports {
            upper: vec![Port::default(); count],
            lower: vec![Port::default(); count],
        };
        let mut below = vec![Vec::new(); self.routes.kinds.len()];
        let mut above = vec![Vec::new(); self.routes.kinds.len()];
        for (number, piece) in self.routes.pieces.iter().enumerate() {
            below[piece.upper].push((number, piece.lower));
            above[piece.lower].push((number, piece.upper));
        }
        for node in 0..self.routes.kinds.len() {
            self.spread(node, &below[node], &mut ports.upper);
            self.spread(node, &above[node], &mut ports.lower);
        }
        ports
    }

    /// Spreads the ports at one side of a node over its box. `ends` are pieces by number, each with its other node.
    fn spread(&self, node: usize, ends: &[(usize, usize)], at: &mut [Port]) {
        let mut groups = self.shared(node, ends);
        // arrows between the same two boxes lie side by side, those that lead down at the left
        groups.sort_by(|a, b| a.0.total_cmp(&b.0).then(a.1.cmp(&b.1)));
        let gaps = groups.len().saturating_sub(1) as f64;
        let room = match self.routes.kinds[node] {
            Kind::Box(_) => self.layout.box_width - 2.0 * CORNER,
            _ => 0.0,
        };
        let step = (room / gaps.max(1.0)).min(PORT_GAP);
        for (number, (_, _, pieces)) in groups.iter().enumerate() {
            let port = Port {
                x: self.layout.middle[node] + step * (number as f64 - gaps / 2.0),
                farther: step < NUMBER_WIDTH && number % 2 == 1,
            };
            pieces.iter().for_each(|piece| at[*piece] = port);
        }
    }

    /// The pieces at one side of a node by their ports: arrows that end here meet in one port for the plain and one for the negated, arrows that
    /// leave here have one each.
    fn shared(&self, node: usize, ends: &[(usize, usize)]) -> Vec<Shared> {
        let mut groups: Vec<Shared> = Vec::new();
        for negated in [false, true] {
            let ending: Vec<&(usize, usize)> = ends
                .iter()
                .filter(|(number, _)| {
                    let piece = &self.routes.pieces[*number];
                    self.ends_at(piece, node) && piece.negated == negated
                })
                .collect();
            if let Some((first, _)) = ending.first() {
                let sum: f64 = ending.iter().map(|end| self.layout.middle[end.1]).sum();
                let up = !self.routes.pieces[*first].down;
                let numbers = ending.iter().map(|end| end.0).collect();
                groups.push((sum / ending.len() as f64, up, numbers));
            }
        }
        for (number, other) in ends {
            let piece = &self.routes.pieces[*number];
            if !self.ends_at(piece, node) {
                groups.push((self.layout.middle[*other], !piece.down, vec![*number]));
            }
        }
        groups
    }

    /// A piece of an arrow between two rows, with its head if it ends here.
    fn piece(&self, piece: &Piece, upper_port: Port, lower_port: Port) -> String {
        let (upper_x, lower_x) = (upper_port.x, lower_port.x);
        let (from, to) = (
            self.layout.bottom(piece.upper),
            self.layout.top(piece.lower),
        );
        let reach = svg::reach(piece.negated);
        let (mut upper, mut lower) = (from, to);
        let mut end = String::new();
        if self.ends_at(piece, piece.lower) {
            lower -= reach;
            end = svg::end(piece.negated, Way::Down, lower_x, to);
        } else if self.ends_at(piece, piece.upper) {
            upper += reach;
            end = svg::end(piece.negated, Way::Up, upper_x, from);
        }
        let steps = svg::curve((upper_x, upper), (lower_x, lower));
        let line = svg::path(piece.negated, &steps, &self.tip(piece));
        line + &end + &self.far(piece, upper_port, lower_port)
    }

    /// What a browser shows when the pointer rests on an arrow: where it leads.
    fn tip(&self, piece: &Piece) -> String {
        let literal = Literal {
            condition: self.graph.conditions[piece.to],
            negated: piece.negated,
        };
        format!("leads to {}", self.page.literal_label(literal))
    }

    /// What an arrow leads to, as it stands in a rule.
    fn sign(&self, piece: &Piece) -> String {
        let sign = if piece.negated { "!" } else { "" };
        format!("{sign}{}", self.graph.conditions[piece.to])
    }

    /// Where an arrow leads, told where it leaves a box and passes other rows.
    fn far(&self, piece: &Piece, upper: Port, lower: Port) -> String {
        let (source, next, port) = match piece.down {
            true => (piece.upper, piece.lower, upper),
            false => (piece.lower, piece.upper, lower),
        };
        let kinds = &self.routes.kinds;
        if !matches!(kinds[source], Kind::Box(_)) || kinds[next] != Kind::Bend {
            return String::new();
        }
        let more = if port.farther { NUMBER_HEIGHT } else { 0.0 };
        let y = match piece.down {
            true => self.layout.bottom(source) + 11.0 + more,
            false => self.layout.top(source) - 5.0 - more,
        };
        svg::text("far", port.x, y, &self.sign(piece))
    }

    /// A piece at a node.
    fn piece_at(&self, node: usize) -> Option<&Piece> {
        let at = |piece: &&Piece| piece.upper == node || piece.lower == node;
        self.routes.pieces.iter().find(at)
    }

    /// Arrows that pass a row.
    fn bend(&self, node: usize) -> String {
        let Some(piece) = self.piece_at(node) else {
            return String::new();
        };
        let x = svg::number(self.layout.middle[node]);
        let top = svg::number(self.layout.top(node));
        let bottom = svg::number(self.layout.bottom(node));
        svg::path(
            piece.negated,
            &format!("M{x} {top}V{bottom}"),
            &self.tip(piece),
        )
    }

    /// The loose end of arrows: what they lead to.
    fn loose_end(&self, node: usize) -> String {
        let Some(piece) = self.piece_at(node) else {
            return String::new();
        };
        let y = match piece.down {
            true => self.layout.top(node) + 9.0,
            false => self.layout.bottom(node) - 3.0,
        };
        svg::text("far", self.layout.middle[node], y, &self.sign(piece))
    }

    /// The arrow of a condition that names itself: at the left side of its box, or at the right side if it names its negation.
    fn own_arrow(&self, node: usize, negated: bool) -> String {
        let (side, way) = match negated {
            false => (-1.0, Way::Right),
            true => (1.0, Way::Left),
        };
        let x = self.layout.middle[node] + side * self.layout.box_width / 2.0;
        let (from, to) = (self.layout.top(node) + 10.0, self.layout.top(node) + 26.0);
        let reach = svg::reach(negated);
        let steps = format!(
            "M{} {}H{}V{}H{}",
            svg::number(x),
            svg::number(from),
            svg::number(x + side * (reach + 3.0)),
            svg::number(to),
            svg::number(x + side * reach)
        );
        svg::path(negated, &steps, "leads back to its own box") + &svg::end(negated, way, x, to)
    }
}
