//! What is drawn: the conditions that the page speaks of, and which names which.

use crate::page::Page;

/// A rule of one condition names another, plain or negated. Conditions are told by their place in `Graph::conditions`.
#[derive(Clone, Copy, PartialEq, Eq, PartialOrd, Ord)]
pub struct Arrow {
    pub from: usize,
    pub to: usize,
    pub negated: bool,
}

pub struct Graph {
    /// The conditions with a line, or named in one.
    pub conditions: Vec<usize>,
    /// The arrows, each once, in order.
    pub arrows: Vec<Arrow>,
}

impl Graph {
    pub fn of(page: &Page) -> Graph {
        let spoken_of =
            |c: &usize| !page.own_lines(*c).is_empty() || !page.naming_lines(*c).is_empty();
        let conditions: Vec<usize> = (0..page.conditions).filter(spoken_of).collect();
        let mut place = vec![0; page.conditions];
        for (at, condition) in conditions.iter().enumerate() {
            place[*condition] = at;
        }
        let mut arrows = Vec::new();
        for (_, head, literals) in page.rules() {
            arrows.extend(literals.iter().map(|literal| Arrow {
                from: place[head],
                to: place[literal.condition],
                negated: literal.negated,
            }));
        }
        arrows.sort();
        arrows.dedup();
        Graph { conditions, arrows }
    }

    /// The conditions that a condition names, by place; not itself.
    pub fn named_by(&self, from: usize) -> impl Iterator<Item = usize> + '_ {
        let own = move |arrow: &&Arrow| arrow.from == from && arrow.to != from;
        self.arrows.iter().filter(own).map(|arrow| arrow.to)
    }
}
