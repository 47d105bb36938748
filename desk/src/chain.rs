//! The way from a condition back to itself through a negation, line by line. That there is one, the engine says.

use std::collections::VecDeque;

use crate::area::Literal;
use crate::page::Page;

/// A step of the way: the line of a rule, and the literal in it that leads on.
#[derive(Clone, Copy)]
pub struct Step {
    pub line: usize,
    pub literal: Literal,
}

/// A place on the way: a condition, and whether a negation was passed.
type Place = (usize, bool);

/// A shortest way from a condition back to it with a negation on it.
pub fn back_to(page: &Page, condition: usize) -> Vec<Step> {
    let mut came: Vec<Option<(Place, Step)>> = vec![None; 2 * page.conditions];
    let index = |place: Place| 2 * place.0 + usize::from(place.1);
    let start = (condition, false);
    let mut waiting = VecDeque::from([start]);
    while let Some(place) = waiting.pop_front() {
        for step in steps(page, place.0) {
            let next = (step.literal.condition, place.1 || step.literal.negated);
            if came[index(next)].is_none() {
                came[index(next)] = Some((place, step));
                waiting.push_back(next);
            }
        }
    }
    let mut way = Vec::new();
    let mut place = (condition, true);
    while place != start {
        let Some((before, step)) = came[index(place)] else {
            return Vec::new();
        };
        way.insert(0, step);
        place = before;
    }
    way
}

/// The steps that the rules of a condition allow.
fn steps(page: &Page, condition: usize) -> Vec<Step> {
    let mut steps = Vec::new();
    for (line, head, literals) in page.rules() {
        if head == condition {
            steps.extend(literals.iter().map(|literal| Step {
                line,
                literal: *literal,
            }));
        }
    }
    steps
}
