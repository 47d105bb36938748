//! Loops through an absence and layers (document 02, ticket 3), by who reaches whom: section "Layers".

use crate::answer::*;
use crate::area::decode;
use crate::page::{Line, Page};

/// A naming step.
#[derive(Clone, Copy)]
struct Step {
    from: usize,
    to: usize,
    negated: bool,
}

fn steps(page: &Page) -> Vec<Step> {
    let mut out = Vec::new();
    for line in &page.lines {
        if let Line::Rule { head, body, .. } = line {
            out.extend(body.iter().map(|literal| Step {
                from: usize::from(*head),
                to: usize::from(literal.cond),
                negated: literal.negated,
            }));
        }
    }
    out
}

/// A set of up to 512 conditions.
type Set = [u64; 8];

fn has(set: &Set, cond: usize) -> bool {
    set[cond / 64] >> (cond % 64) & 1 == 1
}

fn insert(set: &mut Set, cond: usize) {
    set[cond / 64] |= 1 << (cond % 64);
}

/// Whom each condition reaches by naming steps, itself included: Warshall's closure.
fn reached(count: usize, steps: &[Step]) -> Vec<Set> {
    let mut sets = vec![[0; 8]; count];
    for (cond, set) in sets.iter_mut().enumerate() {
        insert(set, cond);
    }
    for step in steps {
        insert(&mut sets[step.from], step.to);
    }
    for middle in 0..count {
        let through = sets[middle];
        for set in &mut sets {
            if has(set, middle) {
                for (word, more) in set.iter_mut().zip(through) {
                    *word |= more;
                }
            }
        }
    }
    sets
}

/// The layers of a page, or the lowest condition from which a chain through a negation leads back.
pub fn layers(page: &Page) -> Result<Vec<u16>, u16> {
    let count = usize::from(page.count);
    let steps = steps(page);
    let reached = reached(count, &steps);
    let together = |a: usize, b: usize| has(&reached[a], b) && has(&reached[b], a);
    // A chain leads from c back through the negation of a step exactly if both its ends lie in one strong component with c.
    let mut looping = [0; 8];
    for step in &steps {
        if step.negated && together(step.from, step.to) && !has(&looping, step.from) {
            for cond in (0..count).filter(|cond| together(step.from, *cond)) {
                insert(&mut looping, cond);
            }
        }
    }
    if let Some(lowest) = (0..count).find(|cond| has(&looping, *cond)) {
        return Err(lowest as u16);
    }
    // The most negations on a chain: the components in the order of how much they reach, each after those that it names.
    let size = |cond: usize| {
        reached[cond]
            .iter()
            .map(|word| word.count_ones())
            .sum::<u32>()
    };
    let mut order: Vec<usize> = (0..count).collect();
    order.sort_by_key(|cond| size(*cond));
    let mut out = vec![0; count];
    for cond in order {
        let highest = steps
            .iter()
            .filter(|step| together(step.from, cond) && !together(step.to, cond))
            .map(|step| out[step.to] + u16::from(step.negated))
            .max();
        out[cond] = highest.unwrap_or(0);
    }
    Ok(out)
}

/// The check of a page area.
pub fn check(page_area: &[u16], slice: &mut [u16]) -> Result<(), LayersRefusal> {
    let refuse = |number| {
        Err(LayersRefusal {
            number,
            condition: 0,
        })
    };
    let Some(page) = decode(page_area) else {
        return refuse(PAGE_UNSOUND);
    };
    let count = usize::from(page.count);
    if slice.len() < count {
        return refuse(LAYERS_SHORT);
    }
    match layers(&page) {
        Ok(layers) => {
            slice[..count].copy_from_slice(&layers);
            Ok(())
        }
        Err(condition) => Err(LayersRefusal {
            number: NEGATED_LOOP,
            condition: u32::from(condition),
        }),
    }
}
