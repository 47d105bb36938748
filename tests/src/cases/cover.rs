//! The covering rule: exact, unrounded figures of a page lie within its plain intervals.

use crate::area::{encode, without_defaults};
use crate::body::Pair;
use crate::gen;
use crate::page::{Line, Literal, Op, Page, OPS, TOP_MAX};
use crate::runner::Case;
use crate::trial::{figure, Check, Trial};

pub fn cases() -> Vec<Case> {
    let case = |name, items, each| Case {
        name,
        items,
        each,
        must_see: &[
            ("drive", 1),
            ("value", 1),
            ("a figure between two grades", 1),
        ],
    };
    vec![
        case("plain_answers_cover_exact_fractions", 6_000, without_loops),
        case(
            "plain_answers_cover_the_figure_of_a_loop",
            u64::from(TOP_MAX),
            self_denial,
        ),
    ]
}

/// A fraction of two whole numbers, in lowest terms.
#[derive(Clone, Copy, Debug)]
struct Fraction {
    above: u128,
    below: u128,
}

fn common_divisor(a: u128, b: u128) -> u128 {
    match b {
        0 => a,
        _ => common_divisor(b, a % b),
    }
}

/// Operations give none where a number does not fit.
impl Fraction {
    fn new(above: u128, below: u128) -> Fraction {
        let divisor = common_divisor(above, below);
        Fraction {
            above: above / divisor,
            below: below / divisor,
        }
    }

    fn whole(number: u16) -> Fraction {
        Fraction::new(number.into(), 1)
    }

    fn at_most(self, other: Fraction) -> Option<bool> {
        Some(self.above.checked_mul(other.below)? <= other.above.checked_mul(self.below)?)
    }

    fn smaller(self, other: Fraction) -> Option<Fraction> {
        Some(if self.at_most(other)? { self } else { other })
    }

    fn larger(self, other: Fraction) -> Option<Fraction> {
        Some(if self.at_most(other)? { other } else { self })
    }

    fn plus(self, other: Fraction) -> Option<Fraction> {
        let above = self.above.checked_mul(other.below)?;
        let above = above.checked_add(other.above.checked_mul(self.below)?)?;
        Some(Fraction::new(above, self.below.checked_mul(other.below)?))
    }

    /// The difference, at least 0.
    fn less(self, other: Fraction) -> Option<Fraction> {
        let above = self.above.checked_mul(other.below)?;
        let above = above.saturating_sub(other.above.checked_mul(self.below)?);
        Some(Fraction::new(above, self.below.checked_mul(other.below)?))
    }

    fn times(self, other: Fraction) -> Option<Fraction> {
        let above = self.above.checked_mul(other.above)?;
        Some(Fraction::new(above, self.below.checked_mul(other.below)?))
    }

    /// Whether it lies within an interval.
    fn within(self, pair: Pair) -> Option<bool> {
        let (low, high) = (Fraction::whole(pair.low), Fraction::whole(pair.high));
        Some(low.at_most(self)? && self.at_most(high)?)
    }
}

fn combine(op: Op, top: u16, p: Fraction, q: Fraction) -> Option<Fraction> {
    let whole = Fraction::whole(top);
    match op {
        Op::M => p.smaller(q),
        Op::X => p.larger(q),
        Op::L => p.plus(q)?.less(whole),
        Op::B => p.plus(q)?.smaller(whole),
        Op::P => p.times(q)?.times(Fraction::new(1, top.into())),
    }
}

/// The exact value of a rule at the figures of its literals.
fn rule_value(
    top: u16,
    weight: u16,
    op: Op,
    body: &[Literal],
    figures: &[Fraction],
) -> Option<Fraction> {
    let mut result = None;
    for literal in body {
        let figure = figures[usize::from(literal.cond)];
        let value = match literal.negated {
            true => Fraction::whole(top).less(figure)?,
            false => figure,
        };
        result = Some(match result {
            None => value,
            Some(so_far) => combine(op, top, so_far, value)?,
        });
    }
    result?.times(Fraction::new(weight.into(), top.into()))
}

/// Whether a condition has an F or R line.
fn has_body(page: &Page, cond: u16) -> bool {
    page.lines.iter().any(|line| match line {
        Line::Fact { cond: head, .. } | Line::Rule { head, .. } => *head == cond,
        Line::Query { .. } | Line::Default { .. } => false,
    })
}

/// The exact figures of a page whose rules name only conditions above their head, with one grade chosen in each F line, and a fraction
/// for each condition that may take any.
fn exact(page: &Page, chosen: &[u16], any: &[Fraction]) -> Option<Vec<Fraction>> {
    let mut figures = vec![Fraction::whole(0); usize::from(page.count)];
    for cond in (0..page.count).rev() {
        if page.unknown_by_default(cond) && !has_body(page, cond) {
            figures[usize::from(cond)] = any[usize::from(cond)];
        }
        for (line, grade) in page.lines.iter().zip(chosen) {
            let value = match line {
                Line::Fact { cond: head, .. } if *head == cond => Fraction::whole(*grade),
                Line::Rule {
                    head,
                    weight,
                    op,
                    body,
                } if *head == cond => rule_value(page.top, *weight, *op, body, &figures)?,
                _ => continue,
            };
            let so_far = figures[usize::from(cond)];
            figures[usize::from(cond)] = so_far.larger(value)?;
        }
    }
    Some(figures)
}

/// A page without loops.
fn layered(trial: &mut Trial) -> Page {
    let rng = &mut trial.rng;
    let top = rng.pick(&[1, 2, 3, 7, 10, 10, 12, 200]);
    let count = rng.range(2, 6);
    let mut lines = Vec::new();
    for cond in 0..count {
        for _ in 0..rng.below(3) {
            if cond + 1 == count || rng.percent(30) {
                let (low, high) = gen::interval(rng, top);
                lines.push(Line::Fact { cond, low, high });
                continue;
            }
            let body = (0..rng.range(1, 3))
                .map(|_| Literal {
                    cond: rng.range(cond + 1, count - 1),
                    negated: rng.percent(35),
                })
                .collect();
            lines.push(Line::Rule {
                head: cond,
                weight: rng.range(1, top),
                op: rng.pick(&OPS),
                body,
            });
        }
    }
    gen::shuffle(rng, &mut lines);
    let mut page = Page { top, count, lines };
    gen::add_defaults(rng, &mut page);
    page
}

/// Any fraction from 0 to top.
fn any_fraction(trial: &mut Trial, top: u16) -> Fraction {
    let below = trial.rng.range(1, 30);
    let above = trial.rng.below(u64::from(top) * u64::from(below) + 1);
    Fraction::new(above.into(), below.into())
}

/// The plain interval of a condition, from a run driven to rest.
fn plain(trial: &mut Trial, area: &[u16], cond: u16) -> Check<Pair> {
    let mut run = trial.rubbish(3 * usize::from(area[1]));
    let opened = trial.open(area, &[cond], &mut run)?;
    let bound = opened.map_err(|number| format!("refused {number}"))?.bound;
    let driven = trial.drive(area, &mut run, bound)?;
    figure("at rest", driven.map(|driven| driven.rest), Ok(true))?;
    let valued = trial.value(area, &run, cond.into())?;
    let valued = valued.map_err(|number| format!("refused {number}"))?;
    Ok(Pair::new(valued.low, valued.high))
}

fn covers(trial: &mut Trial, what: &dyn Fn() -> String, pair: Pair, exact: Fraction) -> Check {
    trial.saw("a figure between two grades", (exact.below > 1).into());
    match exact.within(pair) {
        Some(false) => Err(format!("{exact:?} is not within {pair:?}: {}", what())),
        _ => Ok(()),
    }
}

fn without_loops(trial: &mut Trial, _: u64) -> Check {
    trial.pages += 1;
    let page = layered(trial);
    let area = encode(&page);
    let chosen: Vec<u16> = page
        .lines
        .iter()
        .map(|line| match line {
            Line::Fact { low, high, .. } => trial.rng.range(*low, *high),
            _ => 0,
        })
        .collect();
    let any: Vec<Fraction> = (0..page.count)
        .map(|_| any_fraction(trial, page.top))
        .collect();
    // Figures that do not fit are left out.
    let Some(figures) = exact(&page, &chosen, &any) else {
        return Ok(());
    };
    for (cond, exact) in (0..page.count).zip(figures) {
        let pair = plain(trial, &area, cond)?;
        let what = || format!("condition {cond} of {page:?} with {chosen:?}");
        covers(trial, &what, pair, exact)?;
    }
    Ok(())
}

/// A condition that rests on its own absence under weight w: x = w × (top − x) / top, so x = w × top / (top + w).
fn self_denial(trial: &mut Trial, item: u64) -> Check {
    let top = item as u16 + 1;
    for weight in 1..=top {
        trial.pages += 1;
        let area = without_defaults(top, 1, 1, &[0, 1, weight, 1, 1]);
        let pair = plain(trial, &area, 0)?;
        let (w, t) = (u128::from(weight), u128::from(top));
        let what = || format!("weight {weight} at top {top}");
        covers(trial, &what, pair, Fraction::new(w * t, t + w))?;
    }
    Ok(())
}
