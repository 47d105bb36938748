//! Random and structured pages, lists of trials, run areas and arguments.

use crate::area::{NOT_REACHED_MARK, REACHED_MARK, WAITING_MARK};
use crate::list::{Tried, TRIAL_MAX};
use crate::page::*;
use crate::rng::Rng;

/// How large a page is.
#[derive(Clone, Copy, Debug, PartialEq, Eq)]
pub enum Size {
    /// Up to 8 conditions and 24 lines.
    Small,
    /// Up to 40 conditions and 120 lines.
    Medium,
    /// Up to 512 conditions and 1,024 lines.
    Large,
    /// 512 conditions, 1,024 lines, 8 literals in each rule, top 200.
    Limit,
}

/// The make-up of a random page.
struct Plan {
    top: u16,
    count: u16,
    lines: usize,
    facts: u64,
    queries: u64,
    negated: u64,
    full_weight: u64,
    literals: (u16, u16),
    ops: Vec<Op>,
    /// Heads come from the first conditions only, so that some conditions have no line.
    heads: u16,
}

pub fn top(rng: &mut Rng) -> u16 {
    match rng.below(10) {
        0 => 1,
        1 => 2,
        2 => 3,
        3..=5 => 10,
        6 => 199,
        7 => 200,
        _ => rng.range(1, 200),
    }
}

fn plan(rng: &mut Rng, size: Size) -> Plan {
    let count = match size {
        Size::Small => rng.range(1, 8),
        Size::Medium => rng.range(2, 40),
        Size::Large => rng.range(100, CONDITIONS_MAX),
        Size::Limit => CONDITIONS_MAX,
    };
    let lines = match size {
        Size::Small => rng.index(25),
        Size::Medium => rng.index(121),
        Size::Large => 200 + rng.index(LINES_MAX - 199),
        Size::Limit => LINES_MAX,
    };
    let ops = match rng.below(4) {
        0 => vec![Op::M, Op::X],
        1 => vec![rng.pick(&OPS)],
        _ => OPS.to_vec(),
    };
    Plan {
        top: if size == Size::Limit {
            TOP_MAX
        } else {
            top(rng)
        },
        count,
        lines,
        facts: if size == Size::Limit {
            0
        } else {
            rng.pick(&[0, 10, 25, 60])
        },
        queries: if size == Size::Limit {
            0
        } else {
            rng.pick(&[0, 5, 20])
        },
        negated: rng.pick(&[0, 10, 30, 50, 100]),
        full_weight: rng.pick(&[0, 50, 90, 100]),
        literals: match size {
            Size::Limit => (8, 8),
            _ => rng.pick(&[(1, 1), (1, 2), (1, 3), (1, 8), (8, 8)]),
        },
        ops,
        heads: if rng.percent(70) {
            count
        } else {
            rng.range(1, count)
        },
    }
}

/// A pair with low at or under high.
pub fn interval(rng: &mut Rng, top: u16) -> (u16, u16) {
    let (a, b) = (rng.range(0, top), rng.range(0, top));
    match rng.below(6) {
        0 => (a, a),
        1 => (0, a),
        2 => (a, top),
        3 => (0, top),
        _ => (a.min(b), a.max(b)),
    }
}

fn literal(rng: &mut Rng, count: u16, negated: u64) -> Literal {
    Literal {
        cond: rng.range(0, count - 1),
        negated: rng.percent(negated),
    }
}

fn line(rng: &mut Rng, plan: &Plan) -> Line {
    let kind = rng.below(100);
    if kind < plan.queries {
        return query_line(rng, plan.count);
    }
    let head = rng.range(0, plan.heads - 1);
    if kind < plan.queries + plan.facts {
        let (low, high) = interval(rng, plan.top);
        return Line::Fact {
            cond: head,
            low,
            high,
        };
    }
    let n = rng.range(plan.literals.0, plan.literals.1);
    Line::Rule {
        head,
        weight: if rng.percent(plan.full_weight) {
            plan.top
        } else {
            rng.range(1, plan.top)
        },
        op: rng.pick(&plan.ops),
        body: (0..n)
            .map(|_| literal(rng, plan.count, plan.negated))
            .collect(),
    }
}

fn query_line(rng: &mut Rng, count: u16) -> Line {
    Line::Query {
        closed: rng.percent(50),
        cond: rng.range(0, count - 1),
    }
}

pub fn page(rng: &mut Rng, size: Size) -> Page {
    let plan = plan(rng, size);
    let mut page = Page {
        top: plan.top,
        count: plan.count,
        lines: (0..plan.lines).map(|_| line(rng, &plan)).collect(),
    };
    if size != Size::Limit {
        add_defaults(rng, &mut page);
    }
    page
}

/// Some or all conditions, or none: half of the time none.
fn some_conditions(rng: &mut Rng, count: u16) -> Vec<u16> {
    let share = rng.pick(&[0, 0, 0, 15, 50, 100]);
    (0..count).filter(|_| rng.percent(share)).collect()
}

/// Makes some conditions unknown by default, by D lines at random places, within the limit of lines.
pub fn add_defaults(rng: &mut Rng, page: &mut Page) {
    for cond in some_conditions(rng, page.count) {
        if page.lines.len() < LINES_MAX {
            let at = rng.index(page.lines.len() + 1);
            page.lines.insert(at, Line::Default { cond });
        }
    }
}

/// The same, by D lines in place of others.
fn set_defaults(rng: &mut Rng, page: &mut Page) {
    if page.lines.is_empty() {
        return;
    }
    for cond in some_conditions(rng, page.count) {
        let at = rng.index(page.lines.len());
        page.lines[at] = Line::Default { cond };
    }
}

/// A ring whose conditions are unknown by default: each names the next, and all fade together.
pub fn unknown_ring(count: u16, top: u16, weight: u16) -> Page {
    let mut lines: Vec<Line> = (0..count)
        .map(|cond| rule(cond, weight, Op::M, &[((cond + 1) % count, false)]))
        .collect();
    lines.extend((0..count).map(|cond| Line::Default { cond }));
    Page { top, count, lines }
}

/// A ring in which every turn takes 1 away: from a fact of top - 1 at the last condition. All but that one are unknown by default.
pub fn falling_ring(count: u16, top: u16) -> Page {
    let last = count - 1;
    let mut lines = vec![rule(0, top, Op::L, &[(1 % last, false), (last, false)])];
    for cond in 1..last {
        let next = if cond + 1 < last { cond + 1 } else { 0 };
        lines.push(rule(cond, top, Op::M, &[(next, false)]));
    }
    lines.push(Line::Fact {
        cond: last,
        low: top - 1,
        high: top - 1,
    });
    lines.extend((0..last).map(|cond| Line::Default { cond }));
    Page { top, count, lines }
}

/// A ring in which every other condition is unknown by default, and each also denies one across the ring.
pub fn mixed_ring(rng: &mut Rng, count: u16, top: u16) -> Page {
    let mut lines = Vec::new();
    for cond in 0..count {
        let weight = top - u16::from(top > 1 && rng.percent(30));
        let across = (cond + count / 2) % count;
        let op = rng.pick(&OPS);
        lines.push(rule(cond, weight, op, &[((cond + 1) % count, false)]));
        if rng.percent(50) {
            lines.push(rule(cond, weight, op, &[(across, true), (cond, false)]));
        }
        if cond % 2 == 0 {
            lines.push(Line::Default { cond });
        }
    }
    shuffle(rng, &mut lines);
    Page { top, count, lines }
}

/// A page of exactly this many conditions and lines, mostly rules.
pub fn exact(rng: &mut Rng, count: u16, lines: usize) -> Page {
    let mut plan = plan(rng, Size::Medium);
    plan.count = count;
    plan.heads = count;
    plan.facts = 15;
    plan.queries = 3;
    plan.literals = rng.pick(&[(1, 2), (1, 3), (1, 8)]);
    let mut page = Page {
        top: plan.top,
        count,
        lines: (0..lines).map(|_| line(rng, &plan)).collect(),
    };
    set_defaults(rng, &mut page);
    page
}

/// The page with its conditions numbered from the other end.
pub fn reversed(page: &Page) -> Page {
    let other = |cond: u16| page.count - 1 - cond;
    let mut out = page.clone();
    for line in &mut out.lines {
        match line {
            Line::Fact { cond, .. } | Line::Query { cond, .. } | Line::Default { cond } => {
                *cond = other(*cond)
            }
            Line::Rule { head, body, .. } => {
                *head = other(*head);
                for literal in body {
                    literal.cond = other(literal.cond);
                }
            }
        }
    }
    out
}

/// A ring in which every turn adds 1, from a fact of 1 at the last condition: slow for whoever takes it the wrong way round.
pub fn adding_ring(count: u16, top: u16) -> Page {
    let last = count - 1;
    let mut lines = vec![rule(0, top, Op::B, &[(1 % last, false), (last, false)])];
    for cond in 1..last {
        let next = if cond + 1 < last { cond + 1 } else { 0 };
        lines.push(rule(cond, top, Op::M, &[(next, false)]));
    }
    lines.push(Line::Fact {
        cond: last,
        low: 1,
        high: 1,
    });
    Page { top, count, lines }
}

/// The same ring, where each condition of the ring also has a weak line on the negation of the one before it: every rise of a low end
/// lowers a high end of the support for a while.
pub fn weak_ring(count: u16, top: u16) -> Page {
    let mut page = adding_ring(count + 1, top);
    for cond in 0..count {
        let before = (cond + count - 1) % count;
        page.lines.push(rule(cond, 1, Op::M, &[(before, true)]));
    }
    page
}

/// Counters that add 1 for ever, each from when the one before it is at top.
pub fn gated_counters(count: u16, top: u16) -> Page {
    let step = count - 1;
    let mut lines = vec![
        Line::Fact {
            cond: step,
            low: 1,
            high: 1,
        },
        rule(0, top, Op::B, &[(0, false), (step, false)]),
    ];
    for counter in 1..step / 2 {
        let (gate, own) = (2 * counter - 1, 2 * counter);
        lines.push(rule(gate, top, Op::L, &[(own - 2, false), (step, false)]));
        lines.push(rule(own, top, Op::B, &[(own, false), (gate, false)]));
    }
    Page { top, count, lines }
}

/// A slow fall by 1 at the last condition, from which a fact takes 1 away under L, and which each of the others follows through the (at most)
/// four conditions above it.
pub fn falling(count: u16, top: u16) -> Page {
    let last = count - 1;
    let step = last - 1;
    let mut lines = vec![
        Line::Fact {
            cond: step,
            low: top - 1,
            high: top - 1,
        },
        rule(last, top, Op::L, &[(last, false), (step, false)]),
    ];
    for cond in 0..step {
        let above: Vec<(u16, bool)> = (cond + 1..=(cond + 4).min(last))
            .map(|other| (other, false))
            .collect();
        lines.push(rule(cond, top, Op::M, &above));
    }
    Page { top, count, lines }
}

/// Smallest and largest of eight under weights near top: slow to settle.
pub fn slow_random(rng: &mut Rng, count: u16) -> Page {
    let lines = (0..2 * count - 1)
        .map(|number| Line::Rule {
            head: number % count,
            weight: rng.range(198, 200),
            op: rng.pick(&[Op::M, Op::X, Op::X]),
            body: (0..8).map(|_| literal(rng, count, 33)).collect(),
        })
        .collect();
    Page {
        top: TOP_MAX,
        count,
        lines,
    }
}

/// Mostly small pages, some medium, a few large.
pub fn any_page(rng: &mut Rng) -> Page {
    let size = match rng.below(100) {
        0 => Size::Large,
        1..=14 => Size::Medium,
        _ => Size::Small,
    };
    page(rng, size)
}

/// A page of 1 to 3 conditions and a top low enough to try every assignment.
pub fn tiny_page(rng: &mut Rng) -> Page {
    let (top, count) = rng.pick(&[
        (1, 1),
        (1, 2),
        (1, 3),
        (2, 1),
        (2, 2),
        (3, 2),
        (5, 1),
        (9, 1),
    ]);
    let mut plan = plan(rng, Size::Small);
    plan.top = top;
    plan.count = count;
    plan.heads = count;
    plan.lines = rng.index(7);
    plan.literals = rng.pick(&[(1, 1), (1, 2), (1, 3)]);
    let mut page = Page {
        top,
        count,
        lines: (0..plan.lines).map(|_| line(rng, &plan)).collect(),
    };
    add_defaults(rng, &mut page);
    page
}

/// Adds Q lines at random places, within the limit of lines.
pub fn add_queries(rng: &mut Rng, page: &mut Page, most: usize) {
    for _ in 0..rng.index(most + 1) {
        if page.lines.len() < LINES_MAX {
            let at = rng.index(page.lines.len() + 1);
            page.lines.insert(at, query_line(rng, page.count));
        }
    }
}

fn rule(head: u16, weight: u16, op: Op, body: &[(u16, bool)]) -> Line {
    Line::Rule {
        head,
        weight,
        op,
        body: body
            .iter()
            .map(|(cond, negated)| Literal {
                cond: *cond,
                negated: *negated,
            })
            .collect(),
    }
}

/// Each condition names the next and the last names the first; some links are negated.
pub fn ring(rng: &mut Rng, count: u16, top: u16, weight: u16, negated: u64) -> Page {
    let op = rng.pick(&OPS);
    let mut lines: Vec<Line> = (0..count)
        .map(|cond| {
            rule(
                cond,
                weight,
                op,
                &[((cond + 1) % count, rng.percent(negated))],
            )
        })
        .collect();
    if rng.percent(60) {
        let (low, high) = interval(rng, top);
        lines.push(Line::Fact {
            cond: rng.range(0, count - 1),
            low,
            high,
        });
    }
    shuffle(rng, &mut lines);
    Page { top, count, lines }
}

/// Each condition names the negation of the next; the last is a fact or has no line.
pub fn negation_chain(rng: &mut Rng, count: u16, top: u16) -> Page {
    let mut lines: Vec<Line> = (0..count - 1)
        .map(|cond| rule(cond, top, Op::M, &[(cond + 1, true)]))
        .collect();
    if rng.percent(50) {
        let (low, high) = interval(rng, top);
        lines.push(Line::Fact {
            cond: count - 1,
            low,
            high,
        });
    }
    if rng.percent(50) {
        shuffle(rng, &mut lines);
    }
    Page { top, count, lines }
}

/// A game on a random graph: a place is won if a move leads to a place that is not won.
pub fn game(rng: &mut Rng, count: u16, top: u16) -> Page {
    let moves = 1 + rng.index(usize::from(count) * 2);
    let lines = (0..moves)
        .map(|_| {
            let (from, to) = (rng.range(0, count - 1), rng.range(0, count - 1));
            rule(from, top, Op::M, &[(to, true)])
        })
        .collect();
    Page { top, count, lines }
}

/// Conditions that count up or down by single steps.
pub fn counters(rng: &mut Rng, count: u16, top: u16) -> Page {
    let step = count - 1;
    let mut lines = vec![Line::Fact {
        cond: step,
        low: 1.min(top),
        high: rng.range(1.min(top), top.min(3)),
    }];
    for cond in 0..step {
        lines.push(match rng.below(4) {
            0 => rule(cond, top, Op::B, &[(cond, false), (step, false)]),
            1 => rule(cond, top, Op::L, &[(cond, false), (step, true)]),
            2 => rule(cond, (top - 1).max(1), Op::X, &[(cond, false)]),
            _ => rule(
                cond,
                (top - 1).max(1),
                Op::M,
                &[(rng.range(0, step), rng.percent(40))],
            ),
        });
        if rng.percent(30) {
            let other = rng.range(0, step);
            lines.push(rule(cond, top, Op::M, &[(other, rng.percent(50))]));
        }
    }
    shuffle(rng, &mut lines);
    Page { top, count, lines }
}

/// Pairs of conditions that deny each other, each with a fact and a link to the next pair.
pub fn rivals(rng: &mut Rng, pairs: u16, top: u16) -> Page {
    let count = 2 * pairs;
    let mut lines = Vec::new();
    for pair in 0..pairs {
        let (a, b) = (2 * pair, 2 * pair + 1);
        let next = (b + 1) % count;
        lines.push(rule(a, top, Op::M, &[(b, true)]));
        lines.push(rule(b, top, Op::M, &[(a, true), (next, rng.percent(30))]));
        if rng.percent(50) {
            let (low, high) = interval(rng, top);
            lines.push(Line::Fact { cond: a, low, high });
        }
    }
    shuffle(rng, &mut lines);
    Page { top, count, lines }
}

/// Groups that support themselves in a ring, held up or cut off by the negation of other groups.
pub fn knots(rng: &mut Rng, count: u16, top: u16) -> Page {
    let size = rng.range(1, 4).min(count);
    let mut lines = Vec::new();
    for cond in 0..count {
        let first = cond - cond % size;
        let last = (first + size).min(count) - 1;
        let next = if cond == last { first } else { cond + 1 };
        // Mostly a later group, so that the answers depend on each other over many rounds.
        let other = if last + 1 < count && rng.percent(85) {
            rng.range(last + 1, (last + 6).min(count - 1))
        } else {
            rng.range(0, count - 1)
        };
        let weight = if rng.percent(85) {
            top
        } else {
            rng.range(1, top)
        };
        match rng.below(6) {
            0 | 1 => lines.push(rule(cond, weight, Op::M, &[(next, false), (other, true)])),
            2 => {
                lines.push(rule(cond, weight, Op::M, &[(next, false)]));
                lines.push(rule(cond, weight, Op::M, &[(other, true)]));
            }
            3 => lines.push(rule(
                cond,
                weight,
                Op::X,
                &[(next, false), (other, rng.percent(70))],
            )),
            4 => {
                let op = rng.pick(&OPS);
                lines.push(rule(cond, weight, op, &[(next, false), (other, true)]));
            }
            _ => lines.push(rule(cond, weight, Op::M, &[(next, false)])),
        }
        if rng.percent(12) {
            let (low, high) = interval(rng, top);
            lines.push(Line::Fact { cond, low, high });
        }
    }
    shuffle(rng, &mut lines);
    Page { top, count, lines }
}

/// One of the structured pages with up to `most` conditions.
pub fn structured(rng: &mut Rng, most: u16) -> Page {
    let count = rng.range(2, most.max(2));
    let top = top(rng);
    let weight = if rng.percent(50) {
        top
    } else {
        (top - 1).max(1)
    };
    let mut page = match rng.below(10) {
        0 => ring(rng, count, top, weight, 0),
        1 => {
            let negated = rng.pick(&[5, 30, 100]);
            ring(rng, count, top, weight, negated)
        }
        2 => negation_chain(rng, count, top),
        3 => game(rng, count, top),
        4 => counters(rng, count, top),
        5 | 6 => knots(rng, count, top),
        7 => return unknown_ring(count, top, weight),
        8 => return mixed_ring(rng, count, top),
        _ => rivals(rng, (count / 2).max(1), top),
    };
    add_defaults(rng, &mut page);
    page
}

/// A page of 512 conditions, 1,024 lines and top 200; 0 to 4 name special ones, the others are random.
pub fn limit_page(rng: &mut Rng, item: u64) -> Page {
    let literal = |cond: u16, negated: bool| Literal { cond, negated };
    let count = CONDITIONS_MAX;
    let lines: Vec<Line> = match item {
        // One ring whose grades fade by single steps, to 99.
        0 => (0..LINES_MAX as u16)
            .map(|number| Line::Rule {
                head: number % count,
                weight: 198,
                op: Op::M,
                body: vec![literal((number + 1) % count, false); 8],
            })
            .collect(),
        // One condition is the head of every line and names all others.
        1 => (0..LINES_MAX as u16)
            .map(|number| Line::Rule {
                head: 511,
                weight: 200,
                op: Op::X,
                body: (0..8)
                    .map(|step| literal((number * 8 + step) % count, step % 2 == 0))
                    .collect(),
            })
            .collect(),
        // Each condition names the eight after it, plain and negated.
        2 => (0..LINES_MAX as u16)
            .map(|number| Line::Rule {
                head: number % count,
                weight: if number < count { 200 } else { 150 },
                op: if number < count { Op::M } else { Op::P },
                body: (1..=8)
                    .map(|step| literal((number + step) % count, step == 3))
                    .collect(),
            })
            .collect(),
        // A chain of negations through all conditions, highest first.
        3 => (0..LINES_MAX as u16)
            .map(|number| match number {
                0..=510 => Line::Rule {
                    head: number,
                    weight: 200,
                    op: Op::M,
                    body: vec![literal(number + 1, true); 8],
                },
                511 => Line::Fact {
                    cond: 511,
                    low: 60,
                    high: 120,
                },
                _ => Line::Query {
                    closed: number % 2 == 0,
                    cond: number % count,
                },
            })
            .collect(),
        // A ring that fades by single steps, all of it unknown by default; each rule has a negation too.
        4 => (0..LINES_MAX as u16)
            .map(|number| match (number % 2, number / 2) {
                (0, head) => Line::Rule {
                    head,
                    weight: 198,
                    op: Op::M,
                    body: (1..=8)
                        .map(|step| literal((head + step) % count, step == 8))
                        .collect(),
                },
                (_, cond) => Line::Default { cond },
            })
            .collect(),
        _ => return page(rng, Size::Limit),
    };
    Page {
        top: TOP_MAX,
        count,
        lines,
    }
}

/// The numbers of bench/pages.c (xorshift, 32 bits).
struct Draw(u32);

impl Draw {
    /// 0 to `n` - 1.
    fn below(&mut self, n: u16) -> u16 {
        self.0 ^= self.0 << 13;
        self.0 ^= self.0 >> 17;
        self.0 ^= self.0 << 5;
        ((self.0 >> 8) % u32::from(n)) as u16
    }

    fn body(&mut self, literals: u16, count: u16) -> Vec<Literal> {
        let one = |_| {
            let negated = self.below(3) == 0;
            let cond = self.below(count);
            Literal { cond, negated }
        };
        (0..literals).map(one).collect()
    }
}

/// The page `typical` of bench/pages.c: 150 conditions, 60 facts, 232 rules of 1 to 4 literals, 8 queries.
pub fn bench_typical() -> Page {
    let (top, count, queries) = (100, 150, 8);
    let mut draw = Draw(150);
    let mut lines = Vec::new();
    for _ in 0..60 {
        let low = draw.below(top + 1);
        let cond = draw.below(count);
        let high = low + draw.below(top - low + 1);
        lines.push(Line::Fact { cond, low, high });
    }
    for _ in 0..232 {
        let head = draw.below(count);
        let weight = top - draw.below(top / 5);
        let literals = 1 + draw.below(4);
        let op = OPS[usize::from(draw.below(5))];
        lines.push(Line::Rule {
            head,
            weight,
            op,
            body: draw.body(literals, count),
        });
    }
    lines.extend((0..queries).map(|number| Line::Query {
        closed: number % 2 == 1,
        cond: number * count / queries,
    }));
    Page { top, count, lines }
}

/// The page `largest` of bench/pages.c: 512 conditions, 1,023 rules of 8 literals, a third of them negated, one query.
pub fn bench_largest() -> Page {
    let (top, count) = (TOP_MAX, CONDITIONS_MAX);
    let mut draw = Draw(1023);
    let rule = |number: u16| {
        let weight = top - draw.below(100);
        let op = OPS[usize::from(draw.below(5))];
        Line::Rule {
            head: number % count,
            weight,
            op,
            body: draw.body(8, count),
        }
    };
    let mut lines: Vec<Line> = (0..1023).map(rule).collect();
    lines.push(Line::Query {
        closed: true,
        cond: 0,
    });
    Page { top, count, lines }
}

/// A line of a list for a page; a third of the lines name a condition that a line before them names.
fn tried_line(rng: &mut Rng, page: &Page, trial: u16, before: &[Tried]) -> Tried {
    let cond = match before {
        [_, ..] if rng.percent(33) => before[rng.index(before.len())].cond,
        _ => rng.range(0, page.count - 1),
    };
    let (low, high) = interval(rng, page.top);
    Tried::new(trial, cond, low, high)
}

/// A list of up to this many lines for a page: trials of few lines or of many, with numbers that rise by little or by much.
pub fn list(rng: &mut Rng, page: &Page, most: usize) -> Vec<Tried> {
    let share = rng.pick(&[0, 30, 60, 90]);
    let step = rng.pick(&[1, 2, 40, 400]);
    let mut trial = rng.pick(&[0, 0, 1, 255, 256, 990, 999]);
    let mut lines: Vec<Tried> = Vec::new();
    for _ in 0..rng.index(most + 1) {
        if !lines.is_empty() && !rng.percent(share) {
            trial = (trial + rng.range(1, step)).min(TRIAL_MAX);
        }
        let line = tried_line(rng, page, trial, &lines);
        lines.push(line);
    }
    lines
}

/// A list of 1,024 lines with trials 0 to 999, the most that there can be.
pub fn thousand_trials(rng: &mut Rng, page: &Page) -> Vec<Tried> {
    let mut lines: Vec<Tried> = Vec::new();
    for trial in 0..=TRIAL_MAX {
        for _ in 0..=usize::from(trial % 42 == 7) {
            let line = tried_line(rng, page, trial, &lines);
            lines.push(line);
        }
    }
    lines
}

pub fn shuffle<T>(rng: &mut Rng, items: &mut [T]) {
    for last in (1..items.len()).rev() {
        items.swap(last, rng.index(last + 1));
    }
}

/// A query list of 1 to 16 conditions, repeats allowed.
pub fn queries(rng: &mut Rng, count: u16) -> Vec<u16> {
    let n = match rng.below(4) {
        0 => 16,
        1 => 1,
        _ => 1 + rng.index(16),
    };
    (0..n).map(|_| rng.range(0, count - 1)).collect()
}

/// A sound run area for a page, with no regard to any run.
pub fn sound_run(rng: &mut Rng, page: &Page) -> Vec<u16> {
    let (unreached, waiting) = (rng.pick(&[0, 10, 40]), rng.pick(&[0, 20, 60, 100]));
    let mut run = Vec::new();
    for _ in 0..page.count {
        if rng.percent(unreached) {
            run.extend([0, page.top, NOT_REACHED_MARK]);
        } else {
            let (low, high) = interval(rng, page.top);
            let mark = if rng.percent(waiting) {
                WAITING_MARK
            } else {
                REACHED_MARK
            };
            run.extend([low, high, mark]);
        }
    }
    run
}

/// A condition argument: mostly one of the page, else of any size up to 32 bits.
pub fn condition(rng: &mut Rng, count: u16) -> u32 {
    let inside = u32::from(rng.range(0, count - 1));
    let count = u32::from(count);
    match rng.below(16) {
        0 => count,
        1 => count + 1 + rng.below(600) as u32,
        2 => 65_535,
        3 => 65_536 + inside,
        4 => (1 << 31) + inside,
        5 => u32::MAX - rng.below(2) as u32,
        6 => (rng.number() as u32).max(count),
        _ => inside,
    }
}

/// A wrong condition argument: `count` or more.
pub fn wrong_condition(rng: &mut Rng, count: u16) -> u32 {
    loop {
        let cond = condition(rng, count);
        if cond >= u32::from(count) {
            return cond;
        }
    }
}
