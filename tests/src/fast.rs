//! A second reference for large pages: the same rules as `book` and `closed`, by worklists over indexes. It is itself compared with
//! them on small pages.

use std::collections::VecDeque;

use crate::answer::Driven;
use crate::area::{NOT_REACHED_MARK, REACHED_MARK, WAITING_MARK};
use crate::body::{combine, divided, End, Pair};
use crate::page::{Line, Op, Page};

/// A rule: its head is known from where it stands. A literal is 2 * condition, plus 1 if negated.
struct Rule {
    weight: u32,
    op: Op,
    literals: Vec<usize>,
}

#[derive(Clone)]
enum Source {
    Fact(u16),
    Rule(usize),
}

/// An end of a pair.
fn of(end: End, pair: Pair) -> u16 {
    match end {
        End::Low => pair.low,
        End::High => pair.high,
    }
}

/// A page by its heads.
pub struct Index {
    top: u16,
    /// The facts of a condition put together: [largest low; largest high], [0;0] if it has none; [0;top] if it is unknown by default
    /// and has no F and R lines.
    facts: Vec<Pair>,
    /// Who is unknown by default.
    unknown: Vec<bool>,
    rules: Vec<Vec<Rule>>,
    /// The numbers of a condition's F and R lines in page order, each with the low end of a fact or the place of a rule in `rules`.
    numbers: Vec<Vec<(u32, Source)>>,
    /// The conditions with a rule that names a condition.
    namers: Vec<Vec<usize>>,
    /// Those with a rule that names it plain.
    plain_namers: Vec<Vec<usize>>,
    /// Whether a rule negates a condition.
    negated: Vec<bool>,
}

impl Index {
    pub fn new(page: &Page) -> Index {
        let count = usize::from(page.count);
        let lists = || vec![Vec::new(); count];
        let mut index = Index {
            top: page.top,
            facts: vec![Pair::new(0, 0); count],
            unknown: vec![false; count],
            rules: (0..count).map(|_| Vec::new()).collect(),
            numbers: vec![Vec::new(); count],
            namers: lists(),
            plain_namers: lists(),
            negated: vec![false; count],
        };
        for (line, number) in page.lines.iter().zip(2..) {
            match line {
                Line::Fact { cond, low, high } => {
                    index.numbers[usize::from(*cond)].push((number, Source::Fact(*low)));
                    let fact = &mut index.facts[usize::from(*cond)];
                    *fact = Pair::new(fact.low.max(*low), fact.high.max(*high));
                }
                Line::Rule {
                    head,
                    weight,
                    op,
                    body,
                } => {
                    let head = usize::from(*head);
                    index.numbers[head].push((number, Source::Rule(index.rules[head].len())));
                    for literal in body {
                        let cond = usize::from(literal.cond);
                        index.namers[cond].push(head);
                        match literal.negated {
                            true => index.negated[cond] = true,
                            false => index.plain_namers[cond].push(head),
                        }
                    }
                    index.rules[head].push(Rule {
                        weight: u32::from(*weight),
                        op: *op,
                        literals: body
                            .iter()
                            .map(|literal| {
                                2 * usize::from(literal.cond) + usize::from(literal.negated)
                            })
                            .collect(),
                    });
                }
                Line::Query { .. } => {}
                Line::Default { cond } => index.unknown[usize::from(*cond)] = true,
            }
        }
        for cond in 0..count {
            if index.unknown[cond] && index.numbers[cond].is_empty() {
                index.facts[cond] = Pair::unknown(page.top);
            }
        }
        for lists in [&mut index.namers, &mut index.plain_namers] {
            for list in lists.iter_mut() {
                list.sort_unstable();
                list.dedup();
            }
        }
        index
    }

    fn count(&self) -> usize {
        self.facts.len()
    }

    /// One end of T: the largest of the fact's and the rules', over that end of every literal.
    fn end(&self, end: End, cond: usize, literal: impl Fn(usize) -> u16) -> u16 {
        let mut best = of(end, self.facts[cond]);
        for rule in &self.rules[cond] {
            best = best.max(self.rule_end(end, rule, &literal));
        }
        best
    }

    fn rule_end(&self, end: End, rule: &Rule, literal: impl Fn(usize) -> u16) -> u16 {
        let mut value = literal(rule.literals[0]);
        for other in &rule.literals[1..] {
            value = combine(rule.op, end, self.top, value, literal(*other));
        }
        divided(end, u32::from(value) * rule.weight, self.top.into()) as u16
    }

    /// The first line of a condition with this low end at the pairs held, 0 if it has no lines.
    fn line(&self, cond: usize, low: u16, held: &[Pair]) -> u32 {
        let low_end = |literal: usize| match literal % 2 {
            0 => held[literal / 2].low,
            _ => self.top - held[literal / 2].high,
        };
        let holds = |source: &Source| match source {
            Source::Fact(end) => *end == low,
            Source::Rule(place) => {
                self.rule_end(End::Low, &self.rules[cond][*place], low_end) == low
            }
        };
        let mut lines = self.numbers[cond].iter();
        lines
            .find(|(_, source)| holds(source))
            .map_or(0, |(number, _)| *number)
    }

    /// T of a condition at the pairs held.
    fn body(&self, cond: usize, held: &[Pair]) -> Pair {
        let low = self.end(End::Low, cond, |literal| match literal % 2 {
            0 => held[literal / 2].low,
            _ => self.top - held[literal / 2].high,
        });
        let high = self.end(End::High, cond, |literal| match literal % 2 {
            0 => held[literal / 2].high,
            _ => self.top - held[literal / 2].low,
        });
        Pair::new(low, high)
    }

    /// Raises low or high ends from where they are to the least ones that no line raises further. `given` holds the other ends,
    /// which decide the negations. The high ends of what is unknown by default stay.
    fn raise(&self, end: End, ends: &mut [u16], given: &[u16]) {
        let mut waits = vec![true; self.count()];
        let mut stack: Vec<usize> = (0..self.count()).rev().collect();
        while let Some(cond) = stack.pop() {
            waits[cond] = false;
            if end == End::High && self.unknown[cond] {
                continue;
            }
            let value = self.end(end, cond, |literal| match literal % 2 {
                0 => ends[literal / 2],
                _ => self.top - given[literal / 2],
            });
            if value <= ends[cond] {
                continue;
            }
            ends[cond] = value;
            for namer in &self.plain_namers[cond] {
                if !waits[*namer] {
                    waits[*namer] = true;
                    stack.push(*namer);
                }
            }
        }
    }

    /// The passes of an opening: the steps to the condition that is furthest from the queries, and the last pass.
    pub fn passes(&self, queries: &[u16]) -> u32 {
        let mut seen = vec![false; self.count()];
        let mut queue: VecDeque<(usize, u32)> = queries
            .iter()
            .map(|query| (usize::from(*query), 0))
            .collect();
        let mut furthest = 0;
        while let Some((cond, steps)) = queue.pop_front() {
            if !seen[cond] {
                seen[cond] = true;
                furthest = steps;
                let literals = self.rules[cond].iter().flat_map(|rule| &rule.literals);
                queue.extend(literals.map(|literal| (literal / 2, steps + 1)));
            }
        }
        furthest + 1
    }

    /// Lowers the high ends of what is unknown by default to the greatest ones that stay, the others being as they are; whether any fell.
    fn lower(&self, highs: &mut [u16], lows: &[u16]) -> bool {
        let mut waits = self.unknown.clone();
        let mut stack: Vec<usize> = (0..self.count()).filter(|cond| waits[*cond]).collect();
        let mut fell = false;
        while let Some(cond) = stack.pop() {
            waits[cond] = false;
            let value = self.high(cond, lows, highs);
            if value >= highs[cond] {
                continue;
            }
            highs[cond] = value;
            fell = true;
            for namer in &self.plain_namers[cond] {
                if self.unknown[*namer] && !waits[*namer] {
                    waits[*namer] = true;
                    stack.push(*namer);
                }
            }
        }
        fell
    }

    /// The high end of T over these ends.
    fn high(&self, cond: usize, lows: &[u16], highs: &[u16]) -> u16 {
        self.end(End::High, cond, |literal| match literal % 2 {
            0 => highs[literal / 2],
            _ => self.top - lows[literal / 2],
        })
    }

    /// The high ends from which the support's rise: those of `free` where a condition is unknown by default, else those of `least`.
    fn rise_from(&self, free: &[u16], least: &[u16]) -> Vec<u16> {
        (0..self.count())
            .map(|cond| match self.unknown[cond] {
                true => free[cond],
                false => least[cond],
            })
            .collect()
    }

    /// The high ends that stay over these low ends: greatest where a condition is unknown by default, and there at most those of `free`,
    /// least elsewhere.
    fn highs_over(&self, lows: &[u16], free: &[u16]) -> Vec<u16> {
        let none = vec![0; self.count()];
        let mut highs = self.rise_from(free, &none);
        loop {
            self.raise(End::High, &mut highs, lows);
            if !self.lower(&mut highs, lows) {
                return highs;
            }
            highs = self.rise_from(&highs, &none);
        }
    }

    /// The closed reading. The high ends over the low ends held fall as these rise: the support's, and those of what is unknown by
    /// default. The least low ends over those high ends are the next low ends; they rise from 0 until they stay.
    pub fn closed(&self) -> Vec<Pair> {
        self.alternated().0
    }

    /// The rounds of that computation, which are not the rounds of the closed reading.
    pub fn alternations(&self) -> u32 {
        self.alternated().1
    }

    fn alternated(&self) -> (Vec<Pair>, u32) {
        let mut lows = vec![0; self.count()];
        let mut highs = vec![self.top; self.count()];
        for number in 1.. {
            highs = self.highs_over(&lows, &highs);
            let before = lows.clone();
            self.raise(End::Low, &mut lows, &highs);
            if lows == before {
                let ends = lows.iter().zip(&highs);
                let pairs = ends.map(|(low, high)| Pair::new(*low, *high)).collect();
                return (pairs, number);
            }
        }
        unreachable!("the low ends rise")
    }
}

impl Index {
    /// The count of rounds. The low ends of the next assignment are T's over the low ends held and the support's high ends, and so are
    /// the high ends of what is unknown by default; the support's high ends are settled again, from those of the closed reading upwards,
    /// where a low end rose that a rule negates or such a high end fell.
    pub fn rounds(&self, queries: &[u16]) -> u32 {
        let reached = Run::open(self, queries).reached;
        let final_highs: Vec<u16> = self.closed().iter().map(|pair| pair.high).collect();
        let mut lows = vec![0; self.count()];
        let mut highs = self.rise_from(&vec![self.top; self.count()], &final_highs);
        self.raise(End::High, &mut highs, &lows);
        let mut before = vec![self.top; self.count()];
        let mut looked_at: Vec<usize> = (0..self.count()).filter(|cond| reached[*cond]).collect();
        for number in 0.. {
            let moved = self.rising(&looked_at, &lows, &highs);
            let fallen = self.falling(&looked_at, &lows, &highs);
            if moved.is_empty() && fallen.is_empty() {
                let fell = (0..self.count()).any(|cond| {
                    reached[cond] && !self.unknown[cond] && before[cond] != highs[cond]
                });
                return number + u32::from(fell);
            }
            before.clone_from(&highs);
            let mut touched: Vec<usize> = moved.iter().map(|(cond, _)| *cond).collect();
            for (cond, low) in moved {
                lows[cond] = low;
            }
            if touched.iter().any(|cond| self.negated[*cond]) || !fallen.is_empty() {
                for (cond, high) in fallen {
                    highs[cond] = high;
                }
                highs = self.rise_from(&highs, &final_highs);
                self.raise(End::High, &mut highs, &lows);
                touched.extend((0..self.count()).filter(|cond| before[*cond] != highs[*cond]));
            }
            looked_at = touched
                .iter()
                .flat_map(|cond| self.namers[*cond].iter().copied())
                .collect();
            looked_at.sort_unstable();
            looked_at.dedup();
            looked_at.retain(|cond| reached[*cond]);
        }
        unreachable!("the low ends rise")
    }

    /// The conditions among these that are unknown by default and whose high end falls, each with its new one.
    fn falling(&self, conditions: &[usize], lows: &[u16], highs: &[u16]) -> Vec<(usize, u16)> {
        let unknown = conditions.iter().filter(|cond| self.unknown[**cond]);
        unknown
            .map(|cond| (*cond, self.high(*cond, lows, highs)))
            .filter(|(cond, high)| *high < highs[*cond])
            .collect()
    }

    /// The conditions among these whose low end rises, each with its new one.
    fn rising(&self, conditions: &[usize], lows: &[u16], highs: &[u16]) -> Vec<(usize, u16)> {
        let low = |cond: usize| {
            self.end(End::Low, cond, |literal| match literal % 2 {
                0 => lows[literal / 2],
                _ => self.top - highs[literal / 2],
            })
        };
        let pairs = conditions.iter().map(|cond| (*cond, low(*cond)));
        pairs.filter(|(cond, low)| lows[*cond] < *low).collect()
    }
}

/// A run: the book over an index.
#[derive(Clone)]
pub struct Run<'a> {
    index: &'a Index,
    pub pairs: Vec<Pair>,
    reached: Vec<bool>,
    /// The waiting conditions, 64 to a word.
    waiting: Vec<u64>,
}

impl<'a> Run<'a> {
    pub fn open(index: &'a Index, queries: &[u16]) -> Run<'a> {
        let count = index.count();
        let mut reached = vec![false; count];
        let mut stack: Vec<usize> = queries.iter().map(|query| usize::from(*query)).collect();
        while let Some(cond) = stack.pop() {
            if !reached[cond] {
                reached[cond] = true;
                let literals = index.rules[cond].iter().flat_map(|rule| &rule.literals);
                stack.extend(literals.map(|literal| literal / 2));
            }
        }
        let mut run = Run {
            index,
            pairs: vec![Pair::unknown(index.top); count],
            waiting: vec![0; count.div_ceil(64)],
            reached,
        };
        for cond in 0..count {
            if run.reached[cond] {
                run.wake(cond);
            }
        }
        run
    }

    /// The run that a sound run area stands for.
    pub fn of_area(index: &'a Index, area: &[u16]) -> Run<'a> {
        let cells = || area[..3 * index.count()].chunks_exact(3);
        let mut run = Run {
            index,
            pairs: cells().map(|cell| Pair::new(cell[0], cell[1])).collect(),
            waiting: vec![0; index.count().div_ceil(64)],
            reached: cells().map(|cell| cell[2] != NOT_REACHED_MARK).collect(),
        };
        for (cond, cell) in cells().enumerate() {
            if cell[2] == WAITING_MARK {
                run.wake(cond);
            }
        }
        run
    }

    /// R, E and the bound.
    pub fn measure(&self) -> (u32, u32, u32) {
        let reached = self.reached.iter().filter(|reached| **reached).count() as u32;
        let edges: usize = (0..self.pairs.len())
            .filter(|cond| self.reached[*cond])
            .map(|cond| {
                let namers = self.index.namers[cond].iter();
                namers.filter(|namer| self.reached[**namer]).count()
            })
            .sum();
        let edges = edges as u32;
        (reached, edges, reached + u32::from(self.index.top) * edges)
    }

    fn wake(&mut self, cond: usize) {
        self.waiting[cond / 64] |= 1 << (cond % 64);
    }

    fn lowest(&self) -> Option<usize> {
        let word = self.waiting.iter().position(|word| *word != 0)?;
        Some(64 * word + self.waiting[word].trailing_zeros() as usize)
    }

    fn take(&mut self, cond: usize) {
        self.waiting[cond / 64] &= !(1 << (cond % 64));
        let value = self.index.body(cond, &self.pairs);
        if value != self.pairs[cond] {
            self.pairs[cond] = value;
            for namer in &self.index.namers[cond] {
                if self.reached[*namer] {
                    self.wake(*namer);
                }
            }
        }
    }

    pub fn drive(&mut self, allowance: u32) -> Driven {
        let mut taken = 0;
        let mut last = None;
        while let Some(cond) = self.lowest() {
            if taken == allowance {
                break;
            }
            last = Some((cond, self.pairs[cond]));
            self.take(cond);
            taken += 1;
        }
        Driven {
            taken,
            line: last.map_or(0, |(cond, old)| self.line_before(cond, old)),
            rest: self.lowest().is_none(),
        }
    }

    /// The line of the last evaluation, of a condition that held another pair before it.
    fn line_before(&self, cond: usize, old: Pair) -> u32 {
        let mut before = self.pairs.clone();
        before[cond] = old;
        self.index.line(cond, self.pairs[cond].low, &before)
    }

    /// The run area that this run stands for.
    pub fn area(&self) -> Vec<u16> {
        let mut area = Vec::with_capacity(3 * self.pairs.len());
        for (cond, pair) in self.pairs.iter().enumerate() {
            let mark = match self.reached[cond] {
                false => NOT_REACHED_MARK,
                true if self.waiting[cond / 64] >> (cond % 64) & 1 == 1 => WAITING_MARK,
                true => REACHED_MARK,
            };
            area.extend([pair.low, pair.high, mark]);
        }
        area
    }
}
