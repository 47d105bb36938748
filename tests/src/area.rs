//! Page areas and run areas, and when they are sound: section "Areas".

use crate::answer::*;
use crate::body::Pair;
use crate::page::*;

/// The numbers before the C numbers that say who is unknown by default.
pub const HEAD: usize = 4;

/// The greatest used length of a page area.
pub const PAGE_MAX: usize = 12_804;

pub const NOT_REACHED_MARK: u16 = 0;
pub const REACHED_MARK: u16 = 1;
pub const WAITING_MARK: u16 = 2;

fn kind_of(op: Op) -> u16 {
    match op {
        Op::M => 1,
        Op::X => 2,
        Op::L => 3,
        Op::B => 4,
        Op::P => 5,
    }
}

/// One line as numbers.
pub fn encode_line(line: &Line) -> Vec<u16> {
    match line {
        Line::Fact { cond, low, high } => vec![*cond, 0, *low, *high],
        Line::Rule {
            head,
            weight,
            op,
            body,
        } => {
            let mut out = vec![*head, kind_of(*op), *weight, body.len() as u16];
            out.extend(
                body.iter()
                    .map(|literal| 2 * literal.cond + u16::from(literal.negated)),
            );
            out
        }
        Line::Query { closed, cond } => vec![*cond, 6, u16::from(*closed), 0],
        Line::Default { cond } => vec![*cond, 7, 0, 0],
    }
}

/// The area of so many lines with these numbers, whatever they are; the D numbers stand before them.
pub fn assembled(top: u16, defaults: &[u16], lines: u16, numbers: &[u16]) -> Vec<u16> {
    let used = HEAD + defaults.len() + numbers.len();
    let head = [top, defaults.len() as u16, lines, used as u16];
    [&head[..], defaults, numbers].concat()
}

/// The area of a page on which nobody is unknown by default.
pub fn without_defaults(top: u16, count: u16, lines: u16, numbers: &[u16]) -> Vec<u16> {
    assembled(top, &vec![0; usize::from(count)], lines, numbers)
}

/// A page as its area, of exactly the used length.
pub fn encode(page: &Page) -> Vec<u16> {
    let defaults: Vec<u16> = page.unknown().iter().map(|one| u16::from(*one)).collect();
    let numbers: Vec<u16> = page.lines.iter().flat_map(encode_line).collect();
    assembled(page.top, &defaults, page.lines.len() as u16, &numbers)
}

/// Where the lines of an area with a good head begin.
pub fn first_line(area: &[u16]) -> usize {
    HEAD + usize::from(area[1])
}

/// The page of a sound area; none if the area is not sound.
pub fn decode(area: &[u16]) -> Option<Page> {
    if area.len() < HEAD {
        return None;
    }
    let (top, count, lines, used) = (area[0], area[1], area[2], usize::from(area[3]));
    let head_is_good = (1..=TOP_MAX).contains(&top)
        && (1..=CONDITIONS_MAX).contains(&count)
        && usize::from(lines) <= LINES_MAX
        && used >= HEAD + usize::from(count)
        && used <= area.len();
    if !head_is_good {
        return None;
    }
    let mut rest = &area[first_line(area)..used];
    let mut page = Page {
        top,
        count,
        lines: Vec::with_capacity(usize::from(lines)),
    };
    for _ in 0..lines {
        let (line, length) = decode_line(rest, top, count)?;
        page.lines.push(line);
        rest = &rest[length..];
    }
    let defaults = &area[HEAD..first_line(area)];
    (rest.is_empty() && defaults_are_good(defaults, &page)).then_some(page)
}

/// Whether a D number of 1 has exactly one D line, and each other D number is 0 and has none.
fn defaults_are_good(defaults: &[u16], page: &Page) -> bool {
    (0..).zip(defaults).all(|(cond, number)| {
        let is_its = |line: &&Line| **line == Line::Default { cond };
        let lines = page.lines.iter().filter(is_its).count();
        matches!((*number, lines), (0, 0) | (1, 1))
    })
}

/// The line at the start of `rest` and its length, if it is good.
fn decode_line(rest: &[u16], top: u16, count: u16) -> Option<(Line, usize)> {
    let &[cond, kind, third, fourth, ref tail @ ..] = rest else {
        return None;
    };
    if cond >= count {
        return None;
    }
    match kind {
        0 => {
            let good = third <= fourth && fourth <= top;
            good.then_some((
                Line::Fact {
                    cond,
                    low: third,
                    high: fourth,
                },
                4,
            ))
        }
        1..=5 => {
            let n = usize::from(fourth);
            let good = (1..=top).contains(&third)
                && (1..=LITERALS_MAX).contains(&n)
                && tail.len() >= n
                && tail[..n].iter().all(|literal| literal / 2 < count);
            if !good {
                return None;
            }
            let body = tail[..n]
                .iter()
                .map(|literal| Literal {
                    cond: literal / 2,
                    negated: literal % 2 == 1,
                })
                .collect();
            let op = OPS[usize::from(kind) - 1];
            Some((
                Line::Rule {
                    head: cond,
                    weight: third,
                    op,
                    body,
                },
                4 + n,
            ))
        }
        6 => {
            let good = third <= 1 && fourth == 0;
            good.then_some((
                Line::Query {
                    closed: third == 1,
                    cond,
                },
                4,
            ))
        }
        7 => (third == 0 && fourth == 0).then_some((Line::Default { cond }, 4)),
        _ => None,
    }
}

/// Reads a page's text into an area and returns the used length.
pub fn read_into(text: &[u8], area: &mut [u16]) -> Result<usize, ReadRefusal> {
    let numbers = encode(&read(text)?);
    if area.len() < numbers.len() {
        return Err(ReadRefusal::new(AREA_SHORT, 0, 0));
    }
    area[..numbers.len()].copy_from_slice(&numbers);
    Ok(numbers.len())
}

/// Whether a run area is long enough and sound for its page.
pub fn run_is_sound(page: &Page, run: &[u16]) -> bool {
    let length = 3 * usize::from(page.count);
    run.len() >= length
        && run[..length].chunks_exact(3).all(|entry| {
            let (low, high, mark) = (entry[0], entry[1], entry[2]);
            low <= high
                && high <= page.top
                && mark <= WAITING_MARK
                && (mark != NOT_REACHED_MARK || (low == 0 && high == page.top))
        })
}

/// The pairs that a sound run area holds.
pub fn held_pairs(page: &Page, run: &[u16]) -> Vec<Pair> {
    run[..3 * usize::from(page.count)]
        .chunks_exact(3)
        .map(|entry| Pair::new(entry[0], entry[1]))
        .collect()
}
