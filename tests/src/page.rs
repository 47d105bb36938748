//! A rule page, its text and the reader of the text: sections "The page", "Read a page" and "Show a line".

use crate::answer::*;

pub const TOP_MAX: u16 = 200;
pub const CONDITIONS_MAX: u16 = 512;
pub const LINES_MAX: usize = 1024;
pub const LITERALS_MAX: usize = 8;
pub const TEXT_MAX: usize = 65_535;
pub const QUERIES_MAX: usize = 16;

/// The letter of a rule's operation.
#[derive(Clone, Copy, Debug, PartialEq, Eq)]
pub enum Op {
    M,
    X,
    L,
    B,
    P,
}

pub const OPS: [Op; 5] = [Op::M, Op::X, Op::L, Op::B, Op::P];

impl Op {
    pub fn letter(self) -> char {
        match self {
            Op::M => 'M',
            Op::X => 'X',
            Op::L => 'L',
            Op::B => 'B',
            Op::P => 'P',
        }
    }
}

#[derive(Clone, Copy, Debug, PartialEq, Eq)]
pub struct Literal {
    pub cond: u16,
    pub negated: bool,
}

/// A line after the first.
#[derive(Clone, Debug, PartialEq, Eq)]
pub enum Line {
    Fact {
        cond: u16,
        low: u16,
        high: u16,
    },
    Rule {
        head: u16,
        weight: u16,
        op: Op,
        body: Vec<Literal>,
    },
    Query {
        closed: bool,
        cond: u16,
    },
    /// The condition is unknown by default.
    Default {
        cond: u16,
    },
}

#[derive(Clone, Debug, PartialEq, Eq)]
pub struct Page {
    pub top: u16,
    pub count: u16,
    pub lines: Vec<Line>,
}

impl Page {
    /// Whether a D line makes the condition unknown by default.
    pub fn unknown_by_default(&self, cond: u16) -> bool {
        self.lines.contains(&Line::Default { cond })
    }

    /// The conditions that are unknown by default.
    pub fn unknown(&self) -> Vec<bool> {
        let mut unknown = vec![false; usize::from(self.count)];
        for line in &self.lines {
            if let Line::Default { cond } = line {
                unknown[usize::from(*cond)] = true;
            }
        }
        unknown
    }

    /// The page as text.
    pub fn text(&self) -> Vec<u8> {
        let mut out = format!("G,{},{}\n", self.top, self.count);
        for line in &self.lines {
            out.push_str(&line.text());
            out.push('\n');
        }
        out.into_bytes()
    }
}

impl Line {
    /// The line as text, without its byte 10.
    pub fn text(&self) -> String {
        match self {
            Line::Fact { cond, low, high } => format!("F,{cond},{low},{high}"),
            Line::Rule {
                head,
                weight,
                op,
                body,
            } => {
                let mut out = format!("R,{head},{weight},{}", op.letter());
                for literal in body {
                    out.push(',');
                    if literal.negated {
                        out.push('!');
                    }
                    out.push_str(&literal.cond.to_string());
                }
                out
            }
            Line::Query { closed, cond } => {
                format!("Q,{},{cond}", if *closed { 'W' } else { 'K' })
            }
            Line::Default { cond } => format!("D,{cond},U"),
        }
    }
}

/// A number field: 1 to 3 digits, no leading zero except `0` itself.
pub fn number(field: &[u8]) -> Option<u16> {
    let digits = field.iter().all(u8::is_ascii_digit);
    let zero_first = field.len() > 1 && field[0] == b'0';
    if field.is_empty() || field.len() > 3 || !digits || zero_first {
        return None;
    }
    Some(
        field
            .iter()
            .fold(0, |sum, digit| sum * 10 + u16::from(digit - b'0')),
    )
}

fn literal(field: &[u8]) -> Option<Literal> {
    let (negated, rest) = match field.strip_prefix(b"!") {
        Some(rest) => (true, rest),
        None => (false, field),
    };
    number(rest).map(|cond| Literal { cond, negated })
}

fn op(field: &[u8]) -> Option<Op> {
    OPS.into_iter()
        .find(|op| field == [op.letter() as u8].as_slice())
}

/// The form of the first line: top and count, of any size.
fn first_form(line: &[u8]) -> Option<(u16, u16)> {
    let fields: Vec<&[u8]> = line.split(|&byte| byte == b',').collect();
    match fields[..] {
        [b"G", top, count] => Some((number(top)?, number(count)?)),
        _ => None,
    }
}

/// The form of a later line, its numbers of any size.
fn later_form(line: &[u8]) -> Option<Line> {
    let fields: Vec<&[u8]> = line.split(|&byte| byte == b',').collect();
    match &fields[..] {
        [b"F", cond, low, high] => Some(Line::Fact {
            cond: number(cond)?,
            low: number(low)?,
            high: number(high)?,
        }),
        [b"Q", b"K", cond] => Some(Line::Query {
            closed: false,
            cond: number(cond)?,
        }),
        [b"Q", b"W", cond] => Some(Line::Query {
            closed: true,
            cond: number(cond)?,
        }),
        [b"D", cond, b"U"] => Some(Line::Default {
            cond: number(cond)?,
        }),
        [b"R", head, weight, letter, body @ ..] if (1..=LITERALS_MAX).contains(&body.len()) => {
            Some(Line::Rule {
                head: number(head)?,
                weight: number(weight)?,
                op: op(letter)?,
                body: body
                    .iter()
                    .map(|field| literal(field))
                    .collect::<Option<_>>()?,
            })
        }
        _ => None,
    }
}

/// A bad field: its place in the line, and the refusal's number.
type BadField = (u32, Refusal);

/// The bad fields of the first line, in any order.
fn first_bad(top: u16, count: u16) -> Vec<BadField> {
    let mut bad = Vec::new();
    if !(1..=CONDITIONS_MAX).contains(&count) {
        bad.push((3, LINE_RANGE));
    }
    if !(1..=TOP_MAX).contains(&top) {
        bad.push((2, LINE_RANGE));
    }
    bad
}

/// The bad fields of a later line, in any order.
fn later_bad(line: &Line, top: u16, count: u16) -> Vec<BadField> {
    let mut bad = Vec::new();
    let mut condition = |place, cond| {
        if cond >= count {
            bad.push((place, LINE_RANGE));
        }
    };
    match line {
        Line::Fact { cond, low, high } => {
            condition(2, *cond);
            match (*low > top, *high > top) {
                (false, false) if low > high => bad.push((4, LOW_ABOVE_HIGH)),
                (low_over, high_over) => {
                    bad.extend(high_over.then_some((4, GRADE_RANGE)));
                    bad.extend(low_over.then_some((3, GRADE_RANGE)));
                }
            }
        }
        Line::Rule {
            head, weight, body, ..
        } => {
            for (literal, place) in body.iter().zip(5..) {
                condition(place, literal.cond);
            }
            condition(2, *head);
            if !(1..=top).contains(weight) {
                bad.push((3, WEIGHT_RANGE));
            }
        }
        Line::Query { cond, .. } => condition(3, *cond),
        Line::Default { cond } => condition(2, *cond),
    }
    bad
}

/// Reads a page's text.
pub fn read(text: &[u8]) -> Result<Page, ReadRefusal> {
    let refuse = |number, line| Err(ReadRefusal::new(number, line, 0));
    // The leftmost bad field decides.
    let leftmost = |bad: Vec<BadField>, line| match bad.into_iter().min() {
        Some((place, number)) => Err(ReadRefusal::new(number, line, place)),
        None => Ok(()),
    };
    if text.len() > TEXT_MAX {
        return refuse(TEXT_TOO_LONG, 0);
    }
    let Some((10, body)) = text.split_last() else {
        return refuse(TEXT_UNENDED, 0);
    };
    let mut page = Page {
        top: 0,
        count: 0,
        lines: Vec::new(),
    };
    for (line, number) in body.split(|&byte| byte == 10).zip(1u32..) {
        if number as usize > LINES_MAX + 1 {
            return refuse(LINE_COUNT, number);
        }
        if number == 1 {
            let Some((top, count)) = first_form(line) else {
                return refuse(LINE_FORM, number);
            };
            leftmost(first_bad(top, count), number)?;
            page.top = top;
            page.count = count;
        } else {
            let Some(line) = later_form(line) else {
                return refuse(LINE_FORM, number);
            };
            leftmost(later_bad(&line, page.top, page.count), number)?;
            if matches!(line, Line::Default { .. }) && page.lines.contains(&line) {
                return refuse(SECOND_DEFAULT, number);
            }
            page.lines.push(line);
        }
    }
    Ok(page)
}

/// Where line `number` of any bytes lies, without its byte 10; none if there is no such line.
pub fn show_line(text: &[u8], number: usize) -> Option<(usize, usize)> {
    let mut start = 0;
    let mut here = 1;
    while start < text.len() {
        let length = text[start..]
            .iter()
            .position(|&byte| byte == 10)
            .unwrap_or(text.len() - start);
        if here == number {
            return Some((start, length));
        }
        start += length + 1;
        here += 1;
    }
    None
}
