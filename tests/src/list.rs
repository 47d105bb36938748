//! A list of trials, its reader and the page that a trial changes: document 02, ticket 8.

use std::collections::BTreeMap;

use crate::answer::*;
use crate::body::Pair;
use crate::closed;
use crate::fast::{Index, Run};
use crate::page::{self, Line, Page};
use crate::plain;

pub const LIST_LINES_MAX: usize = 1024;
pub const LIST_MAX: usize = 65_535;
pub const TRIAL_MAX: u16 = 999;

/// A line of a list.
#[derive(Clone, Copy, Debug, PartialEq, Eq)]
pub struct Tried {
    pub trial: u16,
    pub cond: u16,
    pub low: u16,
    pub high: u16,
}

impl Tried {
    pub fn new(trial: u16, cond: u16, low: u16, high: u16) -> Tried {
        Tried {
            trial,
            cond,
            low,
            high,
        }
    }
}

/// A list as text.
pub fn text(lines: &[Tried]) -> Vec<u8> {
    let mut out = String::new();
    for line in lines {
        out.push_str(&format!(
            "T,{},{},{},{}\n",
            line.trial, line.cond, line.low, line.high
        ));
    }
    out.into_bytes()
}

/// The form of a line, without its byte 10; its numbers of any size.
fn form(line: &[u8]) -> Option<Tried> {
    let fields: Vec<&[u8]> = line.split(|&byte| byte == b',').collect();
    match fields[..] {
        [b"T", trial, cond, low, high] => Some(Tried {
            trial: page::number(trial)?,
            cond: page::number(cond)?,
            low: page::number(low)?,
            high: page::number(high)?,
        }),
        _ => None,
    }
}

/// Whether a line's condition and grades are in range for a page, and low is not above high.
fn in_range(page: &Page, line: Tried) -> bool {
    line.cond < page.count && line.low <= line.high && line.high <= page.top
}

/// Reads a list for an accepted page: its lines, or the number of the refusal and the line, counted from 1.
pub fn read(page: &Page, list: &[u8]) -> Result<Vec<Tried>, (Refusal, usize)> {
    let mut lines: Vec<Tried> = Vec::new();
    let mut end = 0;
    for (bytes, number) in list.split_inclusive(|&byte| byte == 10).zip(1..) {
        end += bytes.len();
        let known = bytes.strip_suffix(b"\n").and_then(form);
        let Some(line) = known.filter(|_| number <= LIST_LINES_MAX && end <= LIST_MAX) else {
            return Err((LIST_FORM, number));
        };
        if !in_range(page, line) {
            return Err((LIST_RANGE, number));
        }
        if lines.last().is_some_and(|before| line.trial < before.trial) {
            return Err((TRIAL_FALLS, number));
        }
        lines.push(line);
    }
    Ok(lines)
}

/// The trials of an accepted list, in its order: the number, and for each condition that the trial names the pair of the last line.
pub fn trials(lines: &[Tried]) -> Vec<(u16, BTreeMap<u16, Pair>)> {
    let together = lines.chunk_by(|one, next| one.trial == next.trial);
    let last = |line: &Tried| (line.cond, Pair::new(line.low, line.high));
    together
        .map(|lines| (lines[0].trial, lines.iter().map(last).collect()))
        .collect()
}

/// The page that a trial changes: each condition that it names has the one fact in place of its F lines.
pub fn changed(page: &Page, named: &BTreeMap<u16, Pair>) -> Page {
    let stays = |line: &&Line| !matches!(line, Line::Fact { cond, .. } if named.contains_key(cond));
    let mut lines: Vec<Line> = page.lines.iter().filter(stays).cloned().collect();
    lines.extend(named.iter().map(|(cond, pair)| Line::Fact {
        cond: *cond,
        low: pair.low,
        high: pair.high,
    }));
    Page {
        top: page.top,
        count: page.count,
        lines,
    }
}

/// Both readings of a page.
type Readings = fn(&Page) -> (Vec<Pair>, Vec<Pair>);

/// The readings by their definitions.
fn by_definition(page: &Page) -> (Vec<Pair>, Vec<Pair>) {
    (plain::reading(page), closed::reading(page))
}

/// The readings by the fast reference.
pub fn by_index(page: &Page) -> (Vec<Pair>, Vec<Pair>) {
    let index = Index::new(page);
    let all: Vec<u16> = (0..page.count).collect();
    let mut run = Run::open(&index, &all);
    run.drive(u32::MAX);
    (run.pairs, index.closed())
}

/// What `trials` prints for the bytes of its two files; a file that cannot be opened has none.
pub fn expected(text: &[u8], list: &[u8]) -> String {
    printed(text, list, by_definition)
}

/// The same by the fast reference.
pub fn expected_fast(text: &[u8], list: &[u8]) -> String {
    printed(text, list, by_index)
}

fn printed(text: &[u8], list: &[u8], readings: Readings) -> String {
    let page = match page::read(text) {
        Ok(page) => page,
        Err(refusal) => return format!("refused,{},{}\n", refusal.number, refusal.line),
    };
    let lines = match read(&page, list) {
        Ok(lines) => lines,
        Err((number, line)) => return format!("refused,{number},{line}\n"),
    };
    let mut out = format!("top,{}\n", page.top);
    let mut count = 0;
    for (trial, named) in trials(&lines) {
        let (plain, closed) = readings(&changed(&page, &named));
        for line in &page.lines {
            if let Line::Query { closed: by, cond } = line {
                let (letter, reading) = if *by { ('W', &closed) } else { ('K', &plain) };
                let pair = reading[usize::from(*cond)];
                out.push_str(&format!(
                    "{trial},{letter},{cond},{},{}\n",
                    pair.low, pair.high
                ));
                count += 1;
            }
        }
    }
    out.push_str(&format!("end,{count}\n"));
    out
}
