//! Damage to page texts, lists of trials, page areas and run areas.

use crate::area::{encode_line, first_line, without_defaults, HEAD, NOT_REACHED_MARK};
use crate::gen;
use crate::list::{self, Tried, LIST_LINES_MAX};
use crate::page::*;
use crate::rng::Rng;

const TELLING: &[u8] = b",,!0123456789GFRQKWMXLBPDU\n\r \tgfrqkwmxlbpdu+-.\"\0\xff";

/// The number fields of a text: start and length.
fn number_fields(text: &[u8]) -> Vec<(usize, usize)> {
    let mut fields = Vec::new();
    let mut at = 0;
    while at < text.len() {
        let length = text[at..]
            .iter()
            .take_while(|byte| byte.is_ascii_digit())
            .count();
        if length > 0 {
            fields.push((at, length));
        }
        at += length.max(1);
    }
    fields
}

fn lines_of(text: &[u8]) -> Vec<Vec<u8>> {
    let mut lines: Vec<Vec<u8>> = text.split(|byte| *byte == 10).map(<[u8]>::to_vec).collect();
    lines.pop();
    lines
}

fn join(lines: &[Vec<u8>]) -> Vec<u8> {
    let mut text = Vec::new();
    for line in lines {
        text.extend_from_slice(line);
        text.push(10);
    }
    text
}

/// Damages a good page's text in one way; the result may still be good.
pub fn text(rng: &mut Rng, good: &[u8]) -> Vec<u8> {
    let mut text = good.to_vec();
    let at = rng.index(text.len());
    let mut lines = lines_of(good);
    let line = rng.index(lines.len());
    match rng.below(26) {
        0 | 1 => text[at] = rng.pick(TELLING),
        2 => text[at] = rng.number() as u8,
        3 => {
            text.remove(at);
        }
        4 => text.insert(at, rng.pick(TELLING)),
        5 => {
            let other = rng.index(text.len());
            text.swap(at, other);
        }
        6 => text.truncate(at),
        7 => {
            text.pop();
        }
        8 => {
            lines.insert(line, lines[line].clone());
            text = join(&lines);
        }
        9 => {
            lines.insert(line + 1, lines[0].clone());
            text = join(&lines);
        }
        10 => {
            lines.remove(line);
            text = join(&lines);
        }
        11 => {
            lines.insert(line, Vec::new());
            text = join(&lines);
        }
        12 | 13 => text = with_number(rng, good),
        14 => {
            lines[line].push(b'\r');
            text = join(&lines);
        }
        15 => {
            for line in &mut lines {
                line.push(b'\r');
            }
            text = join(&lines);
        }
        16 => {
            let tail: &[u8] =
                rng.pick(&[b",".as_slice(), b",0", b",!0", b" ", b",1,2,3,4,5,6,7,8"]);
            lines[line].extend_from_slice(tail);
            text = join(&lines);
        }
        17 => {
            let kept = lines[line]
                .iter()
                .rposition(|byte| *byte == b',')
                .unwrap_or(0);
            lines[line].truncate(kept);
            text = join(&lines);
        }
        18 => lines_over_the_limit(rng, &mut lines, &mut text),
        19 => {
            let length = 65_536 + rng.index(3) * rng.index(40_000);
            while text.len() < length {
                text.extend_from_slice(good);
            }
            if rng.percent(50) {
                text.truncate(length);
            }
        }
        20 => text.make_ascii_lowercase(),
        21 => {
            gen::shuffle(rng, &mut lines);
            text = join(&lines);
        }
        22 => {
            let other = rng.index(lines.len());
            let mut tail = lines[other].clone();
            lines[line].append(&mut tail);
            text = join(&lines);
        }
        23 => {
            let start: &[u8] = rng.pick(&[b"\xef\xbb\xbf".as_slice(), b" ", b"\n", b"G", b","]);
            text.splice(0..0, start.iter().copied());
        }
        24 => {
            if let Some(bang) = text.iter().position(|byte| *byte == b'!') {
                text.insert(bang, b'!');
            }
        }
        _ => text = extreme_line(rng, &lines, line),
    }
    text
}

/// Damages a list of trials for a page in one way; the result may still be good.
pub fn list(rng: &mut Rng, page: &Page, good: &[Tried]) -> Vec<u8> {
    if good.is_empty() {
        return rng
            .pick(&[b"\n".as_slice(), b"T", b"T,0,0,0,0", b"\0"])
            .to_vec();
    }
    let near = |rng: &mut Rng, number: u16| (number + rng.range(0, 2)).saturating_sub(1);
    let mut lines = good.to_vec();
    let at = rng.index(lines.len());
    let before = lines[at.saturating_sub(1)].trial;
    let line = &mut lines[at];
    match rng.below(10) {
        0 => line.cond = near(rng, page.count),
        1 => line.low = near(rng, page.top),
        2 => line.high = near(rng, page.top),
        3 => line.low = near(rng, line.high),
        4 => line.trial = near(rng, before),
        5 => {
            line.trial = near(rng, before);
            line.cond = near(rng, page.count);
        }
        6 => {
            let other = rng.index(lines.len());
            lines.swap(at, other);
        }
        7 => {
            let length = LIST_LINES_MAX - 1 + rng.index(4);
            let last = lines[lines.len() - 1];
            lines.resize(length, last);
        }
        _ => return text(rng, &list::text(good)),
    }
    list::text(&lines)
}

/// One number replaced by another, often out of range or out of form.
fn with_number(rng: &mut Rng, good: &[u8]) -> Vec<u8> {
    let fields = number_fields(good);
    let (at, length) = fields[rng.index(fields.len())];
    let old = String::from_utf8_lossy(&good[at..at + length]).into_owned();
    let new = match rng.below(8) {
        0 => format!("0{old}"),
        1 => format!("{old}0"),
        2 => rng
            .pick(&[
                "999",
                "1000",
                "65536",
                "4294967296",
                "00",
                "000",
                "+1",
                "-1",
                "1.0",
                "",
            ])
            .to_string(),
        3 => rng
            .pick(&["200", "201", "511", "512", "513", "255", "256", "257"])
            .to_string(),
        4 => "0".to_string(),
        5 => rng.below(1000).to_string(),
        6 => (old.parse::<u64>().unwrap_or(0) + 1).to_string(),
        _ => (old.parse::<u64>().unwrap_or(0).saturating_sub(1)).to_string(),
    };
    let mut text = good.to_vec();
    text.splice(at..at + length, new.into_bytes());
    text
}

/// A line whose numbers are near the limits of its own page.
fn extreme_line(rng: &mut Rng, lines: &[Vec<u8>], at: usize) -> Vec<u8> {
    let first = String::from_utf8_lossy(&lines[0]).into_owned();
    let numbers: Vec<i32> = first
        .split(',')
        .filter_map(|field| field.parse().ok())
        .collect();
    let near = |rng: &mut Rng, number: i32| (number - 1 + rng.below(3) as i32).max(0);
    let (top, count) = (numbers[0], numbers[1]);
    let line = match rng.below(4) {
        3 => format!("D,{},U", near(rng, count)),
        0 => format!(
            "F,{},{},{}",
            near(rng, count),
            near(rng, top),
            near(rng, top)
        ),
        1 => format!(
            "R,{},{},M,!{}",
            near(rng, count),
            near(rng, top),
            near(rng, count)
        ),
        _ => format!("Q,K,{}", near(rng, count)),
    };
    let mut lines = lines.to_vec();
    lines.insert(at + 1, line.into_bytes());
    join(&lines)
}

/// 1,024 to 1,030 lines, some of the last ones bad.
fn lines_over_the_limit(rng: &mut Rng, lines: &mut Vec<Vec<u8>>, text: &mut Vec<u8>) {
    let wanted = 1024 + rng.index(7);
    let short = lines.iter().skip(1).min_by_key(|line| line.len()).cloned();
    let filler = short.unwrap_or_else(|| b"Q,K,0".to_vec());
    while lines.len() < wanted {
        lines.push(filler.clone());
    }
    lines.truncate(wanted);
    for line in lines.iter_mut().skip(1020) {
        if rng.percent(15) {
            *line = rng
                .pick(&[b"".as_slice(), b"Q,K,999", b"G,1,1", b"x\r"])
                .to_vec();
        }
    }
    *text = join(lines);
    if rng.percent(10) {
        text.pop();
    }
}

/// A page area that is damaged, and in which way.
pub struct BadArea {
    pub how: String,
    pub numbers: Vec<u16>,
}

/// Where each line of a good area starts.
fn line_starts(area: &[u16]) -> Vec<usize> {
    let mut starts = Vec::new();
    let mut at = first_line(area);
    for _ in 0..area[2] {
        starts.push(at);
        at += match area[at + 1] {
            1..=5 => 4 + usize::from(area[at + 3]),
            _ => 4,
        };
    }
    starts
}

/// Lines of numbers that no page of this top and count can have.
fn bad_lines(rng: &mut Rng, page: &Page) -> Vec<(String, Vec<u16>)> {
    let (top, count) = (page.top, page.count);
    let cond = rng.range(0, count - 1);
    let kind = rng.range(1, 5);
    let weight = rng.range(1, top);
    let literal = rng.range(0, 2 * count - 1);
    let mut lines: Vec<(String, Vec<u16>)> = Vec::new();
    let mut add = |how: &str, numbers: Vec<u16>| lines.push((how.to_string(), numbers));
    for wrong in [count, count + 1, 600, 32_768, u16::MAX] {
        add("fact condition", vec![wrong, 0, 0, top]);
        add("rule condition", vec![wrong, kind, weight, 1, literal]);
        add("query condition", vec![wrong, 6, 1, 0]);
        add("D condition", vec![wrong, 7, 0, 0]);
    }
    add(
        "D line without its number, or a second one",
        vec![cond, 7, 0, 0],
    );
    for wrong in [1, 2, 256, u16::MAX] {
        add("D tail", vec![cond, 7, 0, wrong]);
        add("D third number", vec![cond, 7, wrong, 0]);
    }
    add("fact low above high", vec![cond, 0, top, top - 1]);
    add("fact low 1 high 0", vec![cond, 0, 1, 0]);
    add("fact high above top", vec![cond, 0, 0, top + 1]);
    add("fact high far above top", vec![cond, 0, 0, u16::MAX]);
    add("fact both above top", vec![cond, 0, top + 1, top + 1]);
    for wrong in [7, 8, 9, 255, 256, 257, 262, 32_768, u16::MAX] {
        add("kind, four numbers", vec![cond, wrong, 1, 0]);
        add("kind, as a fact", vec![cond, wrong, 0, 1]);
        add("kind, as a rule", vec![cond, wrong, weight, 1, literal]);
    }
    for wrong in [0, top + 1, 256, 256 + weight, u16::MAX] {
        add("weight", vec![cond, kind, wrong, 1, literal]);
    }
    add("no literals", vec![cond, kind, weight, 0]);
    add(
        "no literals but one number",
        vec![cond, kind, weight, 0, literal],
    );
    for n in [9u16, 10, 16] {
        let mut numbers = vec![cond, kind, weight, n];
        numbers.extend((0..n).map(|_| literal));
        add("too many literals", numbers);
    }
    for n in [256 + 1, 32_768, u16::MAX, u16::MAX - 3] {
        add(
            "literal count far too large",
            vec![cond, kind, weight, n, literal],
        );
    }
    add("one literal short", vec![cond, kind, weight, 2, literal]);
    for wrong in [
        2 * count,
        2 * count + 1,
        2 * count + 2,
        4096,
        32_768,
        u16::MAX,
    ] {
        let n = rng.range(1, 8);
        let mut numbers = vec![cond, kind, weight, n];
        numbers.extend((0..n).map(|_| literal));
        let at = 4 + rng.index(usize::from(n));
        numbers[at] = wrong;
        add("literal", numbers);
        let mut numbers = vec![cond, kind, weight, 8];
        numbers.extend((0..8).map(|_| literal));
        numbers[11] = wrong;
        add("last literal", numbers);
    }
    for wrong in [2, 3, 256, 257, u16::MAX] {
        add("query reading", vec![cond, 6, wrong, 0]);
    }
    for wrong in [1, 2, 256, u16::MAX] {
        add("query tail", vec![cond, 6, rng.range(0, 1), wrong]);
    }
    add("line of three numbers", vec![cond, 0, 0]);
    add("line of one number", vec![cond]);
    lines
}

/// Every kind of damage to a good area; none of the results is sound.
pub fn areas(rng: &mut Rng, page: &Page, good: &[u16]) -> Vec<BadArea> {
    let mut bad = Vec::new();
    let mut add = |how: String, numbers: Vec<u16>| bad.push(BadArea { how, numbers });
    let used = good[3];
    let with = |at: usize, number: u16, more: usize| {
        let mut numbers = good.to_vec();
        numbers[at] = number;
        numbers.resize(good.len() + more, 0);
        numbers
    };
    add("empty".to_string(), Vec::new());
    for length in [1, 2, 3] {
        add(format!("{length} numbers only"), good[..length].to_vec());
    }
    for top in [0, 201, 256, 65_535] {
        add(format!("top {top}"), with(0, top, 0));
    }
    for count in [0, 513, 1024, 65_535] {
        add(format!("count {count}"), with(1, count, 0));
    }
    for lines in [good[2] + 1, good[2].wrapping_sub(1), 1025, 65_535] {
        add(format!("{lines} lines"), with(2, lines, 0));
        add(format!("{lines} lines, longer slice"), with(2, lines, 12));
    }
    // Another D number, and one that is none.
    let cond = rng.range(0, page.count - 1);
    for cond in [0, cond, page.count - 1] {
        let at = HEAD + usize::from(cond);
        for number in [1 - good[at], 2, 3, 256, 257, 65_535] {
            add(format!("D number {number} of {cond}"), with(at, number, 0));
        }
    }
    // Two entries, whatever the number says.
    if page.lines.len() + 2 <= LINES_MAX && !page.unknown_by_default(cond) {
        for number in [0, 1, 2] {
            let mut area = with(HEAD + usize::from(cond), number, 0);
            area.extend([cond, 7, 0, 0, cond, 7, 0, 0]);
            area[2] += 2;
            area[3] += 8;
            add(format!("two D lines of {cond}, number {number}"), area);
        }
    }
    let head = HEAD as u16 + page.count;
    let lengths = [used - 1, used + 1, used + 4, 0, 3, 4, head - 1];
    for length in lengths.into_iter().chain([12_805, 32_768, 65_535]) {
        add(format!("used {length}"), with(3, length, 0));
        add(format!("used {length}, longer slice"), with(3, length, 12));
    }
    if rng.percent(3) {
        add(
            "used 65535, long slice".to_string(),
            with(3, 65_535, 70_000),
        );
    }
    add(
        "one number short".to_string(),
        good[..good.len() - 1].to_vec(),
    );
    let cut = rng.index(good.len());
    add(format!("cut to {cut}"), good[..cut].to_vec());
    let starts = line_starts(good);
    for (how, numbers) in bad_lines(rng, page) {
        if page.lines.len() == LINES_MAX {
            break;
        }
        // At the front, in the middle or at the end, the head numbers telling of it.
        let line = rng.index(starts.len() + 1);
        let at = starts.get(line).copied().unwrap_or(good.len());
        let last = at == good.len();
        // A line that takes too few numbers is surely wrong only where no other line follows.
        if !last && (how.starts_with("line of") || how == "one literal short") {
            continue;
        }
        let mut area = good.to_vec();
        area.splice(at..at, numbers.iter().copied());
        area[2] += 1;
        area[3] += numbers.len() as u16;
        if rng.percent(50) {
            let more = rng.index(20);
            area.resize(area.len() + more, rng.range(0, 6));
        }
        add(format!("{how} {numbers:?} as line {line}"), area);
    }
    bad
}

/// 1,025 good lines that fill their used length exactly.
pub fn too_many_lines(page: &Page, line: &Line) -> Vec<u16> {
    let numbers = encode_line(line);
    without_defaults(page.top, page.count, 1025, &numbers.repeat(1025))
}

/// One number of an area replaced by another; the result may still be sound.
pub fn one_number(rng: &mut Rng, page: &Page, good: &[u16]) -> Vec<u16> {
    let mut area = good.to_vec();
    let at = if rng.percent(20) {
        rng.index(4)
    } else if rng.percent(10) {
        HEAD + rng.index(usize::from(page.count))
    } else {
        rng.index(area.len())
    };
    let old = area[at];
    area[at] = match rng.below(8) {
        0 => old.wrapping_add(1),
        1 => old.wrapping_sub(1),
        2 => rng.range(0, 9),
        3 => page.top + rng.range(0, 1),
        4 => page.count - 1 + rng.range(0, 1),
        5 => 2 * page.count - 1 + rng.range(0, 1),
        6 => old ^ (1 << rng.below(16)),
        _ => rng.number() as u16,
    };
    area
}

/// Every kind of damage to a sound run area; none of the results is sound.
pub fn runs(rng: &mut Rng, page: &Page, good: &[u16]) -> Vec<(String, Vec<u16>)> {
    let length = 3 * usize::from(page.count);
    let top = page.top;
    let mut bad: Vec<(String, Vec<u16>)> = vec![
        ("empty".to_string(), Vec::new()),
        ("one number short".to_string(), good[..length - 1].to_vec()),
        (
            "one condition short".to_string(),
            good[..length - 3].to_vec(),
        ),
    ];
    let entries = [
        [0, top, 3],
        [0, top, 4],
        [0, top, 256],
        [0, top, u16::MAX],
        [0, top + 1, 1],
        [0, top + 1, 2],
        [0, top + 1, 0],
        [0, u16::MAX, 2],
        [top + 1, top + 1, 1],
        [top, top - 1, 1],
        [1, 0, 2],
        [u16::MAX, 0, 1],
        [u16::MAX, u16::MAX, 2],
        [0, top - 1, NOT_REACHED_MARK],
        [1, top, NOT_REACHED_MARK],
        [0, 0, NOT_REACHED_MARK],
        [top, top, NOT_REACHED_MARK],
    ];
    let random = rng.range(0, page.count - 1);
    for cond in [0, random, page.count - 1] {
        for entry in entries {
            let mut run = good.to_vec();
            let at = 3 * usize::from(cond);
            run[at..at + 3].copy_from_slice(&entry);
            bad.push((format!("condition {cond} holds {entry:?}"), run));
        }
    }
    bad
}
