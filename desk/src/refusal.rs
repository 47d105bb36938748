//! What a refused page shows: the line, a caret under the field, the range that was asked for, and what to do.

use crate::area;
use crate::ffi::{self, Refusal};
use crate::header;

/// The report on a text that the engine refused.
pub fn report(path: &str, text: &[u8], refusal: &Refusal) -> String {
    let mut out = format!("{path}: refused {}", refusal.number);
    if refusal.line > 0 {
        out.push_str(&format!(", line {}", refusal.line));
    }
    if refusal.place > 0 {
        out.push_str(&format!(", field {}", refusal.place));
    }
    out.push_str(&format!(": {}\n", header::cause(refusal.number)));
    match refusal.number {
        header::TEXT_UNENDED => out.push_str(&last_line(text)),
        _ if refusal.line > 0 => out.push_str(&shown(text, refusal)),
        _ => {}
    }
    if refusal.number == header::SECOND_DEFAULT {
        out.push_str(&first_default(text, refusal));
    }
    if let Some(range) = range(text, refusal) {
        out.push_str(&format!("asked for: {range}\n"));
    }
    out.push_str(&format!("what to do: {}\n", advice(text, refusal)));
    out
}

/// A line as it can be printed: a byte that is no printable ASCII is written out.
fn printable(bytes: &[u8]) -> String {
    bytes
        .iter()
        .map(|byte| byte.escape_ascii().to_string())
        .collect()
}

/// The bad line, and a caret under its bad field, or under its first byte that no line of a page has.
fn shown(text: &[u8], refusal: &Refusal) -> String {
    let line = ffi::show_line(text, refusal.line);
    let mut out = format!("  {}\n", printable(line));
    let part = match refusal.place {
        0 if refusal.number == header::LINE_FORM => strange_byte(line).map(|at| (at, at + 1)),
        0 => None,
        place => Some(field(line, place)),
    };
    if let Some((start, end)) = part {
        let before = printable(&line[..start]).len();
        let under = printable(&line[start..end]).len();
        out.push_str(&format!("  {}{}\n", " ".repeat(before), "^".repeat(under)));
    }
    out
}

/// The last line, which has no newline.
fn last_line(text: &[u8]) -> String {
    let number = text.split(|byte| *byte == b'\n').count();
    match ffi::show_line(text, number) {
        [] => String::new(),
        line => format!("  line {number}: {}\n", printable(line)),
    }
}

/// The line before a second D line that it repeats: lines of one form and one condition are the same bytes.
fn first_default(text: &[u8], refusal: &Refusal) -> String {
    let second = ffi::show_line(text, refusal.line);
    let same = |number: &usize| ffi::show_line(text, *number) == second;
    let first = (2..refusal.line).find(same);
    first.map_or(String::new(), |number| {
        format!("the first is line {number}: {}\n", printable(second))
    })
}

/// Where a field of a line begins and ends. Fields count from 1.
fn field(line: &[u8], place: usize) -> (usize, usize) {
    let mut start = 0;
    for (number, field) in line.split(|byte| *byte == b',').enumerate() {
        if number + 1 == place {
            return (start, start + field.len());
        }
        start += field.len() + 1;
    }
    (line.len(), line.len())
}

fn field_text(text: &[u8], refusal: &Refusal, place: usize) -> String {
    let line = ffi::show_line(text, refusal.line);
    let (start, end) = field(line, place);
    printable(&line[start..end])
}

/// The first byte that is no capital, digit, comma or `!`.
fn strange_byte(line: &[u8]) -> Option<usize> {
    let known =
        |byte: &u8| byte.is_ascii_uppercase() || byte.is_ascii_digit() || b",!".contains(byte);
    line.iter().position(|byte| !known(byte))
}

/// Top and C, of a G line that the engine accepts.
fn head(text: &[u8]) -> Option<(u16, usize)> {
    let first = [ffi::show_line(text, 1), b"\n"].concat();
    let area = ffi::read(&first).ok()?;
    Some((area::top(&area), area::conditions(&area)))
}

/// The range of the bad field in figures, where the refusal tells a field, or the forms that the line may have.
fn range(text: &[u8], refusal: &Refusal) -> Option<String> {
    if refusal.number == header::LINE_FORM {
        return Some(forms(refusal.line));
    }
    if refusal.line == 1 {
        return match refusal.place {
            2 => Some(format!("a top of 1 to {}", header::TOP_MAX)),
            3 => Some(format!("a count of 1 to {}", header::CONDITIONS_MAX)),
            _ => None,
        };
    }
    let (top, conditions) = head(text)?;
    match refusal.number {
        header::LINE_RANGE => Some(format!("a condition, 0 to {}", conditions - 1)),
        header::WEIGHT_RANGE => Some(format!("a weight of 1 to {top}")),
        header::GRADE_RANGE => Some(format!("a grade, 0 to {top}")),
        header::LOW_ABOVE_HIGH => {
            let low = field_text(text, refusal, 3);
            Some(format!("a high end of {low} to {top}"))
        }
        _ => None,
    }
}

/// What to do about a refusal.
fn advice(text: &[u8], refusal: &Refusal) -> String {
    match refusal.number {
        header::TEXT_TOO_LONG => "shorten the page".to_string(),
        header::TEXT_UNENDED if text.is_empty() => "the file is empty: write a page".to_string(),
        header::TEXT_UNENDED => "end the last line with a newline".to_string(),
        header::LINE_FORM => odd(ffi::show_line(text, refusal.line)).to_string(),
        header::LINE_RANGE if refusal.line == 1 => "choose a number within the range".to_string(),
        header::LINE_RANGE => "correct the number, or raise C in line 1".to_string(),
        header::LINE_COUNT => format!(
            "shorten the page to {} lines after the first",
            header::LINES_MAX
        ),
        header::WEIGHT_RANGE => "correct the weight".to_string(),
        header::GRADE_RANGE => "correct the grade".to_string(),
        header::LOW_ABOVE_HIGH => "exchange the two ends, or correct one".to_string(),
        header::SECOND_DEFAULT => "delete one of the two lines: one says it all".to_string(),
        _ => "see docs/PAGES.md".to_string(),
    }
}

/// The forms that a line may have.
fn forms(number: usize) -> String {
    let literals = header::LITERALS_MAX;
    let forms = match number {
        1 => "G,top,C".to_string(),
        _ => format!("F,cond,low,high or R,cond,weight,op,literal,... with 1 to {literals} literals or Q,reading,cond or D,cond,U"),
    };
    format!("{forms}; a number has 1 to 3 digits and no leading zero")
}

/// What to do about a line of another form: what is odd in it, if it has a byte that no line has.
fn odd(line: &[u8]) -> &'static str {
    let Some(at) = strange_byte(line) else {
        return match line {
            [] => "delete the blank line",
            _ => "write the line in this form",
        };
    };
    match line[at] {
        b'\r' => "save the page with LF line ends (this is a CR)",
        b' ' | b'\t' => "delete the space, and what follows if it is a remark",
        b'a'..=b'z' => "write capitals",
        0xEF => "save the page without a byte order mark",
        _ => "delete the byte over the caret, which no line has",
    }
}
