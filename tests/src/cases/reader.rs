//! "Read a page" and "Show a line".

use crate::answer::*;
use crate::area::{decode, encode, PAGE_MAX};
use crate::gen::{self, Size};
use crate::page::{self, Line, Literal, Op, Page};
use crate::runner::Case;
use crate::spoil;
use crate::trial::{figure, Check, Trial};

/// A page that is read, and every refusal.
pub const EVERY_READ: &[(&str, Refusal)] = &[
    ("read", 0),
    ("read", TEXT_TOO_LONG),
    ("read", TEXT_UNENDED),
    ("read", LINE_FORM),
    ("read", LINE_RANGE),
    ("read", LINE_COUNT),
    ("read", AREA_SHORT),
];

pub fn cases() -> Vec<Case> {
    vec![
        Case {
            name: "reader_agrees_on_good_pages",
            items: 6_000,
            each: good_pages,
            must_see: &[("read", 0), ("read", 6)],
        },
        Case {
            name: "reader_agrees_on_spoilt_pages",
            items: 8_000,
            each: spoilt_pages,
            must_see: &[
                ("read", 0),
                ("read", TEXT_TOO_LONG),
                ("read", TEXT_UNENDED),
                ("read", LINE_FORM),
                ("read", LINE_RANGE),
                ("read", LINE_COUNT),
                ("read", AREA_SHORT),
                ("read", WEIGHT_RANGE),
                ("read", GRADE_RANGE),
                ("read", LOW_ABOVE_HIGH),
                ("read", SECOND_DEFAULT),
            ],
        },
        Case {
            name: "reader_agrees_on_every_one_byte_edit_of_each_line_form",
            items: FORMS.len() as u64,
            each: one_byte_edits,
            must_see: &[("read", 0), ("read", 3), ("read", 4)],
        },
        Case {
            name: "reader_agrees_on_every_three_digit_number_in_every_field",
            items: FIELDS.len() as u64,
            each: every_number,
            must_see: &[("read", 0), ("read", 3), ("read", 4)],
        },
        Case {
            name: "reader_limits",
            items: 1,
            each: limits,
            must_see: &[],
        },
        Case {
            name: "show_line_agrees_on_any_bytes",
            items: 3_000,
            each: show_lines,
            must_see: &[("show_line", 0), ("show_line", 1)],
        },
    ]
}

fn good_pages(trial: &mut Trial, _: u64) -> Check {
    let mut page = gen::any_page(&mut trial.rng);
    gen::add_queries(&mut trial.rng, &mut page, 3);
    trial.pages += 1;
    let text = page.text();
    let used = encode(&page).len();
    for length in [used, used + 1 + trial.rng.index(60), PAGE_MAX] {
        let mut area = trial.rubbish(length);
        let got = trial.read(&text, &mut area)?;
        figure("the used length", got, Ok(used))?;
        figure("the page read back", decode(&area), Some(page.clone()))?;
    }
    let short = trial.rng.index(used);
    for length in [used - 1, short, 0] {
        let mut area = trial.rubbish(length);
        let got = trial.read(&text, &mut area)?;
        let wanted = ReadRefusal::new(AREA_SHORT, 0, 0);
        figure("a short area", got, Err(wanted))?;
    }
    Ok(())
}

fn spoilt_pages(trial: &mut Trial, item: u64) -> Check {
    let mut page = if item.is_multiple_of(100) {
        gen::page(&mut trial.rng, Size::Large)
    } else {
        gen::any_page(&mut trial.rng)
    };
    gen::add_queries(&mut trial.rng, &mut page, 2);
    let mut text = page.text();
    for _ in 0..6 {
        trial.pages += 1;
        let spoilt = spoil::text(&mut trial.rng, &text);
        let length = match trial.rng.below(4) {
            0 => trial.rng.index(encode(&page).len() + 8),
            1 => PAGE_MAX,
            _ => encode(&page).len() + 20,
        };
        let mut area = trial.rubbish(length);
        let read = trial.read(&spoilt, &mut area)?;
        // Sometimes the damage adds up, as long as the page can be read.
        if read.is_ok() && trial.rng.percent(50) {
            text = spoilt;
        }
    }
    Ok(())
}

/// Good lines of every form; the first line of a page is the first of these.
const FORMS: &[&str] = &[
    "G,10,3",
    "G,200,512",
    "F,0,2,3",
    "F,2,0,10",
    "R,1,10,M,!0,2",
    "R,0,1,X,1",
    "R,0,1,L,!1",
    "R,0,9,B,1,1,1,1,1,1,1,1",
    "R,0,9,P,0,!0",
    "Q,K,0",
    "Q,W,2",
    "D,0,U",
    "D,2,U",
];

/// All texts one byte away from a good line: a byte replaced, removed or inserted.
fn one_byte_edits(trial: &mut Trial, item: u64) -> Check {
    let line = FORMS[item as usize].as_bytes();
    let (before, after): (&[u8], &[u8]) = if line[0] == b'G' {
        (b"", b"\nQ,K,0\n")
    } else {
        (b"G,10,3\n", b"\nQ,K,0\n")
    };
    let mut edits: Vec<Vec<u8>> = vec![line.to_vec()];
    for at in 0..=line.len() {
        for byte in 0..=255u8 {
            let mut longer = line.to_vec();
            longer.insert(at, byte);
            edits.push(longer);
            if at < line.len() {
                let mut changed = line.to_vec();
                changed[at] = byte;
                edits.push(changed);
            }
        }
        if at < line.len() {
            let mut shorter = line.to_vec();
            shorter.remove(at);
            edits.push(shorter);
            edits.push(line[..at].to_vec());
            edits.push(line[at..].to_vec());
        }
    }
    for edit in edits {
        trial.pages += 1;
        let text = [before, &edit, after].concat();
        let mut area = trial.rubbish(560);
        let _ = trial.read(&text, &mut area)?;
    }
    Ok(())
}

/// Pages with one number left open.
const FIELDS: &[&str] = &[
    "G,#,3\n",
    "G,10,#\n",
    "G,10,3\nF,#,2,3\n",
    "G,10,3\nF,0,#,5\n",
    "G,10,3\nF,0,5,#\n",
    "G,10,3\nR,#,5,M,0\n",
    "G,10,3\nR,0,#,M,0\n",
    "G,10,3\nR,0,5,M,#\n",
    "G,10,3\nR,0,5,M,!#\n",
    "G,10,3\nR,0,5,M,0,!#,1\n",
    "G,10,3\nQ,K,#\n",
    "G,10,3\nQ,W,#\n",
    "G,10,3\nD,#,U\n",
    "G,10,3\nD,1,U\nD,#,U\n",
    "G,200,512\nD,#,U\nD,77,U\n",
    "G,200,512\nF,#,0,0\n",
    "G,200,512\nF,0,0,#\n",
    "G,200,512\nR,0,#,B,511\n",
    "G,200,512\nR,0,1,B,#\n",
];

/// Every number of up to three digits, with and without leading zeros, and some longer ones.
fn every_number(trial: &mut Trial, item: u64) -> Check {
    let form = FIELDS[item as usize];
    let mut numbers: Vec<String> = (0..1000).map(|number| number.to_string()).collect();
    numbers.extend((0..100).map(|number| format!("{number:03}")));
    numbers.extend((0..10).map(|number| format!("{number:02}")));
    numbers.extend((0..4).map(|power| (1000u64 << (8 * power)).to_string()));
    numbers.extend(
        [
            "0000",
            "0001",
            "1024",
            "65536",
            "65537",
            "65546",
            "4294967297",
            "",
        ]
        .map(String::from),
    );
    for number in numbers {
        trial.pages += 1;
        let text = form.replace('#', &number).into_bytes();
        let mut area = trial.rubbish(540);
        let _ = trial.read(&text, &mut area)?;
    }
    Ok(())
}

/// A text must be refused so, with a place in the line, whatever the area's length.
fn refused_at(trial: &mut Trial, text: &[u8], number: Refusal, line: u32, place: u32) -> Check {
    trial.pages += 1;
    for length in [PAGE_MAX, 4, 0] {
        let mut area = trial.rubbish(length);
        let got = trial.read(text, &mut area)?;
        let wanted = ReadRefusal::new(number, line, place);
        figure("the refusal", got, Err(wanted))?;
    }
    Ok(())
}

/// A text must be refused so, for no single field.
fn refused(trial: &mut Trial, text: &[u8], number: Refusal, line: u32) -> Check {
    refused_at(trial, text, number, line, 0)
}

/// A text must be read, into an area of exactly its used length; one number less is too short.
fn accepted(trial: &mut Trial, text: &[u8], used: usize) -> Check {
    trial.pages += 1;
    let mut area = trial.rubbish(used);
    figure("the used length", trial.read(text, &mut area)?, Ok(used))?;
    let mut area = trial.rubbish(used - 1);
    let wanted = ReadRefusal::new(AREA_SHORT, 0, 0);
    figure(
        "one number short",
        trial.read(text, &mut area)?,
        Err(wanted),
    )
}

/// The longest page: 512 conditions, 1,024 rules of eight literals, so 4 + 512 + 12 × 1,024 numbers.
fn longest_page() -> Page {
    Page {
        top: 200,
        count: 512,
        lines: (0..1024u16)
            .map(|number| Line::Rule {
                head: 511 - number % 2,
                weight: 200,
                op: Op::P,
                body: vec![
                    Literal {
                        cond: 511,
                        negated: true,
                    };
                    8
                ],
            })
            .collect(),
    }
}

fn limits(trial: &mut Trial, _: u64) -> Check {
    // The head line.
    accepted(trial, b"G,1,1\n", 5)?;
    accepted(trial, b"G,200,512\n", 516)?;
    for (head, place) in [
        ("G,0,1", 2),
        ("G,1,0", 3),
        ("G,201,1", 2),
        ("G,1,513", 3),
        ("G,999,999", 2),
        ("G,0,0", 2),
    ] {
        refused_at(trial, format!("{head}\n").as_bytes(), 4, 1, place)?;
    }
    // Conditions against 512 and against a lower count.
    accepted(
        trial,
        b"G,1,512\nF,511,0,1\nR,511,1,M,511,!511\nQ,K,511\nQ,W,511\nD,511,U\n",
        538,
    )?;
    for (line, place) in [
        ("F,512,0,1", 2),
        ("R,512,1,M,0", 2),
        ("R,0,1,M,512", 5),
        ("R,0,1,M,0,!512", 6),
        ("Q,K,512", 3),
        ("Q,W,512", 3),
        ("D,512,U", 2),
    ] {
        let text = format!("G,1,512\n{line}\n");
        refused_at(trial, text.as_bytes(), 4, 2, place)?;
    }
    accepted(trial, b"G,1,7\nF,6,0,1\n", 15)?;
    refused_at(trial, b"G,1,7\nF,7,0,1\n", 4, 2, 2)?;
    // Grades and weights against the top.
    accepted(trial, b"G,200,1\nF,0,200,200\nR,0,200,P,0\nR,0,1,P,0\n", 19)?;
    for (line, number, place) in [
        ("F,0,0,201", 22, 4),
        ("F,0,201,201", 22, 3),
        ("F,0,201,0", 22, 3),
        ("F,0,1,0", 23, 4),
        ("R,0,201,M,0", 21, 3),
        ("R,0,0,M,0", 21, 3),
    ] {
        let text = format!("G,200,1\n{line}\n");
        refused_at(trial, text.as_bytes(), number, 2, place)?;
    }
    refused_at(trial, b"G,5,1\nF,0,0,6\n", 22, 2, 4)?;
    refused_at(trial, b"G,5,1\nR,0,6,M,0\n", 21, 2, 3)?;
    // The leftmost bad field of a line, wherever the others are.
    for (line, number, place) in [
        ("F,1,6,7", 4, 2),
        ("F,1,5,4", 4, 2),
        ("F,0,6,7", 22, 3),
        ("F,0,7,6", 22, 3),
        ("R,1,6,M,1", 4, 2),
        ("R,0,6,M,1,!1", 21, 3),
        ("R,0,5,M,0,!1,0,1,0,0,0,1", 4, 6),
        ("R,0,5,M,0,0,0,0,0,0,!1,1", 4, 11),
    ] {
        let text = format!("G,5,1\n{line}\n");
        refused_at(trial, text.as_bytes(), number, 2, place)?;
    }
    // Literals.
    accepted(trial, b"G,1,1\nR,0,1,M,0,0,0,0,0,0,0,0\n", 17)?;
    refused(trial, b"G,1,1\nR,0,1,M,0,0,0,0,0,0,0,0,0\n", 3, 2)?;
    refused(trial, b"G,1,1\nR,9,9,M,9,9,9,9,9,9,9,9,9\n", 3, 2)?;
    refused(trial, b"G,1,1\nR,0,1,M\n", 3, 2)?;
    // Lines: 1,025 in all, then a 1,026th that is bad in another way too.
    let mut text = b"G,1,1\n".to_vec();
    for _ in 0..1023 {
        text.extend_from_slice(b"F,0,0,0\n");
    }
    accepted(trial, &text, 5 + 4 * 1023)?;
    text.extend_from_slice(b"F,0,0,0\n");
    accepted(trial, &text, 5 + 4 * 1024)?;
    for look in [
        "F,0,0,0",
        "",
        "x",
        "F,0,1,0",
        "F,9,0,0",
        "G,1,1",
        "R,0,1,M,0,0,0,0,0,0,0,0,0",
        "\r",
        "F,0,00,0",
    ] {
        let longer = [text.as_slice(), look.as_bytes(), b"\n"].concat();
        refused(trial, &longer, 5, 1026)?;
        let longest = [longer.as_slice(), b"x\n\n"].concat();
        refused(trial, &longest, 5, 1026)?;
        if !look.is_empty() {
            refused(trial, &longer[..longer.len() - 1], 2, 0)?;
        }
    }
    // An earlier bad line decides first.
    for (bad, number, place) in [("F,0,1,0", 23, 4), ("F,0,1", 3, 0)] {
        let mut lines: Vec<&str> = vec!["F,0,0,0"; 1026];
        lines[0] = "G,1,1";
        lines[1024] = bad;
        let text = lines.join("\n") + "\n";
        refused_at(trial, text.as_bytes(), number, 1025, place)?;
    }
    // Bytes: 65,535 are looked at, 65,536 are too long.
    let longest = longest_page();
    let text = longest.text();
    figure("the longest text", text.len(), 53_258)?;
    accepted(trial, &text, 12_804)?;
    figure("the greatest used length", PAGE_MAX, 12_804)?;
    let mut padded = text.clone();
    padded.resize(65_534, b'x');
    padded.push(10);
    figure("the padded text", padded.len(), 65_535)?;
    refused(trial, &padded, 5, 1026)?;
    padded.insert(65_000, b'x');
    refused(trial, &padded, 1, 0)?;
    padded.pop();
    refused(trial, &padded[..65_534], 2, 0)?;
    let mut wide = b"G,1,1\n".to_vec();
    wide.resize(65_534, b'1');
    refused(trial, &wide, 2, 0)?;
    wide.push(10);
    refused(trial, &wide, 3, 2)?;
    wide.push(10);
    refused(trial, &wide, 1, 0)?;
    refused(trial, &vec![b'x'; 65_536], 1, 0)?;
    refused(trial, &vec![b'x'; 65_535], 2, 0)?;
    refused(trial, &vec![10; 65_535], 3, 1)?;
    refused(trial, &vec![10; 400_000], 1, 0)?;
    // The end of the text.
    refused(trial, b"", 2, 0)?;
    refused(trial, b"G,1,1", 2, 0)?;
    refused(trial, b"G,1,1\n\nF,0", 2, 0)?;
    refused(trial, b"G,1,1\r\n", 3, 1)?;
    refused(trial, b"\n", 3, 1)?;
    refused(trial, b"F,0,0,0\n", 3, 1)?;
    refused(trial, b"G,1,1\nG,1,1\n", 3, 2)?;
    refused(trial, b"G,1,1\nG,0,0\n", 3, 2)?;
    // Form comes before range within a line, and the first bad line before a later one.
    refused(trial, b"G,999,01\n", 3, 1)?;
    refused(trial, b"G,1,1\nF,9,9,01\n", 3, 2)?;
    refused(trial, b"G,1,1\nR,9,0,M,9,!\n", 3, 2)?;
    refused_at(trial, b"G,1,1\nF,9,0,0\nx\n", 4, 2, 2)?;
    refused(trial, b"G,1,1\nx\nF,9,0,0\n", 3, 2)
}

fn show_lines(trial: &mut Trial, item: u64) -> Check {
    trial.pages += 1;
    let text: Vec<u8> = match item % 6 {
        0 => gen::any_page(&mut trial.rng).text(),
        1 => {
            let text = gen::any_page(&mut trial.rng).text();
            spoil::text(&mut trial.rng, &text)
        }
        2 => {
            let length = trial.rng.index(30);
            let rng = &mut trial.rng;
            (0..length)
                .map(|_| {
                    if rng.percent(40) {
                        10
                    } else {
                        rng.number() as u8
                    }
                })
                .collect()
        }
        3 if item % 50 == 3 => {
            // Longer than any page, with more lines than any page.
            let length = 65_530 + trial.rng.index(130_000);
            let often = trial.rng.pick(&[0, 1, 30, 100]);
            let rng = &mut trial.rng;
            (0..length)
                .map(|_| if rng.percent(often) { 10 } else { b'x' })
                .collect()
        }
        4 => vec![10; trial.rng.index(5)],
        _ => {
            let mut text = gen::any_page(&mut trial.rng).text();
            text.pop();
            text
        }
    };
    let ended = text.iter().filter(|byte| **byte == 10).count();
    let total = ended + usize::from(text.last().is_some_and(|byte| *byte != 10));
    let mut numbers = vec![
        0,
        1,
        2,
        total.saturating_sub(1),
        total,
        total + 1,
        total + 2,
    ];
    numbers.extend([
        usize::MAX,
        usize::MAX - 1,
        1 << 32,
        (1 << 32) + 1,
        (1 << 16) + 1,
    ]);
    numbers.extend((0..4).map(|_| trial.rng.index(total + 1)));
    for number in numbers {
        let shown = trial.show_line(&text, number)?;
        let there = (1..=total).contains(&number);
        figure("whether the line is there", shown.is_some(), there)?;
    }
    // The lines put together again are the text.
    if total <= 40 {
        let mut whole = Vec::new();
        for number in 1..=total {
            let (start, length) = trial.show_line(&text, number)?.unwrap_or((0, 0));
            whole.extend_from_slice(&text[start..start + length]);
            whole.push(10);
        }
        if text.last().is_some_and(|byte| *byte != 10) {
            whole.pop();
        }
        figure("the lines put together", whole, text.clone())?;
    }
    // The reader's refused line is a line that can be shown.
    if let Err(refusal) = page::read(&text) {
        if refusal.line != 0 {
            let shown = trial.show_line(&text, refusal.line as usize)?;
            figure("the refused line is shown", shown.is_some(), true)?;
        }
    }
    Ok(())
}
