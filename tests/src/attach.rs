//! Tests of the program `attach`: a page on its standard input, its answer on its standard output.
//! Section "The program `attach`".

use std::process::Command;
use std::sync::OnceLock;

use crate::body::Pair;
use crate::cases::large::slow_page;
use crate::closed;
use crate::fast::{Index, Run};
use crate::gen::{self, Size};
use crate::input::shown_text;
use crate::page::{self, Line, Page, LINES_MAX};
use crate::plain;
use crate::programs;
use crate::runner::Case;
use crate::spoil;
use crate::trial::{figure, Check, Trial};

/// The program under test, and its arguments.
pub static PROGRAM: OnceLock<Vec<String>> = OnceLock::new();

/// What `attach` prints for these bytes.
pub fn expected(text: &[u8]) -> String {
    let page = match page::read(text) {
        Ok(page) => page,
        Err(refusal) => return format!("refused,{},{}\n", refusal.number, refusal.line),
    };
    printed(&page, &plain::reading(&page), &closed::reading(&page))
}

/// The same by the fast reference.
pub fn expected_fast(text: &[u8]) -> String {
    let page = match page::read(text) {
        Ok(page) => page,
        Err(refusal) => return format!("refused,{},{}\n", refusal.number, refusal.line),
    };
    let index = Index::new(&page);
    let all: Vec<u16> = (0..page.count).collect();
    let mut run = Run::open(&index, &all);
    run.drive(u32::MAX);
    printed(&page, &run.pairs, &index.closed())
}

/// What `attach` prints for a page with these answers.
fn printed(page: &Page, plain: &[Pair], closed: &[Pair]) -> String {
    let mut out = format!("top,{}\n", page.top);
    let mut count = 0;
    for line in &page.lines {
        if let Line::Query { closed: by, cond } = line {
            let (letter, reading) = if *by { ('W', closed) } else { ('K', plain) };
            let pair = reading[usize::from(*cond)];
            out.push_str(&format!("{letter},{cond},{},{}\n", pair.low, pair.high));
            count += 1;
        }
    }
    out.push_str(&format!("end,{count}\n"));
    out
}

/// Runs the program on these bytes, handed over in pieces of this length; its output. It must end with status 0 and leave
/// standard error empty.
pub fn run_program(text: &[u8], piece: usize) -> Check<Vec<u8>> {
    let program = PROGRAM.get().ok_or("no program is named")?;
    let mut command = Command::new(&program[0]);
    command.args(&program[1..]);
    let ended = programs::run(&mut command, text, piece)?;
    if ended.status != Some(0) {
        return Err(format!(
            "the program ends with status {:?}; page {}",
            ended.status,
            shown_text(text)
        ));
    }
    if !ended.err.is_empty() {
        return Err(format!(
            "the program writes {} to standard error; page {}",
            shown_text(&ended.err),
            shown_text(text)
        ));
    }
    Ok(ended.out)
}

fn compare(trial: &mut Trial, text: &[u8]) -> Check {
    compare_in_pieces(trial, text, text.len().max(1))
}

/// The program must print what the reference prints.
fn compare_in_pieces(trial: &mut Trial, text: &[u8], piece: usize) -> Check {
    trial.pages += 1;
    trial.engine.calls += 1;
    let got = run_program(text, piece)?;
    let wanted = expected(text);
    if got == wanted.as_bytes() {
        Ok(())
    } else {
        Err(format!(
            "the output is {} and should be {}; page {}",
            shown_text(&got),
            shown_text(wanted.as_bytes()),
            shown_text(text)
        ))
    }
}

pub fn cases() -> Vec<Case> {
    let case = Case::new;
    vec![
        case("attach_prints_the_example", 1, example),
        case("attach_answers_every_example_page", 1, example_pages),
        case("attach_agrees_on_good_pages", 500, good_pages),
        case("attach_agrees_on_structured_pages", 150, structured_pages),
        case("attach_agrees_on_spoilt_pages", 500, spoilt_pages),
        case(
            "attach_answers_every_query_of_a_long_page",
            12,
            many_queries,
        ),
        case("attach_agrees_on_pages_at_the_limits", 3, limit_pages),
        case("attach_agrees_on_slow_pages", 13, slow_pages),
        case("attach_takes_little_stack", 1, little_stack),
        case("attach_reads_input_that_comes_in_pieces", 20, pieces),
        case("attach_refuses_long_input", 1, long_input),
    ]
}

fn example(trial: &mut Trial, _: u64) -> Check {
    let text = b"G,10,2\nF,0,2,2\nF,1,3,3\nR,0,10,M,!1\nR,1,10,M,!0\nQ,K,0\nQ,W,1\n";
    let wanted = "top,10\nK,0,2,7\nW,1,3,8\nend,2\n";
    if expected(text) != wanted {
        return Err("the reference does not print the example".to_string());
    }
    compare(trial, text)?;
    compare(trial, b"G,1,1\n")?;
    compare(trial, b"")
}

/// Every page in examples/, whose output is also stated in full, so that neither solver decides alone.
fn example_pages(trial: &mut Trial, _: u64) -> Check {
    let mut found = Vec::new();
    let folder = programs::root().join("examples");
    for entry in std::fs::read_dir(&folder).map_err(|error| format!("examples: {error}"))? {
        let path = entry.map_err(|error| format!("examples: {error}"))?.path();
        if path
            .extension()
            .is_some_and(|extension| extension == "page")
        {
            let text = std::fs::read(&path).map_err(|error| format!("{path:?}: {error}"))?;
            compare(trial, &text)?;
            let name = path.file_stem().unwrap_or_default().to_string_lossy();
            found.push((name.into_owned(), expected(&text)));
        }
    }
    found.sort();
    let stated = STATED.map(|(name, output)| (name.to_string(), output.to_string()));
    figure("the outputs of the example pages", found, stated.to_vec())
}

/// The example pages and what `attach` prints for each.
const STATED: [(&str, &str); 7] = [
    (
        "attach-cup",
        "top,100\nK,0,0,90\nK,1,90,100\nK,4,0,95\nK,5,0,100\nW,0,70,90\nW,4,95,95\nW,5,0,0\nend,7\n",
    ),
    (
        "camera",
        "top,100\nK,0,0,100\nK,2,70,100\nK,3,0,100\nW,0,0,100\nend,4\n",
    ),
    (
        "divert-milk",
        "top,200\nK,0,108,190\nK,5,120,190\nK,6,108,190\nK,8,10,92\nW,8,10,92\nend,5\n",
    ),
    (
        "kick-sensor",
        "top,100\nK,0,70,90\nK,1,90,100\nK,4,90,95\nW,0,70,90\nend,4\n",
    ),
    ("short-check", "top,100\nK,0,75,100\nK,1,90,100\nend,2\n"),
    ("two-sensors", "top,10\nK,0,2,7\nW,1,3,8\nend,2\n"),
    ("two-stalls", "top,100\nK,0,70,90\nK,1,80,90\nend,2\n"),
];

fn good_pages(trial: &mut Trial, _: u64) -> Check {
    let mut page = gen::any_page(&mut trial.rng);
    gen::add_queries(&mut trial.rng, &mut page, 12);
    compare(trial, &page.text())
}

fn structured_pages(trial: &mut Trial, _: u64) -> Check {
    let mut page = gen::structured(&mut trial.rng, 24);
    gen::add_queries(&mut trial.rng, &mut page, 24);
    compare(trial, &page.text())
}

fn spoilt_pages(trial: &mut Trial, _: u64) -> Check {
    let mut page = gen::any_page(&mut trial.rng);
    gen::add_queries(&mut trial.rng, &mut page, 5);
    let text = spoil::text(&mut trial.rng, &page.text());
    compare(trial, &text)
}

/// Q lines up to the limit of lines.
fn many_queries(trial: &mut Trial, _: u64) -> Check {
    let mut page = gen::page(&mut trial.rng, Size::Small);
    while page.lines.len() < LINES_MAX {
        let cond = trial.rng.range(0, page.count - 1);
        let closed = trial.rng.percent(50);
        page.lines.push(Line::Query { closed, cond });
    }
    compare(trial, &page.text())
}

fn limit_pages(trial: &mut Trial, _: u64) -> Check {
    let mut page: Page = gen::page(&mut trial.rng, Size::Limit);
    page.lines.truncate(LINES_MAX - 20);
    gen::add_queries(&mut trial.rng, &mut page, 20);
    compare(trial, &page.text())
}

/// Slow pages of 512 conditions, by the fast reference.
fn slow_pages(trial: &mut Trial, item: u64) -> Check {
    trial.pages += 1;
    trial.engine.calls += 1;
    let mut page = slow_page(trial, item as usize, 512);
    page.lines.truncate(LINES_MAX - 6);
    for cond in [0, 255, 511] {
        for closed in [false, true] {
            page.lines.push(Line::Query { closed, cond });
        }
    }
    let text = page.text();
    let got = run_program(&text, text.len())?;
    let wanted = expected_fast(&text);
    figure("the output", String::from_utf8_lossy(&got), wanted.into())
}

/// A page of the greatest size, with no more than 512 KiB of stack for the whole program.
fn little_stack(trial: &mut Trial, _: u64) -> Check {
    trial.pages += 1;
    trial.engine.calls += 1;
    let program = PROGRAM.get().ok_or("no program is named")?;
    let mut page: Page = gen::page(&mut trial.rng, Size::Limit);
    page.lines.truncate(LINES_MAX - 2);
    for closed in [false, true] {
        page.lines.push(Line::Query { closed, cond: 3 });
    }
    let text = page.text();
    let mut command = Command::new("sh");
    command.args(["-c", "ulimit -s 512 && exec \"$0\" \"$@\""]);
    command.args(program);
    let ended = programs::run(&mut command, &text, text.len())?;
    let output = String::from_utf8_lossy(&ended.out).into_owned();
    figure("the output", output, expected(&text))?;
    figure("the exit status", ended.status, Some(0))
}

fn pieces(trial: &mut Trial, _: u64) -> Check {
    let mut page = gen::page(&mut trial.rng, Size::Small);
    gen::add_queries(&mut trial.rng, &mut page, 5);
    let piece = 1 + trial.rng.index(20);
    compare_in_pieces(trial, &page.text(), piece)
}

fn long_input(trial: &mut Trial, _: u64) -> Check {
    let mut good = b"G,1,1\n".to_vec();
    while good.len() < 200_000 {
        good.extend_from_slice(b"Q,K,0\n");
    }
    for length in [65_534, 65_535, 65_536, 65_537, 70_000, 131_072, 200_000] {
        let mut text = good[..length].to_vec();
        compare(trial, &text)?;
        text[length - 1] = 10;
        compare(trial, &text)?;
        if length > 65_535 && expected(&text) != "refused,1,0\n" {
            return Err("the reference does not refuse a long text".to_string());
        }
        compare(trial, &vec![0; length])?;
    }
    Ok(())
}
