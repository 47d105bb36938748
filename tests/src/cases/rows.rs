//! Stated figures beside the rows of section "Bench figures": damaged texts, lines shown, runs taken step by step, closed
//! readings of a whole list, and two examples of source document 000.

use crate::answer::*;
use crate::area::{assembled, without_defaults, PAGE_MAX, WAITING_MARK};
use crate::runner::Case;
use crate::trial::{figure, Check, Trial};

pub fn cases() -> Vec<Case> {
    let case = |name, each| Case {
        name,
        items: 1,
        each,
        must_see: &[],
    };
    vec![
        case("texts_have_their_stated_outcome", texts),
        case("long_texts_have_their_stated_outcome", long_texts),
        case("lines_are_shown_as_stated", shown_lines),
        case("openings_count_their_passes_as_stated", openings),
        case("row_02_goes_on_after_it_is_spent", row_02_step_by_step),
        case("row_07_falls_once_and_rests", row_07_step_by_step),
        case("the_line_that_holds_the_low_end_is_told", held_lines),
        case("closed_rows_answer_whole_lists", closed_rows),
        case("closed_running_example_of_source_000", running_example),
        case("closed_insurance_example_of_source_000", insurance_example),
        case("closed_refuses_as_stated", closed_refusals),
    ]
}

/// The used length of a text that is read, or the number, the line and the place of its refusal.
type Outcome = Result<usize, (Refusal, u32, u32)>;

const TEXTS: &[(&str, &[u8], Outcome)] = &[
    ("condition 511 of 512", b"G,1,512\nF,511,0,1\n", Ok(520)),
    (
        "condition 512 of 512",
        b"G,1,512\nF,512,0,1\n",
        Err((4, 2, 2)),
    ),
    ("literal 511 of 512", b"G,1,512\nR,0,1,M,!511\n", Ok(521)),
    (
        "literal 512 of 512",
        b"G,1,512\nR,0,1,M,0,!512\n",
        Err((4, 2, 6)),
    ),
    ("top 200", b"G,200,1\nF,0,200,200\n", Ok(9)),
    (
        "eight literals",
        b"G,1,1\nR,0,1,M,0,!0,0,!0,0,!0,0,!0\n",
        Ok(17),
    ),
    (
        "nine literals",
        b"G,1,1\nR,0,1,M,0,!0,0,!0,0,!0,0,!0,0\n",
        Err((3, 2, 0)),
    ),
    ("no final byte 10", b"G,1,1\nQ,K,0", Err((2, 0, 0))),
    ("an empty line", b"G,1,1\n\nQ,K,0\n", Err((3, 2, 0))),
    ("CR LF", b"G,1,1\r\nQ,K,0\r\n", Err((3, 1, 0))),
    ("a space", b"G,1,1\nQ,K, 0\n", Err((3, 2, 0))),
    ("a NUL", b"G,1,1\nQ,K,0\0\n", Err((3, 2, 0))),
    ("no G", b"Q,K,0\n", Err((3, 1, 0))),
    ("G with a third number", b"G,1,1,1\n", Err((3, 1, 0))),
    ("G with one number", b"G,1\n", Err((3, 1, 0))),
    (
        "the page of attach",
        b"G,10,2\nF,0,2,2\nF,1,3,3\nR,0,10,M,!1\nR,1,10,M,!0\nQ,K,0\nQ,W,1\n",
        Ok(32),
    ),
    (
        "all ops",
        b"G,9,1\nR,0,1,M,0\nR,0,2,X,0\nR,0,3,L,0\nR,0,4,B,0\nR,0,9,P,0\n",
        Ok(30),
    ),
    ("another op", b"G,9,1\nR,0,1,A,0\n", Err((3, 2, 0))),
    ("another reading", b"G,9,1\nQ,X,0\n", Err((3, 2, 0))),
    ("two letters", b"G,9,1\nFF,0,1,1\n", Err((3, 2, 0))),
    ("no literal", b"G,9,1\nR,0,1,M\n", Err((3, 2, 0))),
    ("an empty literal", b"G,9,1\nR,0,1,M,\n", Err((3, 2, 0))),
    ("a lone !", b"G,9,1\nR,0,1,M,!\n", Err((3, 2, 0))),
    ("a missing field", b"G,9,1\nF,0,1\n", Err((3, 2, 0))),
    ("an extra field", b"G,9,1\nF,0,1,1,1\n", Err((3, 2, 0))),
    ("four digits", b"G,9,1\nF,0,1000,1\n", Err((3, 2, 0))),
    ("three digits", b"G,9,1\nF,0,0,999\n", Err((22, 2, 4))),
    ("weight 0", b"G,9,1\nR,0,0,M,0\n", Err((21, 2, 3))),
    ("weight 10", b"G,9,1\nR,0,10,M,0\n", Err((21, 2, 3))),
    ("form before range", b"G,9,1\nF,7,9,8,x\n", Err((3, 2, 0))),
    ("low over top", b"G,9,1\nF,0,10,10\n", Err((22, 2, 3))),
    (
        "low over top and above high",
        b"G,9,1\nF,0,10,3\n",
        Err((22, 2, 3)),
    ),
    (
        "high over top and low above it",
        b"G,9,1\nF,0,12,11\n",
        Err((22, 2, 3)),
    ),
    ("low above high", b"G,9,1\nF,0,9,8\n", Err((23, 2, 4))),
    ("condition and low", b"G,9,1\nF,1,10,9\n", Err((4, 2, 2))),
    (
        "condition, low above high",
        b"G,9,1\nF,1,9,8\n",
        Err((4, 2, 2)),
    ),
    (
        "weight and literal",
        b"G,9,1\nR,0,10,M,1\n",
        Err((21, 2, 3)),
    ),
    (
        "condition and weight",
        b"G,9,1\nR,1,0,M,0\n",
        Err((4, 2, 2)),
    ),
    ("two literals", b"G,9,1\nR,0,1,M,0,!1,0,1\n", Err((4, 2, 6))),
    (
        "the last literal",
        b"G,9,1\nR,0,1,M,0,0,0,0,0,0,0,1\n",
        Err((4, 2, 12)),
    ),
    ("a query", b"G,9,1\nQ,W,1\n", Err((4, 2, 3))),
    ("top 0", b"G,0,1\n", Err((4, 1, 2))),
    ("no conditions", b"G,1,0\n", Err((4, 1, 3))),
    ("top and conditions", b"G,201,513\n", Err((4, 1, 2))),
    ("the first bad line", b"G,9,1\nF,7,9,8\nx\n", Err((4, 2, 2))),
    ("a D line", b"G,9,1\nD,0,U\n", Ok(9)),
    ("a D line of 511", b"G,9,512\nD,511,U\n", Ok(520)),
    ("D without U", b"G,9,1\nD,0\n", Err((3, 2, 0))),
    ("D with another letter", b"G,9,1\nD,0,V\n", Err((3, 2, 0))),
    ("D with a small u", b"G,9,1\nD,0,u\n", Err((3, 2, 0))),
    ("a small d", b"G,9,1\nd,0,U\n", Err((3, 2, 0))),
    ("D with a last comma", b"G,9,1\nD,0,U,\n", Err((3, 2, 0))),
    ("D with two letters", b"G,9,1\nD,0,UU\n", Err((3, 2, 0))),
    ("D with a fourth field", b"G,9,1\nD,0,U,U\n", Err((3, 2, 0))),
    ("D of a negation", b"G,9,1\nD,!0,U\n", Err((3, 2, 0))),
    ("D of no condition", b"G,9,1\nD,,U\n", Err((3, 2, 0))),
    ("D with a leading zero", b"G,9,1\nD,00,U\n", Err((3, 2, 0))),
    ("D of two conditions", b"G,9,2\nD,0,1,U\n", Err((3, 2, 0))),
    ("U before its condition", b"G,9,1\nD,U,0\n", Err((3, 2, 0))),
    ("D first", b"D,0,U\n", Err((3, 1, 0))),
    ("D out of range", b"G,9,1\nD,1,U\n", Err((4, 2, 2))),
    ("D of 512", b"G,9,512\nD,512,U\n", Err((4, 2, 2))),
    ("a second D line", b"G,9,1\nD,0,U\nD,0,U\n", Err((24, 3, 0))),
    (
        "a second D line behind others",
        b"G,9,2\nD,1,U\nF,1,0,9\nD,0,U\nQ,K,1\nD,1,U\n",
        Err((24, 6, 0)),
    ),
    (
        "D lines of two conditions",
        b"G,9,2\nD,1,U\nD,0,U\n",
        Ok(14),
    ),
    (
        "a range in the second D line",
        b"G,9,1\nD,0,U\nD,1,U\n",
        Err((4, 3, 2)),
    ),
    (
        "a range far off in the second D line",
        b"G,9,1\nD,0,U\nD,512,U\n",
        Err((4, 3, 2)),
    ),
    ("a range twice", b"G,9,1\nD,1,U\nD,1,U\n", Err((4, 2, 2))),
    (
        "a wrong form as the second D line",
        b"G,9,1\nD,0,U\nD,0,U,\n",
        Err((3, 3, 0)),
    ),
    (
        "a second D line before a bad line",
        b"G,9,1\nD,0,U\nD,0,U\nx\n",
        Err((24, 3, 0)),
    ),
    (
        "a bad line before a second D line",
        b"G,9,1\nD,0,U\nF,0,9,8\nD,0,U\n",
        Err((23, 3, 4)),
    ),
];

/// Reads a text into an area of this length.
fn outcome(trial: &mut Trial, text: &[u8], length: usize) -> Check<Outcome> {
    trial.pages += 1;
    let mut area = trial.rubbish(length);
    let got = trial.read(text, &mut area)?;
    Ok(got.map_err(|refusal| (refusal.number, refusal.line, refusal.place)))
}

fn texts(trial: &mut Trial, _: u64) -> Check {
    for (name, text, wanted) in TEXTS {
        figure(name, outcome(trial, text, 560)?, *wanted)?;
    }
    let text = b"G,9,1\nQ,K,0\n";
    figure("area of 8", outcome(trial, text, 8)?, Err((6, 0, 0)))?;
    figure("area of 9", outcome(trial, text, 9)?, Ok(9))?;
    // A second D line is told before a short area.
    let text = b"G,9,1\nD,0,U\nD,0,U\n";
    figure("no area", outcome(trial, text, 0)?, Err((24, 3, 0)))
}

fn long_texts(trial: &mut Trial, _: u64) -> Check {
    let mut text = b"G,1,1\n".to_vec();
    text.extend(b"Q,K,0\n".repeat(1024));
    figure("1,025 lines", outcome(trial, &text, PAGE_MAX)?, Ok(4101))?;
    text.extend(b"x\n");
    let got = outcome(trial, &text, PAGE_MAX)?;
    figure("a 1,026th line", got, Err((5, 1026, 0)))?;
    // A D line counts among them, and a second one for a condition as line 1,026 is refused for its place.
    let mut text = b"G,1,1\nD,0,U\n".to_vec();
    text.extend(b"Q,K,0\n".repeat(1023));
    let got = outcome(trial, &text, PAGE_MAX)?;
    figure("1,025 lines with a D line", got, Ok(4101))?;
    text.extend(b"D,0,U\n");
    let got = outcome(trial, &text, PAGE_MAX)?;
    figure("a second D line as line 1,026", got, Err((5, 1026, 0)))?;
    let got = outcome(trial, &[10; 65_535], PAGE_MAX)?;
    figure("65,535 bytes", got, Err((3, 1, 0)))?;
    let got = outcome(trial, &[10; 65_536], PAGE_MAX)?;
    figure("65,536 bytes", got, Err((1, 0, 0)))
}

fn shown_lines(trial: &mut Trial, _: u64) -> Check {
    let lines: [(&str, &str, usize, &str); 8] = [
        ("line 0", "one\ntwo\n", 0, ""),
        ("line 1", "one\ntwo\n", 1, "one"),
        ("line 2", "one\ntwo\n", 2, "two"),
        ("line 3 of 2", "one\ntwo\n", 3, ""),
        ("a last line without byte 10", "one\ntwo", 2, "two"),
        ("an empty line shown", "one\n\nthree", 2, ""),
        ("the largest number", "one\ntwo\n", usize::MAX, ""),
        ("no bytes", "", 1, ""),
    ];
    for (name, text, number, wanted) in lines {
        let shown = trial.show_line(text.as_bytes(), number)?;
        let got = shown.map_or("", |(start, length)| &text[start..start + length]);
        figure(name, got, wanted)?;
    }
    Ok(())
}

/// Low, high and rest of a condition.
fn value(trial: &mut Trial, page: &[u16], run: &[u16], cond: u32) -> Check<(u16, u16, bool)> {
    match trial.value(page, run, cond)? {
        Ok(valued) => Ok((valued.low, valued.high, valued.rest)),
        Err(number) => Err(format!("the value is refused {number}")),
    }
}

/// The page of the `attach` example.
fn rivals() -> Vec<u16> {
    let lines = [
        0, 0, 2, 2, 1, 0, 3, 3, 0, 1, 10, 1, 3, 1, 1, 10, 1, 1, 0, 6, 0, 0, 1, 6, 1, 0,
    ];
    without_defaults(10, 2, 6, &lines)
}

/// Lines after the first under top 9, queries, and what the opening returns: R, E, bound and passes.
type Opening = (
    &'static str,
    &'static str,
    &'static [u16],
    (u32, u32, u32, u32),
);

const OPENINGS: &[Opening] = &[
    ("no line", "", &[0], (1, 0, 1, 1)),
    ("a self rule", "R,0,1,M,0\n", &[0], (1, 1, 10, 1)),
    (
        "all queried",
        "R,0,1,M,1\nR,1,1,M,2\nR,2,1,M,3\n",
        &[3, 0, 2, 1],
        (4, 3, 31, 1),
    ),
    (
        "a chain in page order",
        "R,0,1,M,1\nR,1,1,M,2\nR,2,1,M,3\n",
        &[0],
        (4, 3, 31, 4),
    ),
    (
        "a chain against page order",
        "R,2,1,M,3\nR,1,1,M,2\nR,0,1,M,1\n",
        &[0],
        (4, 3, 31, 4),
    ),
    (
        "a chain queried at both ends",
        "R,0,1,M,1\nR,1,1,M,!2\nR,2,1,M,3\n",
        &[0, 3],
        (4, 3, 31, 3),
    ),
    (
        "a shorter way",
        "R,0,1,M,1,2\nR,1,1,M,2\nR,2,1,M,3\n",
        &[0],
        (4, 4, 40, 3),
    ),
    (
        "a ring",
        "R,0,1,M,1\nR,1,1,M,2\nR,2,1,M,3\nR,3,1,M,0\n",
        &[1],
        (4, 4, 40, 4),
    ),
];

fn openings(trial: &mut Trial, _: u64) -> Check {
    for (name, lines, queries, wanted) in OPENINGS {
        let text = format!("G,9,4\n{lines}");
        figure(name, opening(trial, &text, queries)?, *wanted)?;
    }
    // The longest chain, in page order and against it.
    let mut lines: Vec<String> = (0..511)
        .map(|cond| format!("R,{cond},1,M,{}\n", cond + 1))
        .collect();
    for name in ["512 in page order", "512 against page order"] {
        let text = format!("G,9,512\n{}", lines.concat());
        let wanted = (512, 511, 512 + 9 * 511, 512);
        figure(name, opening(trial, &text, &[0])?, wanted)?;
        lines.reverse();
    }
    Ok(())
}

/// What the opening of a page returns.
fn opening(trial: &mut Trial, text: &str, queries: &[u16]) -> Check<(u32, u32, u32, u32)> {
    trial.pages += 1;
    let mut area = trial.rubbish(PAGE_MAX);
    let used = trial.read(text.as_bytes(), &mut area)?;
    let used = used.map_err(|refusal| format!("{text:?} is refused {refusal:?}"))?;
    let mut run = trial.rubbish(3 * usize::from(area[1]));
    let opened = trial.open(&area[..used], queries, &mut run)?;
    let opened = opened.map_err(|number| format!("open is refused {number}"))?;
    Ok((opened.reached, opened.edges, opened.bound, opened.passes))
}

fn row_02_step_by_step(trial: &mut Trial, _: u64) -> Check {
    trial.pages += 1;
    let mut run = [0, 10, 2, 0, 10, 2];
    for (allowance, taken, line, rest) in [(3, 3, 2, false), (9, 1, 3, true)] {
        let driven = trial.drive(&rivals(), &mut run, allowance)?;
        figure("the drive", driven, Ok(Driven { taken, line, rest }))?;
        let got = value(trial, &rivals(), &run, 0)?;
        figure("the value of 0", got, (2, 7, rest))?;
        let got = value(trial, &rivals(), &run, 1)?;
        figure("the value of 1", got, (3, 8, rest))?;
        let got = trial.evaluate(&rivals(), &mut run, 0)?;
        figure("evaluating 0", got, Err(NOT_WAITING))?;
    }
    let got = trial.value(&rivals(), &run, 2)?.err();
    figure("the value of 2", got, Some(CONDITION_RANGE))
}

fn row_07_step_by_step(trial: &mut Trial, _: u64) -> Check {
    trial.pages += 1;
    let page = without_defaults(10, 1, 1, &[0, 1, 9, 1, 0]);
    let mut run = [0, 10, 2];
    let got = trial.evaluate(&page, &mut run, 0)?;
    figure("an evaluation", got, Ok(true))?;
    let got = value(trial, &page, &run, 0)?;
    figure("the value after it", got, (0, 9, false))?;
    for wanted in [Ok(false), Err(NOT_WAITING)] {
        let got = trial.evaluate(&page, &mut run, 0)?;
        figure("the last evaluations", got, wanted)?;
        let got = value(trial, &page, &run, 0)?;
        figure("the value after them", got, (0, 9, true))?;
    }
    let driven = trial.drive(&page, &mut run, 0)?;
    let wanted = Driven {
        taken: 0,
        line: 0,
        rest: true,
    };
    figure("a drive at rest", driven, Ok(wanted))
}

/// Document 02, ticket 1: the line of an evaluation, and the line of the intervals then held.
fn held_lines(trial: &mut Trial, _: u64) -> Check {
    trial.pages += 3;
    let took = |taken, line, rest| Ok(Driven { taken, line, rest });
    // F,0,5,5 and R,0,10,B,0,0: the fact, and then the rule.
    let twice = without_defaults(10, 1, 2, &[0, 0, 5, 5, 0, 4, 10, 2, 0, 0]);
    let mut run = [0, 10, WAITING_MARK];
    figure("before", trial.line(&twice, &run, 0)?, Ok(2))?;
    let driven = trial.drive(&twice, &mut run, 1)?;
    figure("the evaluation", driven, took(1, 2, false))?;
    figure("then held", trial.line(&twice, &run, 0)?, Ok(3))?;
    let driven = trial.drive(&twice, &mut run, 1)?;
    figure("the next one", driven, took(1, 3, false))?;
    // Q,K,0, F,0,0,4 and Q,K,1: a Q line counts and holds nothing; condition 1 has no line.
    let asked = without_defaults(10, 2, 3, &[0, 6, 0, 0, 0, 0, 0, 4, 1, 6, 0, 0]);
    let mut run = [0, 10, WAITING_MARK, 0, 10, WAITING_MARK];
    let driven = trial.drive(&asked, &mut run, 1)?;
    figure("behind a query", driven, took(1, 3, false))?;
    let driven = trial.drive(&asked, &mut run, 1)?;
    figure("without lines", driven, took(1, 0, true))?;
    figure("no line", trial.line(&asked, &run, 1)?, Ok(0))?;
    let driven = trial.drive(&asked, &mut run, 9)?;
    figure("no evaluation", driven, took(0, 0, true))?;
    // D,1,U and F,1,4,4 of which the D line counts and holds nothing; condition 0 has a D line alone.
    let unknown = [1, 7, 0, 0, 1, 0, 4, 4, 0, 7, 0, 0];
    let unknown = assembled(10, &[1, 1], 3, &unknown);
    let mut run = [0, 10, WAITING_MARK, 0, 10, WAITING_MARK];
    let driven = trial.drive(&unknown, &mut run, 1)?;
    figure("a D line alone", driven, took(1, 0, false))?;
    let driven = trial.drive(&unknown, &mut run, 1)?;
    figure("behind a D line", driven, took(1, 3, true))?;
    // The last of the four is that of 1, with the low end of its fact and of its rule.
    let mut run = [0, 10, WAITING_MARK, 0, 10, WAITING_MARK];
    let driven = trial.drive(&rivals(), &mut run, 4)?;
    figure("the first of two", driven, took(4, 3, true))
}

/// Reads closed with scratch and answers for up to six conditions.
fn read_closed(
    trial: &mut Trial,
    page: &[u16],
    queries: &[u16],
) -> Check<Result<Vec<(u16, u16)>, Refusal>> {
    trial.pages += 1;
    let (mut scratch, mut answers) = ([9; 24], [9; 32]);
    let code = trial.closed(page, queries, &mut scratch, &mut answers)?;
    Ok(code.map(|()| {
        answers[..2 * queries.len()]
            .chunks_exact(2)
            .map(|pair| (pair[0], pair[1]))
            .collect()
    }))
}

/// The closed answers must be these, in list order.
fn answers(trial: &mut Trial, page: &[u16], queries: &[u16], wanted: &[(u16, u16)]) -> Check {
    let got = read_closed(trial, page, queries)?;
    figure("the closed answers", got, Ok(wanted.to_vec()))
}

/// Rows 1, 3, 5 and 6.
fn closed_rows(trial: &mut Trial, _: u64) -> Check {
    answers(trial, &rivals(), &[0, 1], &[(2, 7), (3, 8)])?;
    let lines = [0, 0, 3, 3, 2, 0, 6, 6, 0, 1, 10, 2, 2, 4, 1, 1, 10, 1, 2];
    let page = without_defaults(10, 3, 4, &lines);
    answers(trial, &page, &[0, 1, 2], &[(3, 3), (0, 0), (6, 6)])?;
    let denial = without_defaults(1, 1, 1, &[0, 1, 1, 1, 1]);
    answers(trial, &denial, &[0], &[(0, 1)])?;
    answers(trial, &self_support(), &[0], &[(0, 0)])
}

/// Row 6: a condition that only itself supports.
fn self_support() -> Vec<u16> {
    without_defaults(1, 1, 1, &[0, 1, 1, 1, 0])
}

/// Example 8 of source 000 at top 10: A, B, C, D are 0 to 3, and 4 holds 0.6.
fn running_example(trial: &mut Trial, _: u64) -> Check {
    let lines = [
        0, 2, 10, 2, 3, 4, 1, 2, 10, 2, 1, 6, 2, 0, 3, 3, 2, 1, 10, 2, 6, 8, 3, 1, 10, 1, 6, 4, 0,
        6, 6,
    ];
    let page = without_defaults(10, 5, 6, &lines);
    let wanted = [(0, 0), (3, 3), (0, 7), (3, 10)];
    answers(trial, &page, &[3, 2, 1, 0], &wanted)
}

/// Example 7 of source 000 at top 100: experience, risk, sports car, young, good driver are 0 to 4.
fn insurance_example(trial: &mut Trial, _: u64) -> Check {
    let lines = [
        0, 0, 70, 70, 1, 0, 50, 50, 2, 0, 80, 80, 4, 1, 100, 2, 0, 3, 1, 1, 80, 1, 6, 1, 1, 80, 1,
        4, 1, 1, 100, 2, 0, 9,
    ];
    let page = without_defaults(100, 5, 7, &lines);
    let wanted = [(70, 70), (64, 70), (80, 80), (0, 0), (30, 36)];
    answers(trial, &page, &[0, 1, 2, 3, 4], &wanted)
}

fn closed_refusals(trial: &mut Trial, _: u64) -> Check {
    let page = self_support();
    let cases: [(&[u16], &[u16], Refusal); 3] = [
        (&page[..page.len() - 1], &[0, 1], PAGE_UNSOUND),
        (&page, &[], QUERY_COUNT),
        (&page, &[0, 1], QUERY_RANGE),
    ];
    for (page, queries, number) in cases {
        let got = read_closed(trial, page, queries)?;
        figure("the refusal", got, Err(number))?;
    }
    Ok(())
}
