//! The technician's desk: checks, explains, draws and compares pages. Thin: every figure comes from a call of the proved engine (`ffi`), and no
//! rule of the papers is written again here.

mod answer;
mod area;
mod bar;
mod chain;
mod check;
mod compare;
mod draw;
mod ffi;
mod header;
mod names;
mod page;
mod probe;
mod readings;
mod refusal;
mod report;
mod why;

use std::io::{ErrorKind, Write};
use std::process::ExitCode;

use page::{Page, Stop};
use report::Report;

const USAGE: &str = "\
desk check PAGE         warnings, or why the page is refused
desk answer PAGE        both readings of every query
desk why PAGE COND      which lines hold the low end of a condition
desk draw PAGE          the page as an SVG picture, on standard output
desk compare OLD NEW    queries whose answers changed
PAGE is a file; names of conditions stand in PAGE.names, a line `number,name` each.
Exit status: 0; 1 with warnings (check) or differences (compare); 2 if a page is refused; 3 if a file cannot be read or the arguments are none of these.";

/// The exit status of a refused page, and of what could not be done.
const REFUSED: u8 = 2;
const FAILED: u8 = 3;

fn command(words: &[&str]) -> Result<Report, Stop> {
    match words {
        ["check", path] => Ok(check::run(&Page::open(path)?)),
        ["answer", path] => Ok(answer::run(&Page::open(path)?)),
        ["why", path, condition] => why::run(&Page::open(path)?, condition),
        ["draw", path] => Ok(draw::run(&Page::open(path)?)),
        ["compare", old, new] => Ok(compare::run(&Page::open(old)?, &Page::open(new)?)),
        ["help" | "--help" | "-h"] => Ok(Report {
            out: format!("{USAGE}\n"),
            notes: Vec::new(),
            status: 0,
        }),
        _ => Err(Stop::Failed(USAGE.to_string())),
    }
}

fn main() -> ExitCode {
    let arguments: Vec<String> = std::env::args_os()
        .skip(1)
        .map(|word| word.to_string_lossy().into_owned())
        .collect();
    let words: Vec<&str> = arguments.iter().map(String::as_str).collect();
    let report = command(&words).unwrap_or_else(|stop| match stop {
        Stop::Refused(out) => Report {
            out,
            notes: Vec::new(),
            status: REFUSED,
        },
        Stop::Failed(reason) => Report {
            out: String::new(),
            notes: vec![reason],
            status: FAILED,
        },
    });
    for note in &report.notes {
        eprintln!("{note}");
    }
    ExitCode::from(written(&report))
}

/// Writes the output; the exit status. A reader that has seen enough and closed its end is no failure.
fn written(report: &Report) -> u8 {
    let mut out = std::io::stdout();
    match out
        .write_all(report.out.as_bytes())
        .and_then(|()| out.flush())
    {
        Err(error) if error.kind() != ErrorKind::BrokenPipe => {
            eprintln!("the output cannot be written: {error}");
            FAILED
        }
        _ => report.status,
    }
}
