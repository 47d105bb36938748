//! The C examples and the C test: built as C99 without a warning, run, and compared with what stands beside them.

use std::collections::BTreeSet;
use std::process::Command;

use crate::programs::{self, built, file, root, Ended};
use crate::rng::seed_of;
use crate::runner::Case;
use crate::stack::header_figure;
use crate::trial::{figure, Check, Trial};

pub fn cases() -> Vec<Case> {
    let case = Case::new;
    vec![
        case(
            "c_examples_print_what_is_expected",
            RUNS.len() as u64,
            expected_output,
        ),
        case(
            "the_controller_stops_the_arm_on_every_other_refusal",
            1,
            refused_calls,
        ),
        case("a_c_file_calls_every_function", 1, every_function),
        case(
            "the_header_declares_what_the_library_exports",
            1,
            exported_functions,
        ),
        case(
            "the_header_s_version_is_raised_with_its_interface",
            1,
            version,
        ),
    ]
}

/// A program, its arguments after the name, the file of its output and its exit status.
const RUNS: &[(&str, &str, &str, i32)] = &[
    (
        "controller",
        "examples/attach-cup.page",
        "examples/controller-attach-cup.expected",
        0,
    ),
    (
        "controller",
        "examples/kick-sensor.page",
        "examples/controller-kick-sensor.expected",
        0,
    ),
    (
        "controller",
        "examples/short-check.page",
        "examples/controller-short-check.expected",
        0,
    ),
    (
        "controller",
        "examples/two-sensors.page",
        "examples/controller-two-sensors.expected",
        1,
    ),
    (
        "closed",
        "examples/attach-cup.page 0 4 5",
        "examples/closed-attach-cup.expected",
        0,
    ),
    (
        "twin",
        "examples/two-stalls.page",
        "examples/twin-two-stalls.expected",
        0,
    ),
];

fn lines(ended: &Ended) -> Vec<String> {
    let text = String::from_utf8_lossy(&ended.out).into_owned();
    text.lines().map(str::to_string).collect()
}

/// Runs a built program in the repository; nothing may come on its standard error.
fn run(program: &'static str, arguments: &str, refuse: &str) -> Check<Ended> {
    let mut command = Command::new(built(program)?);
    command.args(arguments.split(' ')).current_dir(root());
    command.env("REFUSE", refuse);
    let ended = programs::run(&mut command, b"", 1)?;
    figure("standard error", ended.err.is_empty(), true)?;
    Ok(ended)
}

fn expected_output(_: &mut Trial, item: u64) -> Check {
    let (program, arguments, expected, status) = RUNS[item as usize];
    let ended = run(program, arguments, "")?;
    let wanted: Vec<String> = file(expected)?.lines().map(str::to_string).collect();
    figure(&format!("{program} {arguments}"), lines(&ended), wanted)?;
    figure("the exit status", ended.status, Some(status))
}

/// Each call refuses at its first, second or third time. Only "not waiting" goes on, and then no cup is permitted that is not
/// permitted at rest.
fn refused_calls(_: &mut Trial, _: u64) -> Check {
    let page = "examples/kick-sensor.page";
    for (call, numbers) in [
        ("open", &[10, 11, 12, 13][..]),
        ("evaluate", &[10, 14, 15]),
        ("drive", &[10, 14]),
        ("value", &[10, 14, 15, 17]),
        ("line", &[10, 14, 15, 17]),
    ] {
        for number in numbers {
            for first in 0..3 {
                // An opening and a movement without the cup come once.
                if (call == "open" || call == "line") && first > 0 {
                    continue;
                }
                let plan = format!("{call} {first} {number}");
                let ended = run("refused-controller", page, &plan)?;
                let wanted = format!("arm stopped: {call} refused {number}");
                figure(&plan, lines(&ended).pop(), Some(wanted))?;
                figure(&plan, ended.status, Some(1))?;
            }
        }
    }
    let ended = run("refused-controller", page, "evaluate 0 16")?;
    figure("not waiting", ended.status, Some(0))?;
    let last = lines(&ended).pop().unwrap_or_default();
    figure(
        "not waiting",
        last.ends_with("cup permitted, at rest"),
        true,
    )
}

fn every_function(_: &mut Trial, _: u64) -> Check {
    let ended = run("every", "", "")?;
    figure(
        "tests/c/every.c",
        lines(&ended),
        vec!["112 passed, 0 failed".to_string()],
    )?;
    figure("the exit status", ended.status, Some(0))?;
    let test = file("tests/c/every.c")?;
    let uncalled: Vec<String> = declared()?
        .into_iter()
        .filter(|name| !test.contains(&format!("{name}(")))
        .collect();
    figure("the functions not called", uncalled, Vec::new())
}

/// The functions that the header declares.
fn declared() -> Check<BTreeSet<String>> {
    let header = file("include/simjorad.h")?;
    let lines = header
        .lines()
        .filter(|line| line.starts_with("int32_t ") || line.starts_with("size_t "));
    Ok(lines
        .filter_map(|line| line.split(['(', ' ']).nth(1))
        .map(str::to_string)
        .collect())
}

/// The names that `nm` lists for the library.
fn names(arguments: &[&str]) -> Check<BTreeSet<String>> {
    let mut command = Command::new("nm");
    command.args(arguments).arg(programs::library());
    let ended = programs::run(&mut command, b"", 1)?;
    figure("the status of nm", ended.status, Some(0))?;
    let of_line = |line: &String| line.split_whitespace().last().map(str::to_string);
    Ok(lines(&ended).iter().filter_map(of_line).collect())
}

fn exported_functions(_: &mut Trial, _: u64) -> Check {
    let defined = names(&["-g", "--defined-only"])?;
    let exported: BTreeSet<String> = defined
        .iter()
        .filter(|name| name.starts_with("simjorad_"))
        .cloned()
        .collect();
    figure("the exported functions", exported, declared()?)?;
    let foreign: Vec<String> = names(&["-u"])?
        .into_iter()
        .filter(|name| !name.ends_with(':') && !defined.contains(name))
        .filter(|name| !["memcpy", "memset"].contains(&name.as_str()))
        .collect();
    figure("what else the library asks for", foreign, Vec::new())
}

/// The version of the header and a fingerprint of what it declares. A change of either asks for the other.
const VERSION: (usize, u64) = (14, 16_053_202_817_485_957_579);

/// What a program may depend on: the figures but those of stack, and the declarations.
fn version(_: &mut Trial, _: u64) -> Check {
    let header = file("include/simjorad.h")?;
    let mut interface = String::new();
    let mut comment = false;
    for line in header.lines() {
        comment = comment || line.starts_with("/*");
        let kept =
            !comment && !line.contains("SIMJORAD_STACK_") && !line.contains("SIMJORAD_VERSION");
        if kept {
            let code = line.split("/*").next().unwrap_or_default();
            interface.push_str(&code.split_whitespace().collect::<Vec<_>>().join(" "));
            interface.push(' ');
        }
        comment = comment && !line.trim_end().ends_with("*/");
    }
    let got = (header_figure("SIMJORAD_VERSION")?, seed_of(&interface, 0));
    figure(
        "SIMJORAD_VERSION and the fingerprint of the header (raise the version with the interface, then state both here)",
        got,
        VERSION,
    )
}
