//! The test program; see the library's notes for its arguments.

use std::path::Path;
use std::process::exit;

use outside::{attach, cases, runner, trials};

const USAGE: &str =
    "arguments: none | calls [quick] | quick | only TEXT | item NUMBER only TEXT | stack | attach PATH | trials PATH | documents PATH | mutants [all | only TEXT]";

/// This program as the stand-in for another.
fn stand_in(word: &str) -> Vec<String> {
    let program = std::env::current_exe().expect("the program knows its own place");
    vec![program.to_string_lossy().into_owned(), word.to_string()]
}

fn main() {
    let arguments: Vec<String> = std::env::args().skip(1).collect();
    let words: Vec<&str> = arguments.iter().map(String::as_str).collect();
    let good = match words[..] {
        [] => runner::run(&cases::all(), 1, ""),
        ["calls"] | ["calls", "quick"] => {
            outside::stack::make_roomy();
            runner::run(&cases::calls(), if words.len() == 1 { 1 } else { 10 }, "")
        }
        ["quick"] => runner::run(&cases::all(), 10, ""),
        ["only", text] => runner::run(&cases::all(), 1, text),
        ["item", number, "only", text] => {
            let item = number.parse().expect("an item is a number");
            runner::run_item(&cases::all(), item, text)
        }
        ["until", "failure"] => runner::run_until_failure(&cases::all()),
        ["quick", "only", text] => runner::run(&cases::all(), 10, text),
        ["stack"] => {
            let good = runner::run(&cases::stack::cases(), 1, "");
            cases::stack::print();
            good
        }
        ["attach", path] => {
            let _ = attach::PROGRAM.set(vec![path.to_string()]);
            runner::run(&attach::cases(), 1, "")
        }
        ["attach", "standin", "only", text] => {
            let _ = attach::PROGRAM.set(stand_in("standin-attach"));
            runner::run(&attach::cases(), 10, text)
        }
        ["trials", path] => {
            trials::set_program(Path::new(path));
            runner::run(&trials::cases(), 1, "")
        }
        ["trials", "standin", "only", text] => {
            let _ = trials::PROGRAM.set(stand_in("standin-trials"));
            runner::run(&trials::cases(), 10, text)
        }
        ["documents", path] => {
            let _ = attach::PROGRAM.set(vec![path.to_string()]);
            trials::set_program(&Path::new(path).with_file_name("trials"));
            let mut cases = outside::examples::cases();
            cases.extend(outside::documents::cases());
            runner::run(&cases, 1, "")
        }
        ["mutants"] => outside::standin::mutants(false, ""),
        ["mutants", "all"] => outside::standin::mutants(true, ""),
        ["mutants", "only", text] => outside::standin::mutants(false, text),
        ["standin-attach"] => exit(outside::standin::attach()),
        ["standin-trials"] => exit(outside::standin::trials()),
        _ => {
            eprintln!("{USAGE}");
            exit(2);
        }
    };
    exit(if good { 0 } else { 1 });
}
