//! Tests of the program `trials`: a page and a list of trials in the files `page` and `trials` of its folder, its answer on its standard
//! output. Document 02, ticket 8.

use std::io::ErrorKind;
use std::os::unix::fs::symlink;
use std::path::{Path, PathBuf};
use std::process::Command;
use std::sync::atomic::{AtomicU64, Ordering::SeqCst};
use std::sync::OnceLock;
use std::time::Duration;

use crate::gen::{self, Size};
use crate::input::shown_text;
use crate::list::{self, expected, expected_fast, Tried, LIST_LINES_MAX, LIST_MAX, TRIAL_MAX};
use crate::page::{self, Line, Literal, Op, Page, CONDITIONS_MAX, LINES_MAX, TEXT_MAX, TOP_MAX};
use crate::programs::{self, Ended};
use crate::runner::Case;
use crate::slot;
use crate::spoil;
use crate::trial::{figure, Check, Trial};

/// The program under test, and its arguments.
pub static PROGRAM: OnceLock<Vec<String>> = OnceLock::new();

/// Names the program at a path; it is run in other folders.
pub fn set_program(path: &Path) {
    let place = std::fs::canonicalize(path).unwrap_or_else(|_| path.to_path_buf());
    let _ = PROGRAM.set(vec![place.to_string_lossy().into_owned()]);
}

/// A run may take so long where no time is stated.
const LIMIT: Duration = Duration::from_secs(40);

/// And so long with the largest pages and the most answers.
const MINUTE: Duration = Duration::from_secs(60);

/// The bytes of a file; none if it is missing.
type File<'a> = Option<&'a [u8]>;

/// A folder of its own for one run, removed in the end.
struct Folder(PathBuf);

impl Folder {
    fn new(files: &[(&str, File)]) -> Check<Folder> {
        let folder = Folder::empty().map_err(|error| format!("no folder: {error}"))?;
        for (name, bytes) in files {
            if let Some(bytes) = bytes {
                let written = std::fs::write(folder.0.join(name), bytes);
                written.map_err(|error| format!("{name}: {error}"))?;
            }
        }
        Ok(folder)
    }

    /// A folder with a name that no other has.
    fn empty() -> std::io::Result<Folder> {
        static NEXT: AtomicU64 = AtomicU64::new(0);
        loop {
            let number = NEXT.fetch_add(1, SeqCst);
            let name = format!("simjorad-trials-{}-{number}", std::process::id());
            let path = std::env::temp_dir().join(name);
            match std::fs::create_dir(&path) {
                Ok(()) => return Ok(Folder(path)),
                Err(error) if error.kind() == ErrorKind::AlreadyExists => {}
                Err(error) => return Err(error),
            }
        }
    }

    /// The names of what the folder holds, sorted.
    fn names(&self) -> Check<Vec<String>> {
        let entries = std::fs::read_dir(&self.0).map_err(|error| error.to_string())?;
        let names = entries.flatten().map(|entry| entry.file_name());
        let mut names: Vec<String> = names
            .map(|name| name.to_string_lossy().into_owned())
            .collect();
        names.sort();
        Ok(names)
    }
}

impl Drop for Folder {
    fn drop(&mut self) {
        let _ = std::fs::remove_dir_all(&self.0);
    }
}

/// Runs the program in a folder, with these bytes on its standard input. It must end with status 0, leave standard error empty and the
/// folder's names as they are.
fn run_in(folder: &Folder, input: &[u8], limit: Duration) -> Check<Ended> {
    let program = PROGRAM.get().ok_or("no program is named")?;
    let before = folder.names()?;
    let mut command = Command::new(&program[0]);
    command.args(&program[1..]).current_dir(&folder.0);
    let ended = programs::run_within(&mut command, input, input.len(), limit)?;
    if ended.status != Some(0) {
        let seconds = ended.time.as_secs_f64();
        let status = ended.status;
        return Err(format!("it ends with {status:?} after {seconds:.1} s"));
    }
    if !ended.err.is_empty() {
        let shown = shown_text(&ended.err);
        return Err(format!("it writes {shown} to standard error"));
    }
    figure("the files after the run", folder.names()?, before)?;
    Ok(ended)
}

/// Runs the program on two files; they must stay as they are.
fn run_program(page: File, list: File, limit: Duration) -> Check<Ended> {
    let files = [("page", page), ("trials", list)];
    let folder = Folder::new(&files)?;
    let ended = run_in(&folder, b"", limit)?;
    for (name, bytes) in files {
        let now = std::fs::read(folder.0.join(name)).ok();
        if now.as_deref() != bytes {
            return Err(format!("the file `{name}` is changed"));
        }
    }
    Ok(ended)
}

/// What the program prints for two files that are there.
pub fn output(page: &[u8], list: &[u8]) -> Check<String> {
    let ended = run_program(Some(page), Some(list), LIMIT)?;
    Ok(String::from_utf8_lossy(&ended.out).into_owned())
}

/// The output must be the wanted one; else where the two part.
fn same_output(got: &[u8], wanted: &str) -> Check {
    if got == wanted.as_bytes() {
        return Ok(());
    }
    let line = |text: &[u8], number: usize| {
        let line = text.split_inclusive(|&byte| byte == 10).nth(number);
        line.map_or("nothing".to_string(), shown_text)
    };
    let wanted = wanted.as_bytes();
    let common = got.iter().zip(wanted).take_while(|(a, b)| a == b).count();
    let number = got[..common].iter().filter(|byte| **byte == 10).count();
    Err(format!(
        "line {} of the output is {} and should be {}",
        number + 1,
        line(got, number),
        line(wanted, number)
    ))
}

fn shown(file: File) -> String {
    file.map_or("none".to_string(), shown_text)
}

/// The program must print this for these files.
fn compare_files(trial: &mut Trial, page: File, list: File, wanted: &str) -> Check {
    trial.pages += 1;
    trial.engine.calls += 1;
    let compared = run_program(page, list, LIMIT).and_then(|ended| same_output(&ended.out, wanted));
    compared.map_err(|reason| format!("{reason}; page {}, list {}", shown(page), shown(list)))
}

/// The program must print what the reference prints.
fn compare(trial: &mut Trial, page: &[u8], list: &[u8]) -> Check {
    compare_files(trial, Some(page), Some(list), &expected(page, list))
}

/// The program must print this, and so must the reference.
fn stated(trial: &mut Trial, page: &str, list: &str, wanted: &str) -> Check {
    let reference = expected(page.as_bytes(), list.as_bytes());
    figure(
        &format!("the reference's answer to {list:?} for {page:?}"),
        &*reference,
        wanted,
    )?;
    compare_files(
        trial,
        Some(page.as_bytes()),
        Some(list.as_bytes()),
        &reference,
    )
}

pub fn cases() -> Vec<Case> {
    let case = Case::new;
    vec![
        case("trials_prints_the_example", 1, example),
        case("trials_answers_as_stated", 1, stated_answers),
        case("trials_takes_a_missing_file_as_empty", 1, missing_files),
        case("trials_refuses_lists_as_stated", 1, stated_lists),
        case("trials_refuses_the_page_first", 1, page_first),
        case("trials_knows_the_ranges_of_its_page", 1, ranges),
        case("trials_takes_every_trial_number", 1, every_number),
        case("trials_takes_1024_lines", 1, list_lines),
        case("trials_reads_long_lists", 1, long_lists),
        case("trials_reads_long_pages", 1, long_pages),
        case("trials_takes_the_last_of_600_lines", 1, named_often),
        case("trials_changes_a_page_of_1024_lines", 3, longest_changed),
        case(
            "trials_answers_1024_queries_a_thousand_times",
            1,
            most_answers,
        ),
        case("trials_agrees_on_pages_of_queries", 10, many_queries),
        Case {
            must_see: &[("trials", 0)],
            ..case("trials_agrees_on_good_lists", 600, good_lists)
        },
        case("trials_agrees_on_structured_pages", 200, structured_pages),
        case("trials_agrees_on_large_pages", 20, large_pages),
        Case {
            must_see: &[
                ("trials", 0),
                ("trials", 40),
                ("trials", 41),
                ("trials", 42),
            ],
            ..case("trials_agrees_on_spoilt_lists", 800, spoilt_lists)
        },
        case("trials_agrees_on_spoilt_pages", 200, spoilt_pages),
        case("trials_takes_2_seconds_for_a_typical_page", 1, typical_time),
        case("trials_takes_a_minute_for_a_largest_page", 7, largest_time),
    ]
}

/// The list in examples/ on its page; its output is stated in full.
fn example(trial: &mut Trial, _: u64) -> Check {
    let page = programs::file("examples/attach-cup.page")?;
    let list = programs::file("examples/attach-cup.trials")?;
    stated(trial, &page, &list, EXAMPLE)
}

const EXAMPLE: &str = "top,100\n\
    1,K,0,0,19\n1,K,1,90,100\n1,K,4,0,19\n1,K,5,80,100\n1,W,0,0,19\n1,W,4,0,19\n1,W,5,80,100\n\
    2,K,0,0,0\n2,K,1,0,0\n2,K,4,0,95\n2,K,5,0,100\n2,W,0,0,0\n2,W,4,95,95\n2,W,5,0,0\n\
    3,K,0,0,90\n3,K,1,90,100\n3,K,4,0,95\n3,K,5,0,100\n3,W,0,70,90\n3,W,4,95,95\n3,W,5,0,0\n\
    4,K,0,0,95\n4,K,1,90,100\n4,K,4,0,95\n4,K,5,0,100\n4,W,0,90,95\n4,W,4,95,95\n4,W,5,0,0\n\
    end,28\n";

/// A page, a list and what is printed. The pages have a D line, several F lines, loops; what a trial leaves and what it replaces shows.
const STATED: &[(&str, &str, &str)] = &[
    // The last line of a condition is the fact, wherever the others stand.
    (
        "G,10,2\nF,0,1,1\nQ,K,0\nQ,K,1\n",
        "T,3,0,2,2\nT,3,1,7,7\nT,3,0,4,5\n",
        "top,10\n3,K,0,4,5\n3,K,1,7,7\nend,2\n",
    ),
    (
        "G,10,1\nF,0,1,1\nQ,W,0\n",
        "T,3,0,0,9\nT,3,0,9,9\nT,3,0,0,0\n",
        "top,10\n3,W,0,0,0\nend,1\n",
    ),
    // A trial knows nothing of the trials before and after it.
    (
        "G,10,3\nF,0,1,1\nF,1,2,2\nQ,K,0\nQ,W,1\nQ,K,2\n",
        "T,1,0,9,9\nT,2,1,8,8\nT,4,2,3,3\n",
        "top,10\n1,K,0,9,9\n1,W,1,2,2\n1,K,2,0,0\n2,K,0,1,1\n2,W,1,8,8\n2,K,2,0,0\n4,K,0,1,1\n4,W,1,2,2\n4,K,2,3,3\nend,9\n",
    ),
    // Also where it names the same condition.
    (
        "G,10,1\nF,0,5,5\nQ,K,0\n",
        "T,1,0,9,9\nT,2,0,3,4\n",
        "top,10\n1,K,0,9,9\n2,K,0,3,4\nend,2\n",
    ),
    // A trial is answered once, after its last line.
    (
        "G,10,2\nQ,K,0\nQ,K,1\n",
        "T,0,0,1,1\nT,0,1,2,2\nT,5,1,3,3\nT,5,0,4,4\n",
        "top,10\n0,K,0,1,1\n0,K,1,2,2\n5,K,0,4,4\n5,K,1,3,3\nend,4\n",
    ),
    // The rules of a condition that is named stay: they raise both ends of the fact.
    (
        "G,10,2\nF,0,0,0\nF,1,7,8\nR,0,10,M,1\nQ,K,0\nQ,W,0\n",
        "T,0,0,3,3\nT,1,0,9,9\nT,2,0,0,0\nT,2,1,1,2\n",
        "top,10\n0,K,0,7,8\n0,W,0,7,8\n1,K,0,9,9\n1,W,0,9,9\n2,K,0,1,2\n2,W,0,1,2\nend,6\n",
    ),
    // All F lines of the condition go, before and after its other lines.
    (
        "G,10,1\nF,0,5,6\nF,0,2,9\nQ,K,0\nF,0,7,7\n",
        "T,0,0,1,1\n",
        "top,10\n0,K,0,1,1\nend,1\n",
    ),
    // F lines of the other conditions stay.
    (
        "G,10,3\nF,0,5,6\nF,1,2,9\nF,1,3,3\nR,2,10,M,0,1\nQ,K,2\nQ,K,1\n",
        "T,0,0,8,8\n",
        "top,10\n0,K,2,3,8\n0,K,1,3,9\nend,2\n",
    ),
    // A condition without F lines has a fact.
    (
        "G,10,2\nR,0,10,M,!1\nQ,K,0\nQ,K,1\n",
        "T,0,1,4,7\nT,1,0,1,2\n",
        "top,10\n0,K,0,3,6\n0,K,1,4,7\n1,K,0,10,10\n1,K,1,0,0\nend,4\n",
    ),
    // The D line gives way to the fact, and only in its trial.
    (
        "G,10,2\nD,0,U\nQ,K,0\nQ,W,0\n",
        "T,0,0,2,3\nT,1,1,2,3\n",
        "top,10\n0,K,0,2,3\n0,W,0,2,3\n1,K,0,0,10\n1,W,0,0,10\nend,4\n",
    ),
    // The D line stays: the loop of 0 and 1 is not taken as unsupported.
    (
        "G,10,2\nD,1,U\nR,1,10,M,0\nR,0,10,M,1\nQ,W,1\nQ,K,1\n",
        "T,0,1,2,3\n",
        "top,10\n0,W,1,2,10\n0,K,1,2,10\nend,2\n",
    ),
    (
        "G,10,2\nR,1,10,M,0\nR,0,10,M,1\nQ,W,1\nQ,K,1\n",
        "T,0,1,2,3\n",
        "top,10\n0,W,1,2,3\n0,K,1,2,10\nend,2\n",
    ),
    // Page order, repeats too, whatever the readings and wherever the lines stand.
    (
        "G,10,3\nQ,W,2\nQ,K,0\nF,0,1,1\nQ,W,0\nR,2,10,M,0\nQ,K,2\nF,1,4,4\nQ,W,2\nQ,K,1\n",
        "T,7,0,3,5\n",
        "top,10\n7,W,2,3,5\n7,K,0,3,5\n7,W,0,3,5\n7,K,2,3,5\n7,W,2,3,5\n7,K,1,4,4\nend,6\n",
    ),
    // A page without queries, a list without lines.
    ("G,10,1\nF,0,5,6\n", "T,1,0,1,1\nT,2,0,1,1\n", "top,10\nend,0\n"),
    ("G,10,1\nF,0,5,6\nQ,K,0\n", "", "top,10\nend,0\n"),
    ("G,1,1\n", "", "top,1\nend,0\n"),
];

fn stated_answers(trial: &mut Trial, _: u64) -> Check {
    for (page, list, wanted) in STATED {
        stated(trial, page, list, wanted)?;
    }
    Ok(())
}

/// A file that is missing, empty, or a link that leads to no file; and nothing is read from standard input in its place.
fn missing_files(trial: &mut Trial, _: u64) -> Check {
    let page: &[u8] = b"G,10,1\nF,0,5,6\nQ,K,0\n";
    let list: &[u8] = b"T,1,0,1,1\n";
    let (no_page, no_list) = ("refused,2,0\n", "top,10\nend,0\n");
    for empty in [None, Some(&b""[..])] {
        for other in [None, Some(&b""[..]), Some(list), Some(b"T")] {
            compare_files(trial, empty, other, no_page)?;
        }
        compare_files(trial, Some(page), empty, no_list)?;
    }
    compare(trial, page, list)?;
    for (files, link, wanted) in [
        ([("page", None), ("trials", Some(list))], "page", no_page),
        ([("page", Some(page)), ("trials", None)], "trials", no_list),
    ] {
        trial.engine.calls += 4;
        let folder = Folder::new(&files)?;
        for given in [page, list] {
            same_output(&run_in(&folder, given, LIMIT)?.out, wanted)?;
        }
        // To a file that is not there, and to itself.
        let place = folder.0.join(link);
        for target in ["nothing", link] {
            symlink(target, &place).map_err(|error| error.to_string())?;
            same_output(&run_in(&folder, b"", LIMIT)?.out, wanted)?;
            std::fs::remove_file(&place).map_err(|error| error.to_string())?;
        }
    }
    Ok(())
}

/// The page of `LISTS`: top 10, three conditions.
const LISTS_PAGE: &str = "G,10,3\nF,0,1,2\nF,0,3,4\nR,1,10,M,0\nD,2,U\nQ,W,1\nQ,K,0\nQ,K,2\n";

/// Lists for that page, each with its refusal and line; 0 is accepted. What is refused stands beside what is not.
const LISTS: &[(&str, u32, usize)] = &[
    ("T,0,0,0,0\n", 0, 0),
    ("T,0,0,0,0\nT,0,0,0,0\n", 0, 0),
    // 40: letter.
    ("t,0,0,0,0\n", 40, 1),
    ("F,0,0,0,0\n", 40, 1),
    ("TT,0,0,0,0\n", 40, 1),
    (",0,0,0,0\n", 40, 1),
    ("0,0,0,0,0\n", 40, 1),
    ("\"T\",0,0,0,0\n", 40, 1),
    ("\u{feff}T,0,0,0,0\n", 40, 1),
    // 40: lines of a page.
    ("G,10,3\n", 40, 1),
    ("F,0,1,2\n", 40, 1),
    ("Q,K,0\n", 40, 1),
    ("D,0,U\n", 40, 1),
    ("G,10,3\nT,0,0,0,0\n", 40, 1),
    // 40: count of fields.
    ("T\n", 40, 1),
    ("T,\n", 40, 1),
    ("T,0,0,0\n", 40, 1),
    ("T,0,0,0,\n", 40, 1),
    ("T,0,0,0,0,\n", 40, 1),
    ("T,0,0,0,0,0\n", 40, 1),
    ("T,0,0,0,0T,0,0,0,0\n", 40, 1),
    ("T;0;0;0;0\n", 40, 1),
    ("T00000\n", 40, 1),
    // 40: empty fields.
    ("T,,0,0,0\n", 40, 1),
    ("T,0,,0,0\n", 40, 1),
    ("T,0,0,,0\n", 40, 1),
    // 40: leading zeros.
    ("T,1,2,3,4\n", 0, 0),
    ("T,01,2,3,4\n", 40, 1),
    ("T,1,02,3,4\n", 40, 1),
    ("T,1,2,03,4\n", 40, 1),
    ("T,1,2,3,04\n", 40, 1),
    ("T,00,2,3,4\n", 40, 1),
    ("T,1,2,00,4\n", 40, 1),
    ("T,000,2,3,4\n", 40, 1),
    // 40: four digits and more.
    ("T,999,2,3,4\n", 0, 0),
    ("T,1000,2,3,4\n", 40, 1),
    ("T,0001,2,3,4\n", 40, 1),
    ("T,1,1000,3,4\n", 40, 1),
    ("T,1,2,1000,4\n", 40, 1),
    ("T,1,2,3,1000\n", 40, 1),
    ("T,65536,2,3,4\n", 40, 1),
    ("T,1,65536,3,4\n", 40, 1),
    ("T,1,2,4294967299,4\n", 40, 1),
    ("T,1,2,3,18446744073709551620\n", 40, 1),
    // 40: signs, points, letters, spaces, other bytes.
    ("T,-1,2,3,4\n", 40, 1),
    ("T,+1,2,3,4\n", 40, 1),
    ("T,1,!2,3,4\n", 40, 1),
    ("T,1,2,3.5,4\n", 40, 1),
    ("T,1,2,3,x\n", 40, 1),
    ("T,1,2,3,U\n", 40, 1),
    (" T,1,2,3,4\n", 40, 1),
    ("T ,1,2,3,4\n", 40, 1),
    ("T, 1,2,3,4\n", 40, 1),
    ("T,1,2 ,3,4\n", 40, 1),
    ("T,1,2,3,4 \n", 40, 1),
    ("T,1,2,3,4\t\n", 40, 1),
    ("T,1,2,3,4\0\n", 40, 1),
    ("T,1,2,3,4 # now\n", 40, 1),
    ("# now\nT,1,2,3,4\n", 40, 1),
    // 40: line ends.
    ("T,1,2,3,4\r\n", 40, 1),
    ("T,1,2,3,4\nT,1,2,3,4\r\n", 40, 2),
    ("T,1,2,3,4\rT,1,2,3,4\n", 40, 1),
    ("\n", 40, 1),
    ("\nT,1,2,3,4\n", 40, 1),
    ("T,1,2,3,4\n\n", 40, 2),
    ("T,1,2,3,4\n\nT,1,2,3,4\n", 40, 2),
    // 40: the last line is not ended.
    ("T,1,2,3,4", 40, 1),
    ("T", 40, 1),
    (" ", 40, 1),
    ("T,1,2,3,4\nT,1,2,3,4", 40, 2),
    ("T,1,2,3,4\nT,1,2,3,4\n ", 40, 3),
    ("T,1,2,3,4\nT,1,2,3,4\nT,1,2,3,4", 40, 3),
    // 41: condition.
    ("T,0,3,0,0\n", 41, 1),
    ("T,0,4,0,0\n", 41, 1),
    ("T,0,256,0,0\n", 41, 1),
    ("T,0,512,0,0\n", 41, 1),
    ("T,0,999,0,0\n", 41, 1),
    ("T,0,2,0,0\nT,0,3,0,0\n", 41, 2),
    // 41: grades.
    ("T,0,2,10,10\n", 0, 0),
    ("T,0,2,0,10\n", 0, 0),
    ("T,0,2,0,11\n", 41, 1),
    ("T,0,2,11,11\n", 41, 1),
    ("T,0,2,11,10\n", 41, 1),
    ("T,0,2,11,0\n", 41, 1),
    ("T,0,2,0,256\n", 41, 1),
    ("T,0,2,256,256\n", 41, 1),
    ("T,0,2,0,999\n", 41, 1),
    // 41: low above high.
    ("T,0,2,4,5\n", 0, 0),
    ("T,0,2,5,5\n", 0, 0),
    ("T,0,2,6,5\n", 41, 1),
    ("T,0,2,1,0\n", 41, 1),
    ("T,0,2,10,9\n", 41, 1),
    // 42, and equal numbers.
    ("T,5,0,0,0\nT,4,0,0,0\n", 42, 2),
    ("T,5,0,0,0\nT,6,0,0,0\n", 0, 0),
    ("T,1,0,0,0\nT,0,0,0,0\n", 42, 2),
    ("T,999,0,0,0\nT,998,0,0,0\n", 42, 2),
    ("T,999,0,0,0\nT,999,0,0,0\n", 0, 0),
    ("T,999,0,0,0\nT,0,0,0,0\n", 42, 2),
    ("T,256,0,0,0\nT,1,0,0,0\n", 42, 2),
    ("T,1,0,0,0\nT,256,0,0,0\n", 0, 0),
    ("T,255,0,0,0\nT,256,0,0,0\n", 0, 0),
    ("T,1,0,0,0\nT,3,0,0,0\nT,2,0,0,0\n", 42, 3),
    ("T,1,0,0,0\nT,2,0,0,0\nT,1,0,0,0\n", 42, 3),
    ("T,1,0,0,0\nT,2,0,0,0\nT,2,0,0,0\nT,3,0,0,0\n", 0, 0),
    // In one line 40 comes before 41 before 42.
    ("T,5,0,0,0\nT,4,3,6,5,\n", 40, 2),
    ("T,5,0,0,0\nT,4,3,6,5", 40, 2),
    ("T,5,0,0,0\nT,4,2,6,05\n", 40, 2),
    ("T,5,0,0,0\nT,4,0,0,0", 40, 2),
    ("T,0,3,0,0", 40, 1),
    ("T,5,0,0,0\nT,4,3,0,0\n", 41, 2),
    ("T,5,0,0,0\nT,4,0,0,11\n", 41, 2),
    ("T,5,0,0,0\nT,4,0,6,5\n", 41, 2),
    // The first bad line decides, whatever the numbers.
    ("T,0,3,0,0\nT,0,0,0,0,\n", 41, 1),
    ("T,5,0,0,0\nT,4,0,0,0\nT,4,0,0,0,\n", 42, 2),
    ("T,5,0,0,0\nT,4,0,0,0\nT,5,3,0,0\n", 42, 2),
    ("T,5,3,0,0\nT,4,0,0,0\n", 41, 1),
    ("T,5,0,0,0\nT,4,0,0,0\nT,5,0,0,0", 42, 2),
    ("T,5,0,0,0\nT,5,0,6,5\nT", 41, 2),
    ("T,5,0,0,0,\nT,4,3,0,0\n", 40, 1),
    ("T,5,3,0,0\nT,6,3,0,0\n", 41, 1),
    ("T,5,0,0,0\nT,4,0,0,0\nT,3,0,0,0\n", 42, 2),
];

fn stated_lists(trial: &mut Trial, _: u64) -> Check {
    let page = page::read(LISTS_PAGE.as_bytes()).map_err(|refusal| format!("{refusal:?}"))?;
    for (list, number, line) in LISTS {
        let answer = match number {
            0 => {
                let read = list::read(&page, list.as_bytes());
                figure(&format!("{list:?} is accepted"), read.is_ok(), true)?;
                expected(LISTS_PAGE.as_bytes(), list.as_bytes())
            }
            _ => format!("refused,{number},{line}\n"),
        };
        stated(trial, LISTS_PAGE, list, &answer)?;
    }
    Ok(())
}

/// A refused page is told, whatever is wrong with the list; an accepted one leaves it to the list.
fn page_first(trial: &mut Trial, _: u64) -> Check {
    let lists = [
        "",
        "T,0,0,0,0\n",
        "T",
        "\n",
        "T,0,9,0,0\n",
        "T,1,0,0,0\nT,0,0,0,0\n",
    ];
    let too_many = format!("G,10,3\n{}", "Q,K,0\n".repeat(LINES_MAX + 1));
    for (page, refusal) in [
        (&*too_many, "refused,5,1026\n"),
        ("\n", "refused,3,1\n"),
        ("G,10,3", "refused,2,0\n"),
        ("G,10\n", "refused,3,1\n"),
        ("T,0,0,0,0\n", "refused,3,1\n"),
        ("G,10,3\nT,0,0,0,0\n", "refused,3,2\n"),
        ("G,201,3\n", "refused,4,1\n"),
        ("G,10,3\nQ,K,3\n", "refused,4,2\n"),
        ("G,10,3\nF,0,0,0\nR,0,11,M,0\n", "refused,21,3\n"),
        ("G,10,3\nF,0,0,11\n", "refused,22,2\n"),
        ("G,10,3\nF,0,4,3\n", "refused,23,2\n"),
        ("G,10,3\nD,0,U\nQ,K,0\nD,0,U\n", "refused,24,4\n"),
    ] {
        for list in lists {
            stated(trial, page, list, refusal)?;
        }
    }
    let page = "G,10,3\nQ,K,0\n";
    for (list, answer) in lists.iter().zip([
        "top,10\nend,0\n",
        "top,10\n0,K,0,0,0\nend,1\n",
        "refused,40,1\n",
        "refused,40,1\n",
        "refused,41,1\n",
        "refused,42,2\n",
    ]) {
        stated(trial, page, list, answer)?;
    }
    Ok(())
}

/// Both sides of each range, at several tops and counts.
fn ranges(trial: &mut Trial, _: u64) -> Check {
    for (top, count) in [
        (1, 1),
        (2, 9),
        (9, 10),
        (99, 100),
        (100, 255),
        (200, 256),
        (199, 511),
        (200, 512),
    ] {
        let page = format!("G,{top},{count}\nQ,K,0\nQ,W,{}\n", count - 1);
        for (cond, low, high) in [
            (count - 1, top, top),
            (count, top, top),
            (count - 1, 0, top),
            (count - 1, 0, top + 1),
            (count - 1, top + 1, top + 1),
            (count - 1, top + 1, top),
            (0, top - 1, top - 1),
            (0, top, top - 1),
            (count, top + 1, top),
        ] {
            let list = format!("T,17,{cond},{low},{high}\n");
            let good = cond < count && high <= top && low <= high;
            let answer = expected(page.as_bytes(), list.as_bytes());
            let refusal = "refused,41,1\n";
            figure(&format!("{list:?} for {page:?}"), answer != refusal, good)?;
            compare(trial, page.as_bytes(), list.as_bytes())?;
        }
    }
    Ok(())
}

/// Trials 0 to 999 in one list, the grade of each by its number.
fn every_number(trial: &mut Trial, _: u64) -> Check {
    let lines: Vec<Tried> = (0..=TRIAL_MAX)
        .map(|number| Tried::new(number, number % 2, number % 200, 200))
        .collect();
    let page = b"G,200,2\nF,0,150,150\nR,1,100,P,0,!1\nQ,K,0\nQ,W,1\n";
    compare(trial, page, &list::text(&lines))?;
    stated(
        trial,
        "G,10,1\nQ,K,0\n",
        "T,0,0,1,1\nT,999,0,2,2\n",
        "top,10\n0,K,0,1,1\n999,K,0,2,2\nend,2\n",
    )
}

/// 1,024 lines are taken; the 1,025th is refused 40 however it looks, and does not hide a bad line before it.
fn list_lines(trial: &mut Trial, _: u64) -> Check {
    let page = LISTS_PAGE.as_bytes();
    let lines = |count: usize| -> Vec<u8> {
        let line = |at: usize| Tried::new((at / 100) as u16, (at % 3) as u16, 0, (at % 11) as u16);
        list::text(&(0..count).map(line).collect::<Vec<_>>())
    };
    for count in [1, 1023, LIST_LINES_MAX] {
        compare(trial, page, &lines(count))?;
        figure(
            "it is accepted",
            expected(page, &lines(count)).starts_with("top"),
            true,
        )?;
    }
    let longest = b"T,999,511,200,200\n".repeat(LIST_LINES_MAX);
    compare(trial, b"G,200,512\nQ,K,511\nQ,W,0\n", &longest)?;
    let mut refused = |list: &[u8], number: u32, line: usize| {
        let wanted = format!("refused,{number},{line}\n");
        figure("the reference", &*expected(page, list), &*wanted)?;
        compare_files(trial, Some(page), Some(list), &wanted)
    };
    for count in [
        LIST_LINES_MAX + 1,
        LIST_LINES_MAX + 2,
        1100,
        2048,
        5000,
        70_000,
    ] {
        refused(
            &lines(count.min(9000)).repeat(count.div_ceil(9000)),
            40,
            LIST_LINES_MAX + 1,
        )?;
    }
    let most = lines(LIST_LINES_MAX);
    for more in [
        "T,9,3,0,0\n",
        "T,0,0,0,0\n",
        "T,11,0,0,0",
        "T",
        "\n",
        "\n\n",
        " ",
    ] {
        refused(&[&most, more.as_bytes()].concat(), 40, LIST_LINES_MAX + 1)?;
    }
    let fewer = lines(LIST_LINES_MAX - 1);
    for (last, number) in [
        ("T,10,0,0,0", 40),
        ("T,10,0,0,0,\n", 40),
        ("T,10,3,0,0\n", 41),
        ("T,9,0,0,0\n", 42),
    ] {
        let list = [&fewer, last.as_bytes()].concat();
        refused(&list, number, LIST_LINES_MAX)?;
        if last.ends_with('\n') {
            let list = [&list, &b"T,11,0,0,0\n"[..]].concat();
            refused(&list, number, LIST_LINES_MAX)?;
        }
    }
    Ok(())
}

/// Lengths of files around the limit of 65,535 bytes, and far over it.
const LENGTHS: [usize; 8] = [
    65_534,
    LIST_MAX,
    65_536,
    65_537,
    70_000,
    131_072,
    200_001,
    1 << 20,
];

/// No line of good form has more than 18 bytes with its end, so 1,024 of them have at most 18,432, and a longer list has a line of
/// wrong form or a 1,025th at or before the one that holds byte 65,536. So the limit of bytes refuses nothing that another cause of 40 does
/// not refuse at the same line or before it, and no list of 65,535 bytes is accepted either. What shows is that a long list is refused
/// at its first bad line, as a short one is, with the number of that line; the longest list that is accepted stands in `list_lines`.
fn long_lists(trial: &mut Trial, _: u64) -> Check {
    for length in LENGTHS {
        lists_of_length(trial, length)?;
    }
    Ok(())
}

fn lists_of_length(trial: &mut Trial, length: usize) -> Check {
    let page = LISTS_PAGE.as_bytes();
    let longest = b"T,999,2,10,10\n".repeat(LIST_LINES_MAX);
    for (start, filler, number, line) in [
        (&b""[..], b'0', 40, 1),
        (b"", b'\n', 40, 1),
        (b"", 0, 40, 1),
        (b"T,0,0,0,", b'0', 40, 1),
        (b"T,0,0,0,0\n", b'T', 40, 2),
        (b"T,0,0,0,0\n", b'\n', 40, 2),
        (b"T,0,0,0,0\nT,0,0,0,0,", b'1', 40, 2),
        (b"T,0,3,0,0\n", b'0', 41, 1),
        (b"T,0,0,0,11\n", b'\n', 41, 1),
        (b"T,1,0,0,0\nT,0,0,0,0\n", b',', 42, 2),
        (b"T,1,0,0,0\nT,0,0,0,0\n", b'\n', 42, 2),
        (&longest, b'\n', 40, LIST_LINES_MAX + 1),
        (&longest, b'0', 40, LIST_LINES_MAX + 1),
    ] {
        let mut list = start.to_vec();
        list.resize(length, filler);
        let wanted = format!("refused,{number},{line}\n");
        for end in [filler, b'\n'] {
            list[length - 1] = end;
            figure("the reference", &*expected(page, &list), &*wanted)?;
            compare_files(trial, Some(page), Some(&list), &wanted)?;
        }
    }
    Ok(())
}

/// A page that is too long is refused 1, whatever the list, which may be as long.
fn long_pages(trial: &mut Trial, _: u64) -> Check {
    for length in LENGTHS {
        page_of_length(trial, length)?;
    }
    Ok(())
}

fn page_of_length(trial: &mut Trial, length: usize) -> Check {
    let mut page = b"G,1,1\n".to_vec();
    page.resize(length, b'Q');
    for end in [b'Q', b'\n'] {
        page[length - 1] = end;
        let wanted = match (length > TEXT_MAX, end) {
            (true, _) => "refused,1,0\n",
            (false, b'\n') => "refused,3,2\n",
            (false, _) => "refused,2,0\n",
        };
        for list in [&b""[..], b"T,0,0,0,0\n", b"T", &page] {
            figure("the reference", &*expected(&page, list), wanted)?;
            compare_files(trial, Some(&page), Some(list), wanted)?;
        }
        compare_files(trial, Some(&page), None, wanted)?;
    }
    Ok(())
}

/// A trial that names one condition 600 times, among others.
fn named_often(trial: &mut Trial, _: u64) -> Check {
    let mut lines = vec![Tried::new(1, 1, 4, 4)];
    for at in 0..600 {
        lines.push(Tried::new(1, 0, at % 7, 10));
    }
    lines.push(Tried::new(1, 0, 2, 3));
    lines.push(Tried::new(1, 2, 5, 5));
    lines.push(Tried::new(2, 2, 6, 6));
    stated(
        trial,
        "G,10,3\nF,0,9,9\nF,1,8,8\nQ,K,0\nQ,W,1\nQ,K,2\n",
        &String::from_utf8_lossy(&list::text(&lines)),
        "top,10\n1,K,0,2,3\n1,W,1,4,4\n1,K,2,5,5\n2,K,0,9,9\n2,W,1,8,8\n2,K,2,6,6\nend,6\n",
    )
}

/// A page of 1,023 rules and a query, where two trials give every condition a fact: the page so changed has 1,536 lines.
fn longest_changed(trial: &mut Trial, item: u64) -> Check {
    let mut page = Page {
        top: TOP_MAX,
        count: CONDITIONS_MAX,
        lines: Vec::new(),
    };
    if item == 0 {
        // Condition 0 is the largest of all others, so that the fact of each shows.
        page.lines = (0..1023)
            .map(|number| Line::Rule {
                head: 0,
                weight: TOP_MAX,
                op: Op::M,
                body: vec![Literal {
                    cond: 1 + number % 511,
                    negated: false,
                }],
            })
            .collect();
    } else {
        page.lines = gen::page(&mut trial.rng, Size::Limit).lines;
        page.lines.truncate(1023);
    }
    page.lines.push(Line::Query {
        closed: item == 2,
        cond: 0,
    });
    figure("the lines of the page", page.lines.len(), LINES_MAX)?;
    let mut lines = Vec::new();
    for (number, high, peak) in [(7, 7, 511), (8, 9, 1)] {
        for cond in 0..CONDITIONS_MAX {
            let (low, high) = match (item, cond == peak) {
                (0, true) => (high, high),
                (0, false) => (0, 1),
                _ => gen::interval(&mut trial.rng, TOP_MAX),
            };
            lines.push(Tried::new(number, cond, low, high));
        }
    }
    let (text, list) = (page.text(), list::text(&lines));
    if item == 0 {
        let wanted = "top,200\n7,K,0,7,7\n8,K,0,9,9\nend,2\n";
        figure("the reference", &*expected_fast(&text, &list), wanted)?;
    }
    for (_, named) in list::trials(&lines) {
        let changed = list::changed(&page, &named).lines.len();
        figure("the lines of the changed page", changed, 1536)?;
    }
    compare(trial, &text, &list)
}

/// The most answers: 1,024 queries, a thousand trials.
fn most_answers(trial: &mut Trial, item: u64) -> Check {
    let mut text = b"G,200,2\n".to_vec();
    for number in 0..LINES_MAX {
        text.extend_from_slice([&b"Q,K,0\n"[..], b"Q,W,1\n", b"Q,K,1\n"][number % 3]);
    }
    let lines: Vec<Tried> = (0..=TRIAL_MAX)
        .map(|number| Tried::new(number, number % 2, number % 201, 200))
        .collect();
    let list = list::text(&lines);
    let wanted = expected_fast(&text, &list);
    figure("the count", wanted.ends_with("\nend,1024000\n"), true)?;
    trial.pages += 1;
    trial.engine.calls += 1;
    slot::mine().begin_item(item);
    let ended = run_program(Some(&text), Some(&list), MINUTE)?;
    trial.engine.longest = trial.engine.longest.max(ended.time);
    same_output(&ended.out, &wanted)
}

/// Q lines up to the limit of lines.
fn many_queries(trial: &mut Trial, _: u64) -> Check {
    let mut page = gen::page(&mut trial.rng, Size::Small);
    while page.lines.len() < LINES_MAX {
        let cond = trial.rng.range(0, page.count - 1);
        let closed = trial.rng.percent(50);
        page.lines.push(Line::Query { closed, cond });
    }
    let lines = gen::list(&mut trial.rng, &page, 12);
    compare(trial, &page.text(), &list::text(&lines))
}

/// Notes what becomes of a list, and compares.
fn compare_seen(trial: &mut Trial, page: &Page, list: &[u8]) -> Check {
    let outcome = list::read(page, list).map_or_else(|(number, _)| number, |_| 0);
    trial.saw("trials", outcome);
    compare(trial, &page.text(), list)
}

fn good_lists(trial: &mut Trial, _: u64) -> Check {
    let mut page = gen::page(&mut trial.rng, Size::Small);
    gen::add_queries(&mut trial.rng, &mut page, 12);
    let lines = gen::list(&mut trial.rng, &page, 30);
    compare_seen(trial, &page, &list::text(&lines))
}

fn structured_pages(trial: &mut Trial, _: u64) -> Check {
    let mut page = gen::structured(&mut trial.rng, 24);
    gen::add_queries(&mut trial.rng, &mut page, 24);
    let lines = gen::list(&mut trial.rng, &page, 40);
    compare_seen(trial, &page, &list::text(&lines))
}

/// Medium and large pages with long lists, by the fast reference.
fn large_pages(trial: &mut Trial, item: u64) -> Check {
    let size = if item % 2 == 0 {
        Size::Medium
    } else {
        Size::Large
    };
    let mut page = gen::page(&mut trial.rng, size);
    gen::add_queries(&mut trial.rng, &mut page, 24);
    let most = if item % 2 == 0 { LIST_LINES_MAX } else { 200 };
    let (text, list) = (
        page.text(),
        list::text(&gen::list(&mut trial.rng, &page, most)),
    );
    let wanted = expected_fast(&text, &list);
    compare_files(trial, Some(&text), Some(&list), &wanted)
}

fn spoilt_lists(trial: &mut Trial, _: u64) -> Check {
    let mut page = gen::page(&mut trial.rng, Size::Small);
    gen::add_queries(&mut trial.rng, &mut page, 4);
    let lines = gen::list(&mut trial.rng, &page, 20);
    let list = spoil::list(&mut trial.rng, &page, &lines);
    compare_seen(trial, &page, &list)
}

/// A page that may be refused, with a list that may be.
fn spoilt_pages(trial: &mut Trial, _: u64) -> Check {
    let mut page = gen::page(&mut trial.rng, Size::Small);
    gen::add_queries(&mut trial.rng, &mut page, 4);
    let text = spoil::text(&mut trial.rng, &page.text());
    let lines = gen::list(&mut trial.rng, &page, 10);
    let list = match trial.rng.percent(50) {
        true => spoil::list(&mut trial.rng, &page, &lines),
        false => list::text(&lines),
    };
    compare(trial, &text, &list)
}

/// A thousand trials of a page.
struct Thousand {
    page: Page,
    /// The answers of so many trials are compared, those of the others counted.
    compared: u16,
    /// The program takes less time than this, from its start to its end.
    limit: Duration,
    /// The quickest of so many runs counts.
    runs: usize,
}

fn timed(trial: &mut Trial, item: u64, thousand: &Thousand) -> Check {
    trial.pages += 1;
    let page = &thousand.page;
    let lines = gen::thousand_trials(&mut trial.rng, page);
    figure("the lines", lines.len(), LIST_LINES_MAX)?;
    figure("the trials", list::trials(&lines).len(), 1000)?;
    let is_query = |line: &&Line| matches!(line, Line::Query { .. });
    let count = 1000 * page.lines.iter().filter(is_query).count();
    let (text, list) = (page.text(), list::text(&lines));
    let first = lines.partition_point(|line| line.trial < thousand.compared);
    let wanted = expected_fast(&text, &list::text(&lines[..first]));
    let (start, _) = wanted.split_once("end,").ok_or(wanted.clone())?;
    let mut quickest = Duration::MAX;
    for _ in 0..thousand.runs {
        trial.engine.calls += 1;
        // The reference and each run have the time of an item.
        slot::mine().begin_item(item);
        let ended = run_program(Some(&text), Some(&list), MINUTE)?;
        let got = String::from_utf8_lossy(&ended.out).into_owned();
        same_output(&ended.out[..start.len().min(ended.out.len())], start)?;
        figure("the lines of the output", got.lines().count(), count + 2)?;
        let last = format!("end,{count}");
        figure("its last line", got.lines().last(), Some(&*last))?;
        trial.engine.longest = trial.engine.longest.max(ended.time);
        quickest = quickest.min(ended.time);
        if quickest < thousand.limit {
            return Ok(());
        }
    }
    Err(format!("it takes {:.1} s", quickest.as_secs_f64()))
}

fn typical_time(trial: &mut Trial, item: u64) -> Check {
    let typical = Thousand {
        page: gen::bench_typical(),
        compared: 1000,
        limit: Duration::from_secs(2),
        runs: 3,
    };
    timed(trial, item, &typical)
}

/// The page that the measurements call largest, then those of `gen::limit_page`, at every limit but that of queries: each has one in each
/// reading. Two of the pages are tried at a time.
fn largest_time(trial: &mut Trial, item: u64) -> Check {
    let page = match item {
        0 => gen::bench_largest(),
        _ => {
            let mut page = gen::limit_page(&mut trial.rng, item - 1);
            page.lines
                .retain(|line| !matches!(line, Line::Query { .. }));
            page.lines.truncate(LINES_MAX - 2);
            for closed in [false, true] {
                page.lines.push(Line::Query { closed, cond: 0 });
            }
            page
        }
    };
    let largest = Thousand {
        page,
        compared: 200,
        limit: MINUTE,
        runs: 1,
    };
    timed(trial, item, &largest)
}
