//! The documents for people: every figure in them is made again by the program and compared.
//!
//! - A block marked `console` holds commands after `$ ` and what they print. They run in a folder with `desk` and `examples` of the
//!   repository, with `attach` and `trials` in `target/bin`, with each block marked `page NAME` of the same document as a file, and with
//!   the C examples on the path.
//! - A comment `<!-- checked: HOW -->` stands before a table; HOW is one of the words of `check_table`.
//! - An interval [a;b] in figures anywhere else must be shown by a checked table or a console block of the same document.
//! - The rules of an operation (`docs/RULES.md`) state its refusals, in order, with the causes of the header.
//! - A number with a comma in it, as in 1,024, must be a limit that the header states, and so must a limit in words (`PHRASES`).

use std::collections::BTreeSet;
use std::os::unix::fs::symlink;
use std::path::{Path, PathBuf};
use std::process::Command;
use std::sync::OnceLock;

use crate::attach;
use crate::ffi::CALLS;
use crate::page::OPS;
use crate::programs::{self, built, file, root};
use crate::runner::Case;
use crate::stack::{header_figure, stack_figure};
use crate::trial::{figure, Check, Trial};
use crate::trials;

pub fn cases() -> Vec<Case> {
    vec![Case {
        name: "every_figure_of_the_documents_is_the_program_s",
        items: documents().len() as u64,
        each: |trial, item| check(trial, &documents()[item as usize]),
        must_see: &[],
    }]
}

/// The documents that are checked: those named here, and every comment file of an example.
fn documents() -> Vec<String> {
    let named = [
        "README.md",
        "include/simjorad.h",
        "docs/PAGES.md",
        "docs/RULES.md",
    ];
    let mut all: Vec<String> = named.map(str::to_string).to_vec();
    let entries = std::fs::read_dir(root().join("examples"));
    let mut comments: Vec<String> = entries
        .into_iter()
        .flatten()
        .flatten()
        .map(|entry| entry.file_name().to_string_lossy().into_owned())
        .filter(|name| name.ends_with(".md"))
        .map(|name| format!("examples/{name}"))
        .collect();
    comments.sort();
    all.extend(comments);
    all
}

/// The limits by the words that a document uses for them.
const LIMITS: &[(&str, &str)] = &[
    ("the greatest top", "SIMJORAD_TOP_MAX"),
    ("conditions of a page", "SIMJORAD_CONDITIONS_MAX"),
    ("lines after the first", "SIMJORAD_LINES_MAX"),
    ("literals of a rule", "SIMJORAD_LITERALS_MAX"),
    ("bytes of the text", "SIMJORAD_TEXT_MAX"),
    ("entries of a query list", "SIMJORAD_QUERIES_MAX"),
    ("numbers of the longest page area", "SIMJORAD_PAGE_MAX"),
];

/// Where a document states a limit in words: what stands before and after the figure, the limit, and what is added to it.
const PHRASES: &[(&str, &str, &str, usize)] = &[
    ("top 1 to ", "", "SIMJORAD_TOP_MAX", 0),
    ("top over ", "", "SIMJORAD_TOP_MAX", 0),
    ("whole number, 1 to ", "", "SIMJORAD_TOP_MAX", 0),
    ("C 1 to ", "", "SIMJORAD_CONDITIONS_MAX", 0),
    ("up to ", " conditions", "SIMJORAD_CONDITIONS_MAX", 0),
    ("All ", " possible conditions", "SIMJORAD_CONDITIONS_MAX", 0),
    ("1 to ", " literals", "SIMJORAD_LITERALS_MAX", 0),
    ("more than ", " queries", "SIMJORAD_QUERIES_MAX", 0),
    ("more than ", " entries", "SIMJORAD_QUERIES_MAX", 0),
    ("more than ", " bytes", "SIMJORAD_TEXT_MAX", 0),
    ("longer than ", " bytes", "SIMJORAD_TEXT_MAX", 0),
    ("used length is ", "", "SIMJORAD_PAGE_MAX", 0),
    ("(", " numbers always suffice", "SIMJORAD_PAGE_MAX", 0),
    ("at most ", " lines", "SIMJORAD_LINES_MAX", 0),
    ("count of lines is at most ", "", "SIMJORAD_LINES_MAX", 0),
    ("count among the ", "", "SIMJORAD_LINES_MAX", 0),
    ("Row 11: ", " lines in all", "SIMJORAD_LINES_MAX", 1),
    ("it is line ", "", "SIMJORAD_LINES_MAX", 2),
    ("are read; a ", "th is refused", "SIMJORAD_LINES_MAX", 2),
];

type Interval = (u32, u32);

/// One document under check.
struct Document {
    /// The intervals that checked parts show.
    shown: BTreeSet<Interval>,
    /// The lines that commands print.
    printed: BTreeSet<String>,
    /// The lines of no checked part, each with its number.
    prose: Vec<(usize, String)>,
}

/// A table: the names of its columns, and its rows.
struct Table {
    columns: Vec<String>,
    rows: Vec<Vec<String>>,
}

impl Table {
    fn parse(lines: &[String]) -> Check<Table> {
        let cells = |line: &String| -> Vec<String> {
            let inner = line.trim().trim_matches('|');
            inner
                .split('|')
                .map(|cell| cell.trim().to_string())
                .collect()
        };
        let [columns, rule, rows @ ..] = lines else {
            return Err("no table stands after the comment".to_string());
        };
        figure("the line under the head", rule.starts_with("|--"), true)?;
        Ok(Table {
            columns: cells(columns),
            rows: rows.iter().map(cells).collect(),
        })
    }

    fn column(&self, name: &str) -> Option<usize> {
        self.columns.iter().position(|column| column == name)
    }

    /// The cell of a row in a column that must be there.
    fn cell<'a>(&self, row: &'a [String], name: &str) -> Check<&'a str> {
        let at = self.column(name).ok_or(format!("no column `{name}`"))?;
        row.get(at)
            .map(String::as_str)
            .ok_or(format!("a row without `{name}`"))
    }
}

/// The parts in backquotes.
fn quoted(cell: &str) -> Vec<String> {
    cell.split('`')
        .skip(1)
        .step_by(2)
        .map(str::to_string)
        .collect()
}

/// The parts that are not in backquotes.
fn unquoted(line: &str) -> String {
    line.split('`').step_by(2).collect::<Vec<_>>().join(" ")
}

/// Whether a part in backquotes is a line that `attach` or `trials` prints, in figures.
fn is_output(code: &str) -> bool {
    let code = match code.split_once(',') {
        Some((trial, rest)) if trial.parse::<u32>().is_ok() => rest,
        _ => code,
    };
    let (word, rest) = code.split_once(',').unwrap_or((code, ""));
    let figures = rest.split(',').all(|field| field.parse::<u32>().is_ok());
    ["top", "K", "W", "end", "refused"].contains(&word) && figures
}

/// The intervals [a;b] in figures.
fn intervals(text: &str) -> Vec<Interval> {
    text.split('[')
        .skip(1)
        .filter_map(|rest| {
            let (inside, _) = rest.split_once(']')?;
            let (low, high) = inside.split_once(';')?;
            Some((low.parse().ok()?, high.parse().ok()?))
        })
        .collect()
}

/// The bytes of a text in backquotes, with \n, \r, \t and \xNN.
fn unescaped(text: &str) -> Check<Vec<u8>> {
    let mut out = Vec::new();
    let mut rest = text.bytes();
    while let Some(byte) = rest.next() {
        if byte != b'\\' {
            out.push(byte);
            continue;
        }
        match rest.next() {
            Some(b'n') => out.push(10),
            Some(b'r') => out.push(13),
            Some(b't') => out.push(9),
            Some(b'x') => {
                let digits = [rest.next().unwrap_or(0), rest.next().unwrap_or(0)];
                let digits = String::from_utf8_lossy(&digits).into_owned();
                let number = u8::from_str_radix(&digits, 16);
                out.push(number.map_err(|_| format!("\\x{digits} is no byte"))?);
            }
            other => return Err(format!("{other:?} after a backslash")),
        }
    }
    Ok(out)
}

/// What `attach` prints for these bytes.
fn attached(text: &[u8]) -> Check<String> {
    let out = attach::run_program(text, text.len().max(1))?;
    Ok(String::from_utf8_lossy(&out).into_owned())
}

/// Both readings of a condition, by `attach`; the page's own Q lines are left out.
fn readings(lines: &[String], cond: &str) -> Check<(String, String)> {
    let mut text = String::new();
    for line in lines.iter().filter(|line| !line.starts_with('Q')) {
        text.push_str(line);
        text.push('\n');
    }
    text.push_str(&format!("Q,K,{cond}\nQ,W,{cond}\n"));
    let printed = attached(text.as_bytes())?;
    let lines: Vec<Vec<&str>> = printed
        .lines()
        .map(|line| line.split(',').collect())
        .collect();
    match &lines[..] {
        [_, plain, closed, _] if plain.len() == 4 && closed.len() == 4 => Ok((
            format!("[{};{}]", plain[2], plain[3]),
            format!("[{};{}]", closed[2], closed[3]),
        )),
        _ => Err(format!("{text:?} is answered {printed:?}")),
    }
}

/// A page of some lines; without a G line it is given this top and the conditions that the lines and the question name.
fn page_lines(lines: &[String], top: &str, asked: &str) -> Check<Vec<String>> {
    if lines.first().is_some_and(|line| line.starts_with('G')) {
        return Ok(lines.to_vec());
    }
    let mut most: u32 = asked.parse().map_err(|_| format!("condition {asked}"))?;
    for line in lines {
        let fields: Vec<&str> = line.split(',').collect();
        let named = match fields[0] {
            "F" | "D" => &fields[1..2],
            "R" => &fields[4..],
            _ => return Err(format!("{line:?} in a checked table")),
        };
        for field in named.iter().chain(&fields[1..2]) {
            let number = field.trim_start_matches('!').parse();
            most = most.max(number.map_err(|_| format!("{line:?} in a checked table"))?);
        }
    }
    let mut out = vec![format!("G,{top},{}", most + 1)];
    out.extend_from_slice(lines);
    Ok(out)
}

impl Document {
    fn run_block(&mut self, lines: &[String]) -> Check {
        let mut wanted = String::new();
        let mut command: Option<&str> = None;
        for line in lines.iter().map(String::as_str).chain(["$ "]) {
            if let Some(next) = line.strip_prefix("$ ") {
                if let Some(command) = command {
                    self.run_command(command, &wanted)?;
                }
                command = Some(next);
                wanted.clear();
            } else {
                wanted.push_str(line);
                wanted.push('\n');
            }
        }
        Ok(())
    }

    fn run_command(&mut self, command: &str, wanted: &str) -> Check {
        built("controller")?;
        let path = std::env::var("PATH").unwrap_or_default();
        let mut shell = Command::new("sh");
        shell.args(["-c", &format!("exec 2>&1; {command}")]);
        shell.current_dir(sandbox()?);
        shell.env("PATH", format!("{}:{path}", programs::folder().display()));
        let ended = programs::run(&mut shell, b"", 1)?;
        let got = String::from_utf8_lossy(&ended.out).into_owned();
        figure(&format!("the output of `{command}`"), &*got, wanted)?;
        self.shown.extend(intervals(&got));
        for line in got.lines() {
            self.printed.insert(line.to_string());
            let fields: Vec<&str> = line.split(',').collect();
            if let ["K" | "W", _, low, high] | [_, "K" | "W", _, low, high] = fields[..] {
                self.shown
                    .insert((low.parse().unwrap_or(0), high.parse().unwrap_or(0)));
            }
        }
        Ok(())
    }

    fn check_table(&mut self, how: &str, table: &Table) -> Check {
        for row in &table.rows {
            for cell in row {
                self.shown.extend(intervals(cell));
            }
        }
        let (first, rest) = how.split_once(' ').unwrap_or((how, ""));
        match first {
            "readings" => readings_of_a_file(rest, table),
            "pages," => readings_of_pages(rest, table),
            "ops," => ops(rest, table),
            "texts" => texts(table),
            "lists" => lists(rest, table),
            "fields," => fields(rest, table),
            "runs," => runs(rest, table),
            "layers," => layers_of_pages(rest, table),
            "picks," => picks_of_pages(rest, table),
            "followers," => followers_of_pages(rest, table),
            "small" => small_pages(table),
            "seasons" => seasons(table),
            "limits" => limits(table),
            "refusals" => refusals(table),
            "operations" => operations(table),
            _ => Err(format!("`{how}` is not known")),
        }
    }

    /// What stands in no checked part.
    fn check_prose(&self) -> Check {
        let mut limits = BTreeSet::new();
        for (_, name) in LIMITS {
            let figure = header_figure(name)?;
            limits.extend([figure, figure + 1, figure + 2]);
        }
        limits.insert(header_figure("SIMJORAD_WORKSPACE_MAX")?);
        limits.insert(header_figure("SIMJORAD_SEASON_MAX")?);
        // the bytes of the longest page area
        limits.insert(2 * header_figure("SIMJORAD_PAGE_MAX")?);
        for (number, line) in &self.prose {
            for interval in intervals(line) {
                if !self.shown.contains(&interval) {
                    return Err(format!(
                        "line {number}: {interval:?} is shown by no checked part"
                    ));
                }
            }
            for code in quoted(line).iter().filter(|code| is_output(code)) {
                if !self.printed.contains(code) {
                    return Err(format!("line {number}: no command prints `{code}`"));
                }
            }
            let plain = unquoted(line);
            let words = plain.split(|c: char| !c.is_ascii_digit() && c != ',');
            for word in words.map(|word| word.trim_matches(',')) {
                let groups: Vec<&str> = word.split(',').collect();
                if groups.len() < 2 || groups[1..].iter().any(|group| group.len() != 3) {
                    continue;
                }
                let figure: usize = groups.concat().parse().unwrap_or(0);
                if !limits.contains(&figure) {
                    return Err(format!("line {number}: {word} is no limit of the header"));
                }
            }
        }
        Ok(())
    }
}

/// The folder in which the commands run, laid out once.
fn sandbox() -> Check<PathBuf> {
    static FOLDER: OnceLock<Check<PathBuf>> = OnceLock::new();
    let lay_out = || {
        let folder = programs::folder().join("folder");
        let _ = std::fs::remove_dir_all(&folder);
        std::fs::create_dir_all(&folder)?;
        let root = std::fs::canonicalize(root())?;
        for name in ["desk", "examples"] {
            symlink(root.join(name), folder.join(name))?;
        }
        let programs = folder.join("target/bin");
        std::fs::create_dir_all(&programs)?;
        let attach = attach::PROGRAM.get().map_or("", |words| &words[0]);
        let attach = std::fs::canonicalize(Path::new(attach))?;
        symlink(attach.with_file_name("trials"), programs.join("trials"))?;
        symlink(attach, programs.join("attach"))?;
        Ok(folder)
    };
    FOLDER
        .get_or_init(|| lay_out().map_err(|error: std::io::Error| error.to_string()))
        .clone()
}

/// `readings of FILE`, then `without LINE...` and `with LINE...`: columns condition, plain, closed.
fn readings_of_a_file(how: &str, table: &Table) -> Check {
    let mut lines = Vec::new();
    let mut mode = "";
    for word in how.split(' ') {
        match (mode, word) {
            (_, "of" | "without" | "with") => mode = word,
            ("of", path) => lines = file(path)?.lines().map(str::to_string).collect(),
            ("without", line) => {
                let at = lines.iter().position(|other| other == line);
                lines.remove(at.ok_or(format!("no line {line}"))?);
            }
            ("with", line) => lines.push(line.to_string()),
            _ => return Err(format!("`{how}` is not known")),
        }
    }
    for row in &table.rows {
        compare_readings(table, row, &lines)?;
    }
    Ok(())
}

fn compare_readings(table: &Table, row: &[String], lines: &[String]) -> Check {
    let cond = table.cell(row, "condition")?;
    let (plain, closed) = readings(lines, cond)?;
    let name = format!("condition {cond} of {lines:?}");
    figure(&name, table.cell(row, "plain")?, plain.as_str())?;
    figure(&name, table.cell(row, "closed")?, closed.as_str())
}

/// `pages, top N`: columns page, condition, plain, closed; an empty page cell is the page above.
fn readings_of_pages(how: &str, table: &Table) -> Check {
    let top = how.strip_prefix("top ").ok_or("no top")?;
    let mut lines = Vec::new();
    for row in &table.rows {
        let written = quoted(table.cell(row, "page")?);
        if !written.is_empty() {
            lines = written;
        }
        let asked = table.cell(row, "condition")?;
        compare_readings(table, row, &page_lines(&lines, top, asked)?)?;
    }
    Ok(())
}

/// `ops, top N`: columns op, literals, weight, value; every literal is a fact with one grade, and the value an interval or one grade.
fn ops(how: &str, table: &Table) -> Check {
    let top = how.strip_prefix("top ").ok_or("no top")?;
    let mut seen = BTreeSet::new();
    for row in &table.rows {
        let op = quoted(table.cell(row, "op")?).concat();
        let weight = table.cell(row, "weight")?;
        let mut lines = Vec::new();
        let mut rule = format!("R,0,{weight},{op}");
        for (grade, cond) in table.cell(row, "literals")?.split(", ").zip(1..) {
            lines.push(format!("F,{cond},{grade},{grade}"));
            rule.push_str(&format!(",{cond}"));
        }
        lines.push(rule);
        let (plain, closed) = readings(&page_lines(&lines, top, "0")?, "0")?;
        let value = table.cell(row, "value")?;
        let wanted = match value.starts_with('[') {
            true => value.to_string(),
            false => format!("[{value};{value}]"),
        };
        figure(
            &format!("{lines:?}"),
            (plain, closed),
            (wanted.clone(), wanted),
        )?;
        seen.insert(op);
    }
    figure("the op letters", seen.len(), OPS.len())
}

/// `texts`: columns text and answer.
fn texts(table: &Table) -> Check {
    for row in &table.rows {
        let text = quoted(table.cell(row, "text")?).concat();
        let answer = quoted(table.cell(row, "answer")?).concat();
        let printed = attached(&unescaped(&text)?)?;
        let mut wanted = unescaped(&answer)?;
        wanted.push(10);
        let wanted = String::from_utf8_lossy(&wanted).into_owned();
        figure(&format!("the answer to `{text}`"), printed, wanted)?;
    }
    Ok(())
}

/// `lists of FILE`: columns list and answer, which is the first line that `trials` prints.
fn lists(how: &str, table: &Table) -> Check {
    let page = file(how.strip_prefix("of ").ok_or("no page")?)?;
    for row in &table.rows {
        let list = quoted(table.cell(row, "list")?).concat();
        let answer = quoted(table.cell(row, "answer")?).concat();
        let printed = trials::output(page.as_bytes(), &unescaped(&list)?)?;
        let first = printed.lines().next().unwrap_or_default();
        figure(&format!("the answer to `{list}`"), first, answer.as_str())?;
    }
    Ok(())
}

/// `fields, FIRST`: columns line, refusal, place. A line that begins with `G` is the first, any other comes behind FIRST.
fn fields(first: &str, table: &Table) -> Check {
    let mut trial = Trial::new();
    for row in &table.rows {
        let line = quoted(table.cell(row, "line")?).concat();
        let (text, number) = match line.starts_with('G') {
            true => (format!("{line}\n"), 1),
            false => (format!("{first}\n{line}\n"), 2),
        };
        let got = trial.read(text.as_bytes(), &mut [0; 64])?;
        let refusal = got.err().ok_or(format!("{line} is read"))?;
        figure(&format!("the line of {line}"), refusal.line, number)?;
        let told = (refusal.number.to_string(), refusal.place.to_string());
        let stated = (table.cell(row, "refusal")?, table.cell(row, "place")?);
        figure(&line, stated, (told.0.as_str(), told.1.as_str()))?;
    }
    Ok(())
}

/// `runs, top N`: columns page, query, R, E, bound, evaluations.
fn runs(how: &str, table: &Table) -> Check {
    let top = how.strip_prefix("top ").ok_or("no top")?;
    let mut trial = Trial::new();
    for row in &table.rows {
        let query = table.cell(row, "query")?;
        let lines = page_lines(&quoted(table.cell(row, "page")?), top, query)?;
        let text = lines.join("\n") + "\n";
        let mut area = vec![0; 200];
        let used = trial.read(text.as_bytes(), &mut area)?;
        let used = used.map_err(|refusal| format!("{text:?} is refused {refusal:?}"))?;
        let mut run = vec![0; 3 * usize::from(area[1])];
        let query = [query.parse().map_err(|_| "no query".to_string())?];
        let opened = trial.open(&area[..used], &query, &mut run)?;
        let opened = opened.map_err(|number| format!("open is refused {number}"))?;
        let driven = trial.drive(&area[..used], &mut run, opened.bound)?;
        let taken = driven.map_err(|number| format!("drive is refused {number}"))?;
        figure("at rest", taken.rest, true)?;
        for (column, got) in [
            ("R", opened.reached),
            ("E", opened.edges),
            ("bound", opened.bound),
            ("evaluations", taken.taken),
        ] {
            let stated = table.cell(row, column)?;
            figure(&format!("{column} of {lines:?}"), stated, &got.to_string())?;
        }
    }
    Ok(())
}

/// `layers, top N`: columns page, answer and layers. The answer is 0, or 30 with the condition.
fn layers_of_pages(how: &str, table: &Table) -> Check {
    let top = how.strip_prefix("top ").ok_or("no top")?;
    let mut trial = Trial::new();
    for row in &table.rows {
        let lines = page_lines(&quoted(table.cell(row, "page")?), top, "0")?;
        let text = lines.join("\n") + "\n";
        let mut area = vec![0; 200];
        let used = trial.read(text.as_bytes(), &mut area)?;
        let used = used.map_err(|refusal| format!("{text:?} is refused {refusal:?}"))?;
        let mut layers = vec![0; usize::from(area[1])];
        let (answer, numbers) = match trial.layers(&area[..used], &mut layers)? {
            Ok(()) => ("0".to_string(), layers.iter().map(u16::to_string).collect()),
            Err(refusal) => (
                format!("{} at {}", refusal.number, refusal.condition),
                Vec::new(),
            ),
        };
        figure(&text, table.cell(row, "answer")?, &answer)?;
        figure(&text, table.cell(row, "layers")?, &numbers.join(", "))?;
    }
    Ok(())
}

/// Numbers with commas between them; a cell without text has none.
fn numbers(cell: &str) -> Check<Vec<u16>> {
    let parts = cell.split(", ").filter(|part| !part.is_empty());
    parts
        .map(|part| part.parse().map_err(|_| format!("{part:?} is no number")))
        .collect()
}

/// `picks, top N`: columns page, queries, picks, figures and answer. The answer is 0, 50 with the place, 51 or 52.
fn picks_of_pages(how: &str, table: &Table) -> Check {
    let top = how.strip_prefix("top ").ok_or("no top")?;
    let mut trial = Trial::new();
    for row in &table.rows {
        let lines = page_lines(&quoted(table.cell(row, "page")?), top, "0")?;
        let text = lines.join("\n") + "\n";
        let mut area = vec![0; 200];
        let used = trial.read(text.as_bytes(), &mut area)?;
        let used = used.map_err(|refusal| format!("{text:?} is refused {refusal:?}"))?;
        let queries = numbers(table.cell(row, "queries")?)?;
        let picks = numbers(table.cell(row, "picks")?)?;
        let figures = numbers(table.cell(row, "figures")?)?;
        let answer = match trial.check_picks(&area[..used], &queries, &picks, &figures)? {
            Ok(()) => "0".to_string(),
            Err(refusal) if refusal.place > 0 => {
                format!("{} at {}", refusal.number, refusal.place)
            }
            Err(refusal) => refusal.number.to_string(),
        };
        figure(&text, table.cell(row, "answer")?, &answer)?;
    }
    Ok(())
}

/// `followers, top N`: columns page and counts, one for each condition.
fn followers_of_pages(how: &str, table: &Table) -> Check {
    let top = how.strip_prefix("top ").ok_or("no top")?;
    let mut trial = Trial::new();
    for row in &table.rows {
        let lines = page_lines(&quoted(table.cell(row, "page")?), top, "0")?;
        let text = lines.join("\n") + "\n";
        let mut area = vec![0; 200];
        let used = trial.read(text.as_bytes(), &mut area)?;
        let used = used.map_err(|refusal| format!("{text:?} is refused {refusal:?}"))?;
        let mut counts = Vec::new();
        for cond in 0..u32::from(area[1]) {
            let count = trial.followers(&area[..used], cond)?;
            counts.push(
                count
                    .map_err(|number| format!("refused {number}"))?
                    .to_string(),
            );
        }
        figure(&text, table.cell(row, "counts")?, &counts.join(", "))?;
    }
    Ok(())
}

/// `small pages`: columns number, text and length; a refusal is its number. The text is shown line by line.
fn small_pages(table: &Table) -> Check {
    let mut trial = Trial::new();
    for row in &table.rows {
        let number = table.cell(row, "number")?;
        let asked = number.parse().map_err(|_| format!("{number:?}"))?;
        let mut buffer = vec![0; 28];
        let (text, length) = match trial.small_page(asked, &mut buffer)? {
            Ok(length) => (
                String::from_utf8_lossy(&buffer[..length]).to_string(),
                length.to_string(),
            ),
            Err(refusal) => (String::new(), format!("refused {refusal}")),
        };
        let lines = quoted(table.cell(row, "text")?);
        let stated: String = lines.iter().map(|line| line.clone() + "\n").collect();
        figure(number, stated, text)?;
        figure(number, table.cell(row, "length")?, &length)?;
    }
    Ok(())
}

/// `seasons`: columns pairs, the figures in their order, and change. A refusal is its number at its place.
fn seasons(table: &Table) -> Check {
    const FIGURES: &str = "count, lows, widths, smallest, largest, mean, remainder";
    let mut trial = Trial::new();
    for row in &table.rows {
        let text = table.cell(row, "pairs")?;
        let words = text.split([',', ' ']).filter(|word| !word.is_empty());
        let pairs: Result<Vec<u16>, _> = words.map(str::parse).collect();
        let pairs = pairs.map_err(|_| format!("{text:?} are no pairs"))?;
        let (figures, change) = match trial.season(&pairs)? {
            Ok(f) => {
                let sums = [f.count, f.sum_low, f.sum_width, f.smallest, f.largest];
                let all = sums.into_iter().chain([f.mean, f.remainder]);
                let all: Vec<String> = all.map(|figure| figure.to_string()).collect();
                (all.join(", "), f.change.to_string())
            }
            Err(refusal) => (
                format!("{} at {}", refusal.number, refusal.place),
                String::new(),
            ),
        };
        figure(text, table.cell(row, FIGURES)?, &figures)?;
        figure(text, table.cell(row, "change")?, &change)?;
    }
    Ok(())
}

/// `limits`: columns limit and figure.
fn limits(table: &Table) -> Check {
    for row in &table.rows {
        let what = table.cell(row, "limit")?;
        let known = LIMITS.iter().find(|(words, _)| *words == what);
        let (_, name) = known.ok_or(format!("`{what}` is no limit that is known"))?;
        let stated: String = table.cell(row, "figure")?.replace(',', "");
        figure(what, stated, header_figure(name)?.to_string())?;
    }
    Ok(())
}

/// `refusals`: the column number holds every refusal of the header, once and in order.
fn refusals(table: &Table) -> Check {
    let header = file("include/simjorad.h")?;
    let (_, part) = header
        .split_once("/* Refusals")
        .ok_or("no refusals in the header")?;
    let (part, _) = part.split_once("/*\n").ok_or("no end of the refusals")?;
    let wanted: Vec<String> = part
        .lines()
        .filter_map(|line| line.strip_prefix("#define ")?.split_whitespace().nth(1))
        .map(str::to_string)
        .collect();
    let stated: Check<Vec<&str>> = table
        .rows
        .iter()
        .map(|row| table.cell(row, "number"))
        .collect();
    let stated: Vec<String> = stated?.iter().map(|number| number.to_string()).collect();
    figure("the refusals", stated, wanted)
}

/// `operations`: the column refusals holds, in order, those that the header states for the column function.
fn operations(table: &Table) -> Check {
    let header = file("include/simjorad.h")?;
    for row in &table.rows {
        let function = quoted(table.cell(row, "function")?).concat();
        let (before, _) = header
            .split_once(&format!(" {function}("))
            .ok_or(format!("{function} is not declared"))?;
        let comment = before.rsplit("/*").next().unwrap_or_default();
        let wanted = match comment.split_once("or minus ") {
            Some((_, rest)) => rest.split('.').next().unwrap_or_default(),
            None if comment.contains("Never refuses") => "none",
            None => return Err(format!("no refusals are stated for {function}")),
        };
        let stated = table.cell(row, "refusals, in order")?;
        figure(&function, stated, &wanted.replace(" or ", ", "))?;
        causes(table.cell(row, "operation")?, stated)?;
    }
    Ok(())
}

/// The refusals of the header: number and cause.
fn header_refusals() -> Check<Vec<(String, BTreeSet<String>)>> {
    let header = file("include/simjorad.h")?;
    let (_, part) = header
        .split_once("/* Refusals")
        .ok_or("no refusals in the header")?;
    let (part, _) = part.split_once("/*\n").ok_or("no end of the refusals")?;
    let one = |line: &str| -> Option<(String, BTreeSet<String>)> {
        let (define, cause) = line.strip_prefix("#define ")?.split_once("/*")?;
        let number = define.split_whitespace().nth(1)?;
        Some((number.to_string(), words(cause)))
    };
    Ok(part.lines().filter_map(one).collect())
}

/// The words of a text in small letters and figures.
fn words(text: &str) -> BTreeSet<String> {
    text.split(|c: char| !c.is_ascii_alphanumeric())
        .filter(|word| !word.is_empty())
        .map(str::to_ascii_lowercase)
        .collect()
}

/// The rules of one operation, from its name in bold on: they state the same refusals in the same order, and the words of each cause have
/// no more in common with another refusal of the header than with its own.
fn causes(operation: &str, wanted: &str) -> Check {
    let rules = file("docs/RULES.md")?;
    let (_, part) = rules
        .split_once(&format!("\n**{operation}** ("))
        .ok_or(format!("no rules of {operation}"))?;
    let end = part.find("\n**").or_else(|| part.find("\nThe operations"));
    let (_, part) = part[..end.unwrap_or(part.len())]
        .split_once(')')
        .unwrap_or_default();
    // a number before a colon has its cause behind it; one in a list, or alone in an item, stands for a cause told above
    let mut stated: Vec<(String, Option<String>)> = Vec::new();
    let mut listed = true;
    for word in part.split_whitespace() {
        let number = word.trim_end_matches(['.', ',', ':']);
        let is_number = !number.is_empty() && number.bytes().all(|byte| byte.is_ascii_digit());
        let is_mark = [".", "-"].contains(&word);
        if is_number && (listed || word.ends_with(':')) {
            stated.push((number.to_string(), word.ends_with(':').then(String::new)));
        } else if let (false, Some((_, Some(cause)))) = (is_mark, stated.last_mut()) {
            cause.push_str(word);
            cause.push(' ');
        }
        listed = is_mark || (listed && is_number && word.ends_with(','));
    }
    let numbers: Vec<&str> = stated.iter().map(|(number, _)| &**number).collect();
    let numbers = match &numbers[..] {
        [] => "none".to_string(),
        _ => numbers.join(", "),
    };
    figure(&format!("the refusals of {operation}"), &*numbers, wanted)?;
    let known = header_refusals()?;
    for (number, cause) in &stated {
        let Some(cause) = cause else { continue };
        let (cause, _) = cause.split_once(". ").unwrap_or((cause, ""));
        let common = |other: &BTreeSet<String>| other.intersection(&words(cause)).count();
        let most = known.iter().map(|(_, other)| common(other)).max();
        let own = known.iter().find(|(other, _)| other == number);
        let own = own.map(|(_, other)| common(other));
        figure(&format!("{operation}, {number}: {cause}"), own, most)?;
    }
    Ok(())
}

/// The number at the end of a text.
fn number_before(text: &str) -> Option<usize> {
    let digits = text.bytes().rev().take_while(u8::is_ascii_digit).count();
    text[text.len() - digits..].parse().ok()
}

/// The number at the start of a text, and what follows it.
fn number_after(text: &str) -> Option<(usize, &str)> {
    let digits = text.bytes().take_while(u8::is_ascii_digit).count();
    Some((text[..digits].parse().ok()?, &text[digits..]))
}

/// Lengths as in `3 × C`, which the header must have, and divisions as in `4 × 5 / 10 is 2`, or `low 7 × 5 / 10 is 3` and `high 7 × 5 / 10 is 4`
/// where the ends round apart.
fn arithmetic(text: &str) -> Check {
    let header = file("include/simjorad.h")?;
    let parts: Vec<&str> = text.split(" × ").collect();
    for pair in parts.windows(2) {
        let Some(first) = number_before(pair[0]) else {
            continue;
        };
        if pair[1].starts_with('C') && !header.contains(&format!("({first} * (c))")) {
            return Err(format!("{first} × C is no length of the header"));
        }
        let stated = number_after(pair[1]).and_then(|(second, rest)| {
            let (top, rest) = number_after(rest.strip_prefix(" / ")?)?;
            let (result, _) = number_after(rest.strip_prefix(" is ")?)?;
            Some((second, top, result))
        });
        if let Some((second, top, result)) = stated {
            let what = format!("{first} × {second} / {top}");
            let product = first * second;
            let before = pair[0].trim_end_matches(|c: char| c.is_ascii_digit());
            if !before.ends_with("high ") {
                figure(&what, result, product / top)?;
            }
            if !before.ends_with("low ") {
                figure(&what, result, product.div_ceil(top))?;
            }
        }
    }
    Ok(())
}

/// A stack that no call exceeds, as in `more than 2 KiB of stack`; one with an index may take a KiB more.
fn stack(text: &str) -> Check {
    for (at, _) in text.match_indices(" KiB of stack") {
        let stated = number_before(&text[..at]).ok_or("no figure before KiB")?;
        for call in CALLS {
            let name = stack_figure(call);
            let most = header_figure(&name)?;
            let stated = stated + usize::from(name.ends_with("_INDEXED"));
            figure(
                &format!("{name} within {stated} KiB"),
                most <= 1024 * stated,
                true,
            )?;
        }
    }
    Ok(())
}

/// The limits that a text states in words.
fn phrases(text: &str) -> Check {
    arithmetic(text)?;
    stack(text)?;
    // A phrase may go over the end of a line.
    let text = text.split_whitespace().collect::<Vec<_>>().join(" ");
    for (before, after, name, more) in PHRASES {
        for rest in text.split(before).skip(1) {
            let length = rest
                .bytes()
                .take_while(|byte| byte.is_ascii_digit() || *byte == b',')
                .count();
            let written = rest[..length].trim_end_matches(',');
            if !written.is_empty() && rest[written.len()..].starts_with(after) {
                let what = format!("`{before}{written}{after}`");
                let wanted = (header_figure(name)? + more).to_string();
                figure(&what, written.replace(',', ""), wanted)?;
            }
        }
    }
    Ok(())
}

/// The first line from a place on that is so, or the end.
fn place_of(lines: &[String], from: usize, stop: impl Fn(&str) -> bool) -> usize {
    let found = lines[from..].iter().position(|line| stop(line));
    found.map_or(lines.len(), |distance| from + distance)
}

impl Document {
    /// A block between two lines of three backquotes.
    fn check_block(&mut self, kind: &str, number: usize, block: &[String]) -> Check {
        if kind == "console" {
            return self.run_block(block);
        }
        if let Some(name) = kind.strip_prefix("page ") {
            let text = block.join("\n") + "\n";
            return std::fs::write(sandbox()?.join(name), text).map_err(|error| error.to_string());
        }
        self.prose
            .extend(block.iter().map(|line| (number, line.clone())));
        Ok(())
    }

    /// The part that begins at a line; where the next one begins.
    fn check_part(&mut self, lines: &[String], at: usize) -> Check<usize> {
        let line = &lines[at];
        if let Some(kind) = line.strip_prefix("```") {
            let end = place_of(lines, at + 1, |line| line == "```");
            self.check_block(kind, at + 1, &lines[at + 1..end])?;
            return Ok(end + 1);
        }
        if let Some(how) = line.strip_prefix("<!-- checked: ") {
            let how = how.strip_suffix(" -->").ok_or("the comment has no end")?;
            let end = place_of(lines, at + 1, |line| !line.starts_with('|'));
            self.check_table(how, &Table::parse(&lines[at + 1..end])?)?;
            return Ok(end);
        }
        self.prose.push((at + 1, line.clone()));
        Ok(at + 1)
    }
}

fn check(trial: &mut Trial, path: &str) -> Check {
    trial.pages += 1;
    let mut document = Document {
        shown: BTreeSet::new(),
        printed: BTreeSet::new(),
        prose: Vec::new(),
    };
    let text = file(path)?;
    phrases(&text).map_err(|reason| format!("{path}: {reason}"))?;
    let lines: Vec<String> = text.lines().map(str::to_string).collect();
    let mut at = 0;
    while at < lines.len() {
        at = document
            .check_part(&lines, at)
            .map_err(|reason| format!("{path}, line {}: {reason}", at + 1))?;
        trial.engine.calls += 1;
    }
    document
        .check_prose()
        .map_err(|reason| format!("{path}, {reason}"))
}
