//! What a command hands back: its output, notes for standard error, and the exit status.

use crate::page::Page;

pub struct Report {
    pub out: String,
    pub notes: Vec<String>,
    pub status: u8,
}

impl Report {
    /// The report of a command on a page; a bad names file is told in a note.
    pub fn new(page: &Page, out: String, status: u8) -> Report {
        Report {
            out,
            notes: page.names.fault.iter().cloned().collect(),
            status,
        }
    }
}

/// Words in a row: `a`, `a and b`, `a, b and c`.
pub fn joined(words: &[String]) -> String {
    match words {
        [] => String::new(),
        [one] => one.clone(),
        [most @ .., last] => format!("{} and {last}", most.join(", ")),
    }
}

/// A count with its noun: `1 line`, `2 lines`.
pub fn counted(count: usize, noun: &str, nouns: &str) -> String {
    format!("{count} {}", if count == 1 { noun } else { nouns })
}
