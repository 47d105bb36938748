//! The input of one call, written out for a report.

use std::fmt::Write;

use crate::area;

/// The most numbers or bytes of one slice that a report shows.
const SHOWN: usize = 4000;

pub enum Slice<'a> {
    Bytes(&'a [u8]),
    Numbers(&'a [u16]),
}

/// What a call is given.
pub struct Input<'a> {
    pub op: &'static str,
    pub slices: Vec<(&'static str, Slice<'a>)>,
    pub numbers: Vec<(&'static str, u64)>,
}

impl Input<'_> {
    /// The input on one line.
    pub fn dump(&self) -> String {
        let mut out = format!("call {}", self.op);
        for (name, number) in &self.numbers {
            let _ = write!(out, "; {name} {number}");
        }
        for (name, slice) in &self.slices {
            match slice {
                Slice::Bytes(bytes) => {
                    let _ = write!(
                        out,
                        "; {name} of {} bytes {}",
                        bytes.len(),
                        shown_text(bytes)
                    );
                }
                Slice::Numbers(numbers) => {
                    let _ = write!(
                        out,
                        "; {name} of {} numbers {}",
                        numbers.len(),
                        shown_numbers(numbers)
                    );
                    if *name == "page" {
                        if let Some(page) = area::decode(numbers) {
                            let _ = write!(out, " = {}", shown_text(&page.text()));
                        }
                    }
                }
            }
        }
        out
    }
}

pub fn shown_text(bytes: &[u8]) -> String {
    let shown = &bytes[..bytes.len().min(SHOWN)];
    let more = if shown.len() < bytes.len() { "..." } else { "" };
    format!("\"{}\"{more}", shown.escape_ascii())
}

pub fn shown_numbers(numbers: &[u16]) -> String {
    let shown = &numbers[..numbers.len().min(SHOWN)];
    let more = if shown.len() < numbers.len() {
        " ..."
    } else {
        ""
    };
    let list: Vec<String> = shown.iter().map(u16::to_string).collect();
    format!("[{}{more}]", list.join(" "))
}
