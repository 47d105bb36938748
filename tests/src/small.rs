//! All small pages (document 02, ticket 13): every page of the family is made, and they are sorted by count of conditions, then of lines,
//! then by text. Section "Small page".

use std::sync::OnceLock;

use crate::answer::*;
use crate::page::{Line, Literal, Op, Page};

/// Every fact, and every M rule of weight 1 with one literal, on a page of `count` conditions with top 1.
fn lines(count: u16) -> Vec<Line> {
    let mut out = Vec::new();
    for head in 0..count {
        for (low, high) in [(1, 1), (0, 1), (0, 0)] {
            out.push(Line::Fact {
                cond: head,
                low,
                high,
            });
        }
        for cond in 0..count {
            for negated in [false, true] {
                out.push(Line::Rule {
                    head,
                    weight: 1,
                    op: Op::M,
                    body: vec![Literal { cond, negated }],
                });
            }
        }
    }
    out
}

/// Every list of `length` of these lines.
fn lists(lines: &[Line], length: usize) -> Vec<Vec<Line>> {
    let mut all = vec![Vec::new()];
    for _ in 0..length {
        let longer = |start: &Vec<Line>| -> Vec<Vec<Line>> {
            let with = |line: &Line| [start.clone(), vec![line.clone()]].concat();
            lines.iter().map(with).collect()
        };
        all = all.iter().flat_map(longer).collect();
    }
    all
}

/// All small pages in their order.
pub fn pages() -> &'static [Page] {
    static PAGES: OnceLock<Vec<Page>> = OnceLock::new();
    PAGES.get_or_init(|| {
        let mut all = Vec::new();
        for count in 1..=2 {
            for length in 0..=2 {
                for lines in lists(&lines(count), length) {
                    all.push(Page {
                        top: 1,
                        count,
                        lines,
                    });
                }
            }
        }
        all.sort_by_key(|page| (page.count, page.lines.len(), page.text()));
        all
    })
}

/// The text's length; the text stands at the front of the buffer.
pub fn small_page(number: u32, buffer: &mut [u8]) -> Result<usize, Refusal> {
    let page = pages().get(number as usize).ok_or(SMALL_NUMBER)?;
    let text = page.text();
    let front = buffer.get_mut(..text.len()).ok_or(BUFFER_SHORT)?;
    front.copy_from_slice(&text);
    Ok(text.len())
}
