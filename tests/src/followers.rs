//! How many conditions follow one (document 02, ticket 12), by a search from it over who names whom: section "Followers".

use crate::answer::*;
use crate::area::decode;
use crate::page::{Line, Page};

/// Who follows the condition: the conditions that name it, directly or through others.
pub fn followers(page: &Page, cond: u16) -> Vec<u16> {
    let mut namers = vec![Vec::new(); usize::from(page.count)];
    for line in &page.lines {
        if let Line::Rule { head, body, .. } = line {
            for literal in body {
                namers[usize::from(literal.cond)].push(*head);
            }
        }
    }
    let mut found = vec![false; usize::from(page.count)];
    let mut next = vec![cond];
    while let Some(named) = next.pop() {
        for head in &namers[usize::from(named)] {
            if !found[usize::from(*head)] {
                found[usize::from(*head)] = true;
                next.push(*head);
            }
        }
    }
    (0..page.count)
        .filter(|cond| found[usize::from(*cond)])
        .collect()
}

/// The call on a page area.
pub fn count(page_area: &[u16], cond: u32) -> Result<u32, Refusal> {
    let page = decode(page_area).ok_or(PAGE_UNSOUND)?;
    if cond >= u32::from(page.count) {
        return Err(CONDITION_RANGE);
    }
    Ok(followers(&page, cond as u16).len() as u32)
}
