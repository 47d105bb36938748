//! The workspace of the indexed forms, as `simjorad.h` states it.

use crate::area::first_line;

/// The most numbers that any page needs.
pub const WORKSPACE_MAX: usize = 10_754;

/// The numbers that the index of a sound page area takes.
pub fn needed(area: &[u16]) -> usize {
    let (count, lines, used) = (
        usize::from(area[1]),
        usize::from(area[2]),
        usize::from(area[3]),
    );
    let literals = used - first_line(area) - 4 * lines;
    (count + 1) + lines + (2 * count + 1) + literals
}

/// The content that a call leaves: zeros in the needed part if the call is accepted and there is room.
pub fn after(area: &[u16], accepted: bool, before: &[u16]) -> Vec<u16> {
    let mut out = before.to_vec();
    if accepted {
        let needed = needed(area);
        if needed <= out.len() {
            out[..needed].fill(0);
        }
    }
    out
}
