//! The calls of the proved engine, a function each. All of the C interface is in this file: the declarations come from the header, so where a
//! call gains a parameter (as the closed reading does with its count of rounds) the call below no longer compiles, and gets one more
//! argument here and nowhere else.

use std::ptr::addr_of_mut;

use crate::area::Interval;
use crate::header;

/// A text that is no page: the refusal's number, and its line and the field's place, 0 where none is told.
pub struct Refusal {
    pub number: usize,
    pub line: usize,
    pub place: usize,
}

/// A number that a call returned: 0 or more, or minus a refusal.
fn returned(code: i32) -> Result<u32, usize> {
    u32::try_from(code).map_err(|_| code.unsigned_abs() as usize)
}

/// The result of a call that is never refused on the page area of an accepted page.
fn granted(call: &str, code: i32) -> u32 {
    returned(code).unwrap_or_else(|number| {
        panic!(
            "the engine refused {call}: {number}, {}",
            header::cause(number)
        )
    })
}

/// Read a page: its page area.
pub fn read(text: &[u8]) -> Result<Vec<u16>, Refusal> {
    let mut area = vec![0; header::PAGE_MAX];
    let (mut line, mut place) = (0u32, 0u32);
    // SAFETY: the slices are Rust's own, with their lengths, and share nothing.
    let code = unsafe {
        header::simjorad_read(
            text.as_ptr(),
            text.len(),
            area.as_mut_ptr(),
            area.len(),
            addr_of_mut!(line),
            addr_of_mut!(place),
        )
    };
    match returned(code) {
        Ok(used) => {
            area.truncate(used as usize);
            Ok(area)
        }
        Err(number) => Err(Refusal {
            number,
            line: line as usize,
            place: place as usize,
        }),
    }
}

/// Show a line: that part of the text, without its newline.
pub fn show_line(text: &[u8], number: usize) -> &[u8] {
    let mut start = 0;
    // SAFETY: as in `read`.
    let length = unsafe {
        header::simjorad_show_line(text.as_ptr(), text.len(), number, addr_of_mut!(start))
    };
    &text[start..start + length]
}

/// Open a run and drive it to rest, which it reaches within the bound of its opening: the run area.
pub fn run_at_rest(area: &[u16], conditions: usize, queries: &[u16]) -> Vec<u16> {
    let mut run = vec![0; header::RUN_LENGTH(conditions)];
    let (mut reached, mut edges, mut bound, mut passes) = (0u32, 0u32, 0u32, 0u32);
    // SAFETY: as in `read`.
    let opened = unsafe {
        header::simjorad_open(
            area.as_ptr(),
            area.len(),
            queries.as_ptr(),
            queries.len(),
            run.as_mut_ptr(),
            run.len(),
            addr_of_mut!(reached),
            addr_of_mut!(edges),
            addr_of_mut!(bound),
            addr_of_mut!(passes),
        )
    };
    granted("open", opened);
    let mut workspace = vec![0; header::WORKSPACE_MAX];
    let (mut taken, mut line) = (0u32, 0u32);
    // SAFETY: as in `read`.
    let driven = unsafe {
        header::simjorad_drive_indexed(
            area.as_ptr(),
            area.len(),
            run.as_mut_ptr(),
            run.len(),
            workspace.as_mut_ptr(),
            workspace.len(),
            bound,
            addr_of_mut!(taken),
            addr_of_mut!(line),
        )
    };
    assert_eq!(granted("drive", driven), 1, "a run rests within its bound");
    run
}

/// Value: the interval that a condition holds, or none if it is not reached.
pub fn value(area: &[u16], run: &[u16], condition: usize) -> Option<Interval> {
    let (mut low, mut high) = (0u16, 0u16);
    // SAFETY: as in `read`.
    let code = unsafe {
        header::simjorad_value(
            area.as_ptr(),
            area.len(),
            run.as_ptr(),
            run.len(),
            condition as u32,
            addr_of_mut!(low),
            addr_of_mut!(high),
        )
    };
    if returned(code) == Err(header::NOT_REACHED) {
        return None;
    }
    granted("value", code);
    Some(Interval { low, high })
}

/// Which line holds the low end of a reached condition, or none if it has no F or R lines.
pub fn line(area: &[u16], run: &[u16], condition: usize) -> Option<usize> {
    // SAFETY: as in `read`.
    let code = unsafe {
        header::simjorad_line(
            area.as_ptr(),
            area.len(),
            run.as_ptr(),
            run.len(),
            condition as u32,
        )
    };
    let line = granted("line", code) as usize;
    (line > 0).then_some(line)
}

/// Closed reading: the interval of each query in the list.
pub fn closed(area: &[u16], conditions: usize, queries: &[u16]) -> Vec<Interval> {
    let mut scratch = vec![0; header::SCRATCH_LENGTH(conditions)];
    let mut answers = vec![0; 2 * queries.len()];
    let mut workspace = vec![0; header::WORKSPACE_MAX];
    let mut rounds = 0u32;
    // SAFETY: as in `read`.
    let code = unsafe {
        header::simjorad_closed_indexed(
            area.as_ptr(),
            area.len(),
            queries.as_ptr(),
            queries.len(),
            scratch.as_mut_ptr(),
            scratch.len(),
            answers.as_mut_ptr(),
            answers.len(),
            workspace.as_mut_ptr(),
            workspace.len(),
            &mut rounds,
        )
    };
    granted("closed", code);
    let interval = |pair: &[u16]| Interval {
        low: pair[0],
        high: pair[1],
    };
    answers.chunks(2).map(interval).collect()
}

/// Loops through an absence: the layer of each condition, or the lowest condition that a chain through a negation leads back to.
pub fn layers(area: &[u16], conditions: usize) -> Result<Vec<usize>, usize> {
    let mut layers = vec![0u16; conditions];
    let mut condition = 0u32;
    // SAFETY: as in `read`.
    let code = unsafe {
        header::simjorad_layers(
            area.as_ptr(),
            area.len(),
            layers.as_mut_ptr(),
            layers.len(),
            addr_of_mut!(condition),
        )
    };
    if returned(code) == Err(header::NEGATED_LOOP) {
        return Err(condition as usize);
    }
    granted("layers", code);
    Ok(layers.into_iter().map(usize::from).collect())
}
