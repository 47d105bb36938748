//! The C header as Rust, written by `build.rs` from `dist/simjorad.h`: its numbers without `SIMJORAD_`, the causes of the refusals, and the
//! declarations.

#![allow(non_snake_case, unused_parens, dead_code)]

include!(concat!(env!("OUT_DIR"), "/header.rs"));

/// The cause of a refusal, in the header's words.
pub fn cause(number: usize) -> &'static str {
    let known = CAUSES.iter().find(|(other, _)| *other == number);
    known.map_or("a cause that the header does not name", |(_, cause)| cause)
}
