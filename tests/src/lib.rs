//! Outside tests of the rule-page engine, through its C interface.
//!
//! The reference solver is `page`, `area`, `body`, `reach`, `plain`, `book`, `closed`, `layers`, `picks`, `stalls`, `followers`, `small`, `season`, `list` and `enumerate`; each
//! names the section of document 01 (`docs/RULES.md`) that it implements. `fast` is a second one for large pages. `workspace` says what
//! an indexed form leaves there. The callee is reached through `ffi`, `guard`, `stack` and `engine`: what it only reads lies in memory that
//! cannot be written, beside what it is lent there is no memory, and it has no more stack than the header says. `trial` compares
//! the two, `gen` and `spoil` make the inputs, `cases` are the tests.
//!
//! - `cargo run --release` runs every case; add `only TEXT` for the cases whose name contains the text,
//!   `quick` for a tenth of the items, `item NUMBER only TEXT` for one item, as a report names it, `calls` for all but the measurements
//!   of the stack, with a roomy one.
//! - `cargo run --release -- stack` measures the stack of each function and prints it beside the header's figure.
//! - `cargo run --release -- attach PATH` tests the program `attach` at that path.
//! - `cargo run --release -- trials PATH` tests the program `trials` at that path, each run in a folder of its own.
//! - `cargo run --release -- documents PATH` builds and runs the C examples and the C test (gcc), and makes every figure of the
//!   documents again, with the program `attach` at that path and `trials` beside it.
//! - `cargo run --release -- mutants` tries the tests themselves: the reference solver stands in for the library, for `attach` and for
//!   `trials`, one fault after another is planted in it, and each must be noticed by the case that is named beside it (`standin::FAULTS`);
//!   add `only TEXT` for the faults whose name contains the text.

pub mod answer;
pub mod area;
pub mod attach;
pub mod body;
pub mod book;
pub mod cases;
pub mod closed;
pub mod documents;
pub mod engine;
pub mod enumerate;
pub mod examples;
pub mod fast;
pub mod ffi;
pub mod followers;
pub mod gen;
pub mod guard;
pub mod input;
pub mod layers;
pub mod list;
pub mod page;
pub mod picks;
pub mod plain;
pub mod programs;
pub mod reach;
pub mod rng;
pub mod runner;
pub mod season;
pub mod slot;
pub mod small;
pub mod spoil;
pub mod stack;
pub mod stalls;
pub mod standin;
pub mod trial;
pub mod trials;
pub mod workspace;
