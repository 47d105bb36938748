//! The answers of the operations and their refusal numbers: section "Operations and their refusals".

/// The number of a refusal, as document 01 lists it.
pub type Refusal = i32;

pub const TEXT_TOO_LONG: Refusal = 1;
pub const TEXT_UNENDED: Refusal = 2;
pub const LINE_FORM: Refusal = 3;
pub const LINE_RANGE: Refusal = 4;
pub const LINE_COUNT: Refusal = 5;
pub const AREA_SHORT: Refusal = 6;
pub const PAGE_UNSOUND: Refusal = 10;
pub const QUERY_COUNT: Refusal = 11;
pub const QUERY_RANGE: Refusal = 12;
pub const RUN_SHORT: Refusal = 13;
pub const RUN_UNSOUND: Refusal = 14;
pub const CONDITION_RANGE: Refusal = 15;
pub const NOT_WAITING: Refusal = 16;
pub const NOT_REACHED: Refusal = 17;
pub const SCRATCH_SHORT: Refusal = 18;
pub const ANSWERS_SHORT: Refusal = 19;
pub const WEIGHT_RANGE: Refusal = 21;
pub const GRADE_RANGE: Refusal = 22;
pub const LOW_ABOVE_HIGH: Refusal = 23;
pub const SECOND_DEFAULT: Refusal = 24;
pub const NEGATED_LOOP: Refusal = 30;
pub const LAYERS_SHORT: Refusal = 31;
pub const LIST_FORM: Refusal = 40;
pub const LIST_RANGE: Refusal = 41;
pub const TRIAL_FALLS: Refusal = 42;
pub const PICK_NOT_WAITING: Refusal = 50;
pub const PICKS_NOT_AT_REST: Refusal = 51;
pub const FIGURES_WRONG: Refusal = 52;
pub const SHARED_SHORT: Refusal = 60;
pub const SMALL_NUMBER: Refusal = 70;
pub const BUFFER_SHORT: Refusal = 71;
pub const SEASON_LENGTH: Refusal = 80;
pub const SEASON_PAIR: Refusal = 81;

/// Why a page's text is refused; the line, and the place of the field in it, count from 1 and are 0 where none is at fault.
#[derive(Clone, Copy, Debug, PartialEq, Eq)]
pub struct ReadRefusal {
    pub number: Refusal,
    pub line: u32,
    pub place: u32,
}

impl ReadRefusal {
    pub fn new(number: Refusal, line: u32, place: u32) -> ReadRefusal {
        ReadRefusal {
            number,
            line,
            place,
        }
    }
}

/// Why a page has no layers; the condition is 0 where none is told.
#[derive(Clone, Copy, Debug, PartialEq, Eq)]
pub struct LayersRefusal {
    pub number: Refusal,
    pub condition: u32,
}

/// Why picks and figures are refused; the place of a pick counts from 1 and is 0 where none is told.
#[derive(Clone, Copy, Debug, PartialEq, Eq)]
pub struct PicksRefusal {
    pub number: Refusal,
    pub place: u32,
}

/// Why a turn is refused; the stall is 0 where none is told.
#[derive(Clone, Copy, Debug, PartialEq, Eq)]
pub struct TurnRefusal {
    pub number: Refusal,
    pub stall: u32,
}

/// What a turn tells of one stall.
#[derive(Clone, Copy, Debug, PartialEq, Eq)]
pub struct StallTurn {
    pub taken: u32,
    pub rest: bool,
}

/// What an opening returns: R, E, R + top * E and the count of passes.
#[derive(Clone, Copy, Debug, PartialEq, Eq)]
pub struct Opened {
    pub reached: u32,
    pub edges: u32,
    pub bound: u32,
    pub passes: u32,
}

/// What a drive returns; `rest` is false for `spent`. The line is that of its last evaluation, 0 if it took none.
#[derive(Clone, Copy, Debug, PartialEq, Eq)]
pub struct Driven {
    pub taken: u32,
    pub line: u32,
    pub rest: bool,
}

/// What a value call returns.
#[derive(Clone, Copy, Debug, PartialEq, Eq)]
pub struct Valued {
    pub low: u16,
    pub high: u16,
    pub rest: bool,
}

/// The figures of a season.
#[derive(Clone, Copy, Debug, PartialEq, Eq)]
pub struct Season {
    pub count: u32,
    pub sum_low: u32,
    pub sum_width: u32,
    pub smallest: u32,
    pub largest: u32,
    pub mean: u32,
    pub remainder: u32,
    pub change: i32,
}

/// Why a season's list is refused; the place counts from 1 and is 0 where no pair is told.
#[derive(Clone, Copy, Debug, PartialEq, Eq)]
pub struct SeasonRefusal {
    pub number: Refusal,
    pub place: u32,
}
