//! The stack of every exported function, on the largest pages, against the figures of the header.

use std::sync::atomic::{AtomicUsize, Ordering::SeqCst};

use crate::answer::*;
use crate::area::{decode, encode};
use crate::book::Book;
use crate::closed::scratch_length;
use crate::ffi::{stands_in, Call};
use crate::gen;
use crate::page::{Line, Literal, Page};
use crate::plain;
use crate::runner::Case;
use crate::stack::{header_figure, Stack, STANDIN_STACK};
use crate::stalls::{self, shared_length, Stall, STALLS};
use crate::trial::{figure, Check, Trial};
use crate::workspace;

pub fn cases() -> Vec<Case> {
    vec![
        Case {
            name: "stack_figures_of_the_header_keep_to_their_limits",
            items: 1,
            each: figures_of_the_header,
            must_see: &[],
        },
        Case {
            name: "no_call_takes_more_stack_than_the_header_says",
            items: 8,
            each: on_a_large_page,
            must_see: &[],
        },
    ]
}

/// An exported function: its name in the header's figure, and the most that the figure may be.
struct Function {
    figure: &'static str,
    limit: usize,
    /// The deepest stack measured so far.
    deepest: AtomicUsize,
}

const fn function(figure: &'static str, limit: usize) -> Function {
    Function {
        figure,
        limit,
        deepest: AtomicUsize::new(0),
    }
}

static READ: Function = function("SIMJORAD_STACK_READ", 512);
static SHOW_LINE: Function = function("SIMJORAD_STACK_SHOW_LINE", 2048);
static OPEN: Function = function("SIMJORAD_STACK_OPEN", 2048);
static EVALUATE: Function = function("SIMJORAD_STACK_EVALUATE", 2048);
static DRIVE: Function = function("SIMJORAD_STACK_DRIVE", 2048);
static DRIVE_INDEXED: Function = function("SIMJORAD_STACK_DRIVE_INDEXED", 3072);
static VALUE: Function = function("SIMJORAD_STACK_VALUE", 2048);
static LINE: Function = function("SIMJORAD_STACK_LINE", 2048);
static CLOSED: Function = function("SIMJORAD_STACK_CLOSED", 2048);
static CLOSED_INDEXED: Function = function("SIMJORAD_STACK_CLOSED_INDEXED", 3072);
static LAYERS: Function = function("SIMJORAD_STACK_LAYERS", 2048);
static CHECK_PICKS: Function = function("SIMJORAD_STACK_CHECK_PICKS", 2048);
static OPEN_FIRST: Function = function("SIMJORAD_STACK_OPEN_FIRST", 2048);
static OPEN_SECOND: Function = function("SIMJORAD_STACK_OPEN_SECOND", 2048);
static EVALUATE_FIRST: Function = function("SIMJORAD_STACK_EVALUATE_FIRST", 2048);
static EVALUATE_SECOND: Function = function("SIMJORAD_STACK_EVALUATE_SECOND", 2048);
static TURN: Function = function("SIMJORAD_STACK_TURN", 2048);
static FOLLOWERS: Function = function("SIMJORAD_STACK_FOLLOWERS", 2048);
static SMALL_PAGE: Function = function("SIMJORAD_STACK_SMALL_PAGE", 2048);
static SEASON: Function = function("SIMJORAD_STACK_SEASON", 2048);

static FUNCTIONS: [&Function; 20] = [
    &READ,
    &SHOW_LINE,
    &OPEN,
    &EVALUATE,
    &DRIVE,
    &DRIVE_INDEXED,
    &VALUE,
    &LINE,
    &CLOSED,
    &CLOSED_INDEXED,
    &LAYERS,
    &CHECK_PICKS,
    &OPEN_FIRST,
    &OPEN_SECOND,
    &EVALUATE_FIRST,
    &EVALUATE_SECOND,
    &TURN,
    &FOLLOWERS,
    &SMALL_PAGE,
    &SEASON,
];

/// Evaluations of a drive.
const ALLOWANCE: usize = 3000;

fn figures_of_the_header(_: &mut Trial, _: u64) -> Check {
    let mut over = Vec::new();
    for function in FUNCTIONS {
        let stated = header_figure(function.figure)?;
        if stated > function.limit {
            over.push(format!(
                "{} is {stated}, more than {}",
                function.figure, function.limit
            ));
        }
    }
    figure("the figures over their limits", over, Vec::new())?;
    let stated = header_figure("SIMJORAD_WORKSPACE_MAX")?;
    figure("SIMJORAD_WORKSPACE_MAX", stated, workspace::WORKSPACE_MAX)
}

/// Prints the deepest stack measured of each function.
pub fn print() {
    for function in FUNCTIONS {
        let stated = header_figure(function.figure).unwrap_or(0);
        let measured = function.deepest.load(SeqCst);
        println!("{} {stated}, measured {measured}", function.figure);
    }
}

/// The slices and out-parameters of a call.
#[derive(Clone, Default)]
struct Lent {
    text: Vec<u8>,
    page: Vec<u16>,
    queries: Vec<u16>,
    /// The page area to write, the run area or the scratch.
    area: Vec<u16>,
    answers: Vec<u16>,
    workspace: Vec<u16>,
    outs: [u64; 9],
}

impl Lent {
    fn text(&self) -> Vec<usize> {
        vec![self.text.as_ptr() as usize, self.text.len()]
    }

    fn page(&self) -> Vec<usize> {
        vec![self.page.as_ptr() as usize, self.page.len()]
    }

    fn queries(&self) -> Vec<usize> {
        vec![self.queries.as_ptr() as usize, self.queries.len()]
    }

    fn area(&mut self) -> Vec<usize> {
        vec![self.area.as_mut_ptr() as usize, self.area.len()]
    }

    fn answers(&mut self) -> Vec<usize> {
        vec![self.answers.as_mut_ptr() as usize, self.answers.len()]
    }

    fn workspace(&mut self) -> Vec<usize> {
        vec![self.workspace.as_mut_ptr() as usize, self.workspace.len()]
    }

    fn out(&mut self, number: usize) -> Vec<usize> {
        vec![&mut self.outs[number] as *mut u64 as usize]
    }
}

/// The measurements of one page.
struct Bench<'a> {
    trial: &'a mut Trial,
    stack: Stack,
    /// A call that took more than the header says, if there was one.
    over: Check,
}

impl Bench<'_> {
    /// Makes the call on a stack of its own, compares it with the header and returns the call's code.
    fn call(
        &mut self,
        function: &Function,
        pointer: *const (),
        lent: &Lent,
        arguments: impl Fn(&mut Lent) -> Vec<usize>,
    ) -> Check<i32> {
        let mut copy = lent.clone();
        // SAFETY: the arguments point into the copy, which outlives the call.
        let (answer, depth) = unsafe {
            self.stack.measure(pointer, || {
                copy = lent.clone();
                arguments(&mut copy)
            })
        };
        self.trial.engine.calls += 2;
        function.deepest.fetch_max(depth, SeqCst);
        let stated = if stands_in() {
            STANDIN_STACK
        } else {
            header_figure(function.figure)?
        };
        if depth > stated {
            self.over = Err(format!(
                "a call that returns {} takes {depth} bytes of stack, {} is {stated}",
                answer as i32, function.figure
            ));
        }
        Ok(answer as i32)
    }

    fn read(&mut self, lent: &Lent) -> Check<i32> {
        self.call(&READ, Call::Read.function(), lent, |lent| {
            [lent.text(), lent.area(), lent.out(0), lent.out(1)].concat()
        })
    }

    fn show_line(&mut self, lent: &Lent, number: usize) -> Check<i32> {
        self.call(&SHOW_LINE, Call::ShowLine.function(), lent, |lent| {
            [lent.text(), vec![number], lent.out(0)].concat()
        })
    }

    fn open(&mut self, lent: &Lent) -> Check<i32> {
        self.call(&OPEN, Call::Open.function(), lent, |lent| {
            let slices = [lent.page(), lent.queries(), lent.area()].concat();
            let outs = [lent.out(0), lent.out(1), lent.out(2), lent.out(3)].concat();
            [slices, outs].concat()
        })
    }

    fn evaluate(&mut self, lent: &Lent, cond: usize) -> Check<i32> {
        self.call(&EVALUATE, Call::Evaluate.function(), lent, |lent| {
            [lent.page(), lent.area(), vec![cond]].concat()
        })
    }

    fn drive(&mut self, lent: &Lent) -> Check<i32> {
        self.call(&DRIVE, Call::Drive.function(), lent, |lent| {
            let slices = [lent.page(), lent.area()].concat();
            [slices, vec![ALLOWANCE], lent.out(0), lent.out(1)].concat()
        })
    }

    fn drive_indexed(&mut self, lent: &Lent) -> Check<i32> {
        let pointer = Call::DriveIndexed.function();
        self.call(&DRIVE_INDEXED, pointer, lent, |lent| {
            let slices = [lent.page(), lent.area(), lent.workspace()].concat();
            [slices, vec![ALLOWANCE], lent.out(0), lent.out(1)].concat()
        })
    }

    fn value(&mut self, lent: &Lent, cond: usize) -> Check<i32> {
        self.call(&VALUE, Call::Value.function(), lent, |lent| {
            let slices = [lent.page(), lent.area()].concat();
            [slices, vec![cond], lent.out(0), lent.out(1)].concat()
        })
    }

    fn line(&mut self, lent: &Lent, cond: usize) -> Check<i32> {
        self.call(&LINE, Call::Line.function(), lent, |lent| {
            [lent.page(), lent.area(), vec![cond]].concat()
        })
    }

    fn closed(&mut self, lent: &Lent) -> Check<i32> {
        self.call(&CLOSED, Call::Closed.function(), lent, |lent| {
            let slices = [lent.page(), lent.queries(), lent.area()].concat();
            [slices, lent.answers(), lent.out(0)].concat()
        })
    }

    fn closed_indexed(&mut self, lent: &Lent) -> Check<i32> {
        let pointer = Call::ClosedIndexed.function();
        self.call(&CLOSED_INDEXED, pointer, lent, |lent| {
            let slices = [lent.page(), lent.queries(), lent.area()].concat();
            [slices, lent.answers(), lent.workspace(), lent.out(0)].concat()
        })
    }

    fn layers(&mut self, lent: &Lent) -> Check<i32> {
        self.call(&LAYERS, Call::Layers.function(), lent, |lent| {
            [lent.page(), lent.area(), lent.out(0)].concat()
        })
    }

    /// The picks are lent as the area, the figures as the answers.
    fn check_picks(&mut self, lent: &Lent) -> Check<i32> {
        self.call(&CHECK_PICKS, Call::CheckPicks.function(), lent, |lent| {
            let slices = [lent.page(), lent.queries(), lent.area(), lent.answers()];
            [slices.concat(), lent.out(0)].concat()
        })
    }

    fn open_stall(&mut self, lent: &Lent, stall: Stall) -> Check<i32> {
        let (function, call) = match stall {
            Stall::First => (&OPEN_FIRST, Call::OpenFirst),
            Stall::Second => (&OPEN_SECOND, Call::OpenSecond),
        };
        self.call(function, call.function(), lent, |lent| {
            let slices = [lent.page(), lent.area(), lent.queries()].concat();
            let outs = [lent.out(0), lent.out(1), lent.out(2), lent.out(3)].concat();
            [slices, outs].concat()
        })
    }

    fn evaluate_stall(&mut self, lent: &Lent, stall: Stall, cond: usize) -> Check<i32> {
        let (function, call) = match stall {
            Stall::First => (&EVALUATE_FIRST, Call::EvaluateFirst),
            Stall::Second => (&EVALUATE_SECOND, Call::EvaluateSecond),
        };
        self.call(function, call.function(), lent, |lent| {
            [lent.page(), lent.area(), vec![cond]].concat()
        })
    }

    fn turn(&mut self, lent: &Lent) -> Check<i32> {
        self.call(&TURN, Call::Turn.function(), lent, |lent| {
            let outs = [lent.out(0), lent.out(1), lent.out(2), lent.out(3)].concat();
            let slices = [lent.page(), lent.area(), vec![ALLOWANCE]].concat();
            [slices, outs, lent.out(4)].concat()
        })
    }

    fn followers(&mut self, lent: &Lent, cond: usize) -> Check<i32> {
        self.call(&FOLLOWERS, Call::Followers.function(), lent, |lent| {
            [lent.page(), vec![cond]].concat()
        })
    }

    /// A small page, its buffer in `text`.
    fn small_page(&mut self, lent: &Lent, number: usize) -> Check<i32> {
        self.call(&SMALL_PAGE, Call::SmallPage.function(), lent, |lent| {
            let buffer = lent.text.as_mut_ptr() as usize;
            vec![number, buffer, lent.text.len()]
        })
    }

    /// A season, its pairs in `area`.
    fn season(&mut self, lent: &Lent) -> Check<i32> {
        self.call(&SEASON, Call::Season.function(), lent, |lent| {
            let mut arguments = lent.area();
            arguments.extend((0..9).flat_map(|out| lent.out(out)));
            arguments
        })
    }

    /// Texts read, and refused for each cause.
    fn reads(&mut self, text: &[u8], used: usize) -> Check {
        let mut lent = Lent {
            text: text.to_vec(),
            area: vec![7; used],
            ..Lent::default()
        };
        figure("read", self.read(&lent)?, used as i32)?;
        lent.area.pop();
        figure("read", self.read(&lent)?, -AREA_SHORT)?;
        for (line, number) in [
            (&b"F,0,0,0\n"[..], LINE_COUNT),
            (b"Q", TEXT_UNENDED),
            (&[b'\n'; 65_536], TEXT_TOO_LONG),
        ] {
            lent.text = [text, line].concat();
            figure("read", self.read(&lent)?, -number)?;
        }
        // The last line is damaged.
        let start = text[..text.len() - 1]
            .iter()
            .rposition(|byte| *byte == 10)
            .map_or(0, |at| at + 1);
        for (line, number) in [
            (&b"R,1,1,P,0,0,0,0,0,0,0,0,0\n"[..], LINE_FORM),
            (b"R,1,1,P,0,0,0,0,0,0,0,512\n", LINE_RANGE),
            (b"R,1,201,P,0,0,0,0,0,0,0,0\n", WEIGHT_RANGE),
            (b"F,1,0,201\n", GRADE_RANGE),
            (b"F,1,1,0\n", LOW_ABOVE_HIGH),
            (b"D,512,U\n", LINE_RANGE),
        ] {
            lent.text = [&text[..start], line].concat();
            figure("read", self.read(&lent)?, -number)?;
        }
        let first = text
            .split(|byte| *byte == 10)
            .find(|line| line.starts_with(b"D"));
        if let Some(first) = first {
            lent.text = [&text[..start], first, b"\n"].concat();
            figure("read", self.read(&lent)?, -SECOND_DEFAULT)?;
        }
        Ok(())
    }

    fn shows(&mut self, text: &[u8]) -> Check {
        let lent = Lent {
            text: text.to_vec(),
            ..Lent::default()
        };
        for number in [1, 1025, 2000] {
            self.show_line(&lent, number)?;
        }
        Ok(())
    }

    fn opens(&mut self, good: &Lent) -> Check {
        figure("open", self.open(good)?, 0)?;
        let mut bad = good.clone();
        bad.area.truncate(3 * 512 - 1);
        figure("open", self.open(&bad)?, -RUN_SHORT)?;
        bad.queries[15] = 512;
        figure("open", self.open(&bad)?, -QUERY_RANGE)?;
        bad.queries.clear();
        figure("open", self.open(&bad)?, -QUERY_COUNT)?;
        bad.page.pop();
        figure("open", self.open(&bad)?, -PAGE_UNSOUND)
    }

    /// Evaluate, drive, value and line on an opened run.
    fn runs(&mut self, good: &Lent) -> Check {
        let waiting = usize::from(good.queries[0]);
        for cond in 0..512 {
            if good.area[3 * cond + 2] == 2 {
                figure("evaluate", self.evaluate(good, cond)? >= 0, true)?;
                figure("line", self.line(good, cond)? >= 0, true)?;
            }
        }
        figure("drive", self.drive(good)? >= 0, true)?;
        figure("value", self.value(good, waiting)?, 0)?;
        figure("evaluate", self.evaluate(good, 512)?, -CONDITION_RANGE)?;
        figure("value", self.value(good, 512)?, -CONDITION_RANGE)?;
        figure("line", self.line(good, 512)?, -CONDITION_RANGE)?;
        let mut bad = good.clone();
        bad.area[3 * waiting + 2] = 0;
        figure("evaluate", self.evaluate(&bad, waiting)?, -NOT_WAITING)?;
        figure("value", self.value(&bad, waiting)?, -NOT_REACHED)?;
        figure("line", self.line(&bad, waiting)?, -NOT_REACHED)?;
        bad.area[3 * 511 + 1] = 201;
        figure("evaluate", self.evaluate(&bad, waiting)?, -RUN_UNSOUND)?;
        figure("drive", self.drive(&bad)?, -RUN_UNSOUND)?;
        figure("value", self.value(&bad, waiting)?, -RUN_UNSOUND)?;
        figure("line", self.line(&bad, waiting)?, -RUN_UNSOUND)?;
        bad.page.pop();
        figure("evaluate", self.evaluate(&bad, waiting)?, -PAGE_UNSOUND)?;
        figure("drive", self.drive(&bad)?, -PAGE_UNSOUND)?;
        figure("value", self.value(&bad, waiting)?, -PAGE_UNSOUND)?;
        figure("line", self.line(&bad, waiting)?, -PAGE_UNSOUND)
    }

    /// The indexed drive, with room and without.
    fn indexed_runs(&mut self, good: &Lent) -> Check {
        let mut lent = good.clone();
        for length in self.workspace_lengths(good) {
            lent.workspace = vec![9; length];
            figure("drive_indexed", self.drive_indexed(&lent)? >= 0, true)?;
            let mut bad = lent.clone();
            bad.area[3 * 511 + 1] = 201;
            figure("drive_indexed", self.drive_indexed(&bad)?, -RUN_UNSOUND)?;
            bad.page.pop();
            figure("drive_indexed", self.drive_indexed(&bad)?, -PAGE_UNSOUND)?;
        }
        Ok(())
    }

    /// The closed reading in both forms, the indexed one with room and without.
    fn closeds(&mut self, good: &Lent) -> Check {
        figure("closed", self.closed(good)?, 0)?;
        for (bad, number) in closed_refusals(good) {
            figure("closed", self.closed(&bad)?, -number)?;
        }
        let mut lent = good.clone();
        for length in self.workspace_lengths(good) {
            lent.workspace = vec![9; length];
            figure("closed_indexed", self.closed_indexed(&lent)?, 0)?;
            for (bad, number) in closed_refusals(&lent) {
                figure("closed_indexed", self.closed_indexed(&bad)?, -number)?;
            }
        }
        Ok(())
    }

    /// The layers of a page that passes and of one that is refused, and the causes before that.
    fn layered(&mut self, good: &Lent) -> Check {
        let mut lent = good.clone();
        self.layers(&lent)?;
        for negated in [false, true] {
            let mut page = decode(&good.page).ok_or("the area is not sound")?;
            for line in &mut page.lines {
                if let Line::Rule { head, body, .. } = line {
                    let cond = *head;
                    body[0] = Literal { cond, negated };
                }
            }
            lent.page = encode(&page);
            self.layers(&lent)?;
        }
        lent.area.truncate(511);
        figure("layers", self.layers(&lent)?, -LAYERS_SHORT)?;
        lent.page.pop();
        figure("layers", self.layers(&lent)?, -PAGE_UNSOUND)
    }

    /// Picks in the order of a drive, until rest or for some thousands of evaluations, and the causes before that.
    fn picked(&mut self, good: &Lent, page: &Page) -> Check {
        let mut lent = good.clone();
        let mut book = Book::new(page, &lent.queries);
        lent.area.clear();
        while lent.area.len() < ALLOWANCE {
            let Some(pick) = book.waiting().first().copied() else {
                break;
            };
            lent.area.push(pick);
            book.drive(1);
        }
        let ends = lent
            .queries
            .iter()
            .map(|query| book.pairs()[usize::from(*query)]);
        lent.answers = ends.flat_map(|pair| [pair.low, pair.high]).collect();
        let (wanted, wrong) = match book.at_rest() {
            true => (0, -FIGURES_WRONG),
            false => (-PICKS_NOT_AT_REST, -PICKS_NOT_AT_REST),
        };
        figure("check_picks", self.check_picks(&lent)?, wanted)?;
        lent.answers.pop();
        figure("check_picks", self.check_picks(&lent)?, wrong)?;
        lent.area.push(512);
        figure("check_picks", self.check_picks(&lent)?, -PICK_NOT_WAITING)?;
        lent.queries[15] = 512;
        figure("check_picks", self.check_picks(&lent)?, -QUERY_RANGE)?;
        lent.queries.push(0);
        figure("check_picks", self.check_picks(&lent)?, -QUERY_COUNT)?;
        lent.page.pop();
        figure("check_picks", self.check_picks(&lent)?, -PAGE_UNSOUND)
    }

    /// Both stalls opened, evaluated and turned, and refused for each cause.
    fn stalled(&mut self, good: &Lent) -> Check {
        let mut lent = good.clone();
        let waiting = usize::from(good.queries[0]);
        for stall in STALLS {
            figure("open_stall", self.open_stall(&lent, stall)?, 0)?;
            let opened = stalls::open(&good.page, stall, &mut lent.area, &good.queries);
            figure("the opening's success", opened.is_ok(), true)?;
        }
        figure("turn", self.turn(&lent)?, 0)?;
        for stall in STALLS {
            for cond in 0..512 {
                if lent.area[3 * cond + 2] == 2 {
                    let code = self.evaluate_stall(&lent, stall, cond)?;
                    figure("evaluate_stall", code >= 0, true)?;
                }
            }
            let code = self.evaluate_stall(&lent, stall, 512)?;
            figure("evaluate_stall", code, -CONDITION_RANGE)?;
            let mut bad = lent.clone();
            bad.area[stall.part(512)][3 * waiting + 2] = 1;
            let code = self.evaluate_stall(&bad, stall, waiting)?;
            figure("evaluate_stall", code, -NOT_WAITING)?;
            bad.area[stall.part(512)][3 * 511 + 1] = 201;
            let code = self.evaluate_stall(&bad, stall, waiting)?;
            figure("evaluate_stall", code, -RUN_UNSOUND)?;
            figure("turn", self.turn(&bad)?, -RUN_UNSOUND)?;
            bad.queries[15] = 512;
            figure("open_stall", self.open_stall(&bad, stall)?, -QUERY_RANGE)?;
            bad.queries.clear();
            figure("open_stall", self.open_stall(&bad, stall)?, -QUERY_COUNT)?;
            bad.area.truncate(shared_length(512) - 1);
            for number in [SHARED_SHORT, PAGE_UNSOUND] {
                figure("open_stall", self.open_stall(&bad, stall)?, -number)?;
                let code = self.evaluate_stall(&bad, stall, waiting)?;
                figure("evaluate_stall", code, -number)?;
                figure("turn", self.turn(&bad)?, -number)?;
                bad.page.pop();
            }
        }
        Ok(())
    }

    /// The followers of some conditions, and the causes of a refusal.
    fn followed(&mut self, good: &Lent) -> Check {
        for cond in [0, 300, 511] {
            self.followers(good, cond)?;
        }
        figure("followers", self.followers(good, 512)?, -CONDITION_RANGE)?;
        let mut lent = good.clone();
        lent.page.pop();
        figure("followers", self.followers(&lent, 0)?, -PAGE_UNSOUND)
    }

    /// Every small page, and one more; with room and with none.
    fn small_pages(&mut self) -> Check {
        let mut lent = Lent {
            text: vec![7; 28],
            ..Lent::default()
        };
        for number in 0..242 {
            figure("small_page", self.small_page(&lent, number)? > 0, true)?;
        }
        figure("small_page", self.small_page(&lent, 242)?, -SMALL_NUMBER)?;
        lent.text.truncate(27);
        figure("small_page", self.small_page(&lent, 24)?, -BUFFER_SHORT)
    }

    /// The longest season, with its greatest change at the end, and refused lists.
    fn seasons(&mut self, good: &Lent) -> Check {
        let mut lent = good.clone();
        lent.area = (0..8192).map(|at| at % 201 / 2).collect();
        for pair in lent.area.chunks_mut(2) {
            pair.sort_unstable();
        }
        figure("season", self.season(&lent)?, 0)?;
        lent.area[8191] = 201;
        figure("season", self.season(&lent)?, -SEASON_PAIR)?;
        lent.area.pop();
        figure("season", self.season(&lent)?, -SEASON_LENGTH)
    }

    fn workspace_lengths(&self, lent: &Lent) -> [usize; 4] {
        let needed = workspace::needed(&lent.page);
        [0, needed - 1, needed, workspace::WORKSPACE_MAX]
    }
}

/// A closed reading refused for each cause.
fn closed_refusals(good: &Lent) -> Vec<(Lent, Refusal)> {
    let mut bad = good.clone();
    let mut out = Vec::new();
    bad.answers.pop();
    out.push((bad.clone(), ANSWERS_SHORT));
    bad.area.pop();
    out.push((bad.clone(), SCRATCH_SHORT));
    bad.queries[15] = 512;
    out.push((bad.clone(), QUERY_RANGE));
    bad.queries.push(0);
    out.push((bad.clone(), QUERY_COUNT));
    bad.page.pop();
    out.push((bad, PAGE_UNSOUND));
    out
}

fn on_a_large_page(trial: &mut Trial, item: u64) -> Check {
    let page: Page = gen::limit_page(&mut trial.rng, item);
    trial.pages += 1;
    let area = encode(&page);
    let queries: Vec<u16> = (0..16).map(|n| 511 - 34 * n).collect();
    let mut bench = Bench {
        trial,
        stack: Stack::new(),
        over: Ok(()),
    };
    bench.reads(&page.text(), area.len())?;
    bench.shows(&page.text())?;
    let mut lent = Lent {
        page: area,
        queries,
        area: vec![7; 3 * 512],
        answers: vec![7; 32],
        ..Lent::default()
    };
    bench.opens(&lent)?;
    let opened = plain::open(&lent.page, &lent.queries, &mut lent.area);
    figure("the opening's success", opened.is_ok(), true)?;
    bench.runs(&lent)?;
    bench.indexed_runs(&lent)?;
    lent.area = vec![7; scratch_length(512)];
    bench.closeds(&lent)?;
    lent.area = vec![7; 512];
    bench.layered(&lent)?;
    bench.picked(&lent, &page)?;
    lent.area = vec![7; shared_length(512)];
    bench.stalled(&lent)?;
    bench.followed(&lent)?;
    bench.small_pages()?;
    bench.seasons(&lent)?;
    bench.over
}
