//! Safe calls of the C interface.
//!
//! Every slice is lent from guarded memory and every out-parameter stands between two guard numbers.
//! An error is a breach that no contract allows: a guard or a read-only slice changed, an out-parameter
//! changed by a refused call, or a return code that the header does not list.

use std::fmt::Debug;
use std::time::{Duration, Instant};

use crate::answer::*;
use crate::ffi::{stands_in, Call};
use crate::guard::{Loan, Pool, Side};
use crate::rng::Rng;
use crate::slot;
use crate::stack::Stack;
use crate::stalls::Stall;

/// A call that takes longer has failed.
fn limit() -> Duration {
    Duration::from_secs(if stands_in() { 3 } else { 20 })
}

/// An out-parameter between two guard numbers.
struct Out<T> {
    cells: [T; 3],
    before: [T; 3],
}

impl<T: Copy + PartialEq + Debug> Out<T> {
    fn new(guard: T, start: T) -> Out<T> {
        Out {
            cells: [guard, start, guard],
            before: [guard, start, guard],
        }
    }

    fn ptr(&mut self) -> *mut T {
        // SAFETY: the middle cell is inside the array.
        unsafe { self.cells.as_mut_ptr().add(1) }
    }

    /// The number set by an accepted call.
    fn set(&self, name: &str) -> Result<T, String> {
        if self.cells[0] != self.before[0] || self.cells[2] != self.before[2] {
            return Err(format!("a number beside `*{name}` is overwritten"));
        }
        Ok(self.cells[1])
    }

    /// A refused call leaves the number.
    fn kept(&self, name: &str) -> Result<(), String> {
        self.set(name)?;
        if self.cells[1] != self.before[1] {
            return Err(format!(
                "a refused call changed `*{name}` from {:?} to {:?}",
                self.before[1], self.cells[1]
            ));
        }
        Ok(())
    }
}

/// The callee, with the memory that it is lent.
pub struct Engine {
    pool: Pool,
    rng: Rng,
    /// The calls made so far.
    pub calls: u64,
    /// Areas are announced this many numbers longer than the memory behind them, which then ends at an
    /// inaccessible page of 2,048 numbers. 0 announces the true length.
    pub overstate: usize,
    /// Where in the page area the query list lies, if it lies there; its numbers are then those of the page area.
    pub queries_at: Option<usize>,
    stack: Stack,
    /// The longest call so far.
    pub longest: Duration,
}

impl Default for Engine {
    fn default() -> Self {
        Engine::new()
    }
}

impl Engine {
    pub fn new() -> Engine {
        Engine {
            pool: Pool::new(),
            rng: Rng::new(0),
            calls: 0,
            overstate: 0,
            queries_at: None,
            stack: Stack::new(),
            longest: Duration::ZERO,
        }
    }

    /// Makes the placing of the slices that follow depend on the seed alone.
    pub fn reseed(&mut self, seed: u64) {
        self.rng = Rng::new(seed);
        self.overstate = 0;
        self.queries_at = None;
    }

    /// Makes a call on a stack of the stated size and within the time limit; what it returns. The slices are noted for a report.
    fn call(
        &mut self,
        call: Call,
        number: u64,
        slices: &[(usize, usize, usize)],
        arguments: &[usize],
    ) -> Result<usize, String> {
        slot::mine().enter(call, number, slices);
        let start = Instant::now();
        // SAFETY: the slices and the out-parameters are valid, and what is written is apart from the rest.
        let result = unsafe { self.stack.limited(call, arguments) };
        let time = start.elapsed();
        slot::mine().leave();
        self.calls += 1;
        self.longest = self.longest.max(time);
        if time > limit() {
            return Err(format!("the call takes {} s", time.as_secs()));
        }
        Ok(result)
    }

    /// Where the query list lies: in a slice of its own, or inside the page area.
    fn queries_start(
        &self,
        page_loan: &Loan<u16>,
        page: &[u16],
        queries: &[u16],
        own: &Loan<u16>,
    ) -> usize {
        match self.queries_at {
            Some(at) => {
                assert!(page[at..at + queries.len()] == *queries, "other queries");
                page_loan.ptr() as usize + 2 * at
            }
            None => own.ptr() as usize,
        }
    }

    /// Lends a slice whose announced length is its own.
    fn lend<T: Copy + PartialEq + Debug>(&mut self, place: usize, content: &[T]) -> Loan<T> {
        let side = if self.rng.percent(50) {
            Side::End
        } else {
            Side::Start
        };
        if content.is_empty() && self.rng.percent(50) {
            return Loan::null();
        }
        self.pool.lend(place, content, side)
    }

    /// Lends an area; also returns the length to announce.
    fn lend_area(&mut self, place: usize, content: &[u16]) -> (Loan<u16>, usize) {
        if self.overstate == 0 {
            (self.lend(place, content), content.len())
        } else {
            let loan = self.pool.lend(place, content, Side::End);
            (loan, content.len() + self.overstate)
        }
    }

    fn guard_number(&mut self) -> u64 {
        self.rng.number() | 1
    }

    fn out<T: Copy + PartialEq + Debug>(&mut self, cut: fn(u64) -> T) -> Out<T> {
        let guard = self.guard_number();
        let start = self.guard_number();
        Out::new(cut(guard), cut(start))
    }

    fn note<T>(slice: &[T], loan_start: usize) -> (usize, usize, usize) {
        (loan_start, slice.len(), std::mem::size_of::<T>())
    }

    /// A workspace, or no slice where none is lent.
    fn note_room(
        workspace: Option<&[u16]>,
        room: &Option<(Loan<u16>, usize)>,
    ) -> (usize, usize, usize) {
        match (workspace, room) {
            (Some(numbers), Some((loan, _))) => Self::note(numbers, loan.ptr() as usize),
            _ => (0, 0, 0),
        }
    }

    pub fn read(
        &mut self,
        text: &[u8],
        area: &mut [u16],
    ) -> Result<Result<usize, ReadRefusal>, String> {
        let text_loan = self.lend(0, text);
        let (area_loan, area_length) = self.lend_area(1, area);
        let mut line = self.out(|number| number as u32);
        let mut place = self.out(|number| number as u32);
        let slices = [
            Self::note(text, text_loan.ptr() as usize),
            Self::note(area, area_loan.ptr() as usize),
        ];
        let arguments = [
            text_loan.ptr() as usize,
            text.len(),
            area_loan.ptr_mut() as usize,
            area_length,
            line.ptr() as usize,
            place.ptr() as usize,
        ];
        let code = self.call(Call::Read, area_length as u64, &slices, &arguments)? as i32;
        text_loan.end_const("text", text)?;
        area_loan.end_mut("area", area)?;
        let (line, place) = (line.set("line")?, place.set("place")?);
        match code {
            -6..=-1 | -24..=-21 => Ok(Err(ReadRefusal::new(-code, line, place))),
            4.. if line == 0 && place == 0 => Ok(Ok(code as usize)),
            4.. => Err(format!(
                "a page that is read leaves {line} in `*line` and {place} in `*place`"
            )),
            _ => Err(format!("returned {code}")),
        }
    }

    /// Start and length.
    pub fn show_line(&mut self, text: &[u8], number: usize) -> Result<(usize, usize), String> {
        let text_loan = self.lend(0, text);
        let mut start = self.out(|number| number as usize);
        let slices = [Self::note(text, text_loan.ptr() as usize)];
        let arguments = [
            text_loan.ptr() as usize,
            text.len(),
            number,
            start.ptr() as usize,
        ];
        let length = self.call(Call::ShowLine, number as u64, &slices, &arguments)?;
        text_loan.end_const("text", text)?;
        Ok((start.set("start")?, length))
    }

    pub fn open(
        &mut self,
        page: &[u16],
        queries: &[u16],
        run: &mut [u16],
    ) -> Result<Result<Opened, Refusal>, String> {
        let (page_loan, page_length) = self.lend_area(0, page);
        let queries_loan = self.lend(1, queries);
        let queries_start = self.queries_start(&page_loan, page, queries, &queries_loan);
        let (run_loan, run_length) = self.lend_area(2, run);
        let mut reached = self.out(|number| number as u32);
        let mut edges = self.out(|number| number as u32);
        let mut bound = self.out(|number| number as u32);
        let mut passes = self.out(|number| number as u32);
        let slices = [
            Self::note(page, page_loan.ptr() as usize),
            Self::note(queries, queries_start),
            Self::note(run, run_loan.ptr() as usize),
        ];
        let arguments = [
            page_loan.ptr() as usize,
            page_length,
            queries_start,
            queries.len(),
            run_loan.ptr_mut() as usize,
            run_length,
            reached.ptr() as usize,
            edges.ptr() as usize,
            bound.ptr() as usize,
            passes.ptr() as usize,
        ];
        let code = self.call(Call::Open, 0, &slices, &arguments)? as i32;
        page_loan.end_const("page", page)?;
        queries_loan.end_const("queries", queries)?;
        run_loan.end_mut("run", run)?;
        match code {
            0 => Ok(Ok(Opened {
                reached: reached.set("reached")?,
                edges: edges.set("edges")?,
                bound: bound.set("bound")?,
                passes: passes.set("passes")?,
            })),
            -13..=-10 => {
                reached.kept("reached")?;
                edges.kept("edges")?;
                bound.kept("bound")?;
                passes.kept("passes")?;
                Ok(Err(-code))
            }
            _ => Err(format!("returned {code}")),
        }
    }

    pub fn evaluate(
        &mut self,
        page: &[u16],
        run: &mut [u16],
        cond: u32,
    ) -> Result<Result<bool, Refusal>, String> {
        let (page_loan, page_length) = self.lend_area(0, page);
        let (run_loan, run_length) = self.lend_area(1, run);
        let slices = [
            Self::note(page, page_loan.ptr() as usize),
            Self::note(run, run_loan.ptr() as usize),
        ];
        let arguments = [
            page_loan.ptr() as usize,
            page_length,
            run_loan.ptr_mut() as usize,
            run_length,
            cond as usize,
        ];
        let code = self.call(Call::Evaluate, u64::from(cond), &slices, &arguments)? as i32;
        page_loan.end_const("page", page)?;
        run_loan.end_mut("run", run)?;
        match code {
            0 | 1 => Ok(Ok(code == 1)),
            -10 | -16..=-14 => Ok(Err(-code)),
            _ => Err(format!("returned {code}")),
        }
    }

    pub fn drive(
        &mut self,
        page: &[u16],
        run: &mut [u16],
        allowance: u32,
    ) -> Result<Result<Driven, Refusal>, String> {
        self.drive_with(page, run, None, allowance)
    }

    pub fn drive_indexed(
        &mut self,
        page: &[u16],
        run: &mut [u16],
        workspace: &mut [u16],
        allowance: u32,
    ) -> Result<Result<Driven, Refusal>, String> {
        self.drive_with(page, run, Some(workspace), allowance)
    }

    fn drive_with(
        &mut self,
        page: &[u16],
        run: &mut [u16],
        workspace: Option<&mut [u16]>,
        allowance: u32,
    ) -> Result<Result<Driven, Refusal>, String> {
        let (page_loan, page_length) = self.lend_area(0, page);
        let (run_loan, run_length) = self.lend_area(1, run);
        let room = workspace
            .as_deref()
            .map(|numbers| self.lend_area(2, numbers));
        let mut taken = self.out(|number| number as u32);
        let mut line = self.out(|number| number as u32);
        let slices = [
            Self::note(page, page_loan.ptr() as usize),
            Self::note(run, run_loan.ptr() as usize),
            Self::note_room(workspace.as_deref(), &room),
        ];
        let mut arguments = vec![
            page_loan.ptr() as usize,
            page_length,
            run_loan.ptr_mut() as usize,
            run_length,
        ];
        let mut call = Call::Drive;
        if let Some((loan, length)) = &room {
            arguments.extend([loan.ptr_mut() as usize, *length]);
            call = Call::DriveIndexed;
        }
        arguments.extend([
            allowance as usize,
            taken.ptr() as usize,
            line.ptr() as usize,
        ]);
        let code = self.call(call, u64::from(allowance), &slices, &arguments)? as i32;
        page_loan.end_const("page", page)?;
        run_loan.end_mut("run", run)?;
        if let (Some((loan, _)), Some(numbers)) = (room, workspace) {
            loan.end_mut("workspace", numbers)?;
        }
        driven(code, &taken, &line)
    }

    pub fn value(
        &mut self,
        page: &[u16],
        run: &[u16],
        cond: u32,
    ) -> Result<Result<Valued, Refusal>, String> {
        let (page_loan, page_length) = self.lend_area(0, page);
        let (run_loan, run_length) = self.lend_area(1, run);
        let mut low = self.out(|number| number as u16);
        let mut high = self.out(|number| number as u16);
        let slices = [
            Self::note(page, page_loan.ptr() as usize),
            Self::note(run, run_loan.ptr() as usize),
        ];
        let arguments = [
            page_loan.ptr() as usize,
            page_length,
            run_loan.ptr() as usize,
            run_length,
            cond as usize,
            low.ptr() as usize,
            high.ptr() as usize,
        ];
        let code = self.call(Call::Value, u64::from(cond), &slices, &arguments)? as i32;
        page_loan.end_const("page", page)?;
        run_loan.end_const("run", run)?;
        match code {
            0 | 1 => Ok(Ok(Valued {
                low: low.set("low")?,
                high: high.set("high")?,
                rest: code == 1,
            })),
            -10 | -14 | -15 | -17 => {
                low.kept("low")?;
                high.kept("high")?;
                Ok(Err(-code))
            }
            _ => Err(format!("returned {code}")),
        }
    }

    pub fn line(
        &mut self,
        page: &[u16],
        run: &[u16],
        cond: u32,
    ) -> Result<Result<u32, Refusal>, String> {
        let (page_loan, page_length) = self.lend_area(0, page);
        let (run_loan, run_length) = self.lend_area(1, run);
        let slices = [
            Self::note(page, page_loan.ptr() as usize),
            Self::note(run, run_loan.ptr() as usize),
        ];
        let arguments = [
            page_loan.ptr() as usize,
            page_length,
            run_loan.ptr() as usize,
            run_length,
            cond as usize,
        ];
        let code = self.call(Call::Line, u64::from(cond), &slices, &arguments)? as i32;
        page_loan.end_const("page", page)?;
        run_loan.end_const("run", run)?;
        match code {
            0 | 2..=1025 => Ok(Ok(code as u32)),
            -10 | -14 | -15 | -17 => Ok(Err(-code)),
            _ => Err(format!("returned {code}")),
        }
    }

    pub fn closed(
        &mut self,
        page: &[u16],
        queries: &[u16],
        scratch: &mut [u16],
        answers: &mut [u16],
    ) -> Result<Result<u32, Refusal>, String> {
        self.closed_with(page, queries, scratch, answers, None)
    }

    pub fn closed_indexed(
        &mut self,
        page: &[u16],
        queries: &[u16],
        scratch: &mut [u16],
        answers: &mut [u16],
        workspace: &mut [u16],
    ) -> Result<Result<u32, Refusal>, String> {
        self.closed_with(page, queries, scratch, answers, Some(workspace))
    }

    fn closed_with(
        &mut self,
        page: &[u16],
        queries: &[u16],
        scratch: &mut [u16],
        answers: &mut [u16],
        workspace: Option<&mut [u16]>,
    ) -> Result<Result<u32, Refusal>, String> {
        let (page_loan, page_length) = self.lend_area(0, page);
        let queries_loan = self.lend(1, queries);
        let queries_start = self.queries_start(&page_loan, page, queries, &queries_loan);
        let (scratch_loan, scratch_length) = self.lend_area(2, scratch);
        let (answers_loan, answers_length) = self.lend_area(3, answers);
        let room = workspace
            .as_deref()
            .map(|numbers| self.lend_area(4, numbers));
        let mut rounds = self.out(|number| number as u32);
        let slices = [
            Self::note(page, page_loan.ptr() as usize),
            Self::note(queries, queries_start),
            Self::note(scratch, scratch_loan.ptr() as usize),
            Self::note(answers, answers_loan.ptr() as usize),
            Self::note_room(workspace.as_deref(), &room),
        ];
        let mut arguments = vec![
            page_loan.ptr() as usize,
            page_length,
            queries_start,
            queries.len(),
            scratch_loan.ptr_mut() as usize,
            scratch_length,
            answers_loan.ptr_mut() as usize,
            answers_length,
        ];
        let mut call = Call::Closed;
        if let Some((loan, length)) = &room {
            arguments.extend([loan.ptr_mut() as usize, *length]);
            call = Call::ClosedIndexed;
        }
        arguments.push(rounds.ptr() as usize);
        let code = self.call(call, 0, &slices, &arguments)? as i32;
        page_loan.end_const("page", page)?;
        queries_loan.end_const("queries", queries)?;
        scratch_loan.end_mut("scratch", scratch)?;
        answers_loan.end_mut("answers", answers)?;
        if let (Some((loan, _)), Some(numbers)) = (room, workspace) {
            loan.end_mut("workspace", numbers)?;
        }
        read_closed(code, &rounds)
    }

    pub fn open_stall(
        &mut self,
        page: &[u16],
        stall: Stall,
        area: &mut [u16],
        queries: &[u16],
    ) -> Result<Result<Opened, Refusal>, String> {
        let (page_loan, page_length) = self.lend_area(0, page);
        let (area_loan, area_length) = self.lend_area(1, area);
        let queries_loan = self.lend(2, queries);
        let mut outs = [(); 4].map(|()| self.out(|number| number as u32));
        let slices = [
            Self::note(page, page_loan.ptr() as usize),
            Self::note(area, area_loan.ptr() as usize),
            Self::note(queries, queries_loan.ptr() as usize),
        ];
        let mut arguments = vec![
            page_loan.ptr() as usize,
            page_length,
            area_loan.ptr_mut() as usize,
            area_length,
            queries_loan.ptr() as usize,
            queries.len(),
        ];
        arguments.extend(outs.iter_mut().map(|out| out.ptr() as usize));
        let call = match stall {
            Stall::First => Call::OpenFirst,
            Stall::Second => Call::OpenSecond,
        };
        let code = self.call(call, 0, &slices, &arguments)? as i32;
        page_loan.end_const("page", page)?;
        area_loan.end_mut("area", area)?;
        queries_loan.end_const("queries", queries)?;
        match code {
            0 => Ok(Ok(Opened {
                reached: outs[0].set("reached")?,
                edges: outs[1].set("edges")?,
                bound: outs[2].set("bound")?,
                passes: outs[3].set("passes")?,
            })),
            -12..=-10 | -60 => {
                for (out, name) in outs.iter().zip(["reached", "edges", "bound", "passes"]) {
                    out.kept(name)?;
                }
                Ok(Err(-code))
            }
            _ => Err(format!("returned {code}")),
        }
    }

    pub fn evaluate_stall(
        &mut self,
        page: &[u16],
        stall: Stall,
        area: &mut [u16],
        cond: u32,
    ) -> Result<Result<bool, Refusal>, String> {
        let (page_loan, page_length) = self.lend_area(0, page);
        let (area_loan, area_length) = self.lend_area(1, area);
        let slices = [
            Self::note(page, page_loan.ptr() as usize),
            Self::note(area, area_loan.ptr() as usize),
        ];
        let arguments = [
            page_loan.ptr() as usize,
            page_length,
            area_loan.ptr_mut() as usize,
            area_length,
            cond as usize,
        ];
        let call = match stall {
            Stall::First => Call::EvaluateFirst,
            Stall::Second => Call::EvaluateSecond,
        };
        let code = self.call(call, u64::from(cond), &slices, &arguments)? as i32;
        page_loan.end_const("page", page)?;
        area_loan.end_mut("area", area)?;
        match code {
            0 | 1 => Ok(Ok(code == 1)),
            -10 | -60 | -16..=-14 => Ok(Err(-code)),
            _ => Err(format!("returned {code}")),
        }
    }

    pub fn turn(
        &mut self,
        page: &[u16],
        area: &mut [u16],
        allowance: u32,
    ) -> Result<Result<[StallTurn; 2], TurnRefusal>, String> {
        let (page_loan, page_length) = self.lend_area(0, page);
        let (area_loan, area_length) = self.lend_area(1, area);
        let mut outs = [(); 4].map(|()| self.out(|number| number as u32));
        let mut stall = self.out(|number| number as u32);
        let slices = [
            Self::note(page, page_loan.ptr() as usize),
            Self::note(area, area_loan.ptr() as usize),
        ];
        let mut arguments = vec![
            page_loan.ptr() as usize,
            page_length,
            area_loan.ptr_mut() as usize,
            area_length,
            allowance as usize,
        ];
        arguments.extend(outs.iter_mut().map(|out| out.ptr() as usize));
        arguments.push(stall.ptr() as usize);
        let code = self.call(Call::Turn, u64::from(allowance), &slices, &arguments)? as i32;
        page_loan.end_const("page", page)?;
        area_loan.end_mut("area", area)?;
        let names = ["taken_first", "rest_first", "taken_second", "rest_second"];
        let stall = stall.set("stall")?;
        match (code, stall) {
            (0, 0) => {
                let mut numbers = [0; 4];
                for ((number, out), name) in numbers.iter_mut().zip(&outs).zip(names) {
                    *number = out.set(name)?;
                }
                let [taken_first, rest_first, taken_second, rest_second] = numbers;
                if rest_first > 1 || rest_second > 1 {
                    return Err(format!("a rest of {rest_first} or {rest_second}"));
                }
                let told = |taken, rest| StallTurn {
                    taken,
                    rest: rest == 1,
                };
                Ok(Ok([
                    told(taken_first, rest_first),
                    told(taken_second, rest_second),
                ]))
            }
            (-10 | -60 | -14, _) => {
                for (out, name) in outs.iter().zip(names) {
                    out.kept(name)?;
                }
                Ok(Err(TurnRefusal {
                    number: -code,
                    stall,
                }))
            }
            _ => Err(format!("returned {code} with {stall} in `*stall`")),
        }
    }

    pub fn layers(
        &mut self,
        page: &[u16],
        layers: &mut [u16],
    ) -> Result<Result<(), LayersRefusal>, String> {
        let (page_loan, page_length) = self.lend_area(0, page);
        let (layers_loan, layers_length) = self.lend_area(1, layers);
        let mut condition = self.out(|number| number as u32);
        let slices = [
            Self::note(page, page_loan.ptr() as usize),
            Self::note(layers, layers_loan.ptr() as usize),
        ];
        let arguments = [
            page_loan.ptr() as usize,
            page_length,
            layers_loan.ptr_mut() as usize,
            layers_length,
            condition.ptr() as usize,
        ];
        let code = self.call(Call::Layers, 0, &slices, &arguments)? as i32;
        page_loan.end_const("page", page)?;
        layers_loan.end_mut("layers", layers)?;
        let condition = condition.set("condition")?;
        match code {
            -10 | -31 | -30 => Ok(Err(LayersRefusal {
                number: -code,
                condition,
            })),
            0 if condition == 0 => Ok(Ok(())),
            0 => Err(format!(
                "a page that passes leaves {condition} in `*condition`"
            )),
            _ => Err(format!("returned {code}")),
        }
    }

    pub fn check_picks(
        &mut self,
        page: &[u16],
        queries: &[u16],
        picks: &[u16],
        figures: &[u16],
    ) -> Result<Result<(), PicksRefusal>, String> {
        let (page_loan, page_length) = self.lend_area(0, page);
        let queries_loan = self.lend(1, queries);
        let queries_start = self.queries_start(&page_loan, page, queries, &queries_loan);
        let picks_loan = self.lend(2, picks);
        let figures_loan = self.lend(3, figures);
        let mut place = self.out(|number| number as u32);
        let slices = [
            Self::note(page, page_loan.ptr() as usize),
            Self::note(queries, queries_start),
            Self::note(picks, picks_loan.ptr() as usize),
            Self::note(figures, figures_loan.ptr() as usize),
        ];
        let arguments = [
            page_loan.ptr() as usize,
            page_length,
            queries_start,
            queries.len(),
            picks_loan.ptr() as usize,
            picks.len(),
            figures_loan.ptr() as usize,
            figures.len(),
            place.ptr() as usize,
        ];
        let code = self.call(Call::CheckPicks, 0, &slices, &arguments)? as i32;
        page_loan.end_const("page", page)?;
        queries_loan.end_const("queries", queries)?;
        picks_loan.end_const("picks", picks)?;
        figures_loan.end_const("figures", figures)?;
        let place = place.set("place")?;
        match code {
            -12..=-10 | -52..=-50 => Ok(Err(PicksRefusal {
                number: -code,
                place,
            })),
            0 if place == 0 => Ok(Ok(())),
            0 => Err(format!("accepted picks leave {place} in `*place`")),
            _ => Err(format!("returned {code}")),
        }
    }

    pub fn followers(&mut self, page: &[u16], cond: u32) -> Result<Result<u32, Refusal>, String> {
        let (page_loan, page_length) = self.lend_area(0, page);
        let slices = [Self::note(page, page_loan.ptr() as usize)];
        let arguments = [page_loan.ptr() as usize, page_length, cond as usize];
        let code = self.call(Call::Followers, u64::from(cond), &slices, &arguments)? as i32;
        page_loan.end_const("page", page)?;
        match code {
            0..=512 => Ok(Ok(code as u32)),
            -10 | -15 => Ok(Err(-code)),
            _ => Err(format!("returned {code}")),
        }
    }

    pub fn small_page(
        &mut self,
        number: u32,
        buffer: &mut [u8],
    ) -> Result<Result<usize, Refusal>, String> {
        let loan = self.lend(0, buffer);
        let slices = [Self::note(buffer, loan.ptr() as usize)];
        let arguments = [number as usize, loan.ptr_mut() as usize, buffer.len()];
        let code = self.call(Call::SmallPage, u64::from(number), &slices, &arguments)? as i32;
        loan.end_mut("buffer", buffer)?;
        match code {
            1.. => Ok(Ok(code as usize)),
            -70 | -71 => Ok(Err(-code)),
            _ => Err(format!("returned {code}")),
        }
    }

    pub fn season(&mut self, pairs: &[u16]) -> Result<Result<Season, SeasonRefusal>, String> {
        let (loan, length) = self.lend_area(0, pairs);
        let mut outs: Vec<Out<u32>> = (0..9).map(|_| self.out(|number| number as u32)).collect();
        let slices = [Self::note(pairs, loan.ptr() as usize)];
        let mut arguments = vec![loan.ptr() as usize, length];
        arguments.extend(outs.iter_mut().map(|out| out.ptr() as usize));
        let code = self.call(Call::Season, 0, &slices, &arguments)? as i32;
        loan.end_const("pairs", pairs)?;
        let place = outs[8].set("place")?;
        match code {
            -80 | -81 => {
                for (out, name) in outs.iter().zip(SEASON_OUTS) {
                    out.kept(name)?;
                }
                Ok(Err(SeasonRefusal {
                    number: -code,
                    place,
                }))
            }
            0 if place != 0 => Err(format!("a season's figures leave {place} in `*place`")),
            0 => {
                let mut figures = [0; 8];
                for ((figure, out), name) in figures.iter_mut().zip(&outs).zip(SEASON_OUTS) {
                    *figure = out.set(name)?;
                }
                let [count, sum_low, sum_width, smallest, largest, mean, remainder, change] =
                    figures;
                Ok(Ok(Season {
                    count,
                    sum_low,
                    sum_width,
                    smallest,
                    largest,
                    mean,
                    remainder,
                    change: change as i32,
                }))
            }
            _ => Err(format!("returned {code}")),
        }
    }
}

/// The out-parameters of a season that a refused call leaves.
const SEASON_OUTS: [&str; 8] = [
    "count",
    "sum_low",
    "sum_width",
    "smallest",
    "largest",
    "mean",
    "remainder",
    "change",
];

fn driven(code: i32, taken: &Out<u32>, line: &Out<u32>) -> Result<Result<Driven, Refusal>, String> {
    match code {
        0 | 1 => Ok(Ok(Driven {
            taken: taken.set("taken")?,
            line: line.set("line")?,
            rest: code == 1,
        })),
        -10 | -14 => {
            taken.kept("taken")?;
            line.kept("line")?;
            Ok(Err(-code))
        }
        _ => Err(format!("returned {code}")),
    }
}

/// The answer of a closed reading in either form.
fn read_closed(code: i32, rounds: &Out<u32>) -> Result<Result<u32, Refusal>, String> {
    match code {
        0 => Ok(Ok(rounds.set("rounds")?)),
        -12..=-10 | -18 | -19 => {
            rounds.kept("rounds")?;
            Ok(Err(-code))
        }
        _ => Err(format!("returned {code}")),
    }
}
