//! One worker's tests: each method makes a call, makes the same call on the reference solver and compares
//! the answers and every number of the lent slices.

use std::collections::BTreeMap;
use std::fmt::Debug;
use std::time::Duration;

use crate::answer::*;
use crate::area::{self, decode};
use crate::closed;
use crate::engine::Engine;
use crate::followers;
use crate::guard::first_difference;
use crate::input::{Input, Slice};
use crate::layers;
use crate::page;
use crate::picks;
use crate::plain;
use crate::rng::Rng;
use crate::season;
use crate::small;
use crate::stalls::{self, Stall};
use crate::workspace;

/// What a case returns: nothing, or why it fails.
pub type Check<T = ()> = Result<T, String>;

pub struct Trial {
    pub rng: Rng,
    pub engine: Engine,
    /// The pages handed over so far.
    pub pages: u64,
    /// How often each call gave each code; 0 stands for a call that does its work.
    pub seen: BTreeMap<(&'static str, Refusal), u64>,
}

impl Default for Trial {
    fn default() -> Self {
        Trial::new()
    }
}

/// The answer must be the wanted one.
pub fn same<A: PartialEq + Debug>(input: &Input, got: &A, wanted: &A) -> Check {
    if got == wanted {
        Ok(())
    } else {
        Err(format!(
            "the answer is {got:?} and should be {wanted:?}; {}",
            input.dump()
        ))
    }
}

/// The slice must hold the wanted numbers, over its whole length.
pub fn same_numbers(input: &Input, name: &str, got: &[u16], wanted: &[u16]) -> Check {
    match first_difference(got, wanted) {
        None if got.len() == wanted.len() => Ok(()),
        None => Err(format!(
            "`{name}` has {} numbers, not {}",
            got.len(),
            wanted.len()
        )),
        Some(at) => Err(format!(
            "number {at} of `{name}` is {} and should be {}; {}",
            got[at],
            wanted[at],
            input.dump()
        )),
    }
}

/// A figure from the document must come out.
pub fn figure<A: PartialEq + Debug>(what: &str, got: A, wanted: A) -> Check {
    if got == wanted {
        Ok(())
    } else {
        Err(format!("{what} is {got:?} and should be {wanted:?}"))
    }
}

fn breach(input: &Input, reason: String) -> String {
    format!("{reason}; {}", input.dump())
}

impl Trial {
    pub fn new() -> Trial {
        Trial {
            rng: Rng::new(0),
            engine: Engine::new(),
            pages: 0,
            seen: BTreeMap::new(),
        }
    }

    /// Begins an item: everything after depends on the seed alone.
    pub fn begin(&mut self, seed: u64) {
        self.rng = Rng::new(seed);
        self.engine.reseed(!seed);
    }

    /// Forgets the counts.
    pub fn clear(&mut self) {
        self.pages = 0;
        self.engine.calls = 0;
        self.engine.longest = Duration::ZERO;
        self.seen.clear();
    }

    /// Notes an outcome.
    pub fn saw(&mut self, call: &'static str, code: Refusal) {
        *self.seen.entry((call, code)).or_insert(0) += 1;
    }

    /// Numbers that mean nothing, small and large.
    pub fn rubbish(&mut self, length: usize) -> Vec<u16> {
        (0..length)
            .map(|_| match self.rng.below(4) {
                0 => self.rng.below(4) as u16,
                1 => self.rng.below(256) as u16,
                _ => self.rng.number() as u16,
            })
            .collect()
    }

    /// A slice with up to 20 numbers of rubbish behind it; half of the time none.
    pub fn with_tail(&mut self, numbers: &[u16]) -> Vec<u16> {
        let length = if self.rng.percent(50) {
            0
        } else {
            1 + self.rng.index(20)
        };
        let mut out = numbers.to_vec();
        out.extend(self.rubbish(length));
        out
    }

    pub fn read(&mut self, text: &[u8], area: &mut [u16]) -> Check<Result<usize, ReadRefusal>> {
        let before = area.to_vec();
        let mut expected = before.clone();
        let wanted = area::read_into(text, &mut expected);
        let got = self.engine.read(text, area);
        let input = Input {
            op: "read",
            slices: vec![("text", Slice::Bytes(text))],
            numbers: vec![("area_length", before.len() as u64)],
        };
        let got = got.map_err(|reason| breach(&input, reason))?;
        same(&input, &got, &wanted)?;
        same_numbers(&input, "area", area, &expected)?;
        self.saw("read", wanted.err().map_or(0, |refusal| refusal.number));
        Ok(got)
    }

    /// Start and length of a line, or none.
    pub fn show_line(&mut self, text: &[u8], number: usize) -> Check<Option<(usize, usize)>> {
        let wanted = page::show_line(text, number);
        let got = self.engine.show_line(text, number);
        let input = Input {
            op: "show_line",
            slices: vec![("text", Slice::Bytes(text))],
            numbers: vec![("number", number as u64)],
        };
        let (start, length) = got.map_err(|reason| breach(&input, reason))?;
        match wanted {
            Some(wanted) => same(&input, &(start, length), &wanted)?,
            None if length == 0 && start <= text.len() => {}
            None => {
                return Err(breach(
                    &input,
                    format!("a missing line is shown as {length} bytes from {start}"),
                ))
            }
        }
        self.saw("show_line", i32::from(wanted.is_none()));
        Ok(wanted)
    }

    pub fn open(
        &mut self,
        page: &[u16],
        queries: &[u16],
        run: &mut [u16],
    ) -> Check<Result<Opened, Refusal>> {
        let before = run.to_vec();
        let mut expected = before.clone();
        let wanted = plain::open(page, queries, &mut expected);
        let got = self.engine.open(page, queries, run);
        let input = Input {
            op: "open",
            slices: vec![
                ("page", Slice::Numbers(page)),
                ("queries", Slice::Numbers(queries)),
                ("run", Slice::Numbers(&before)),
            ],
            numbers: vec![],
        };
        let got = got.map_err(|reason| breach(&input, reason))?;
        same(&input, &got, &wanted)?;
        same_numbers(&input, "run", run, &expected)?;
        self.saw("open", wanted.err().unwrap_or(0));
        Ok(got)
    }

    pub fn evaluate(
        &mut self,
        page: &[u16],
        run: &mut [u16],
        cond: u32,
    ) -> Check<Result<bool, Refusal>> {
        let before = run.to_vec();
        let mut expected = before.clone();
        let wanted = plain::evaluate(page, &mut expected, cond);
        let got = self.engine.evaluate(page, run, cond);
        let input = Input {
            op: "evaluate",
            slices: vec![
                ("page", Slice::Numbers(page)),
                ("run", Slice::Numbers(&before)),
            ],
            numbers: vec![("condition", u64::from(cond))],
        };
        let got = got.map_err(|reason| breach(&input, reason))?;
        same(&input, &got, &wanted)?;
        same_numbers(&input, "run", run, &expected)?;
        self.saw("evaluate", wanted.map_or_else(|number| number, i32::from));
        Ok(got)
    }

    /// Drives in both forms; the indexed one with several workspaces.
    pub fn drive(
        &mut self,
        page: &[u16],
        run: &mut [u16],
        allowance: u32,
    ) -> Check<Result<Driven, Refusal>> {
        let before = run.to_vec();
        let mut expected = before.clone();
        let wanted = plain::drive(page, &mut expected, allowance);
        let got = self.engine.drive(page, run, allowance);
        let input = drive_input("drive", page, &before, allowance);
        let got = got.map_err(|reason| breach(&input, reason))?;
        same(&input, &got, &wanted)?;
        same_numbers(&input, "run", run, &expected)?;
        self.drive_indexed(page, &before, allowance, wanted, &expected)?;
        let code = wanted.map_or_else(|number| number, |driven| i32::from(driven.rest));
        self.saw("drive", code);
        Ok(got)
    }

    /// Drives a copy of the run in the form without a workspace; answer and run must be the wanted ones.
    pub fn drive_scanning(
        &mut self,
        page: &[u16],
        before: &[u16],
        allowance: u32,
        wanted: Driven,
        expected: &[u16],
    ) -> Check {
        let mut run = before.to_vec();
        let got = self.engine.drive(page, &mut run, allowance);
        let input = drive_input("drive", page, before, allowance);
        let got = got.map_err(|reason| breach(&input, reason))?;
        same(&input, &got, &Ok(wanted))?;
        same_numbers(&input, "run", &run, expected)?;
        self.saw("drive", i32::from(wanted.rest));
        Ok(())
    }

    /// Reads closed in the form with a workspace, and in the other too if asked; answers and count of rounds must be the wanted ones.
    pub fn closed_answers(
        &mut self,
        page: &[u16],
        queries: &[u16],
        (wanted, rounds): (&[u16], u32),
        scanning: bool,
    ) -> Check {
        let before = ClosedAreas {
            scratch: self.rubbish(closed::scratch_length(page[1])),
            answers: self.rubbish(wanted.len()),
        };
        let expected = ClosedAreas {
            scratch: vec![0; before.scratch.len()],
            answers: wanted.to_vec(),
        };
        if scanning {
            let mut areas = before.clone();
            let got = self
                .engine
                .closed(page, queries, &mut areas.scratch, &mut areas.answers);
            let input = closed_input("closed", page, queries, &before);
            let got = got.map_err(|reason| breach(&input, reason))?;
            same(&input, &got, &Ok(rounds))?;
            areas.same(&input, &expected)?;
            self.saw("closed", 0);
        }
        let needed = workspace::needed(page);
        self.closed_in(page, queries, &before, (Ok(rounds), &expected), needed)
    }

    /// Drives a copy of the run with workspaces of several lengths; answer, run and workspace must be the
    /// wanted ones.
    pub fn drive_indexed(
        &mut self,
        page: &[u16],
        before: &[u16],
        allowance: u32,
        wanted: Result<Driven, Refusal>,
        expected: &[u16],
    ) -> Check {
        for length in self.workspace_lengths(page) {
            self.drive_in(page, before, allowance, (wanted, expected), length)?;
        }
        Ok(())
    }

    /// Drives a copy of the run with a workspace of this length; answer, run and workspace must be the wanted ones.
    pub fn drive_in(
        &mut self,
        page: &[u16],
        before: &[u16],
        allowance: u32,
        (wanted, expected): (Result<Driven, Refusal>, &[u16]),
        length: usize,
    ) -> Check {
        let mut run = before.to_vec();
        let mut lent = self.rubbish(length);
        let left = workspace::after(page, wanted.is_ok(), &lent);
        let got = self
            .engine
            .drive_indexed(page, &mut run, &mut lent, allowance);
        let mut input = drive_input("drive_indexed", page, before, allowance);
        input.numbers.push(("workspace_length", length as u64));
        let got = got.map_err(|reason| breach(&input, reason))?;
        same(&input, &got, &wanted)?;
        same_numbers(&input, "run", &run, expected)?;
        same_numbers(&input, "workspace", &lent, &left)?;
        let code = wanted.map_or_else(|number| number, |driven| i32::from(driven.rest));
        self.saw(with_room("drive_indexed", page, length), code);
        Ok(())
    }

    /// Workspace lengths to try with a page area: none, one number short, just enough and longer. Where
    /// areas are announced longer than they are, only a workspace with room can be.
    fn workspace_lengths(&mut self, area: &[u16]) -> Vec<usize> {
        let needed = match decode(area) {
            Some(_) => workspace::needed(area),
            // No length is right for an area that is not sound; now and then there is room for any page.
            None if self.rng.percent(1) => workspace::WORKSPACE_MAX,
            None => self.rng.index(100),
        };
        if self.engine.overstate > 0 {
            return vec![needed];
        }
        let longer = needed + 1 + self.rng.index(20);
        vec![0, needed.saturating_sub(1), needed, longer]
    }

    pub fn value(
        &mut self,
        page: &[u16],
        run: &[u16],
        cond: u32,
    ) -> Check<Result<Valued, Refusal>> {
        let wanted = plain::value(page, run, cond);
        let got = self.engine.value(page, run, cond);
        let input = Input {
            op: "value",
            slices: vec![("page", Slice::Numbers(page)), ("run", Slice::Numbers(run))],
            numbers: vec![("condition", u64::from(cond))],
        };
        let got = got.map_err(|reason| breach(&input, reason))?;
        same(&input, &got, &wanted)?;
        let code = wanted.map_or_else(|number| number, |valued| i32::from(valued.rest));
        self.saw("value", code);
        let _ = self.line(page, run, cond)?;
        Ok(got)
    }

    /// Which line holds the low end: seen as 0 where it is told, and as 1 where there is none.
    pub fn line(&mut self, page: &[u16], run: &[u16], cond: u32) -> Check<Result<u32, Refusal>> {
        let wanted = plain::line(page, run, cond);
        let got = self.engine.line(page, run, cond);
        let input = Input {
            op: "line",
            slices: vec![("page", Slice::Numbers(page)), ("run", Slice::Numbers(run))],
            numbers: vec![("condition", u64::from(cond))],
        };
        let got = got.map_err(|reason| breach(&input, reason))?;
        same(&input, &got, &wanted)?;
        let code = wanted.map_or_else(|number| number, |line| i32::from(line == 0));
        self.saw("line", code);
        Ok(got)
    }

    /// Reads closed in both forms; the indexed one with several workspaces. Returns the count of rounds.
    pub fn rounds(
        &mut self,
        page: &[u16],
        queries: &[u16],
        scratch: &mut [u16],
        answers: &mut [u16],
    ) -> Check<Result<u32, Refusal>> {
        let before = ClosedAreas::of(scratch, answers);
        let mut expected = before.clone();
        let wanted = closed::closed(page, queries, &mut expected.scratch, &mut expected.answers);
        let got = self.engine.closed(page, queries, scratch, answers);
        let input = closed_input("closed", page, queries, &before);
        let got = got.map_err(|reason| breach(&input, reason))?;
        same(&input, &got, &wanted)?;
        ClosedAreas::of(scratch, answers).same(&input, &expected)?;
        self.closed_indexed(page, queries, &before, wanted, &expected)?;
        self.saw("closed", wanted.err().unwrap_or(0));
        Ok(got)
    }

    /// The same, where the count does not matter to the caller.
    pub fn closed(
        &mut self,
        page: &[u16],
        queries: &[u16],
        scratch: &mut [u16],
        answers: &mut [u16],
    ) -> Check<Result<(), Refusal>> {
        let got = self.rounds(page, queries, scratch, answers)?;
        Ok(got.map(|_| ()))
    }

    /// Reads closed with workspaces of several lengths; answer, areas and workspace must be the wanted ones.
    fn closed_indexed(
        &mut self,
        page: &[u16],
        queries: &[u16],
        before: &ClosedAreas,
        wanted: Result<u32, Refusal>,
        expected: &ClosedAreas,
    ) -> Check {
        for length in self.workspace_lengths(page) {
            self.closed_in(page, queries, before, (wanted, expected), length)?;
        }
        Ok(())
    }

    /// Reads closed with a workspace of this length; answer, areas and workspace must be the wanted ones.
    fn closed_in(
        &mut self,
        page: &[u16],
        queries: &[u16],
        before: &ClosedAreas,
        (wanted, expected): (Result<u32, Refusal>, &ClosedAreas),
        length: usize,
    ) -> Check {
        let mut areas = before.clone();
        let mut lent = self.rubbish(length);
        let left = workspace::after(page, wanted.is_ok(), &lent);
        let got = self.engine.closed_indexed(
            page,
            queries,
            &mut areas.scratch,
            &mut areas.answers,
            &mut lent,
        );
        let mut input = closed_input("closed_indexed", page, queries, before);
        input.numbers.push(("workspace_length", length as u64));
        let got = got.map_err(|reason| breach(&input, reason))?;
        same(&input, &got, &wanted)?;
        areas.same(&input, expected)?;
        same_numbers(&input, "workspace", &lent, &left)?;
        let name = with_room("closed_indexed", page, length);
        self.saw(name, wanted.err().unwrap_or(0));
        Ok(())
    }

    pub fn open_stall(
        &mut self,
        page: &[u16],
        stall: Stall,
        area: &mut [u16],
        queries: &[u16],
    ) -> Check<Result<Opened, Refusal>> {
        let before = area.to_vec();
        let mut expected = before.clone();
        let wanted = stalls::open(page, stall, &mut expected, queries);
        let got = self.engine.open_stall(page, stall, area, queries);
        let op = match stall {
            Stall::First => "open_first",
            Stall::Second => "open_second",
        };
        let input = Input {
            op,
            slices: vec![
                ("page", Slice::Numbers(page)),
                ("area", Slice::Numbers(&before)),
                ("queries", Slice::Numbers(queries)),
            ],
            numbers: vec![],
        };
        let got = got.map_err(|reason| breach(&input, reason))?;
        same(&input, &got, &wanted)?;
        same_numbers(&input, "area", area, &expected)?;
        self.saw(op, wanted.err().unwrap_or(0));
        Ok(got)
    }

    pub fn evaluate_stall(
        &mut self,
        page: &[u16],
        stall: Stall,
        area: &mut [u16],
        cond: u32,
    ) -> Check<Result<bool, Refusal>> {
        let before = area.to_vec();
        let mut expected = before.clone();
        let wanted = stalls::evaluate(page, stall, &mut expected, cond);
        let got = self.engine.evaluate_stall(page, stall, area, cond);
        let op = match stall {
            Stall::First => "evaluate_first",
            Stall::Second => "evaluate_second",
        };
        let mut input = stalls_input(op, page, &before);
        input.numbers.push(("condition", u64::from(cond)));
        let got = got.map_err(|reason| breach(&input, reason))?;
        same(&input, &got, &wanted)?;
        same_numbers(&input, "area", area, &expected)?;
        self.saw(op, wanted.map_or_else(|number| number, i32::from));
        Ok(got)
    }

    pub fn turn(
        &mut self,
        page: &[u16],
        area: &mut [u16],
        allowance: u32,
    ) -> Check<Result<[StallTurn; 2], TurnRefusal>> {
        let before = area.to_vec();
        let mut expected = before.clone();
        let wanted = stalls::turn(page, &mut expected, allowance);
        let got = self.engine.turn(page, area, allowance);
        let mut input = stalls_input("turn", page, &before);
        input.numbers.push(("allowance", u64::from(allowance)));
        let got = got.map_err(|reason| breach(&input, reason))?;
        same(&input, &got, &wanted)?;
        same_numbers(&input, "area", area, &expected)?;
        self.saw("turn", wanted.map_or_else(|refusal| refusal.number, |_| 0));
        Ok(got)
    }

    pub fn layers(&mut self, page: &[u16], slice: &mut [u16]) -> Check<Result<(), LayersRefusal>> {
        let before = slice.to_vec();
        let mut expected = before.clone();
        let wanted = layers::check(page, &mut expected);
        let got = self.engine.layers(page, slice);
        let input = Input {
            op: "layers",
            slices: vec![("page", Slice::Numbers(page))],
            numbers: vec![("layers_length", before.len() as u64)],
        };
        let got = got.map_err(|reason| breach(&input, reason))?;
        same(&input, &got, &wanted)?;
        same_numbers(&input, "layers", slice, &expected)?;
        self.saw("layers", wanted.err().map_or(0, |refusal| refusal.number));
        Ok(got)
    }

    pub fn check_picks(
        &mut self,
        page: &[u16],
        queries: &[u16],
        picks: &[u16],
        figures: &[u16],
    ) -> Check<Result<(), PicksRefusal>> {
        let wanted = picks::check(page, queries, picks, figures);
        let got = self.engine.check_picks(page, queries, picks, figures);
        let input = Input {
            op: "check_picks",
            slices: vec![
                ("page", Slice::Numbers(page)),
                ("queries", Slice::Numbers(queries)),
                ("picks", Slice::Numbers(picks)),
                ("figures", Slice::Numbers(figures)),
            ],
            numbers: Vec::new(),
        };
        let got = got.map_err(|reason| breach(&input, reason))?;
        same(&input, &got, &wanted)?;
        self.saw(
            "check_picks",
            wanted.err().map_or(0, |refusal| refusal.number),
        );
        Ok(got)
    }

    pub fn followers(&mut self, page: &[u16], cond: u32) -> Check<Result<u32, Refusal>> {
        let wanted = followers::count(page, cond);
        let got = self.engine.followers(page, cond);
        let input = Input {
            op: "followers",
            slices: vec![("page", Slice::Numbers(page))],
            numbers: vec![("condition", u64::from(cond))],
        };
        let got = got.map_err(|reason| breach(&input, reason))?;
        same(&input, &got, &wanted)?;
        self.saw("followers", wanted.err().unwrap_or(0));
        let back = |page| followers::followers(&page, cond as u16).contains(&(cond as u16));
        if wanted.is_ok() && decode(page).is_some_and(back) {
            self.saw("followers, itself among them", 0);
        }
        Ok(got)
    }

    pub fn small_page(&mut self, number: u32, buffer: &mut [u8]) -> Check<Result<usize, Refusal>> {
        let before = buffer.to_vec();
        let mut expected = before.clone();
        let wanted = small::small_page(number, &mut expected);
        let got = self.engine.small_page(number, buffer);
        let input = Input {
            op: "small_page",
            slices: vec![("buffer", Slice::Bytes(&before))],
            numbers: vec![("number", u64::from(number))],
        };
        let got = got.map_err(|reason| breach(&input, reason))?;
        same(&input, &got, &wanted)?;
        if *buffer != *expected {
            let reason = format!("the buffer is {buffer:?} and should be {expected:?}");
            return Err(breach(&input, reason));
        }
        self.saw("small_page", wanted.err().unwrap_or(0));
        Ok(got)
    }

    pub fn season(&mut self, pairs: &[u16]) -> Check<Result<Season, SeasonRefusal>> {
        let wanted = season::season(pairs);
        let got = self.engine.season(pairs);
        let input = Input {
            op: "season",
            slices: vec![("pairs", Slice::Numbers(pairs))],
            numbers: Vec::new(),
        };
        let got = got.map_err(|reason| breach(&input, reason))?;
        same(&input, &got, &wanted)?;
        self.saw("season", wanted.err().map_or(0, |refusal| refusal.number));
        Ok(got)
    }
}

/// The name under which an indexed call is counted: its own if the workspace has room for the index.
fn with_room(call: &'static str, area: &[u16], length: usize) -> &'static str {
    match call {
        _ if decode(area).is_none() || workspace::needed(area) <= length => call,
        "drive_indexed" => "drive_indexed without room",
        _ => "closed_indexed without room",
    }
}

/// The slices that a closed reading writes.
#[derive(Clone)]
struct ClosedAreas {
    scratch: Vec<u16>,
    answers: Vec<u16>,
}

impl ClosedAreas {
    fn of(scratch: &[u16], answers: &[u16]) -> ClosedAreas {
        ClosedAreas {
            scratch: scratch.to_vec(),
            answers: answers.to_vec(),
        }
    }

    /// Both slices must hold the wanted numbers.
    fn same(&self, input: &Input, wanted: &ClosedAreas) -> Check {
        same_numbers(input, "answers", &self.answers, &wanted.answers)?;
        same_numbers(input, "scratch", &self.scratch, &wanted.scratch)
    }
}

fn drive_input<'a>(op: &'static str, page: &'a [u16], run: &'a [u16], allowance: u32) -> Input<'a> {
    Input {
        op,
        slices: vec![("page", Slice::Numbers(page)), ("run", Slice::Numbers(run))],
        numbers: vec![("allowance", u64::from(allowance))],
    }
}

fn stalls_input<'a>(op: &'static str, page: &'a [u16], area: &'a [u16]) -> Input<'a> {
    Input {
        op,
        slices: vec![
            ("page", Slice::Numbers(page)),
            ("area", Slice::Numbers(area)),
        ],
        numbers: vec![],
    }
}

fn closed_input<'a>(
    op: &'static str,
    page: &'a [u16],
    queries: &'a [u16],
    areas: &ClosedAreas,
) -> Input<'a> {
    Input {
        op,
        slices: vec![
            ("page", Slice::Numbers(page)),
            ("queries", Slice::Numbers(queries)),
        ],
        numbers: vec![
            ("scratch_length", areas.scratch.len() as u64),
            ("answers_length", areas.answers.len() as u64),
        ],
    }
}
