//! Lists of calls on a run, in any order, against the book: demand 3.

use crate::area::{encode, PAGE_MAX};
use crate::body::Pair;
use crate::book::Book;
use crate::closed::scratch_length;
use crate::gen::{self, Size};
use crate::input::{Input, Slice};
use crate::page::{Page, LINES_MAX};
use crate::plain;
use crate::reach;
use crate::runner::Case;
use crate::trial::{figure, same, same_numbers, Check, Trial};

pub fn cases() -> Vec<Case> {
    vec![
        Case {
            name: "lists_of_calls_agree_with_the_book_on_random_pages",
            items: 5_000,
            each: random_pages,
            must_see: &[],
        },
        Case {
            name: "lists_of_calls_agree_with_the_book_on_structured_pages",
            items: 4_000,
            each: structured_pages,
            must_see: &[],
        },
        Case {
            name: "lists_of_calls_agree_with_the_book_on_pages_at_the_limits",
            items: 8,
            each: pages_at_the_limits,
            must_see: &[],
        },
        Case {
            name: "two_runs_in_turn_do_not_disturb_each_other",
            items: 1_000,
            each: two_runs,
            must_see: &[],
        },
    ]
}

/// An opened run with its book.
struct Live {
    area: Vec<u16>,
    /// The run area with numbers behind it that belong to nobody.
    run: Vec<u16>,
    tail: Vec<u16>,
    book: Book,
    /// The plain answers, by plain iteration.
    plain: Vec<Pair>,
    count: u16,
    bound: u64,
    taken: u64,
}

/// Reads a page's text, opens a run and begins its book.
fn start(trial: &mut Trial, page: &Page) -> Check<Live> {
    trial.pages += 1;
    let encoded = encode(page);
    let mut area = trial.with_tail(&encoded);
    let used = trial.read(&page.text(), &mut area)?;
    figure("the used length", used, Ok(encoded.len()))?;
    let queries = gen::queries(&mut trial.rng, page.count);
    let extra = trial.rng.index(6);
    let tail = trial.rubbish(extra);
    let mut run = trial.rubbish(3 * usize::from(page.count));
    run.extend_from_slice(&tail);
    let opened = trial.open(&area, &queries, &mut run)?;
    let wanted = reach::measure(page, &queries);
    figure("the opening", opened, Ok(wanted))?;
    let live = Live {
        area,
        run,
        tail,
        book: Book::new(page, &queries),
        plain: plain::reading(page),
        count: page.count,
        bound: u64::from(wanted.reached) + u64::from(page.top) * u64::from(wanted.edges),
        taken: 0,
    };
    let input = live.input("open", 0, &live.run);
    live.check(&input)?;
    Ok(live)
}

impl Live {
    fn input<'a>(&'a self, op: &'static str, number: u32, run: &'a [u16]) -> Input<'a> {
        Input {
            op,
            slices: vec![
                ("page", Slice::Numbers(&self.area)),
                ("run", Slice::Numbers(run)),
            ],
            numbers: vec![("condition or allowance", u64::from(number))],
        }
    }

    /// The run area is the book's, and the book keeps the promises of demand 3.
    fn check(&self, input: &Input) -> Check {
        let mut wanted = self.book.run_area();
        wanted.extend_from_slice(&self.tail);
        same_numbers(input, "run", &self.run, &wanted)?;
        if self.taken > self.bound {
            return Err(format!(
                "{} evaluations are taken, more than {}; {}",
                self.taken,
                self.bound,
                input.dump()
            ));
        }
        for (cond, plain) in self.plain.iter().enumerate() {
            let held = Pair::new(self.run[3 * cond], self.run[3 * cond + 1]);
            if !held.at_or_under(*plain) {
                return Err(format!(
                    "condition {cond} holds {held:?}, which does not cover its plain answer {plain:?}; {}",
                    input.dump()
                ));
            }
        }
        if self.book.at_rest() {
            for cond in self.book.reached() {
                let at = 3 * usize::from(*cond);
                let held = Pair::new(self.run[at], self.run[at + 1]);
                let plain = self.plain[usize::from(*cond)];
                if held != plain {
                    return Err(format!(
                        "at rest condition {cond} holds {held:?}, its plain answer is {plain:?}; {}",
                        input.dump()
                    ));
                }
            }
        }
        Ok(())
    }

    fn evaluate(&mut self, trial: &mut Trial, cond: u32) -> Check {
        let before = self.run.clone();
        let wanted = self.book.evaluate(cond);
        let got = trial.engine.evaluate(&self.area, &mut self.run, cond);
        self.taken += u64::from(wanted.is_ok());
        let input = self.input("evaluate", cond, &before);
        let got = got.map_err(|reason| format!("{reason}; {}", input.dump()))?;
        same(&input, &got, &wanted)?;
        self.check(&input)
    }

    fn drive(&mut self, trial: &mut Trial, allowance: u32) -> Check {
        let before = self.run.clone();
        let wanted = self.book.drive(allowance);
        let got = trial.engine.drive(&self.area, &mut self.run, allowance);
        self.taken += u64::from(wanted.taken);
        let input = self.input("drive", allowance, &before);
        let got = got.map_err(|reason| format!("{reason}; {}", input.dump()))?;
        same(&input, &got, &Ok(wanted))?;
        self.check(&input)?;
        trial.drive_indexed(&self.area, &before, allowance, Ok(wanted), &self.run)
    }

    fn value(&mut self, trial: &mut Trial, cond: u32) -> Check {
        let wanted = self.book.value(cond);
        let got = trial.engine.value(&self.area, &self.run, cond);
        let input = self.input("value", cond, &self.run);
        let got = got.map_err(|reason| format!("{reason}; {}", input.dump()))?;
        same(&input, &got, &wanted)?;
        self.check(&input)
    }

    fn line(&mut self, trial: &mut Trial, cond: u32) -> Check {
        let wanted = self.book.line(cond);
        let got = trial.engine.line(&self.area, &self.run, cond);
        let input = self.input("line", cond, &self.run);
        let got = got.map_err(|reason| format!("{reason}; {}", input.dump()))?;
        same(&input, &got, &wanted)?;
        self.check(&input)
    }

    /// One call, its kind and its number at random; drives take up to `most` evaluations.
    fn any_call(&mut self, trial: &mut Trial, most: u64) -> Check {
        match trial.rng.below(10) {
            0..=4 => {
                let waiting = self.book.waiting().len();
                let cond = if waiting > 0 && trial.rng.percent(80) {
                    let choice = trial.rng.index(waiting);
                    u32::from(*self.book.waiting().iter().nth(choice).unwrap_or(&0))
                } else {
                    gen::condition(&mut trial.rng, self.count)
                };
                self.evaluate(trial, cond)
            }
            5..=6 => {
                let allowance = match trial.rng.below(4) {
                    0 => trial.rng.below(3),
                    _ => trial.rng.below(most),
                };
                self.drive(trial, allowance as u32)
            }
            7 => {
                let cond = gen::condition(&mut trial.rng, self.count);
                self.line(trial, cond)
            }
            _ => {
                let cond = gen::condition(&mut trial.rng, self.count);
                self.value(trial, cond)
            }
        }
    }

    /// Drives to rest and asks for every reached condition once more.
    fn finish(&mut self, trial: &mut Trial) -> Check {
        let allowance = match trial.rng.below(3) {
            0 => u32::MAX,
            1 => self.bound as u32,
            _ => (self.bound - self.taken) as u32,
        };
        self.drive(trial, allowance)?;
        figure("at rest within the bound", self.book.at_rest(), true)?;
        self.drive(trial, 0)?;
        self.drive(trial, u32::MAX)?;
        let reached: Vec<u16> = self.book.reached().iter().copied().collect();
        for cond in reached.iter().take(20) {
            self.value(trial, u32::from(*cond))?;
            self.line(trial, u32::from(*cond))?;
            self.evaluate(trial, u32::from(*cond))?;
        }
        Ok(())
    }
}

fn random_pages(trial: &mut Trial, item: u64) -> Check {
    let page = match item % 500 {
        0 => gen::page(&mut trial.rng, Size::Large),
        _ => gen::any_page(&mut trial.rng),
    };
    let mut live = start(trial, &page)?;
    let most = 1 + trial.rng.below(12);
    for _ in 0..trial.rng.index(50) {
        live.any_call(trial, most)?;
    }
    live.finish(trial)
}

fn structured_pages(trial: &mut Trial, item: u64) -> Check {
    let page = gen::structured(
        &mut trial.rng,
        if item.is_multiple_of(10) { 100 } else { 20 },
    );
    let mut live = start(trial, &page)?;
    let most = 1 + trial.rng.below(300);
    for _ in 0..trial.rng.index(60) {
        live.any_call(trial, most)?;
    }
    live.finish(trial)
}

fn two_runs(trial: &mut Trial, _: u64) -> Check {
    let one = gen::any_page(&mut trial.rng);
    let other = if trial.rng.percent(50) {
        one.clone()
    } else {
        gen::any_page(&mut trial.rng)
    };
    let mut runs = [start(trial, &one)?, start(trial, &other)?];
    for _ in 0..40 {
        let which = trial.rng.index(2);
        runs[which].any_call(trial, 5)?;
        if trial.rng.percent(10) {
            // A call of another kind in between.
            let queries = gen::queries(&mut trial.rng, one.count);
            let mut scratch = trial.rubbish(scratch_length(one.count));
            let mut answers = trial.rubbish(2 * queries.len());
            let area = runs[0].area.clone();
            let code = trial.closed(&area, &queries, &mut scratch, &mut answers)?;
            figure("the closed reading between", code, Ok(()))?;
        }
    }
    runs[0].finish(trial)?;
    runs[1].finish(trial)
}

fn pages_at_the_limits(trial: &mut Trial, item: u64) -> Check {
    let page = gen::limit_page(&mut trial.rng, item);
    figure("the lines", page.lines.len(), LINES_MAX)?;
    if item != 3 && item != 4 {
        figure("the used length", encode(&page).len(), PAGE_MAX)?;
    }
    let mut live = start(trial, &page)?;
    for _ in 0..60 {
        live.any_call(trial, 700)?;
    }
    live.finish(trial)
}
