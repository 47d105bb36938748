//! Two runs of one page in one shared area: openings, evaluations and turns against the separately written solver, and each stall's part
//! against its own book.

use crate::answer::*;
use crate::area::{encode, run_is_sound};
use crate::book::Book;
use crate::gen::{self, Size};
use crate::page::Page;
use crate::plain;
use crate::reach;
use crate::runner::Case;
use crate::spoil;
use crate::stalls::{half, need, share, shared_length, Stall, STALLS};
use crate::trial::{figure, Check, Trial};

pub fn cases() -> Vec<Case> {
    vec![
        Case {
            name: "stalls_have_their_stated_figures",
            items: 1,
            each: rows,
            must_see: &[
                ("open_first", 0),
                ("open_second", 0),
                ("open_second", 10),
                ("open_second", 60),
                ("open_second", 11),
                ("open_second", 12),
                ("evaluate_first", 1),
                ("evaluate_first", 60),
                ("evaluate_second", 1),
                ("evaluate_second", 10),
                ("evaluate_second", 14),
                ("evaluate_second", 15),
                ("evaluate_second", 16),
                ("turn", 0),
                ("turn", 10),
                ("turn", 60),
                ("turn", 14),
            ],
        },
        Case {
            name: "turns_agree_on_sound_and_spoilt_areas",
            items: 3_000,
            each: any_areas,
            must_see: &[("turn", 0), ("turn", 14), ("turn", 60)],
        },
        Case {
            name: "turns_agree_on_opened_runs_of_larger_pages",
            items: 120,
            each: larger,
            must_see: &[("turn", 0)],
        },
        Case {
            name: "wrong_page_areas_are_refused_10_by_the_calls_of_stalls",
            items: 200,
            each: wrong_page_areas,
            must_see: &[
                ("open_first", 10),
                ("open_second", 10),
                ("evaluate_first", 10),
                ("evaluate_second", 10),
                ("turn", 10),
            ],
        },
        Case {
            name: "each_stall_follows_its_own_book",
            items: 2_000,
            each: own_books,
            must_see: &[
                ("turn", 0),
                ("turn", 14),
                ("evaluate_first", 0),
                ("evaluate_first", 1),
                ("evaluate_first", 16),
                ("evaluate_second", 0),
                ("evaluate_second", 1),
                ("evaluate_second", 16),
            ],
        },
        Case {
            name: "numbers_past_the_shared_area_are_not_touched",
            items: 500,
            each: past_the_parts,
            must_see: &[("open_first", 0), ("open_second", 0), ("turn", 0)],
        },
    ]
}

/// The page of row 1, a run of it opened with query 0, and the run after 1 to 4 evaluations.
const TEXT: &str = "G,10,2\nF,0,2,2\nF,1,3,3\nR,0,10,M,!1\nR,1,10,M,!0\nQ,K,0\nQ,W,1\n";
const AFTER: [[u16; 6]; 5] = [
    [0, 10, 2, 0, 10, 2],
    [2, 10, 1, 0, 10, 2],
    [2, 10, 2, 3, 8, 1],
    [2, 7, 1, 3, 8, 2],
    [2, 7, 1, 3, 8, 1],
];
const SPOILT: [u16; 6] = [0, 10, 2, 0, 10, 3];

/// Two runs, and one number past them.
fn both(one: [u16; 6], two: [u16; 6]) -> Vec<u16> {
    [&one[..], &two, &[9]].concat()
}

/// The evaluations of both stalls so far, the allowance, and what each then takes.
const TURNS: &[([usize; 2], u32, [u32; 2])] = &[
    ([0, 0], 0, [0, 0]),
    ([0, 0], 1, [1, 0]),
    ([0, 0], 3, [2, 1]),
    ([0, 0], 7, [4, 3]),
    ([0, 0], 8, [4, 4]),
    ([0, 0], 65_536, [4, 4]),
    ([0, 0], u32::MAX, [4, 4]),
    ([3, 0], 4, [1, 3]),
    ([0, 3], 4, [3, 1]),
    ([4, 0], 3, [0, 3]),
    ([0, 4], 3, [3, 0]),
    ([4, 4], 9, [0, 0]),
    ([2, 1], 3, [2, 1]),
    ([3, 0], 6, [1, 4]),
    ([0, 3], 6, [4, 1]),
];

fn rows(trial: &mut Trial, _: u64) -> Check {
    let mut page = vec![0; 64];
    let used = trial
        .read(TEXT.as_bytes(), &mut page)?
        .map_err(|refusal| format!("refused {refusal:?}"))?;
    page.truncate(used);
    let mut unsound = page.clone();
    unsound[5] = 7;
    for (before, allowance, takes) in TURNS {
        let mut area = both(AFTER[before[0]], AFTER[before[1]]);
        let after = [0, 1].map(|stall| before[stall] + takes[stall] as usize);
        let told = [0, 1].map(|stall| StallTurn {
            taken: takes[stall],
            rest: after[stall] == 4,
        });
        let row = format!("a turn of {allowance} after {before:?}");
        figure(&row, trial.turn(&page, &mut area, *allowance)?, Ok(told))?;
        figure(&row, area, both(AFTER[after[0]], AFTER[after[1]]))?;
    }
    let short = both(AFTER[0], AFTER[0])[..11].to_vec();
    for (page, area, number, stall) in [
        (&unsound, both(SPOILT, SPOILT), PAGE_UNSOUND, 0),
        (&unsound, short.clone(), PAGE_UNSOUND, 0),
        (&page, short.clone(), SHARED_SHORT, 0),
        (&page, both(SPOILT, SPOILT), RUN_UNSOUND, 1),
        (&page, both(SPOILT, AFTER[0]), RUN_UNSOUND, 1),
        (&page, both(AFTER[0], SPOILT), RUN_UNSOUND, 2),
    ] {
        let mut lent = area.clone();
        let got = trial.turn(page, &mut lent, 3)?;
        figure("a turn", got, Err(TurnRefusal { number, stall }))?;
        figure("a refused turn's area", lent, area)?;
    }
    opened_rows(trial, &page, &unsound, &short)?;
    evaluated_rows(trial, &page, &unsound, &short)
}

fn opened_rows(trial: &mut Trial, page: &[u16], unsound: &[u16], short: &[u16]) -> Check {
    let opened = Opened {
        reached: 2,
        edges: 2,
        bound: 22,
        passes: 2,
    };
    for (stall, left) in [
        (Stall::First, both(AFTER[0], SPOILT)),
        (Stall::Second, both(SPOILT, AFTER[0])),
    ] {
        let mut area = both(SPOILT, SPOILT);
        let got = trial.open_stall(page, stall, &mut area, &[0])?;
        figure("an opening", got, Ok(opened))?;
        figure("an opened area", area, left)?;
    }
    for (page, area, queries, number) in [
        (unsound, short, &[][..], PAGE_UNSOUND),
        (page, short, &[], SHARED_SHORT),
        (page, &both(AFTER[0], AFTER[0]), &[], QUERY_COUNT),
        (page, &both(AFTER[0], AFTER[0]), &[2], QUERY_RANGE),
    ] {
        for stall in STALLS {
            let got = trial.open_stall(page, stall, &mut area.to_vec(), queries)?;
            figure("an opening", got, Err(number))?;
        }
    }
    Ok(())
}

fn evaluated_rows(trial: &mut Trial, page: &[u16], unsound: &[u16], short: &[u16]) -> Check {
    for (stall, left) in [
        (Stall::First, both(AFTER[1], SPOILT)),
        (Stall::Second, both(SPOILT, AFTER[1])),
    ] {
        let mut area = both(SPOILT, SPOILT);
        let own = stall.part(2);
        area[own].copy_from_slice(&AFTER[0]);
        let got = trial.evaluate_stall(page, stall, &mut area, 0)?;
        figure("an evaluation", got, Ok(true))?;
        figure("an evaluated area", area, left)?;
    }
    for (page, area, cond, number) in [
        (unsound, short, 2, PAGE_UNSOUND),
        (page, short, 2, SHARED_SHORT),
        (page, &both(SPOILT, SPOILT), 2, RUN_UNSOUND),
        (page, &both(AFTER[1], AFTER[1]), 2, CONDITION_RANGE),
        (page, &both(AFTER[1], AFTER[1]), 0, NOT_WAITING),
    ] {
        for stall in STALLS {
            let got = trial.evaluate_stall(page, stall, &mut area.to_vec(), cond)?;
            figure("an evaluation", got, Err(number))?;
        }
    }
    Ok(())
}

/// Any sound runs, some spoilt, some areas too short. A sound run that no opening left need not rest, so the turns are short.
fn any_areas(trial: &mut Trial, _: u64) -> Check {
    trial.pages += 1;
    let page = gen::page(&mut trial.rng, Size::Small);
    let encoded = encode(&page);
    let page_area = trial.with_tail(&encoded);
    let mut area = Vec::new();
    for _ in STALLS {
        let good = gen::sound_run(&mut trial.rng, &page);
        let bad = spoil::runs(&mut trial.rng, &page, &good);
        let bad: Vec<_> = bad
            .into_iter()
            .map(|(_, run)| run)
            .filter(|run| run.len() == good.len())
            .collect();
        let spoilt = trial.rng.percent(15) && !bad.is_empty();
        area.extend(if spoilt {
            bad[trial.rng.index(bad.len())].clone()
        } else {
            good
        });
    }
    let mut area = trial.with_tail(&area);
    if trial.rng.percent(5) {
        area.truncate(trial.rng.index(shared_length(page.count)));
    }
    for _ in 0..4 {
        let allowance = trial.rng.below(40) as u32;
        let _ = trial.turn(&page_area, &mut area, allowance)?;
        for stall in STALLS {
            let cond = gen::condition(&mut trial.rng, page.count);
            let _ = trial.evaluate_stall(&page_area, stall, &mut area, cond)?;
        }
    }
    Ok(())
}

/// What holds of an accepted turn, whatever way it was made.
fn keeps(
    page: &[u16],
    count: u16,
    before: &[u16],
    allowance: u32,
    told: [StallTurn; 2],
    after: &[u16],
) -> Check {
    let mut needs = Vec::new();
    for stall in STALLS {
        let need = need(page, &before[stall.part(count)], allowance)
            .map_err(|number| format!("refused {number}"))?;
        let least = half(allowance, stall).min(need);
        figure(
            "its half or its need",
            told[stall as usize].taken >= least,
            true,
        )?;
        needs.push(u64::from(need));
    }
    let taken: u64 = told.iter().map(|told| u64::from(told.taken)).sum();
    let both = u64::from(allowance).min(needs.iter().sum());
    figure("together", taken, both)?;
    for stall in STALLS {
        let mut own = before[stall.part(count)].to_vec();
        let taken = told[stall as usize].taken;
        let driven = plain::drive(page, &mut own, taken).map(|driven| driven.rest);
        figure("its own drive", driven, Ok(told[stall as usize].rest))?;
        figure("its own part", after[stall.part(count)].to_vec(), own)?;
    }
    let past = shared_length(count);
    figure("past 6 × C", &after[past..], &before[past..])
}

/// Opened runs of pages up to 60 conditions, turned to their rest.
fn larger(trial: &mut Trial, _: u64) -> Check {
    trial.pages += 1;
    let page = gen::page(&mut trial.rng, Size::Medium);
    let page_area = encode(&page);
    let rubbish = trial.rubbish(shared_length(page.count));
    let mut area = trial.with_tail(&rubbish);
    for stall in STALLS {
        let queries = gen::queries(&mut trial.rng, page.count);
        let opened = trial.open_stall(&page_area, stall, &mut area, &queries)?;
        figure("the opening's success", opened.is_ok(), true)?;
    }
    for _ in 0..6 {
        let allowance = match trial.rng.below(6) {
            0 => u32::MAX,
            1 => u32::MAX - 1,
            2 => trial.rng.below(4) as u32,
            _ => trial.rng.below(200) as u32,
        };
        let before = area.clone();
        let told = trial
            .turn(&page_area, &mut area, allowance)?
            .map_err(|refusal| format!("refused {refusal:?}"))?;
        keeps(&page_area, page.count, &before, allowance, told, &area)?;
    }
    Ok(())
}

fn wrong_page_areas(trial: &mut Trial, _: u64) -> Check {
    let page = gen::page(&mut trial.rng, Size::Small);
    let good = encode(&page);
    for bad in spoil::areas(&mut trial.rng, &page, &good) {
        trial.pages += 1;
        let queries = gen::queries(&mut trial.rng, page.count);
        let mut area = gen::sound_run(&mut trial.rng, &page);
        area.extend(gen::sound_run(&mut trial.rng, &page));
        let mut numbers = Vec::new();
        for stall in STALLS {
            numbers.push(
                trial
                    .open_stall(&bad.numbers, stall, &mut area, &queries)?
                    .err(),
            );
            let cond = u32::from(queries[0]);
            numbers.push(
                trial
                    .evaluate_stall(&bad.numbers, stall, &mut area, cond)?
                    .err(),
            );
        }
        let turned = trial.turn(&bad.numbers, &mut area, 5)?;
        numbers.push(turned.err().map(|refusal| refusal.number));
        figure(&bad.how, numbers, vec![Some(PAGE_UNSOUND); 5])?;
    }
    Ok(())
}

/// One stall of an opened run beside its book, with anything whatever written to the other part between the calls.
struct Watched {
    page: Page,
    page_area: Vec<u16>,
    stall: Stall,
    book: Book,
    bound: u32,
    taken: u32,
}

impl Watched {
    fn others(&self, area: &[u16]) -> Vec<u16> {
        area[self.stall.other().part(self.page.count)].to_vec()
    }

    /// The evaluations that the book needs before its rest, and the whole turn if it would not rest within it.
    fn need(&self, allowance: u32) -> u32 {
        let driven = self.book.clone().drive(allowance);
        if driven.rest {
            driven.taken
        } else {
            allowance
        }
    }

    /// A turn stands as a drive allowed what the split gives, reckoned from the book and the other part before it.
    fn turn(&mut self, trial: &mut Trial, area: &mut [u16], allowance: u32) -> Check {
        let others = self.others(area);
        let got = trial.turn(&self.page_area, area, allowance)?;
        if !run_is_sound(&self.page, &others) {
            let refusal = TurnRefusal {
                number: RUN_UNSOUND,
                stall: self.stall.other() as u32 + 1,
            };
            return figure("a turn beside a part that is not sound", got, Err(refusal));
        }
        let needed = need(&self.page_area, &others, allowance)
            .map_err(|number| format!("refused {number}"))?;
        let given = share(allowance, self.stall, self.need(allowance), needed);
        let driven = self.book.drive(given);
        self.taken += driven.taken;
        let told = got.map(|told| told[self.stall as usize]);
        let wanted = StallTurn {
            taken: driven.taken,
            rest: driven.rest,
        };
        figure("what the turn tells the stall", told, Ok(wanted))
    }

    fn evaluate(&mut self, trial: &mut Trial, area: &mut [u16], cond: u32) -> Check {
        let got = trial.evaluate_stall(&self.page_area, self.stall, area, cond)?;
        let wanted = self.book.evaluate(cond);
        self.taken += u32::from(wanted.is_ok());
        figure("the book's evaluation", got, wanted)
    }

    fn drive(&mut self, trial: &mut Trial, area: &mut [u16], allowance: u32) -> Check {
        let own = self.stall.part(self.page.count);
        let got = trial.drive(&self.page_area, &mut area[own], allowance)?;
        let wanted = self.book.drive(allowance);
        self.taken += wanted.taken;
        figure("the book's drive", got, Ok(wanted))
    }

    fn value(&mut self, trial: &mut Trial, area: &[u16], cond: u32) -> Check {
        let own = self.stall.part(self.page.count);
        let got = trial.value(&self.page_area, &area[own], cond)?;
        figure("the book's value", got, self.book.value(cond))
    }

    /// The part is the book's, the bound holds, and at rest the answers are plain.
    fn holds(&self, area: &[u16]) -> Check {
        let own = self.stall.part(self.page.count);
        figure("the stall's part", area[own].to_vec(), self.book.run_area())?;
        figure("within the bound", self.taken <= self.bound, true)?;
        if self.book.at_rest() {
            let plain = plain::reading(&self.page);
            for cond in self.book.reached() {
                let at = usize::from(*cond);
                figure("the plain answer", self.book.pairs()[at], plain[at])?;
            }
        } else {
            figure("the bound is not used", self.taken < self.bound, true)?;
        }
        Ok(())
    }
}

/// Something else in the other part: another sound run, a run of its own opening, or numbers that mean nothing.
fn write_others(trial: &mut Trial, watched: &Watched, area: &mut [u16]) -> Check {
    let part = watched.stall.other().part(watched.page.count);
    match trial.rng.below(4) {
        0 => {
            let numbers = trial.rubbish(part.len());
            area[part].copy_from_slice(&numbers);
        }
        1 => {
            let run = gen::sound_run(&mut trial.rng, &watched.page);
            area[part].copy_from_slice(&run);
        }
        _ => {
            let queries = gen::queries(&mut trial.rng, watched.page.count);
            let other = watched.stall.other();
            let _ = trial.open_stall(&watched.page_area, other, area, &queries)?;
        }
    }
    let past = shared_length(watched.page.count);
    for number in &mut area[past..] {
        *number = trial.rng.number() as u16;
    }
    Ok(())
}

fn own_books(trial: &mut Trial, item: u64) -> Check {
    trial.pages += 1;
    let page = gen::page(&mut trial.rng, Size::Small);
    let page_area = encode(&page);
    let stall = STALLS[(item % 2) as usize];
    let queries = gen::queries(&mut trial.rng, page.count);
    let rubbish = trial.rubbish(shared_length(page.count));
    let mut area = trial.with_tail(&rubbish);
    let opened = trial.open_stall(&page_area, stall, &mut area, &queries)?;
    figure("the opening", opened, Ok(reach::measure(&page, &queries)))?;
    let mut watched = Watched {
        book: Book::new(&page, &queries),
        bound: opened.map_or(0, |opened| opened.bound),
        taken: 0,
        page,
        page_area,
        stall,
    };
    for _ in 0..12 {
        if trial.rng.percent(40) {
            write_others(trial, &watched, &mut area)?;
        }
        let cond = gen::condition(&mut trial.rng, watched.page.count);
        match trial.rng.below(8) {
            0..=3 => {
                let allowance = trial.rng.below(14) as u32;
                watched.turn(trial, &mut area, allowance)?;
            }
            4 | 5 => watched.evaluate(trial, &mut area, cond)?,
            6 => {
                let allowance = trial.rng.below(3) as u32;
                watched.drive(trial, &mut area, allowance)?;
            }
            _ => watched.value(trial, &area, cond)?,
        }
        watched.holds(&area)?;
    }
    Ok(())
}

/// Areas are announced longer than they are: behind 6 × C there is no memory.
fn past_the_parts(trial: &mut Trial, _: u64) -> Check {
    trial.pages += 1;
    let page = gen::page(&mut trial.rng, Size::Small);
    let page_area = encode(&page);
    trial.engine.overstate = trial.rng.pick(&[1, 2, 3, 1000, 2000]);
    let mut area = trial.rubbish(shared_length(page.count));
    for stall in STALLS {
        let queries = gen::queries(&mut trial.rng, page.count);
        let opened = trial.open_stall(&page_area, stall, &mut area, &queries)?;
        figure("the opening's success", opened.is_ok(), true)?;
        let _ = trial.evaluate_stall(&page_area, stall, &mut area, u32::from(queries[0]))?;
    }
    for allowance in [3, u32::MAX] {
        let turned = trial.turn(&page_area, &mut area, allowance)?;
        figure("the turn's success", turned.is_ok(), true)?;
    }
    Ok(())
}
