//! Large pages against the fast reference: every count of conditions, every count of lines, and pages that are slow to settle.

use crate::area::encode;
use crate::body::Pair;
use crate::book::Book;
use crate::closed;
use crate::fast::{Index, Run};
use crate::gen;
use crate::page::{Page, CONDITIONS_MAX, LINES_MAX, TOP_MAX};
use crate::runner::Case;
use crate::trial::{figure, Check, Trial};
use crate::workspace;

pub fn cases() -> Vec<Case> {
    vec![
        Case {
            name: "the_fast_reference_agrees_with_the_definitions",
            items: 4_000,
            each: fast_reference,
            must_see: &[],
        },
        Case {
            name: "drive_and_closed_agree_on_every_count_of_conditions",
            items: u64::from(CONDITIONS_MAX),
            each: every_count_of_conditions,
            must_see: BOTH,
        },
        Case {
            name: "drive_and_closed_agree_on_every_count_of_lines",
            items: LINES_MAX as u64 + 1,
            each: every_count_of_lines,
            must_see: BOTH,
        },
        Case {
            name: "drive_and_closed_agree_on_slow_pages_of_129_to_512_conditions",
            items: (KINDS.len() * SIZES.len()) as u64,
            each: slow_pages,
            must_see: BOTH,
        },
    ]
}

const BOTH: &[(&str, i32)] = &[
    ("drive", 0),
    ("drive", 1),
    ("drive_indexed", 0),
    ("drive_indexed", 1),
    ("closed", 0),
    ("closed_indexed", 0),
];

fn fast_reference(trial: &mut Trial, item: u64) -> Check {
    trial.pages += 1;
    let page = match item % 4 {
        0 => gen::structured(&mut trial.rng, 20),
        1 => {
            let (count, lines) = (trial.rng.range(1, 12), trial.rng.index(30));
            gen::exact(&mut trial.rng, count, lines)
        }
        _ => gen::any_page(&mut trial.rng),
    };
    let index = Index::new(&page);
    figure("the closed reading", index.closed(), closed::reading(&page))?;
    let queries = gen::queries(&mut trial.rng, page.count);
    let rounds = closed::rounds(&page, &queries);
    figure("the count of rounds", index.rounds(&queries), rounds)?;
    let (mut run, mut book) = (Run::open(&index, &queries), Book::new(&page, &queries));
    let opened = crate::reach::measure(&page, &queries);
    let wanted = (opened.reached, opened.edges, opened.bound);
    figure("the opening", run.measure(), wanted)?;
    figure("the passes", index.passes(&queries), opened.passes)?;
    for _ in 0..4 {
        let allowance = trial.rng.below(20) as u32;
        figure("the drive", run.drive(allowance), book.drive(allowance))?;
        figure("the run", run.area(), book.run_area())?;
    }
    figure("the drive", run.drive(u32::MAX), book.drive(u32::MAX))?;
    figure("the run", run.area(), book.run_area())
}

/// Up to 16 conditions spread over the page, the first and the last among them.
fn spread(page: &Page) -> Vec<u16> {
    let last = u32::from(page.count - 1);
    let mut all: Vec<u16> = (0..16).map(|n| (last * n / 15) as u16).collect();
    all.dedup();
    all
}

/// Which forms without a workspace are tried.
#[derive(Clone, Copy)]
struct Scanning {
    drive: bool,
    closed: bool,
}

/// Opens, drives half way and to rest, and reads closed.
fn compare(trial: &mut Trial, page: &Page, scanning: Scanning) -> Check {
    trial.pages += 1;
    let index = Index::new(page);
    let area = encode(page);
    let queries = spread(page);
    let mut run = trial.rubbish(3 * usize::from(page.count));
    let opened = trial.engine.open(&area, &queries, &mut run)?;
    let opened = opened.map_err(|number| format!("open is refused {number}"))?;
    let mut fast = Run::open(&index, &queries);
    let got = (opened.reached, opened.edges, opened.bound);
    figure("the opening", got, fast.measure())?;
    figure("the passes", opened.passes, index.passes(&queries))?;
    figure("the opened run", &run, &fast.area())?;
    // How many evaluations come to rest, then half of them and the rest.
    let whole = fast.clone().drive(opened.bound);
    figure("at rest within the bound", whole.rest, true)?;
    for allowance in [whole.taken / 2, opened.bound - whole.taken / 2] {
        let before = fast.area();
        let wanted = fast.drive(allowance);
        let after = fast.area();
        if scanning.drive {
            trial.drive_scanning(&area, &before, allowance, wanted, &after)?;
        }
        let room = workspace::needed(&area);
        trial.drive_in(&area, &before, allowance, (Ok(wanted), &after), room)?;
    }
    let reading = index.closed();
    let answers: Vec<u16> = queries
        .iter()
        .map(|query| reading[usize::from(*query)])
        .flat_map(|pair: Pair| [pair.low, pair.high])
        .collect();
    let rounds = index.rounds(&queries);
    trial.closed_answers(&area, &queries, (&answers, rounds), scanning.closed)
}

const BOTH_FORMS: Scanning = Scanning {
    drive: true,
    closed: true,
};

fn every_count_of_conditions(trial: &mut Trial, item: u64) -> Check {
    let count = item as u16 + 1;
    let lines = (2 * usize::from(count)).min(LINES_MAX);
    let page = gen::exact(&mut trial.rng, count, lines);
    compare(trial, &page, BOTH_FORMS)?;
    if count % 2 == 1 {
        let top = gen::top(&mut trial.rng);
        let page = gen::knots(&mut trial.rng, count, top);
        compare(trial, &page, BOTH_FORMS)?;
    }
    Ok(())
}

fn every_count_of_lines(trial: &mut Trial, item: u64) -> Check {
    let lines = item as usize;
    let most = (lines + 1).min(usize::from(CONDITIONS_MAX)) as u16;
    let count = trial.rng.range(most / 3 + 1, most);
    let page = gen::exact(&mut trial.rng, count, lines);
    compare(trial, &page, BOTH_FORMS)
}

/// The least, the greatest, and both sides of a word of a set of conditions.
const SIZES: [u16; 4] = [512, 129, 193, 320];

/// A kind of slow page, and whether its drive and its closed reading are tried without a workspace at every size.
type Kind = (fn(&mut Trial, u16) -> Page, bool, bool);

/// A slow page of one kind, by its number.
pub fn slow_page(trial: &mut Trial, kind: usize, count: u16) -> Page {
    KINDS[kind % KINDS.len()].0(trial, count)
}

const KINDS: &[Kind] = &[
    (|_, count| gen::adding_ring(count, TOP_MAX), false, true),
    (
        |_, count| gen::reversed(&gen::adding_ring(count, TOP_MAX)),
        true,
        true,
    ),
    (|_, count| gen::gated_counters(count, TOP_MAX), false, true),
    (
        |_, count| gen::reversed(&gen::gated_counters(count, TOP_MAX)),
        true,
        true,
    ),
    (
        |trial, count| gen::negation_chain(&mut trial.rng, count, TOP_MAX),
        true,
        true,
    ),
    (
        |trial, count| gen::reversed(&gen::negation_chain(&mut trial.rng, count, TOP_MAX)),
        true,
        true,
    ),
    (|_, count| gen::falling(count, TOP_MAX), false, true),
    (
        |_, count| gen::reversed(&gen::falling(count, TOP_MAX)),
        true,
        true,
    ),
    (
        |trial, count| gen::slow_random(&mut trial.rng, count),
        false,
        true,
    ),
    (
        |trial, count| gen::ring(&mut trial.rng, count, TOP_MAX, TOP_MAX - 1, 5),
        false,
        true,
    ),
    (
        |trial, count| gen::knots(&mut trial.rng, count, TOP_MAX),
        true,
        true,
    ),
    (
        |trial, count| gen::rivals(&mut trial.rng, count / 2, TOP_MAX),
        true,
        true,
    ),
    (
        |trial, count| gen::game(&mut trial.rng, count, TOP_MAX),
        true,
        true,
    ),
];

fn slow_pages(trial: &mut Trial, item: u64) -> Check {
    let (make, drive, closed) = KINDS[item as usize % KINDS.len()];
    let count = SIZES[item as usize / KINDS.len()];
    let page = make(trial, count);
    let drive = drive || count < 150;
    compare(trial, &page, Scanning { drive, closed })
}
