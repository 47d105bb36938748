//! The arithmetic of grades, one end at a time: every pair of grades at every top, every product under every weight, and rules of three
//! and eight literals with stated figures.

use crate::answer::Driven;
use crate::area::without_defaults;
use crate::body::End;
use crate::closed::scratch_length;
use crate::ffi::Call;
use crate::page::{OPS, TOP_MAX};
use crate::runner::Case;
use crate::trial::{figure, Check, Trial};

pub fn cases() -> Vec<Case> {
    let case = Case::new;
    let tops = u64::from(TOP_MAX);
    vec![
        case("rules_have_their_stated_value", 1, stated_values),
        case(
            "evaluate_every_pair_of_grades_at_every_top_under_every_op",
            tops,
            evaluate_pairs,
        ),
        case("drive_every_product_at_every_top", tops, drive_pairs),
        case(
            "drive_every_product_under_every_weight_at_every_top",
            tops,
            drive_products,
        ),
        case("closed_every_product_at_every_top", tops, closed_pairs),
        case(
            "closed_every_grade_under_every_weight_at_every_top",
            tops,
            closed_weights,
        ),
    ]
}

/// A division by top, by hand: the low end is the largest that does not exceed it, the high end the smallest that is not below it.
fn divided(end: End, number: u32, top: u32) -> u32 {
    match end {
        End::Low => number / top,
        End::High => number.div_ceil(top),
    }
}

/// What the rules say of p and q at one end, kinds 1 to 5.
fn of_two(kind: u16, end: End, top: u32, p: u32, q: u32) -> u32 {
    match kind {
        1 if p < q => p,
        1 => q,
        2 if p < q => q,
        2 => p,
        3 if p + q < top => 0,
        3 => p + q - top,
        4 if p + q > top => top,
        4 => p + q,
        _ => divided(end, p * q, top),
    }
}

/// Top, op, weight, grades, and the two ends of the value worked out by hand.
type Stated = (u16, char, u16, &'static [u16], u16, u16);

const STATED: &[Stated] = &[
    // Half grades: weight 5 over grade 5.
    (10, 'M', 5, &[5], 2, 3),
    (10, 'X', 10, &[7, 5], 7, 7),
    (10, 'X', 10, &[5, 7], 7, 7),
    (10, 'L', 10, &[7, 5], 2, 2),
    (10, 'L', 10, &[4, 5], 0, 0),
    (10, 'B', 10, &[7, 5], 10, 10),
    (10, 'B', 10, &[4, 5], 9, 9),
    (10, 'M', 10, &[5, 7], 5, 5),
    (10, 'P', 10, &[7, 5], 3, 4),
    (10, 'P', 8, &[7, 5], 2, 4),
    (173, 'P', 173, &[121, 97], 67, 68),
    (173, 'P', 100, &[121, 97], 38, 40),
    (200, 'P', 200, &[199, 199], 198, 199),
    (10, 'M', 10, &[7, 5, 9], 5, 5),
    (10, 'X', 10, &[7, 5, 9], 9, 9),
    (10, 'L', 10, &[7, 5, 9], 1, 1),
    (10, 'L', 10, &[9, 0, 10], 0, 0),
    (10, 'B', 10, &[3, 4, 2], 9, 9),
    (10, 'B', 10, &[7, 5, 9], 10, 10),
    // The low end from the left: 5 x 5 is 2 and 2 x 9 is 1; from the right it would be 4 and 2.
    (10, 'P', 10, &[5, 5, 9], 1, 3),
    (10, 'P', 10, &[9, 5, 5], 2, 3),
    (10, 'X', 9, &[7, 5, 9], 8, 9),
    (10, 'L', 7, &[9, 9, 9], 4, 5),
    (200, 'M', 200, &[10, 20, 30, 40, 50, 60, 70, 80], 10, 10),
    (200, 'X', 200, &[10, 20, 30, 40, 50, 60, 70, 80], 80, 80),
    (200, 'L', 200, &[190; 8], 120, 120),
    (200, 'L', 150, &[190; 8], 90, 90),
    (200, 'B', 200, &[20; 8], 160, 160),
    (200, 'B', 200, &[30; 8], 200, 200),
    (200, 'B', 199, &[1, 2, 3, 4, 5, 6, 7, 8], 35, 36),
    // The low end: 198, 197, 196, 195, 194, 193, 192.
    (200, 'P', 200, &[199; 8], 192, 199),
    (200, 'P', 1, &[199; 8], 0, 1),
    (200, 'P', 199, &[199; 8], 191, 199),
    // The low end: 8, 7, 6, 5, 4, 3, 2.
    (10, 'P', 10, &[9; 8], 2, 9),
    (1, 'P', 1, &[1; 8], 1, 1),
    (1, 'L', 1, &[1, 1, 1, 0, 1, 1, 1, 1], 0, 0),
];

/// Each stated rule in both readings, by the point and as either end of an interval.
fn stated_values(trial: &mut Trial, _: u64) -> Check {
    for (top, op, weight, grades, low, high) in STATED {
        for end in 0..3 {
            let mut text = format!("G,{top},{}\n", grades.len() + 1);
            let mut rule = format!("R,0,{weight},{op}");
            for (grade, cond) in grades.iter().zip(1..) {
                let (from, to) = [(*grade, *grade), (*grade, *top), (0, *grade)][end];
                text.push_str(&format!("F,{cond},{from},{to}\n"));
                rule.push_str(&format!(",{cond}"));
            }
            text.push_str(&rule);
            text.push('\n');
            let (plain, closed) = readings(trial, &text)?;
            // What the facts do not settle is not compared.
            let of = |pair: [u16; 2]| [pair, [pair[0], *high], [*low, pair[1]]][end];
            let got = (of(plain), of(closed), plain == closed);
            figure(&text, got, ([*low, *high], [*low, *high], true))?;
        }
    }
    Ok(())
}

/// Condition 0 in both readings.
fn readings(trial: &mut Trial, text: &str) -> Check<([u16; 2], [u16; 2])> {
    trial.pages += 1;
    let mut area = trial.rubbish(100);
    let used = trial.read(text.as_bytes(), &mut area)?;
    let used = used.map_err(|refusal| format!("{text:?} is refused {refusal:?}"))?;
    area.truncate(used);
    let mut run = trial.rubbish(3 * usize::from(area[1]));
    let opened = trial.open(&area, &[0], &mut run)?;
    let bound = opened.map_err(|number| format!("refused {number}"))?.bound;
    let driven: Result<Driven, _> = trial.drive(&area, &mut run, bound)?;
    figure("at rest", driven.map(|driven| driven.rest), Ok(true))?;
    let mut scratch = trial.rubbish(scratch_length(area[1]));
    let mut answers = [0; 2];
    let code = trial.closed(&area, &[0], &mut scratch, &mut answers)?;
    figure("closed", code, Ok(()))?;
    Ok(([run[0], run[1]], answers))
}

type Evaluate = unsafe extern "C" fn(*const u16, usize, *mut u16, usize, u32) -> i32;

fn evaluate_pairs(trial: &mut Trial, item: u64) -> Check {
    let top = item as u16 + 1;
    // SAFETY: the function has this type.
    let evaluate: Evaluate = unsafe { std::mem::transmute(Call::Evaluate.function()) };
    for kind in 1..=OPS.len() as u16 {
        let area = without_defaults(top, 3, 1, &[2, kind, top, 2, 0, 2]);
        let length = area.len();
        for p in 0..=top {
            for q in 0..=top {
                let mut run = [p, p, 1, q, q, 1, 0, top, 2];
                // SAFETY: the slices are valid and apart.
                let code = unsafe { evaluate(area.as_ptr(), length, run.as_mut_ptr(), 9, 2) };
                let value = |end| of_two(kind, end, top.into(), p.into(), q.into()) as u16;
                let (low, high) = (value(End::Low), value(End::High));
                let changed = i32::from(low > 0 || high < top);
                if (code, run) != (changed, [p, p, 1, q, q, 1, low, high, 1]) {
                    return Err(format!("{p} and {q} in {area:?} give {code} and {run:?}"));
                }
            }
        }
        trial.engine.calls += (u64::from(top) + 1).pow(2);
    }
    Ok(())
}

type Drive =
    unsafe extern "C" fn(*const u16, usize, *mut u16, usize, u32, *mut u32, *mut u32) -> i32;
type DriveIndexed = unsafe extern "C" fn(
    *const u16,
    usize,
    *mut u16,
    usize,
    *mut u16,
    usize,
    u32,
    *mut u32,
    *mut u32,
) -> i32;

/// The rules of a page that are driven at once.
const AT_ONCE: usize = 480;

/// Every p, q and weight: a page holds a rule P for some pairs of q and weight, and p goes through all grades, two at a time as the two
/// ends of an interval; from page to page low ends are even or odd. Then every p under every weight, with q at top, at both ends.
fn drive_products(trial: &mut Trial, item: u64) -> Check {
    let top = item as u16 + 1;
    let all: Vec<(u16, u16)> = (0..=top)
        .flat_map(|q| (1..=top).map(move |weight| (q, weight)))
        .collect();
    for (number, some) in all.chunks(AT_ONCE).enumerate() {
        let first = number as u16 % 2;
        let mut ends: Vec<[u16; 2]> = (first..=top)
            .step_by(2)
            .map(|p| [p, (p + 1).min(top)])
            .collect();
        if first == 1 {
            ends.push([0, 0]);
        }
        drive_some(trial, top, some, &ends, true)?;
    }
    let weights: Vec<(u16, u16)> = (1..=top).map(|weight| (top, weight)).collect();
    drive_some(trial, top, &weights, &points(top), true)
}

/// Every p and q under top, at both ends, without a workspace.
fn drive_pairs(trial: &mut Trial, item: u64) -> Check {
    let top = item as u16 + 1;
    let all: Vec<(u16, u16)> = (0..=top).map(|q| (q, top)).collect();
    drive_some(trial, top, &all, &points(top), false)
}

/// Every grade as both ends.
fn points(top: u16) -> Vec<[u16; 2]> {
    (0..=top).map(|p| [p, p]).collect()
}

/// Drives rules P over p and each (q, weight), for each interval of p.
fn drive_some(
    trial: &mut Trial,
    top: u16,
    some: &[(u16, u16)],
    intervals: &[[u16; 2]],
    indexed: bool,
) -> Check {
    trial.pages += 1;
    // SAFETY: the functions have these types.
    let (drive, drive_indexed): (Drive, DriveIndexed) = unsafe {
        (
            std::mem::transmute::<*const (), Drive>(Call::Drive.function()),
            std::mem::transmute::<*const (), DriveIndexed>(Call::DriveIndexed.function()),
        )
    };
    let rules = some.len() as u16;
    let first = some[0].0;
    let last = some[some.len() - 1].0;
    // The rules' heads, then p, then each q.
    let count = rules + 1 + (last - first + 1);
    let mut numbers = Vec::new();
    for ((q, weight), head) in some.iter().zip(0..) {
        numbers.extend([head, 5, *weight, 2, 2 * rules, 2 * (rules + 1 + q - first)]);
    }
    let area = without_defaults(top, count, rules, &numbers);
    let mut workspace = vec![0; 3 * usize::from(count) + 2 + 3 * usize::from(rules)];
    let mut start = [0, top, 2].repeat(usize::from(rules));
    start.extend([0, 0, 1]);
    start.extend((first..=last).flat_map(|q| [q, q, 1]));
    let place = 3 * usize::from(rules);
    for ends in intervals {
        let mut run = start.clone();
        run[place..place + 2].copy_from_slice(ends);
        let mut wanted = run.clone();
        let (mut taken, mut line) = (0, 0);
        // SAFETY: the slices and the out-parameter are valid and apart.
        let code = unsafe {
            let (page, length) = (area.as_ptr(), area.len());
            let (cells, cells_length) = (run.as_mut_ptr(), run.len());
            let allowance = rules.into();
            match indexed {
                true => drive_indexed(
                    page,
                    length,
                    cells,
                    cells_length,
                    workspace.as_mut_ptr(),
                    workspace.len(),
                    allowance,
                    &mut taken,
                    &mut line,
                ),
                false => drive(
                    page,
                    length,
                    cells,
                    cells_length,
                    allowance,
                    &mut taken,
                    &mut line,
                ),
            }
        };
        trial.engine.calls += 1;
        for ((q, weight), cell) in some.iter().zip(wanted.chunks_exact_mut(3)) {
            let value = |end, p: u16| {
                let product = divided(end, u32::from(p) * u32::from(*q), top.into());
                divided(end, product * u32::from(*weight), top.into()) as u16
            };
            let (low, high) = (value(End::Low, ends[0]), value(End::High, ends[1]));
            cell.copy_from_slice(&[low, high, 1]);
        }
        if (code, taken) != (1, u32::from(rules)) || run != wanted {
            let wrong = run.iter().zip(&wanted).position(|(a, b)| a != b);
            let at = wrong.unwrap_or(0);
            return Err(format!(
                "P of {ends:?} and (q, weight) {:?} at top {top} gives {code}, {taken} and {:?}, not {:?}",
                some.get(at / 3),
                run[at],
                wanted[at]
            ));
        }
    }
    Ok(())
}

type Closed = unsafe extern "C" fn(
    *const u16,
    usize,
    *const u16,
    usize,
    *mut u16,
    usize,
    *mut u16,
    usize,
    *mut u32,
) -> i32;
type ClosedIndexed = unsafe extern "C" fn(
    *const u16,
    usize,
    *const u16,
    usize,
    *mut u16,
    usize,
    *mut u16,
    usize,
    *mut u16,
    usize,
    *mut u32,
) -> i32;

/// Rules of which a closed reading is asked at once.
const ASKED: usize = 16;

/// A rule of kind, weight, and one or two point grades.
type PointRule = (u16, u16, u16, Option<u16>);

/// The closed readings of some rules in both forms.
fn closed_values(trial: &mut Trial, top: u16, rules: &[PointRule]) -> Check<Vec<u16>> {
    // SAFETY: the functions have these types.
    let (closed, closed_indexed): (Closed, ClosedIndexed) = unsafe {
        (
            std::mem::transmute::<*const (), Closed>(Call::Closed.function()),
            std::mem::transmute::<*const (), ClosedIndexed>(Call::ClosedIndexed.function()),
        )
    };
    let n = rules.len() as u16;
    let count = 3 * n;
    let mut lines = 0;
    let mut numbers = Vec::new();
    for ((kind, weight, p, q), rule) in rules.iter().zip(0..) {
        numbers.extend([n + 2 * rule, 0, *p, *p]);
        let literal = 2 * (n + 2 * rule);
        lines += 2;
        match q {
            Some(q) => {
                numbers.extend([n + 2 * rule + 1, 0, *q, *q]);
                numbers.extend([rule, *kind, *weight, 2, literal, literal + 2]);
                lines += 1;
            }
            None => numbers.extend([rule, *kind, *weight, 1, literal]),
        }
    }
    let area = without_defaults(top, count, lines, &numbers);
    let queries: Vec<u16> = (0..n).collect();
    let mut scratch = [0; 4 * 3 * ASKED];
    let mut workspace = [0; 400];
    let mut answers = [[0; 2 * ASKED]; 2];
    let mut rounds = [0; 2];
    let [one, other] = &mut answers;
    // SAFETY: the slices are valid and apart.
    let codes = unsafe {
        (
            closed(
                area.as_ptr(),
                area.len(),
                queries.as_ptr(),
                queries.len(),
                scratch.as_mut_ptr(),
                scratch.len(),
                one.as_mut_ptr(),
                one.len(),
                &mut rounds[0],
            ),
            closed_indexed(
                area.as_ptr(),
                area.len(),
                queries.as_ptr(),
                queries.len(),
                scratch.as_mut_ptr(),
                scratch.len(),
                other.as_mut_ptr(),
                other.len(),
                workspace.as_mut_ptr(),
                workspace.len(),
                &mut rounds[1],
            ),
        )
    };
    trial.engine.calls += 2;
    figure("the codes", codes, (0, 0))?;
    figure("the rounds", rounds[0], rounds[1])?;
    if one != other {
        return Err(format!(
            "{one:?} without an index, {other:?} with one; {area:?}"
        ));
    }
    Ok(one[..2 * rules.len()].to_vec())
}

/// Compares rules in groups with what is wanted of each end of each.
fn compare_rules(
    trial: &mut Trial,
    top: u16,
    rules: &[PointRule],
    wanted: impl Fn(End, &PointRule) -> u16,
) -> Check {
    for some in rules.chunks(ASKED) {
        let values = closed_values(trial, top, some)?;
        for (rule, value) in some.iter().zip(values.chunks_exact(2)) {
            let wanted = [wanted(End::Low, rule), wanted(End::High, rule)];
            if value != wanted {
                return Err(format!(
                    "kind, weight and grades {rule:?} at top {top} give {value:?}, not {wanted:?}"
                ));
            }
        }
    }
    trial.pages += 1;
    Ok(())
}

/// Every pair under P, once under top and once under a weight that depends on the pair; at every tenth top, and at 1 and 199, under every
/// op.
fn closed_pairs(trial: &mut Trial, item: u64) -> Check {
    let top = item as u16 + 1;
    let every_op = top.is_multiple_of(10) || top == 1 || top == 199;
    for kind in 1..=OPS.len() as u16 {
        if kind < 5 && !every_op {
            continue;
        }
        for p in 0..=top {
            let mut rules: Vec<PointRule> = (0..=top).map(|q| (kind, top, p, Some(q))).collect();
            if kind == 5 {
                rules.extend((0..=top).map(|q| (5, 1 + (7 * p + 13 * q) % top, p, Some(q))));
            }
            compare_rules(trial, top, &rules, |end, (kind, weight, p, q)| {
                let top = u32::from(top);
                let value = of_two(*kind, end, top, u32::from(*p), q.unwrap_or(0).into());
                divided(end, value * u32::from(*weight), top) as u16
            })?;
        }
    }
    Ok(())
}

/// Every grade under every weight, as the one literal of a rule.
fn closed_weights(trial: &mut Trial, item: u64) -> Check {
    let top = item as u16 + 1;
    for p in 0..=top {
        let rules: Vec<PointRule> = (1..=top)
            .map(|weight| (1 + weight % 5, weight, p, None))
            .collect();
        compare_rules(trial, top, &rules, |end, (_, weight, p, _)| {
            divided(end, u32::from(*p) * u32::from(*weight), top.into()) as u16
        })?;
    }
    Ok(())
}
