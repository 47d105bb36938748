//! The rows of section "Bench figures" and the figures of the `attach` example.

use crate::answer::*;
use crate::area::{decode, encode, PAGE_MAX};
use crate::body::Pair;
use crate::closed;
use crate::page;
use crate::plain;
use crate::runner::Case;
use crate::trial::{figure, Check, Trial};

const RIVALS: &str = "G,10,2\nF,0,2,2\nF,1,3,3\nR,0,10,M,!1\nR,1,10,M,!0\n";

macro_rules! rows {
    ($($name:ident),* $(,)?) => {
        pub fn cases() -> Vec<Case> {
            vec![$(Case { name: stringify!($name), items: 1, each: $name, must_see: &[] }),*]
        }
    };
}

rows!(
    row_01_two_rivals_plain_and_closed,
    row_02_bound_22_spent_after_3_rest_after_4,
    row_03_closed_cuts_an_unsupported_rule,
    row_04_condition_without_lines_is_zero_after_one_evaluation,
    row_05_self_denial_stays_unknown_in_both_readings,
    row_06_self_support_is_unknown_plain_and_zero_closed,
    row_07_self_rule_of_weight_9_rests_after_2_evaluations,
    row_08_ops_product_lukasiewicz_bounded_and_weight,
    row_09_condition_511_is_read_and_512_refused,
    row_10_top_200_and_eight_literals_are_read_201_and_nine_refused,
    row_11_line_1025_is_read_and_1026_refused_however_it_looks,
    row_12_leading_zero_is_form_and_low_above_high_has_a_number_of_its_own,
    attach_example_figures,
);

/// The page area of a text that must be read.
fn load(trial: &mut Trial, text: &str) -> Check<Vec<u16>> {
    trial.pages += 1;
    let mut area = trial.rubbish(PAGE_MAX);
    match trial.read(text.as_bytes(), &mut area)? {
        Ok(used) => {
            area.truncate(used);
            Ok(area)
        }
        Err(refusal) => Err(format!("{text:?} is refused {refusal:?}")),
    }
}

/// A text must be refused so: number, line and place.
fn refused(trial: &mut Trial, text: &[u8], told: (Refusal, u32, u32)) -> Check {
    trial.pages += 1;
    let mut area = trial.rubbish(PAGE_MAX);
    let got = trial.read(text, &mut area)?;
    figure(
        "the refusal",
        got,
        Err(ReadRefusal::new(told.0, told.1, told.2)),
    )
}

/// A text must be read.
fn accepted(trial: &mut Trial, text: &[u8]) -> Check {
    trial.pages += 1;
    let mut area = trial.rubbish(PAGE_MAX);
    let used = trial.read(text, &mut area)?;
    let page = page::read(text).map_err(|refusal| format!("the reference refuses {refusal:?}"))?;
    figure("the used length", used, Ok(encode(&page).len()))
}

/// Opens a run for one condition; the run area and what the opening returns.
fn opened(trial: &mut Trial, area: &[u16], query: u16) -> Check<(Vec<u16>, Opened)> {
    let mut run = trial.rubbish(3 * usize::from(area[1]));
    match trial.open(area, &[query], &mut run)? {
        Ok(opened) => Ok((run, opened)),
        Err(number) => Err(format!("the opening is refused {number}")),
    }
}

/// The plain interval of a condition, from a run driven to rest, and the evaluations taken.
fn plain_of(trial: &mut Trial, area: &[u16], cond: u16) -> Check<(Pair, u32)> {
    let (mut run, opened) = opened(trial, area, cond)?;
    let driven = trial.drive(area, &mut run, opened.bound)?;
    let taken = match driven {
        Ok(Driven {
            taken, rest: true, ..
        }) => taken,
        other => return Err(format!("the drive ends as {other:?}")),
    };
    let valued = trial.value(area, &run, u32::from(cond))?;
    let pair = match valued {
        Ok(Valued {
            low,
            high,
            rest: true,
        }) => Pair::new(low, high),
        other => return Err(format!("the value is {other:?}")),
    };
    let page = decode(area).ok_or("the area is not sound")?;
    figure(
        "the plain reading by iteration",
        plain::reading(&page)[usize::from(cond)],
        pair,
    )?;
    Ok((pair, taken))
}

fn closed_of(trial: &mut Trial, area: &[u16], cond: u16) -> Check<Pair> {
    let mut scratch = trial.rubbish(closed::scratch_length(area[1]));
    let mut answers = trial.rubbish(2);
    let code = trial.closed(area, &[cond], &mut scratch, &mut answers)?;
    figure("the closed reading's code", code, Ok(()))?;
    let page = decode(area).ok_or("the area is not sound")?;
    let pair = Pair::new(answers[0], answers[1]);
    figure(
        "the closed reading by definition",
        closed::reading(&page)[usize::from(cond)],
        pair,
    )?;
    Ok(pair)
}

/// Both readings of a condition must be these.
fn readings(
    trial: &mut Trial,
    area: &[u16],
    cond: u16,
    plain: (u16, u16),
    closed: (u16, u16),
) -> Check {
    let (got, _) = plain_of(trial, area, cond)?;
    figure(&format!("plain {cond}"), got, Pair::new(plain.0, plain.1))?;
    let got = closed_of(trial, area, cond)?;
    figure(
        &format!("closed {cond}"),
        got,
        Pair::new(closed.0, closed.1),
    )
}

fn row_01_two_rivals_plain_and_closed(trial: &mut Trial, _: u64) -> Check {
    let area = load(trial, RIVALS)?;
    readings(trial, &area, 0, (2, 7), (2, 7))?;
    readings(trial, &area, 1, (3, 8), (3, 8))
}

fn row_02_bound_22_spent_after_3_rest_after_4(trial: &mut Trial, _: u64) -> Check {
    let area = load(trial, RIVALS)?;
    let (run, measures) = opened(trial, &area, 0)?;
    let wanted = Opened {
        reached: 2,
        edges: 2,
        bound: 22,
        passes: 2,
    };
    figure("the opening", measures, wanted)?;
    figure("the opened run", run.clone(), vec![0, 10, 2, 0, 10, 2])?;
    let mut three = run.clone();
    let driven = trial.drive(&area, &mut three, 3)?;
    let wanted = Driven {
        taken: 3,
        line: 2,
        rest: false,
    };
    figure("allowance 3", driven, Ok(wanted))?;
    figure("the run after 3", three, vec![2, 7, 1, 3, 8, 2])?;
    let mut four = run.clone();
    let driven = trial.drive(&area, &mut four, 4)?;
    let wanted = Driven {
        taken: 4,
        line: 3,
        rest: true,
    };
    figure("allowance 4", driven, Ok(wanted))?;
    figure("the run after 4", four, vec![2, 7, 1, 3, 8, 1])?;
    let mut single = run;
    for (cond, changed) in [(0, true), (1, true), (0, true), (1, false)] {
        let got = trial.evaluate(&area, &mut single, cond)?;
        figure(&format!("evaluating {cond}"), got, Ok(changed))?;
    }
    figure(
        "the run after 4 single evaluations",
        single,
        vec![2, 7, 1, 3, 8, 1],
    )
}

fn row_03_closed_cuts_an_unsupported_rule(trial: &mut Trial, _: u64) -> Check {
    let area = load(
        trial,
        "G,10,3\nF,0,3,3\nF,2,6,6\nR,0,10,M,1,2\nR,1,10,M,1\n",
    )?;
    readings(trial, &area, 0, (3, 6), (3, 3))?;
    readings(trial, &area, 1, (0, 10), (0, 0))
}

fn row_04_condition_without_lines_is_zero_after_one_evaluation(trial: &mut Trial, _: u64) -> Check {
    let area = load(trial, "G,1,1\n")?;
    figure("the area", area.clone(), vec![1, 1, 0, 5, 0])?;
    let (_, measures) = opened(trial, &area, 0)?;
    figure("the bound", measures.bound, 1)?;
    let (_, taken) = plain_of(trial, &area, 0)?;
    figure("the evaluations", taken, 1)?;
    readings(trial, &area, 0, (0, 0), (0, 0))
}

fn row_05_self_denial_stays_unknown_in_both_readings(trial: &mut Trial, _: u64) -> Check {
    let area = load(trial, "G,1,1\nR,0,1,M,!0\n")?;
    readings(trial, &area, 0, (0, 1), (0, 1))
}

fn row_06_self_support_is_unknown_plain_and_zero_closed(trial: &mut Trial, _: u64) -> Check {
    let area = load(trial, "G,1,1\nR,0,1,M,0\n")?;
    readings(trial, &area, 0, (0, 1), (0, 0))
}

fn row_07_self_rule_of_weight_9_rests_after_2_evaluations(trial: &mut Trial, _: u64) -> Check {
    let area = load(trial, "G,10,1\nR,0,9,M,0\n")?;
    let (_, measures) = opened(trial, &area, 0)?;
    figure("the bound", measures.bound, 11)?;
    let (pair, taken) = plain_of(trial, &area, 0)?;
    figure("the interval", pair, Pair::new(0, 9))?;
    figure("the evaluations", taken, 2)?;
    readings(trial, &area, 0, (0, 9), (0, 0))
}

fn row_08_ops_product_lukasiewicz_bounded_and_weight(trial: &mut Trial, _: u64) -> Check {
    let area = load(
        trial,
        "G,10,6\nF,0,7,7\nF,1,5,5\nR,2,10,P,0,1\nR,3,10,L,0,1\nR,4,10,B,0,1\nR,5,8,P,0,1\n",
    )?;
    for (cond, ends) in [(2, (3, 4)), (3, (2, 2)), (4, (10, 10)), (5, (2, 4))] {
        readings(trial, &area, cond, ends, ends)?;
    }
    Ok(())
}

fn row_09_condition_511_is_read_and_512_refused(trial: &mut Trial, _: u64) -> Check {
    for (form, place) in [
        ("F,#,0,0", 2),
        ("R,#,1,M,0", 2),
        ("R,0,1,M,#", 5),
        ("R,0,1,M,!#", 5),
        ("Q,K,#", 3),
        ("Q,W,#", 3),
    ] {
        let with = |cond: &str| format!("G,200,512\n{}\n", form.replace('#', cond)).into_bytes();
        accepted(trial, &with("511"))?;
        refused(trial, &with("512"), (4, 2, place))?;
    }
    Ok(())
}

fn row_10_top_200_and_eight_literals_are_read_201_and_nine_refused(
    trial: &mut Trial,
    _: u64,
) -> Check {
    accepted(trial, b"G,200,1\nF,0,200,200\nR,0,200,M,0\n")?;
    refused(trial, b"G,201,1\n", (4, 1, 2))?;
    accepted(trial, b"G,1,9\nR,0,1,M,1,2,3,4,5,6,7,8\n")?;
    refused(trial, b"G,1,9\nR,0,1,M,1,2,3,4,5,6,7,8,0\n", (3, 2, 0))
}

fn row_11_line_1025_is_read_and_1026_refused_however_it_looks(trial: &mut Trial, _: u64) -> Check {
    let mut text = b"G,1,1\n".to_vec();
    for _ in 0..1024 {
        text.extend_from_slice(b"Q,K,0\n");
    }
    accepted(trial, &text)?;
    let looks: [&[u8]; 8] = [
        b"Q,K,0\n",
        b"\n",
        b"Q,K,1\n",
        b"nothing\n",
        b"G,1,1\n",
        b"F,0,03,4\n",
        b"\xff\r\n",
        b"Q,K,0\nQ,K,0\n\n",
    ];
    for look in looks {
        let longer = [text.as_slice(), look].concat();
        refused(trial, &longer, (5, 1026, 0))?;
    }
    Ok(())
}

fn row_12_leading_zero_is_form_and_low_above_high_has_a_number_of_its_own(
    trial: &mut Trial,
    _: u64,
) -> Check {
    refused(trial, b"G,10,1\nF,0,03,4\n", (3, 2, 0))?;
    refused(trial, b"G,10,1\nF,0,4,3\n", (23, 2, 4))?;
    accepted(trial, b"G,10,1\nF,0,3,4\n")
}

fn attach_example_figures(trial: &mut Trial, _: u64) -> Check {
    let area = load(trial, &format!("{RIVALS}Q,K,0\nQ,W,1\n"))?;
    let wanted = vec![
        10, 2, 6, 32, 0, 0, 0, 0, 2, 2, 1, 0, 3, 3, 0, 1, 10, 1, 3, 1, 1, 10, 1, 1, 0, 6, 0, 0, 1,
        6, 1, 0,
    ];
    figure("the area", area.clone(), wanted)?;
    let (pair, _) = plain_of(trial, &area, 0)?;
    figure("K,0", pair, Pair::new(2, 7))?;
    let pair = closed_of(trial, &area, 1)?;
    figure("W,1", pair, Pair::new(3, 8))
}
