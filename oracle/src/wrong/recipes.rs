//! Wrong lists of recipes.
use super::{changed, drawn, lawful, refused, told_apart, told_by_vectors, Wrong};
use crate::case::{work, Case, Entry, Outcome};
use crate::recipe_cases::{all, one_by_one, steps, with_steps};
use rule::recipes::{Step, BLUR, SHADOW, SHIFT};
use rule::MOST_TAPS;

/// The outcome of the list with its recipes changed.
fn with(case: &Case, change: impl Fn(&mut Vec<Step>)) -> Outcome {
    let mut all = steps(case);
    change(&mut all);
    Outcome { list: case.list.clone(), ..lawful(&with_steps(case.clone(), &all)) }
}

/// The same, with each recipe changed by itself.
fn each(case: &Case, change: impl Fn(&mut Step)) -> Outcome {
    with(case, |all| all.iter_mut().for_each(&change))
}

/// The outcome with another table of weights.
fn tabled(case: &Case, change: impl Fn(&mut Vec<f32>)) -> Outcome {
    let mut weights = case.weights.clone();
    change(&mut weights);
    lawful(&Case { weights, ..case.clone() })
}

/// The own numbers of the bad recipes, each with its index.
fn bad(case: &Case) -> Vec<(u32, u64)> {
    let numbers = steps(case).into_iter().map(|step| step.refused(&case.weights));
    numbers.zip(0..).filter(|(number, _)| *number != 0).collect()
}

/// A refused list, where its frame is right, that answers another of its bad recipes.
fn answering(case: &Case, pick: impl Fn(&[(u32, u64)]) -> (u32, u64)) -> Outcome {
    let right = lawful(case);
    if right.answer <= 3 {
        return right;
    }
    let (answer, index) = pick(&bad(case));
    Outcome { answer, numbers: [index, 0, 0, 0], ..right }
}

/// A list that is refused after its first good recipes have run.
fn ran_before(case: &Case) -> Outcome {
    let right = lawful(case);
    if right.answer <= 3 {
        return right;
    }
    let good = with(case, |all| all.truncate(right.numbers[0] as usize));
    Outcome { picture: good.picture, ..right }
}

/// A recipe's number where 19 is asked last.
fn nineteen_last(step: &Step, table: &[f32]) -> u32 {
    let kernels = (table.len() / MOST_TAPS) as u32;
    let known = Step { kernel: step.kernel.min(kernels.saturating_sub(1)), ..*step };
    match (step.refused(table), known.refused(table)) {
        (19, number) if kernels > 0 && number != 0 => number,
        (number, _) => number,
    }
}

/// A list that is refused though it is good, for its first recipe of which something holds.
fn refusing(case: &Case, number: u32, holds: impl Fn(&Step) -> bool) -> Outcome {
    let right = lawful(case);
    match steps(case).iter().position(holds) {
        Some(index) if right.answer == 0 => Outcome { numbers: [index as u64, 0, 0, 0], ..refused(case, number) },
        _ => right,
    }
}

fn as_before(length: usize) -> Vec<u8> {
    (0..length).map(work).collect()
}

fn has(case: &Case, operation: u32) -> bool {
    steps(case).iter().any(|step| step.operation == operation)
}

const LISTS: [Wrong; 34] = [
    ("from the last to the first", |case| with(case, |all| all.reverse())),
    ("the first recipe alone", |case| with(case, |all| all.truncate(1))),
    ("the last recipe left out", |case| {
        changed(case, 0, |outcome| {
            outcome.picture = with(case, |all| all.truncate(all.len().saturating_sub(1))).picture;
        })
    }),
    ("the first recipe for each", |case| {
        with(case, |all| {
            if let Some(first) = all.first().copied() {
                all.fill(first);
            }
        })
    }),
    ("each recipe on the first picture", |case| {
        changed(case, 0, |outcome| {
            outcome.picture = with(case, |all| drop(all.drain(..all.len().saturating_sub(1)))).picture;
        })
    }),
    ("checked as they run", ran_before),
    ("the least number", |case| answering(case, |bad| *bad.iter().min().unwrap())),
    ("the greatest number", |case| answering(case, |bad| *bad.iter().max().unwrap())),
    ("the last bad recipe", |case| answering(case, |bad| *bad.last().unwrap())),
    ("the index counted from 1", |case| answering(case, |bad| (bad[0].0, bad[0].1 + 1))),
    ("the index of the count", |case| answering(case, |bad| (bad[0].0, steps(case).len() as u64))),
    ("no index", |case| answering(case, |bad| (bad[0].0, 0))),
    ("an index when done", |case| changed(case, 0, |outcome| outcome.numbers[0] = steps(case).len() as u64)),
    ("an index beside 3", |case| changed(case, 3, |outcome| outcome.numbers[0] = bad(case).first().map_or(0, |b| b.1))),
    ("19 last", |case| {
        answering(case, |bad| {
            let index = bad[0].1;
            (nineteen_last(&steps(case)[index as usize], &case.weights), index)
        })
    }),
    ("a shorter rest counts as a kernel", |case| {
        tabled(case, |table| {
            let length = table.len().next_multiple_of(MOST_TAPS);
            table.resize(length, 0.0);
        })
    }),
    ("an index at the count taken as the last", |case| {
        each(case, |step| {
            let count = (case.weights.len() / MOST_TAPS) as u32;
            if step.kernel == count && count > 0 {
                step.kernel -= 1;
            }
        })
    }),
    ("33 times the index in 32 bits", |case| {
        each(case, |step| {
            let at = step.kernel.wrapping_mul(MOST_TAPS as u32);
            if step.kernel > 1 << 20 && (at as usize) < case.weights.len() / MOST_TAPS * MOST_TAPS {
                step.kernel = 0;
            }
        })
    }),
    ("a shift refused for its kernel", |case| {
        let count = case.weights.len() / MOST_TAPS;
        refusing(case, 19, |step| step.operation == SHIFT && step.kernel as usize >= count)
    }),
    ("a shift refused for its taps", |case| refusing(case, 4, |step| step.operation == SHIFT && step.taps == 0)),
    ("all 33 weights looked at", |case| {
        let wide = |step: &Step| Step { taps: 33, ..*step }.refused(&case.weights) == 5;
        refusing(case, 5, |step| step.operation != SHIFT && wide(step))
    }),
    ("all 33 weights used", |case| {
        changed(case, 0, |outcome| {
            let table: Vec<f32> =
                case.weights.iter().map(|w| if rule::refusal::share(*w) { 0.0 } else { *w }).collect();
            let mut wide = steps(case);
            wide.iter_mut().for_each(|step| step.taps = 33);
            outcome.picture = lawful(&with_steps(Case { weights: table, ..case.clone() }, &wide)).picture;
        })
    }),
    ("34 taps taken as 33", |case| each(case, |step| step.taps = if step.taps == 34 { 33 } else { step.taps })),
    ("no taps taken as 1", |case| each(case, |step| step.taps = step.taps.max(1))),
    ("the taps in 16 bits", |case| each(case, |step| step.taps = step.taps as u16 as u32)),
    ("an operation past 2 taken as a shadow", |case| each(case, |step| step.operation = step.operation.min(SHADOW))),
    ("blur and shift exchanged", |case| {
        each(case, |step| {
            step.operation = match step.operation {
                BLUR => SHIFT,
                SHIFT => BLUR,
                other => other,
            }
        })
    }),
    ("composited where the number is 1 alone", |case| each(case, |step| step.composite = (step.composite == 1).into())),
    ("dx and dy exchanged", |case| each(case, |step| (step.dx, step.dy) = (step.dy, step.dx))),
    ("a blur asked for its offsets", |case| refusing(case, 7, |step| step.operation == BLUR && !step.dx.is_finite())),
    ("copy kept without a shadow", |case| {
        changed(case, 0, |outcome| {
            if !has(case, SHADOW) {
                outcome.copy = as_before(case.copy);
            }
        })
    }),
    ("scratch kept by an empty list", |case| {
        changed(case, 0, |outcome| {
            if case.list.is_empty() {
                outcome.scratch = as_before(case.scratch);
            }
        })
    }),
    ("all of the copy cleared", |case| changed(case, 0, |outcome| outcome.copy.fill(0))),
    ("an empty list asks for no work buffer", |case| {
        changed(case, 3, |outcome| {
            if case.list.is_empty() {
                outcome.answer = 0;
            }
        })
    }),
];

#[test]
fn lists() {
    let cases = drawn(&[Entry::Recipes], all, 1);
    told_apart(&cases, Entry::Recipes, &LISTS);
    for (case, outcome) in &cases {
        assert_eq!(one_by_one(&crate::library::RULE, case), *outcome, "{case}");
        assert_eq!(answering(case, |bad| bad[0]), *outcome, "{case}");
    }
}

#[test]
fn stored() {
    told_by_vectors(Entry::Recipes, &LISTS, &[]);
}
