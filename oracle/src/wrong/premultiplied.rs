//! Filters that break the law of request 09, each on a case that is run; and what the law's premise is for.
use super::{cases, lawful, Wrong};
use crate::case::{Case, Entry, Outcome};
use crate::premultiplied::{all, counterexamples, holds, KEEPING};
use rule::blur::{blurred, to_channel, Rounding};
use rule::edges::Edge;
use rule::mend::lowered;
use rule::shadow::{finished, over};
use rule::shift::{shifted, whole};

/// The shifted and blurred copy of a shadow.
fn cast(case: &Case) -> Vec<u8> {
    let (w, h) = (case.w as usize, case.h as usize);
    let moved = shifted(&case.picture, w, h, whole(case.dx), whole(case.dy));
    let rounding = Rounding { weights: &case.weights, edge: Edge::of(case.edge).unwrap() };
    if case.strength > 0.0 {
        blurred(&rounding, case.n, &moved, w, h)
    } else {
        moved
    }
}

/// An accepted shadow with another way to multiply a colour by its alpha, and another last step.
fn shadow(case: &Case, times: fn(u8, u8) -> u8, last: fn(&[u8], &mut [u8])) -> Outcome {
    let mut picture = finished(&case.picture, &cast(case), case.colour, times, case.composite != 0);
    case.picture.chunks_exact(4).zip(picture.chunks_exact_mut(4)).for_each(|(old, new)| last(old, new));
    Outcome { picture, ..lawful(case) }
}

/// An accepted blur whose alpha takes another way.
fn blur(case: &Case, alpha: fn(&Case, u8) -> u8) -> Outcome {
    let mut outcome = lawful(case);
    outcome.picture.iter_mut().skip(3).step_by(4).for_each(|a| *a = alpha(case, *a));
    outcome
}

const BLURS: [Wrong; 3] = [
    ("alpha rounded downward", |case| blur(case, |case, a| if case.strength > 0.0 { a.saturating_sub(1) } else { a })),
    ("alpha not blurred", |case| {
        let mut outcome = lawful(case);
        let alphas = case.picture.iter().skip(3).step_by(4);
        outcome.picture.iter_mut().skip(3).step_by(4).zip(alphas).for_each(|(new, old)| *new = *old);
        outcome
    }),
    ("alpha capped at 254", |case| blur(case, |_, a| a.min(254))),
];

const SHADOWS: [Wrong; 4] = [
    ("+ 255 before the division by 255", |case| {
        shadow(case, |c, a| ((u32::from(c) * u32::from(a) + 255) / 255).min(255) as u8, |_, _| ())
    }),
    ("not multiplied by alpha", |case| shadow(case, |c, _| c, |_, _| ())),
    ("the original's alpha kept by compositing", |case| {
        let last: fn(&[u8], &mut [u8]) = if case.composite == 0 { |_, _| () } else { |old, new| new[3] = old[3] };
        shadow(case, rule::shadow::premultiply, last)
    }),
    ("alpha laid over with truncation", |case| {
        shadow(case, rule::shadow::premultiply, |old, new| {
            let exact = f32::from(new[3]);
            new[3] = if old[3] > 0 && old[3] < 255 { to_channel(exact - 1.0) } else { new[3] };
        })
    }),
];

/// The accepted cases of an entry whose picture does not exceed.
fn tries(entry: Entry) -> Vec<Case> {
    let cases = cases(&[], all).into_iter();
    let kept = |(case, outcome): &(Case, Outcome)| case.entry == entry && outcome.answer == 0 && holds(&case.picture);
    cases.filter(kept).map(|(case, _)| case).collect()
}

#[test]
fn broken_by_some_case() {
    for (entry, wrongs) in [(Entry::Blur, &BLURS[..]), (Entry::Shadow, &SHADOWS)] {
        let tries = tries(entry);
        for (name, program) in wrongs {
            let broken = tries.iter().filter(|case| !holds(&program(case).picture)).count();
            println!("{entry:?}, {name}: {broken} of {} cases", tries.len());
            assert!(broken > 0, "{entry:?}: no case shows: {name}");
        }
        assert!(tries.iter().all(|case| holds(&lawful(case).picture)));
    }
}

/// The same with no channel above its alpha.
fn mended(case: &Case) -> Case {
    let mut picture = case.picture.clone();
    picture.chunks_exact_mut(4).for_each(lowered);
    Case { picture, ..case.clone() }
}

#[test]
fn premise_needed() {
    let cases = counterexamples();
    assert_eq!(cases.iter().map(|case| case.entry).collect::<Vec<_>>(), KEEPING);
    for case in cases {
        let (after, without) = (lawful(&case), lawful(&mended(&case)));
        assert!(after.answer == 0 && !holds(&after.picture), "{case}");
        assert!(without.answer == 0 && holds(&without.picture), "{case}");
    }
}

/// The shadow alone is premultiplied whatever the picture is, and what is laid over grows with both.
#[test]
fn shadow_alone() {
    for (case, outcome) in cases(&[], all) {
        if case.entry == Entry::Shadow && case.composite == 0 && outcome.answer == 0 {
            assert!(holds(&outcome.picture), "{case}");
        }
    }
    for alpha in 0..=255 {
        assert!((0..255).all(|c| over(c, 200, alpha) <= over(c + 1, 200, alpha)));
        assert!((0..255).all(|c| over(100, c, alpha) <= over(100, c + 1, alpha)));
    }
}
