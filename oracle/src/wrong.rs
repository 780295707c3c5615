//! Wrong programs, each a variant of a rule: every one must differ from its rule on some case that is generated, and
//! on some stored vector. So no group of cases can be lost without a test that fails.
use crate::case::{run, Case, Entry, Outcome};
use crate::generate;
use crate::library::RULE;
use crate::random::Random;
use crate::vectors;

mod areas;
mod limits;
mod mends;
mod pams;
mod planes;
mod plates;
mod premultiplied;
mod recipes;
mod shares;
mod wholes;

/// Cases, one after the other.
type Group = fn(&mut Random, &mut dyn FnMut(Case));

/// What is wrong, and what the program does.
type Wrong = (&'static str, fn(&Case) -> Outcome);

fn lawful(case: &Case) -> Outcome {
    run(&RULE, case)
}

/// The outcome, changed where the rule answers `number`.
fn changed(case: &Case, number: u32, change: impl FnOnce(&mut Outcome)) -> Outcome {
    let mut outcome = lawful(case);
    if outcome.answer == number {
        change(&mut outcome);
    }
    outcome
}

/// What a refused call leaves.
fn refused(case: &Case, answer: u32) -> Outcome {
    let kept = run(&RULE, case);
    Outcome {
        answer,
        picture: case.picture.clone(),
        other: case.other.clone(),
        list: case.list.clone(),
        numbers: [0; 4],
        ..kept
    }
}

/// The cases of some entries, with their outcomes: a group, and every set of their conditions.
fn cases(entries: &[Entry], group: Group) -> Vec<(Case, Outcome)> {
    drawn(entries, group, 8)
}

/// The same, with each set so often.
fn drawn(entries: &[Entry], group: Group, rounds: u32) -> Vec<(Case, Outcome)> {
    let (mut random, mut cases) = (Random::new(1), Vec::new());
    group(&mut random, &mut |case| cases.push(case));
    generate::refusals(&mut random, entries, rounds, u32::MAX, &mut |case| cases.push(case));
    let with_outcome = |case: Case| {
        let outcome = lawful(&case);
        (case, outcome)
    };
    cases.into_iter().map(with_outcome).collect()
}

/// Each wrong program of an entry is told from the rule.
fn told_apart(cases: &[(Case, Outcome)], entry: Entry, wrongs: &[Wrong]) {
    for (name, program) in wrongs {
        let told = cases.iter().filter(|(case, outcome)| case.entry == entry && program(case) != *outcome).count();
        println!("{entry:?}, {name}: {told} cases");
        assert!(told > 0, "{entry:?}: no case shows: {name}");
    }
}

/// The stored vectors tell each one too, but for those that only a long buffer shows.
fn told_by_vectors(entry: Entry, wrongs: &[Wrong], long: &[&str]) {
    let stored: Vec<Case> = vectors::cases().into_iter().filter(|case| case.entry == entry).collect();
    for (name, program) in wrongs {
        let told = stored.iter().any(|case| program(case) != lawful(case));
        assert_eq!(told, !long.contains(name), "{entry:?}: stored vectors show: {name}");
    }
}
