//! Wrong whole-number profiles.
use super::{cases, changed, lawful, refused, told_apart, told_by_vectors, Wrong};
use crate::case::{Case, Entry, Outcome};
use crate::whole_cases;
use rule::blur::{blurred, Rounding};
use rule::edges::{sample, Edge};
use rule::refusal;
use rule::scheme::{Passes, Plane};
use rule::whole::heavy;

/// How a blur with numerators is done.
struct Profile {
    order: [u32; 7],
    heavy: fn(&[u32]) -> bool,
    /// What a numerator counts.
    numerator: fn(u32) -> u64,
    /// What is added before the division.
    added: u64,
    middle: fn(usize) -> usize,
}

const RIGHT: Profile =
    Profile { order: [1, 2, 3, 4, 14, 6, 9], heavy, numerator: |m| m.into(), added: 32768, middle: |taps| taps / 2 };

struct Kernel<'a> {
    profile: &'a Profile,
    numerators: &'a [u32],
    edge: Edge,
}

impl Kernel<'_> {
    fn sums<T: Copy + Default + Into<u64>>(&self, line: &[T]) -> Vec<u64> {
        let middle = (self.profile.middle)(self.numerators.len()) as i64;
        let tap = |x: i64, j: usize| {
            (self.profile.numerator)(self.numerators[j]) * sample(line, x + j as i64 - middle, self.edge).into()
        };
        (0..line.len() as i64).map(|x| (0..self.numerators.len()).map(|j| tap(x, j)).sum()).collect()
    }
}

impl Passes for Kernel<'_> {
    type Value = u8;

    fn halve(&self, line: &[u8]) -> Vec<u8> {
        Rounding { weights: &[], edge: self.edge }.halve(line)
    }

    fn double(&self, line: &[u8], finer: usize) -> Vec<u8> {
        Rounding { weights: &[], edge: self.edge }.double(line, finer)
    }

    fn convolve(&self, line: &[u8]) -> Vec<u8> {
        self.sums(line).into_iter().map(|sum| ((sum + self.profile.added) / 65536).min(255) as u8).collect()
    }
}

impl Profile {
    fn blur(&self, case: &Case) -> Outcome {
        let holds = |number: &&u32| match number {
            1 => refusal::sides(case.w, case.h),
            2 => refusal::length(&case.picture, case.w, case.h),
            3 => (case.scratch as u128) < refusal::bytes(case.w, case.h),
            4 => refusal::taps(&case.numerators),
            14 => (self.heavy)(&case.numerators),
            6 => refusal::decimations(case.n),
            _ => refusal::edge(case.edge),
        };
        if let Some(number) = self.order.iter().find(holds) {
            return worked(case, *number, case.picture.clone());
        }
        let kernel = Kernel { profile: self, numerators: &case.numerators, edge: Edge::of(case.edge).unwrap() };
        worked(case, 0, blurred(&kernel, case.n, &case.picture, case.w as usize, case.h as usize))
    }
}

/// A picture, and the scratch as an answer leaves it.
fn worked(case: &Case, answer: u32, picture: Vec<u8>) -> Outcome {
    let mut outcome = refused(case, answer);
    outcome.scratch = (0..case.scratch).map(crate::case::work).collect();
    if answer == 0 {
        outcome.scratch[..picture.len()].fill(0);
    }
    Outcome { picture, ..outcome }
}

/// Rows and columns rounded together, where nothing is decimated.
fn rounded_once(case: &Case) -> Outcome {
    changed(case, 0, |outcome| {
        if case.n > 0 {
            return;
        }
        let edge = Edge::of(case.edge).unwrap();
        let kernel = Kernel { profile: &RIGHT, numerators: &case.numerators, edge };
        for channel in 0..4 {
            let values = case.picture.iter().skip(channel).step_by(4).map(|v| u64::from(*v)).collect();
            let plane = Plane { w: case.w as usize, h: case.h as usize, values };
            let sums = plane.rows(|line| kernel.sums(line)).columns(|line| kernel.sums(line));
            for (i, sum) in sums.values.into_iter().enumerate() {
                outcome.picture[4 * i + channel] = ((sum + (1 << 31)) >> 32) as u8;
            }
        }
    })
}

fn summed(case: &Case, heavy: fn(&[u32]) -> bool) -> Outcome {
    Profile { heavy, ..RIGHT }.blur(case)
}

/// The scratch after an answer of 0, otherwise.
fn with_scratch(case: &Case, change: fn(&Case, &mut Vec<u8>)) -> Outcome {
    changed(case, 0, |outcome| change(case, &mut outcome.scratch))
}

const BLURS: [Wrong; 22] = [
    ("the sum modulo 2^32", |case| summed(case, |ms| ms.iter().fold(0_u32, |sum, m| sum.wrapping_add(*m)) > 65536)),
    ("the sum in 16 bits, and so never too large", |case| summed(case, |_| false)),
    ("one numerator above 65536 alone", |case| summed(case, |ms| ms.iter().any(|m| *m > 65536))),
    ("65536 refused", |case| summed(case, |ms| ms.iter().map(|m| u64::from(*m)).sum::<u64>() >= 65536)),
    ("65537 taken", |case| summed(case, |ms| ms.iter().map(|m| u64::from(*m)).sum::<u64>() > 65537)),
    ("a sum below 65536 refused", |case| summed(case, |ms| ms.iter().map(|m| u64::from(*m)).sum::<u64>() != 65536)),
    ("all zeros refused", |case| summed(case, |ms| heavy(ms) || ms.iter().all(|m| *m == 0))),
    ("65536 as 16 bits", |case| Profile { numerator: |m| u64::from(m as u16), ..RIGHT }.blur(case)),
    ("floor", |case| Profile { added: 0, ..RIGHT }.blur(case)),
    ("halves downward", |case| Profile { added: 32767, ..RIGHT }.blur(case)),
    ("upward always", |case| Profile { added: 65535, ..RIGHT }.blur(case)),
    ("even counts centred low", |case| Profile { middle: |taps| (taps - 1) / 2, ..RIGHT }.blur(case)),
    ("rounded once for rows and columns", rounded_once),
    ("14 answered 5", |case| changed(case, 14, |outcome| outcome.answer = 5)),
    ("14 after 6", |case| Profile { order: [1, 2, 3, 4, 6, 14, 9], ..RIGHT }.blur(case)),
    ("14 after 9", |case| Profile { order: [1, 2, 3, 4, 6, 9, 14], ..RIGHT }.blur(case)),
    ("14 before 4", |case| Profile { order: [1, 2, 3, 14, 4, 6, 9], ..RIGHT }.blur(case)),
    ("9 before 6", |case| Profile { order: [1, 2, 3, 4, 14, 9, 6], ..RIGHT }.blur(case)),
    ("3 after 4", |case| Profile { order: [1, 2, 4, 3, 14, 6, 9], ..RIGHT }.blur(case)),
    ("2 before 1", |case| Profile { order: [2, 1, 3, 4, 14, 6, 9], ..RIGHT }.blur(case)),
    ("the scratch not cleared", |case| {
        with_scratch(case, |case, scratch| *scratch = (0..case.scratch).map(crate::case::work).collect())
    }),
    ("the whole scratch cleared", |case| with_scratch(case, |_, scratch| scratch.fill(0))),
];

#[test]
fn wholes() {
    let cases = cases(&[Entry::BlurWhole], whole_cases::all);
    for (case, outcome) in cases.iter().filter(|(case, _)| case.entry == Entry::BlurWhole) {
        assert_eq!(RIGHT.blur(case), *outcome, "{case}");
    }
    let short = |(case, _): &&(Case, Outcome)| case.picture.len() < 2000;
    told_apart(&cases.iter().filter(short).cloned().collect::<Vec<_>>(), Entry::BlurWhole, &BLURS);
}

/// The float profile gives the same bytes, and nothing leaves its channel's least and greatest.
#[test]
fn same_as_float() {
    for (case, outcome) in cases(&[Entry::BlurWhole], whole_cases::all) {
        if case.entry == Entry::BlurWhole && outcome.answer == 0 {
            assert_eq!(lawful(&whole_cases::as_float(&case)), outcome, "{case}");
            assert!(whole_cases::between(&case, &outcome), "{case}");
        }
    }
}

#[test]
fn stored() {
    told_by_vectors(Entry::BlurWhole, &BLURS, &[]);
}
