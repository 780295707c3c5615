//! Wrong limits of request 11.
use super::plates::{Reader, Writer, RIGHT, RIGHT_READER};
use super::{cases, changed, lawful, refused, told_apart, told_by_vectors, Wrong};
use crate::case::{Case, Entry, Outcome};
use crate::larger_cases;
use crate::random::Random;
use rule::plate::longest;
use rule::plate_write::version;
use rule::{LARGEST_SIDE, MOST_DECIMATIONS};

/// Another n in the place of one.
fn as_if(case: &Case, n: u32, run: u32) -> Outcome {
    lawful(&Case { n: if case.n == n { run } else { case.n }, ..case.clone() })
}

/// 6 already at some n.
fn refused_from(case: &Case, n: u32) -> Outcome {
    if case.n >= n && lawful(&Case { n: 0, ..case.clone() }).answer == 0 {
        refused(case, 6)
    } else {
        lawful(case)
    }
}

/// Of the blur, the shadow and the spread.
const DEPTHS: [Wrong; 4] = [
    ("n = 14 run as 13", |case| as_if(case, MOST_DECIMATIONS, MOST_DECIMATIONS - 1)),
    ("n = 14 refused", |case| refused_from(case, MOST_DECIMATIONS)),
    ("n = 13 refused", |case| refused_from(case, MOST_DECIMATIONS - 1)),
    ("n = 15 taken", |case| as_if(case, MOST_DECIMATIONS + 1, MOST_DECIMATIONS)),
];

/// A side that the rule takes is refused.
fn held_to(case: &Case, largest: u32) -> Outcome {
    let side = case.w.max(case.h);
    if largest < side && side <= LARGEST_SIDE && case.w.min(case.h) > 0 {
        refused(case, 1)
    } else {
        lawful(case)
    }
}

/// Of every entry that is lent a picture with its sides, and answers a number.
const SIDES: [Wrong; 3] = [
    ("4097 refused", |case| held_to(case, 4096)),
    ("16384 refused", |case| held_to(case, LARGEST_SIDE - 1)),
    ("16385 taken", |case| {
        let near = case.w.max(case.h) == LARGEST_SIDE + 1 && case.w.min(case.h) > 0;
        let length = rule::refusal::length(&case.picture, case.w, case.h);
        changed(case, 1, |outcome| {
            if near {
                outcome.answer = if length { 2 } else { 0 };
            }
        })
    }),
];

const CHECKS: [Wrong; 1] = [("the place in 16 bits", |case| changed(case, 0, |o| o.numbers[1] %= 65536))];
const EXPORTS: [Wrong; 1] = [("the place in 16 bits", |case| changed(case, 16, |o| o.numbers[1] %= 65536))];
const MENDS: [Wrong; 1] = [("places in 16 bits", |case| {
    changed(case, 0, |outcome| {
        let listed = 2 * outcome.numbers[0] as usize;
        outcome.list[..listed].iter_mut().step_by(2).for_each(|place| *place %= 65536);
    })
})];
const REBUILDS: [Wrong; 1] = [("places in 16 bits", |case| {
    let mut list = case.list.clone();
    list.iter_mut().step_by(2).for_each(|place| *place %= 65536);
    lawful(&Case { list, ..case.clone() })
})];

const HELD: Reader = Reader { longest: |_| longest(2), ..RIGHT_READER };
const FREE: Reader = Reader { longest: |_| longest(3), ..RIGHT_READER };

/// Of the job, the lookup and the label.
const READERS: [Wrong; 2] = [
    ("version 3 held to 16384 bytes", |case| HELD.other_plates(case)),
    ("version 2 let past 16384 bytes", |case| FREE.other_plates(case)),
];

/// Of plates of 16 MiB.
const LONG_READERS: [Wrong; 2] = [
    ("16 MiB refused", |case| Reader { longest: |version| longest(version) - 1, ..RIGHT_READER }.other_plates(case)),
    ("four bytes more taken", |case| {
        Reader { longest: |version| longest(version) + 4, ..RIGHT_READER }.other_plates(case)
    }),
];

const LOOKUPS: [Wrong; 2] = [
    ("the offset in 16 bits", |case| changed(case, 0, |outcome| outcome.numbers[2] %= 65536)),
    ("the length in 16 bits", |case| changed(case, 0, |outcome| outcome.numbers[3] %= 65536)),
];

const ADDS: [Wrong; 8] = [
    ("version 3 held to 16384 bytes", |case| Writer { longest: |_| longest(2), ..RIGHT }.add(case)),
    ("version 2 let past 16384 bytes", |case| Writer { longest: |_| longest(3), ..RIGHT }.add(case)),
    ("a plate that grows becomes version 3", |case| {
        let version = |version: u16, whole: usize| if version == 2 && whole > longest(2) { 3 } else { version };
        Writer { longest: |version| longest(if version == 2 { 3 } else { version }), version, ..RIGHT }.add(case)
    }),
    ("version 2 written as 3", |case| {
        Writer { version: |version, _| if version == 2 { 3 } else { version }, ..RIGHT }.add(case)
    }),
    ("16385 taken", |case| Writer { side: |side| side == 0 || side > LARGEST_SIDE + 1, ..RIGHT }.add(case)),
    ("a side above 4096 in version 2 answered 1", |case| {
        let wide = case.w.max(case.h) > 4096 && (1..3).contains(&version(&case.picture));
        if wide && [2, 13].contains(&lawful(case).answer) {
            refused(case, 1)
        } else {
            lawful(case)
        }
    }),
    ("the length in use cut to 16 bits", |case| lawful(&Case { used: case.used as u16 as u64, ..case.clone() })),
    ("the new length cut to 16 bits", |case| changed(case, 0, |outcome| outcome.numbers[0] %= 65536)),
];

const LONG_ADDS: [Wrong; 2] = [
    ("16 MiB refused", |case| Writer { longest: |version| longest(version) - 1, ..RIGHT }.add(case)),
    ("four bytes more taken", |case| Writer { longest: |version| longest(version) + 4, ..RIGHT }.add(case)),
];

const SIDED: [Entry; 9] = [
    Entry::Blur,
    Entry::Shift,
    Entry::Shadow,
    Entry::Check,
    Entry::View,
    Entry::PamWrite,
    Entry::Mend,
    Entry::Rebuild,
    Entry::PlateAdd,
];

#[test]
fn limits() {
    let cases = cases(&[], larger_cases::all);
    [Entry::Blur, Entry::Shadow, Entry::Spread].iter().for_each(|entry| told_apart(&cases, *entry, &DEPTHS));
    SIDED.iter().for_each(|entry| told_apart(&cases, *entry, &SIDES));
    told_apart(&cases, Entry::Check, &CHECKS);
    told_apart(&cases, Entry::PamWrite, &EXPORTS);
    told_apart(&cases, Entry::Mend, &MENDS);
    told_apart(&cases, Entry::Rebuild, &REBUILDS);
    [Entry::PlatePicture, Entry::PlateLabel, Entry::PlateJob]
        .iter()
        .for_each(|entry| told_apart(&cases, *entry, &READERS));
    told_apart(&cases, Entry::PlatePicture, &LOOKUPS);
    told_apart(&cases, Entry::PlateAdd, &ADDS);
}

#[test]
fn sixteen_mebibytes() {
    let mut cases = Vec::new();
    larger_cases::longest_plates(&mut Random::new(1), &mut |case| {
        let outcome = lawful(&case);
        cases.push((case, outcome));
    });
    [Entry::PlatePicture, Entry::PlateLabel].iter().for_each(|entry| told_apart(&cases, *entry, &LONG_READERS));
    told_apart(&cases, Entry::PlateAdd, &LONG_ADDS);
}

#[test]
fn stored() {
    told_by_vectors(Entry::Spread, &DEPTHS, &[]);
    // on a small picture every n above some 5 gives the same bytes
    [Entry::Blur, Entry::Shadow].iter().for_each(|entry| told_by_vectors(*entry, &DEPTHS, &["n = 14 run as 13"]));
    SIDED[..8].iter().for_each(|entry| told_by_vectors(*entry, &SIDES, &[]));
}
