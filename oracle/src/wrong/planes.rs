//! Wrong conversions, and wrong work on planes.
use super::{changed, drawn, lawful, refused, told_apart, told_by_vectors, Wrong};
use crate::case::{Case, Entry, Outcome};
use crate::plane_cases;
use rule::planes::{interleaved, planes};
use rule::refusal;

fn area(case: &Case) -> usize {
    case.picture.len() / 4
}

/// An accepted conversion that lays other bytes.
fn laid(case: &Case, bytes: impl Fn(&[u8]) -> Vec<u8>) -> Outcome {
    changed(case, 0, |outcome| {
        let new = bytes(&case.picture);
        outcome.other[..new.len()].copy_from_slice(&new);
    })
}

/// The right conversion of a case, or that of the other entry.
fn right(case: &Case, bytes: &[u8]) -> Vec<u8> {
    if case.entry == Entry::ToPlanes {
        planes(bytes)
    } else {
        interleaved(bytes)
    }
}

/// The bytes with the channels of the picture in another order: of the picture before, or of the one made.
fn reordered(case: &Case, bytes: &[u8], order: [usize; 4]) -> Vec<u8> {
    let turned = |picture: &[u8]| picture.chunks_exact(4).flat_map(|p| order.map(|c| p[c])).collect::<Vec<u8>>();
    if case.entry == Entry::ToPlanes {
        planes(&turned(bytes))
    } else {
        turned(&interleaved(bytes))
    }
}

/// The first number of an order whose condition holds.
fn ordered(case: &Case, order: [u32; 3]) -> Outcome {
    let holds = |number: &&u32| match number {
        1 => refusal::sides(case.w, case.h),
        2 => refusal::length(&case.picture, case.w, case.h),
        _ => refusal::short(&case.other, case.w, case.h),
    };
    order.iter().find(holds).map_or_else(|| lawful(case), |number| refused(case, *number))
}

const CONVERSIONS: [Wrong; 16] = [
    ("the other way", |case| laid(case, |bytes| right(&Case { entry: other_way(case), ..case.clone() }, bytes))),
    ("copied", |case| laid(case, <[u8]>::to_vec)),
    ("alpha first", |case| laid(case, |bytes| reordered(case, bytes, [3, 0, 1, 2]))),
    ("b, g, r, a", |case| laid(case, |bytes| reordered(case, bytes, [2, 1, 0, 3]))),
    ("planes by columns", |case| {
        laid(case, |bytes| {
            let (w, h) = (case.w as usize, case.h as usize);
            let made = if case.entry == Entry::ToPlanes { planes(bytes) } else { bytes.to_vec() };
            let turned = made.chunks_exact(w * h).flat_map(|p| (0..w * h).map(|i| p[i % h * w + i / h]));
            let turned: Vec<u8> = turned.collect();
            if case.entry == Entry::ToPlanes {
                turned
            } else {
                interleaved(&turned)
            }
        })
    }),
    ("rows from the bottom", |case| {
        laid(case, |bytes| {
            let row = if case.entry == Entry::ToPlanes { 4 * case.w as usize } else { case.w as usize };
            let mut rows: Vec<&[u8]> = bytes.chunks_exact(row).collect();
            rows.chunks_exact_mut(case.h as usize).for_each(<[&[u8]]>::reverse);
            right(case, &rows.concat())
        })
    }),
    ("three planes only", |case| {
        let mut outcome = lawful(case);
        let left = |i: &usize| if case.entry == Entry::ToPlanes { *i >= 3 * area(case) } else { i % 4 == 3 };
        if outcome.answer == 0 {
            (0..case.picture.len()).filter(left).for_each(|i| outcome.other[i] = case.other[i]);
        }
        outcome
    }),
    ("the last byte left out", |case| {
        changed(case, 0, |outcome| outcome.other[case.picture.len() - 1] = case.other[case.picture.len() - 1])
    }),
    ("cleared past 4wh", |case| changed(case, 0, |outcome| outcome.other[case.picture.len()..].fill(0))),
    ("what is read is cleared", |case| changed(case, 0, |outcome| outcome.picture.fill(0))),
    ("a room of exactly 4wh refused", |case| {
        if lawful(case).answer == 0 && case.other.len() == case.picture.len() {
            refused(case, 3)
        } else {
            lawful(case)
        }
    }),
    ("a longer room refused", |case| {
        if lawful(case).answer == 0 && case.other.len() > case.picture.len() {
            refused(case, 3)
        } else {
            lawful(case)
        }
    }),
    ("more bytes read than 4wh", |case| {
        let longer = case.picture.len() as u128 > refusal::bytes(case.w, case.h);
        changed(case, 2, |outcome| {
            if longer {
                outcome.answer = 0;
            }
        })
    }),
    ("the room written on 2", |case| changed(case, 2, |outcome| outcome.other.iter_mut().for_each(|b| *b ^= 1))),
    ("3 before 2", |case| ordered(case, [1, 3, 2])),
    ("2 before 1", |case| ordered(case, [2, 1, 3])),
];

fn other_way(case: &Case) -> Entry {
    if case.entry == Entry::ToPlanes {
        Entry::FromPlanes
    } else {
        Entry::ToPlanes
    }
}

/// The outcome of the entry on a picture: of the planes turned so, and turned so again.
fn through(case: &Case, there: impl Fn(&[u8]) -> Vec<u8>, back: impl Fn(&[u8]) -> Vec<u8>) -> Outcome {
    let mut outcome = lawful(case);
    if outcome.answer == 0 {
        let entry = case.on_picture().expect("an entry on planes");
        let made = lawful(&Case { entry, picture: there(&case.picture), ..case.clone() });
        outcome.picture = back(&made.picture);
    }
    outcome
}

/// The planes as one of other sides: its four channels are all alike, and one of them is taken.
fn as_one(case: &Case, w: u32, h: u32) -> Outcome {
    let mut outcome = lawful(case);
    if outcome.answer == 0 {
        let entry = case.on_picture().expect("an entry on planes");
        let picture: Vec<u8> = case.picture.iter().flat_map(|byte| [*byte; 4]).collect();
        let length = picture.len();
        let wide = Case { entry, w, h, picture, scratch: length, copy: length, ..case.clone() };
        outcome.picture = lawful(&wide).picture.into_iter().step_by(4).collect();
    }
    outcome
}

/// The mistakes of all that work on planes.
const WORK: [Wrong; 7] = [
    ("planes taken for a picture", |case| through(case, <[u8]>::to_vec, <[u8]>::to_vec)),
    ("left as a picture", |case| through(case, interleaved, <[u8]>::to_vec)),
    ("taken as a picture, left as planes", |case| through(case, <[u8]>::to_vec, planes)),
    ("alpha not worked on", |case| {
        changed(case, 0, |outcome| {
            let from = 3 * area(case);
            outcome.picture[from..].copy_from_slice(&case.picture[from..]);
        })
    }),
    ("the first plane alone", |case| {
        changed(case, 0, |outcome| {
            let from = area(case);
            outcome.picture[from..].copy_from_slice(&case.picture[from..]);
        })
    }),
    ("bytes changed on 7", |case| changed(case, 7, |outcome| outcome.picture = interleaved(&case.picture))),
    ("7 not asked", |case| lawful(&Case { dx: finite(case.dx), dy: finite(case.dy), ..finite_strength(case) })),
];

fn finite(value: f32) -> f32 {
    if value.is_finite() {
        value
    } else {
        0.0
    }
}

fn finite_strength(case: &Case) -> Case {
    Case { strength: finite(case.strength), ..case.clone() }
}

/// The mistakes of blur and shift.
const LEAKS: [Wrong; 2] = [
    ("one tall plane", |case| as_one(case, case.w, case.h.saturating_mul(4))),
    ("four planes side by side", |case| as_one(case, case.w.saturating_mul(4), case.h)),
];

/// A mistake of planes of 256 bytes and more to a row alone, which are blurred where they lie.
fn if_wide(case: &Case, wrong: impl Fn(&Case) -> Outcome) -> Outcome {
    if case.w >= 256 && lawful(case).answer == 0 {
        wrong(case)
    } else {
        lawful(case)
    }
}

/// The mistakes of the blur where planes lie.
const WIDE: [Wrong; 4] = [
    ("wide: one tall plane", |case| if_wide(case, LEAKS[0].1)),
    ("wide: four planes side by side", |case| if_wide(case, LEAKS[1].1)),
    ("wide: never decimated", |case| if_wide(case, |case| lawful(&Case { n: 0, ..case.clone() }))),
    ("wide: every mode Duplicate", |case| if_wide(case, |case| lawful(&Case { edge: 0, ..case.clone() }))),
];

/// The mistakes of those that are lent a scratch.
const SCRATCHES: [Wrong; 4] = [
    ("a plane of scratch cleared", |case| {
        changed(case, 0, |outcome| {
            let all = case.picture.len();
            (area(case)..all).for_each(|i| outcome.scratch[i] = crate::case::work(i));
        })
    }),
    ("scratch not cleared", |case| {
        changed(case, 0, |outcome| outcome.scratch = (0..case.scratch).map(crate::case::work).collect())
    }),
    ("all of the scratch cleared", |case| changed(case, 0, |outcome| outcome.scratch.fill(0))),
    ("a plane of scratch is enough", |case| {
        changed(case, 3, |outcome| {
            if case.scratch >= area(case) {
                outcome.answer = 0;
            }
        })
    }),
];

/// A shadow of a plane other than that of the alphas, or that takes another road.
const SHADOWS: [Wrong; 3] = [
    ("cast from red", |case| {
        changed(case, 0, |outcome| {
            let mut red = case.picture.clone();
            red.copy_within(..area(case), 3 * area(case));
            let cast = lawful(&Case { picture: red, composite: 0, ..case.clone() });
            outcome.picture = cast.picture;
        })
    }),
    ("alpha laid over first", |case| {
        changed(case, 0, |outcome| {
            let from = 3 * area(case);
            let alphas = outcome.picture[from..].to_vec();
            let alone = lawful(&Case { composite: 0, ..case.clone() }).picture;
            for (i, byte) in outcome.picture[..from].iter_mut().enumerate().filter(|_| case.composite != 0) {
                *byte = rule::shadow::over(case.picture[i], alone[i], alphas[i % area(case)]);
            }
        })
    }),
    ("copy not cleared", |case| {
        changed(case, 0, |outcome| outcome.copy = (0..case.copy).map(crate::case::work).collect())
    }),
];

/// Each entry with the mistakes that are thought of.
fn all() -> Vec<(Entry, Vec<Wrong>)> {
    vec![
        (Entry::ToPlanes, CONVERSIONS.to_vec()),
        (Entry::FromPlanes, CONVERSIONS.to_vec()),
        (Entry::BlurPlanes, [&WORK[..], &LEAKS, &WIDE, &SCRATCHES].concat()),
        (Entry::ShiftPlanes, [&WORK[..], &LEAKS].concat()),
        (Entry::ShadowPlanes, [&WORK[..], &SCRATCHES, &SHADOWS].concat()),
    ]
}

#[test]
fn on_planes() {
    let entries: Vec<Entry> = all().into_iter().map(|(entry, _)| entry).collect();
    let mut cases = drawn(&entries, plane_cases::all, 1);
    cases.retain(|(case, _)| case.picture.len() < 4096);
    for (entry, wrongs) in all() {
        told_apart(&cases, entry, &wrongs);
    }
    for (case, outcome) in cases.iter().filter(|(case, _)| case.on_picture().is_some()) {
        assert_eq!(through(case, interleaved, planes), *outcome, "{case}");
    }
    for (case, outcome) in cases.iter().filter(|(case, _)| case.converts()) {
        assert_eq!(ordered(case, [1, 2, 3]), *outcome, "{case}");
        assert_eq!(laid(case, |bytes| right(case, bytes)), *outcome, "{case}");
    }
}

#[test]
fn stored() {
    all().into_iter().for_each(|(entry, wrongs)| told_by_vectors(entry, &wrongs, &[]));
}
