//! Wrong shares.
use super::{cases, told_apart, told_by_vectors, Wrong};
use crate::case::{Case, Entry, Outcome};
use crate::share_cases;
use crate::tracing::{untouched, worthy, Tracer, RIGHT};
use rule::edges::{extend, Edge};

fn sum(numerators: &[u32]) -> u64 {
    numerators.iter().map(|m| u64::from(*m)).sum()
}

/// The right answer, changed where its number is this one.
fn changed(case: &Case, number: u32, change: impl FnOnce(&mut Outcome)) -> Outcome {
    let mut outcome = RIGHT.answer(case);
    if outcome.answer == number {
        change(&mut outcome);
    }
    outcome
}

fn ordered(case: &Case, order: [u32; 7]) -> Outcome {
    Tracer { order, ..RIGHT }.answer(case)
}

fn outside(case: &Case, outside: fn(&[u64], u64) -> bool) -> Outcome {
    Tracer { outside, ..RIGHT }.answer(case)
}

fn weighed(case: &Case, heavy: fn(&[u32]) -> bool) -> Outcome {
    Tracer { heavy, ..RIGHT }.answer(case)
}

fn extended(case: &Case, extend: fn(i64, usize, Edge) -> Option<usize>) -> Outcome {
    Tracer { extend, ..RIGHT }.answer(case)
}

/// The right call of another case, which takes the list's number of entries from this one.
fn of(case: &Case, change: fn(&mut Case)) -> Outcome {
    let mut other = case.clone();
    change(&mut other);
    RIGHT.answer(&other)
}

/// What lies this far before a line and after it, as if nothing ended there.
const FAR: usize = 1024;

/// An axis without edges: coordinates, those before the line negative, and what each is worth.
fn unended(tracer: &Tracer, case: &Case, side: u32, at: u64) -> Vec<(i64, u128)> {
    let row = tracer.axis(case, Edge::None, side as usize + 2 * FAR, at as usize + FAR);
    worthy(&row).into_iter().map(|i| (i as i64 - FAR as i64, row[i])).collect()
}

/// Edges once, at the full size: an entry for each coordinate that comes to a place, in the order of the places.
fn unmerged(tracer: &Tracer, case: &Case) -> Vec<[u64; 2]> {
    let edge = Edge::of(case.edge).unwrap();
    let (w, place) = (u64::from(case.w), case.place);
    let across = unended(tracer, case, case.w, place % w);
    let mut points = Vec::new();
    for (cy, down) in unended(tracer, case, case.h, place / w) {
        for (cx, across) in &across {
            let at = (extend(*cx, case.w as usize, edge), extend(cy, case.h as usize, edge));
            if let (Some(x), Some(y)) = at {
                points.push([(y * case.w as usize + x) as u64, (across * down) as u64]);
            }
        }
    }
    points.sort_by_key(|point| point[0]);
    points
}

/// The same with the entries of a place in one.
fn merged(tracer: &Tracer, case: &Case) -> Vec<[u64; 2]> {
    let mut points: Vec<[u64; 2]> = Vec::new();
    for [place, share] in unmerged(tracer, case) {
        match points.last_mut().filter(|last| last[0] == place) {
            Some(last) => last[1] += share,
            None => points.push([place, share]),
        }
    }
    points
}

fn by_columns(tracer: &Tracer, case: &Case) -> Vec<[u64; 2]> {
    let mut points = (RIGHT.listed)(tracer, case);
    points.sort_by_key(|point| (point[0] % u64::from(case.w), point[0]));
    points
}

/// Under Wrap from half a side before the output on.
fn from_the_window(tracer: &Tracer, case: &Case) -> Vec<[u64; 2]> {
    let mut points = (RIGHT.listed)(tracer, case);
    if case.edge == 1 {
        let [w, h] = [case.w, case.h].map(u64::from);
        let turned = |at: u64, middle: u64, side: u64| (at + side + side / 2 - middle) % side;
        let key = |place: u64| (turned(place / w, case.place / w, h), turned(place % w, case.place % w, w));
        points.sort_by_key(|point| key(point[0]));
    }
    points
}

fn with_zeros(tracer: &Tracer, case: &Case) -> Vec<[u64; 2]> {
    let [across, down] = tracer.axes(case);
    let point = |place: usize| {
        let (x, y) = (place % case.w as usize, place / case.w as usize);
        [place as u64, (across[x] * down[y]) as u64]
    };
    (0..case.w as usize * case.h as usize).map(point).collect()
}

/// From the first point of a row to its last, zeros between them too.
fn with_inner_zeros(tracer: &Tracer, case: &Case) -> Vec<[u64; 2]> {
    let [across, down] = tracer.axes(case);
    let (columns, rows) = (worthy(&across), worthy(&down));
    let (Some(first), Some(last)) = (columns.first(), columns.last()) else { return Vec::new() };
    let point = |x: usize, y: usize| [(y * case.w as usize + x) as u64, (across[x] * down[y]) as u64];
    rows.into_iter().flat_map(|y| (*first..=*last).map(move |x| point(x, y))).collect()
}

fn lists(case: &Case, listed: fn(&Tracer, &Case) -> Vec<[u64; 2]>) -> Outcome {
    Tracer { listed, ..RIGHT }.answer(case)
}

/// The entries of a right listing, each otherwise.
fn entries(case: &Case, change: fn(&Case, &mut [u64])) -> Outcome {
    changed(case, 0, |outcome| {
        let count = 2 * outcome.numbers[0] as usize;
        outcome.list[..count].chunks_exact_mut(2).for_each(|entry| change(case, entry));
    })
}

/// What both entries can do wrong: places, kernels, levels, edges and the order of the checks.
const BOTH: [Wrong; 36] = [
    ("edges once, at the full size", |case| {
        if case.entry == Entry::Shares {
            return lists(case, merged);
        }
        changed(case, 0, |outcome| {
            let found = merged(&RIGHT, case).into_iter().find(|point| point[0] == case.second_place);
            outcome.numbers[0] = found.map_or(0, |point| point[1]);
        })
    }),
    ("level sizes by floor", |case| Tracer { coarser: |side| (side / 2).max(1), ..RIGHT }.answer(case)),
    ("level sizes one more", |case| Tracer { coarser: |side| side / 2 + 1, ..RIGHT }.answer(case)),
    ("even counts centred low", |case| {
        Tracer { tap: |taps, j| j as i64 - (taps as i64 - 1) / 2, ..RIGHT }.answer(case)
    }),
    ("the kernel turned", |case| Tracer { tap: |taps, j| (taps / 2) as i64 - j as i64, ..RIGHT }.answer(case)),
    ("halving one to the right", |case| {
        Tracer { halve: |x| [(2 * x, 1), (2 * x + 1, 3), (2 * x + 2, 3), (2 * x + 3, 1)], ..RIGHT }.answer(case)
    }),
    ("halving by two", |case| {
        Tracer { halve: |x| [(2 * x, 4), (2 * x + 1, 4), (2 * x - 1, 0), (2 * x + 2, 0)], ..RIGHT }.answer(case)
    }),
    ("doubling towards the other side", |case| {
        let double = |x: i64| [(x / 2, 3), (if x % 2 == 0 { x / 2 + 1 } else { x / 2 - 1 }, 1)];
        Tracer { double, ..RIGHT }.answer(case)
    }),
    ("doubling by the nearest", |case| Tracer { double: |x| [(x / 2, 4), (x / 2, 0)], ..RIGHT }.answer(case)),
    ("None as Duplicate", |case| {
        extended(case, |c, side, edge| extend(c, side, if edge == Edge::None { Edge::Duplicate } else { edge }))
    }),
    ("None as Wrap", |case| {
        extended(case, |c, side, edge| extend(c, side, if edge == Edge::None { Edge::Wrap } else { edge }))
    }),
    ("Mirror without its border", |case| {
        extended(case, |c, side, edge| {
            let turned = 2 * (side as i64 - 1);
            match edge {
                Edge::Mirror if turned == 0 => Some(0),
                Edge::Mirror => Some(c.rem_euclid(turned).min(turned - c.rem_euclid(turned)) as usize),
                _ => extend(c, side, edge),
            }
        })
    }),
    ("Wrap by one side at most", |case| {
        extended(case, |c, side, edge| {
            let s = side as i64;
            let near = if c < 0 {
                c + s
            } else if c >= s {
                c - s
            } else {
                c
            };
            if edge == Edge::Wrap {
                extend(near, side, Edge::None)
            } else {
                extend(c, side, edge)
            }
        })
    }),
    ("the sides exchanged", |case| of(case, |c| (c.w, c.h) = (c.h, c.w))),
    ("one decimation fewer", |case| if case.n > 3 { RIGHT.answer(case) } else { of(case, |c| c.n -= c.n.min(1)) }),
    ("n = 3 refused", |case| Tracer { most_decimations: 2, ..RIGHT }.answer(case)),
    ("n = 4 taken", |case| Tracer { most_decimations: 4, ..RIGHT }.answer(case)),
    ("21 answered 6", |case| changed(case, 21, |outcome| outcome.answer = 6)),
    ("21 from 15 on", |case| Tracer { most_decimations: 14, ..RIGHT }.answer(case)),
    ("22 answered 20", |case| changed(case, 22, |outcome| outcome.answer = 20)),
    ("the place after the last taken", |case| outside(case, |places, area| places.iter().any(|p| *p > area))),
    ("the last place refused", |case| {
        outside(case, |places, area| places.iter().any(|p| *p >= area.saturating_sub(1)))
    }),
    ("the output's place in 32 bits", |case| of(case, |c| c.place %= 1 << 32)),
    ("the output's place in 16 bits", |case| of(case, |c| c.place %= 1 << 16)),
    ("the sum modulo 2^32", |case| weighed(case, |ms| ms.iter().fold(0_u32, |s, m| s.wrapping_add(*m)) > 65536)),
    ("one numerator above 65536 alone", |case| weighed(case, |ms| ms.iter().any(|m| *m > 65536))),
    ("65536 refused", |case| weighed(case, |ms| sum(ms) >= 65536)),
    ("65537 taken", |case| weighed(case, |ms| sum(ms) > 65537)),
    ("a sum below 65536 refused", |case| weighed(case, |ms| sum(ms) != 65536)),
    ("65536 as 16 bits", |case| {
        if RIGHT.answer(case).answer == 0 {
            of(case, |c| c.numerators.iter_mut().for_each(|m| *m %= 65536))
        } else {
            RIGHT.answer(case)
        }
    }),
    ("4 before 1", |case| ordered(case, [4, 1, 9, 21, 22, 14, 17])),
    ("9 before 4", |case| ordered(case, [1, 9, 4, 21, 22, 14, 17])),
    ("21 before 9", |case| ordered(case, [1, 4, 21, 9, 22, 14, 17])),
    ("22 before 21", |case| ordered(case, [1, 4, 9, 22, 21, 14, 17])),
    ("14 before 22", |case| ordered(case, [1, 4, 9, 21, 14, 22, 17])),
    ("14 after 4, as the whole-number blur has it", |case| ordered(case, [1, 4, 14, 9, 21, 22, 17])),
];

const SHARES: [Wrong; 9] = [
    ("in and out exchanged", |case| of(case, |c| (c.place, c.second_place) = (c.second_place, c.place))),
    ("22 for the output alone", |case| outside(case, |places, area| places[0] >= area)),
    ("22 for the input alone", |case| outside(case, |places, area| places[1] >= area)),
    ("the input's place in 32 bits", |case| of(case, |c| c.second_place %= 1 << 32)),
    ("the input's place by columns", |case| {
        changed(case, 0, |outcome| {
            let (h, place) = (u64::from(case.h), case.second_place);
            let second_place = place % h * u64::from(case.w) + place / h;
            outcome.numbers[0] = RIGHT.share(&Case { second_place, ..case.clone() });
        })
    }),
    ("cut to 32 bits", |case| changed(case, 0, |outcome| outcome.numbers[0] %= 1 << 32)),
    ("over 2^32 at every n", |case| changed(case, 0, |outcome| outcome.numbers[0] >>= 10 * case.n)),
    ("a share of 0 refused", |case| {
        changed(case, 0, |outcome| outcome.answer = if outcome.numbers[0] == 0 { 22 } else { 0 })
    }),
    ("the share not set when refused", |case| {
        let mut outcome = RIGHT.answer(case);
        if outcome.answer != 0 {
            outcome.numbers[0] = 0xDEAD_BEEF_DEAD_BEEF;
        }
        outcome
    }),
];

const LISTS: [Wrong; 21] = [
    ("by columns", |case| lists(case, by_columns)),
    ("in reverse", |case| lists(case, |tracer, case| (RIGHT.listed)(tracer, case).into_iter().rev().collect())),
    ("from the window's begin under Wrap", |case| lists(case, from_the_window)),
    ("zeros listed", |case| lists(case, with_zeros)),
    ("zeros within a row listed", |case| lists(case, with_inner_zeros)),
    ("a place twice", |case| lists(case, unmerged)),
    ("shares cut to 32 bits", |case| entries(case, |_, entry| entry[1] %= 1 << 32)),
    ("share before place", |case| entries(case, |_, entry| entry.swap(0, 1))),
    ("places by columns", |case| {
        entries(case, |case, entry| {
            let w = u64::from(case.w);
            entry[0] = entry[0] % w * u64::from(case.h) + entry[0] / w;
        })
    }),
    ("places from the output", |case| entries(case, |case, entry| entry[0] = entry[0].wrapping_sub(case.place))),
    ("exact room refused", |case| Tracer { full: |room, count, _| room <= count, ..RIGHT }.answer(case)),
    ("one too few taken", |case| Tracer { full: |room, count, _| room + 1 < count, ..RIGHT }.answer(case)),
    ("room for every pixel asked", |case| Tracer { full: |room, _, area| (room as u64) < area, ..RIGHT }.answer(case)),
    ("room counted in words", |case| Tracer { full: |room, count, _| room < 2 * count, ..RIGHT }.answer(case)),
    ("the list written on 17", |case| {
        changed(case, 17, |outcome| {
            let points = (RIGHT.listed)(&RIGHT, case).concat();
            let room = outcome.list.len();
            outcome.list.copy_from_slice(&points[..room]);
        })
    }),
    ("the count answered on 17", |case| changed(case, 17, |outcome| outcome.numbers[0] = RIGHT.count(case) as u64)),
    ("the count in words", |case| changed(case, 0, |outcome| outcome.numbers[0] *= 2)),
    ("the rest of the list cleared", |case| {
        changed(case, 0, |outcome| outcome.list[2 * outcome.numbers[0] as usize..].fill(0))
    }),
    ("no points refused", |case| {
        let right = RIGHT.answer(case);
        if right.answer == 0 && right.numbers[0] == 0 {
            untouched(case, 17)
        } else {
            right
        }
    }),
    ("17 before 14", |case| ordered(case, [1, 4, 9, 21, 22, 17, 14])),
    ("17 before 22", |case| ordered(case, [1, 4, 9, 21, 17, 22, 14])),
];

/// The tracer is the rule's equal on every case that is small, and each wrong one is told.
#[test]
fn shares() {
    let small = |(case, _): &(Case, Outcome)| case.traces() && u64::from(case.w) * u64::from(case.h) <= 49;
    let cases = cases(&[Entry::Share, Entry::Shares], share_cases::all);
    for (case, outcome) in &cases {
        assert_eq!(RIGHT.answer(case), *outcome, "{case}");
        assert!(share_cases::loses_nothing(case, outcome), "{case}");
    }
    println!("{} cases", cases.len());
    let cases: Vec<(Case, Outcome)> = cases.into_iter().filter(small).collect();
    for entry in [Entry::Share, Entry::Shares] {
        told_apart(&cases, entry, &BOTH);
    }
    told_apart(&cases, Entry::Share, &SHARES);
    told_apart(&cases, Entry::Shares, &LISTS);
}

#[test]
fn explained() {
    assert_eq!(share_cases::explained(&crate::library::RULE, 60), Ok(240));
}

#[test]
fn stored() {
    for entry in [Entry::Share, Entry::Shares] {
        told_by_vectors(entry, &BOTH, &[]);
    }
    told_by_vectors(Entry::Share, &SHARES, &[]);
    told_by_vectors(Entry::Shares, &LISTS, &[]);
}
