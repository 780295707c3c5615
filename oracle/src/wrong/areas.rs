//! Wrong area sums.
use super::{cases, changed, lawful, refused, told_apart, told_by_vectors, Wrong};
use crate::area_cases::{self, largest, rule_box};
use crate::case::{Case, Entry, Outcome};
use rule::area::{built, wrong_box};
use rule::refusal;

fn area(case: &Case) -> usize {
    (u64::from(case.w) * u64::from(case.h)).min(1 << 32) as usize
}

fn short(case: &Case) -> bool {
    (case.list.len() as u128) < u128::from(case.w) * u128::from(case.h)
}

/// The answer of a box or an update whose checks have another order.
fn ordered(case: &Case, order: [u32; 3]) -> Outcome {
    let [x, y] = [case.x as u32, case.y as u32];
    let wrong = if case.entry == Entry::AreaBox {
        wrong_box(case.w, case.h, x, y, case.place as u32, case.second_place as u32)
    } else {
        u128::from(case.place) >= u128::from(case.w) * u128::from(case.h)
    };
    let holds = |number: &&u32| match number {
        1 => refusal::sides(case.w, case.h),
        3 => short(case),
        _ => wrong,
    };
    order.iter().find(holds).map_or_else(|| lawful(case), |number| refused(case, *number))
}

/// A build whose table is another.
fn tabled(case: &Case, table: fn(&Case) -> Vec<u64>) -> Outcome {
    changed(case, 0, |outcome| {
        let new = table(case);
        outcome.list[..new.len()].copy_from_slice(&new);
    })
}

/// The table of a picture with the channel in the place of alpha.
fn of_channel(case: &Case, channel: usize) -> Vec<u64> {
    let picture: Vec<u8> = case.picture.chunks_exact(4).flat_map(|p| [0, 0, 0, p[channel]]).collect();
    built(&picture, case.w as usize).into_iter().map(u64::from).collect()
}

fn right(case: &Case) -> Vec<u64> {
    of_channel(case, 3)
}

fn exclusive(case: &Case) -> Vec<u64> {
    let (w, right) = (case.w as usize, right(case));
    (0..right.len()).map(|i| if i % w > 0 && i / w > 0 { right[i - w - 1] } else { 0 }).collect()
}

/// Sums of each row alone, or of each column.
fn lines(case: &Case, rows: bool) -> Vec<u64> {
    let w = case.w as usize;
    let alpha = |i: usize| u64::from(case.picture[4 * i + 3]);
    let sum = |i: usize| -> u64 {
        let from = if rows { i / w * w } else { i % w };
        (from..=i).step_by(if rows { 1 } else { w }).map(alpha).sum()
    };
    (0..area(case)).map(sum).collect()
}

const BUILDS: [Wrong; 12] = [
    ("exclusive sums", |case| tabled(case, exclusive)),
    ("red for alpha", |case| tabled(case, |case| of_channel(case, 0))),
    ("blue for alpha", |case| tabled(case, |case| of_channel(case, 2))),
    ("rows only", |case| tabled(case, |case| lines(case, true))),
    ("columns only", |case| tabled(case, |case| lines(case, false))),
    ("kept modulo 2^16", |case| tabled(case, |case| right(case).iter().map(|sum| sum % 65536).collect())),
    ("cleared past wh", |case| changed(case, 0, |outcome| outcome.list[area(case)..].fill(0))),
    ("running past wh", |case| {
        changed(case, 0, |outcome| {
            let last = outcome.list[area(case) - 1];
            outcome.list[area(case)..].fill(last);
        })
    }),
    ("the last row left out", |case| {
        changed(case, 0, |outcome| {
            let row = area(case) - case.w as usize..area(case);
            outcome.list[row.clone()].copy_from_slice(&case.list[row]);
        })
    }),
    ("3 before 2", |case| if lawful(case).answer == 2 && short(case) { refused(case, 3) } else { lawful(case) }),
    ("a table of exactly wh refused", |case| {
        if lawful(case).answer == 0 && case.list.len() == area(case) {
            refused(case, 3)
        } else {
            lawful(case)
        }
    }),
    ("the table counted in bytes", |case| {
        if lawful(case).answer == 0 && case.list.len() < 4 * area(case) {
            refused(case, 3)
        } else {
            lawful(case)
        }
    }),
];

/// An accepted box by another combination of its corners: at x + wide and y + high, x and y + high, x + wide and y, x and y.
fn combined(case: &Case, combine: fn([u32; 4]) -> u64) -> Outcome {
    changed(case, 0, |outcome| {
        let at = |x: u64, y: u64| match (x.checked_sub(1), y.checked_sub(1)) {
            (Some(x), Some(y)) => case.list[(y * u64::from(case.w) + x) as usize] as u32,
            _ => 0,
        };
        let (x, y) = (u64::from(case.x as u32), u64::from(case.y as u32));
        let (right, low) = (x + case.place, y + case.second_place);
        outcome.numbers[0] = combine([at(right, low), at(x, low), at(right, y), at(x, y)]);
    })
}

/// A refused box taken where another test says so; what it answers is wrong in any case.
fn taken(case: &Case, wrong: fn(&Case) -> bool) -> Outcome {
    changed(case, 20, |outcome| {
        if !wrong(case) {
            outcome.answer = 0;
        }
    })
}

const BOXES: [Wrong; 16] = [
    ("the last sign wrong", |case| {
        combined(case, |[d, l, t, c]| d.wrapping_sub(l).wrapping_sub(t).wrapping_sub(c).into())
    }),
    ("the second sign wrong", |case| {
        combined(case, |[d, l, t, c]| d.wrapping_add(l).wrapping_sub(t).wrapping_add(c).into())
    }),
    ("the corner left out", |case| combined(case, |[d, l, t, _]| d.wrapping_sub(l).wrapping_sub(t).into())),
    ("not modulo 2^32", |case| {
        combined(case, |[d, l, t, c]| (u64::from(d) + u64::from(c)).wrapping_sub(u64::from(l) + u64::from(t)))
    }),
    ("held at 0", |case| combined(case, |[d, l, t, c]| d.saturating_add(c).saturating_sub(l).saturating_sub(t).into())),
    ("the last entry alone", |case| combined(case, |[d, ..]| d.into())),
    ("x and y exchanged", |case| {
        let Case { x, y, place, second_place, .. } = *case;
        lawful(&Case { x: y, y: x, place: second_place, second_place: place, ..case.clone() })
    }),
    ("w and h exchanged", |case| lawful(&Case { w: case.h, h: case.w, ..case.clone() })),
    ("x + wide in 32 bits", |case| {
        taken(case, |case| {
            let ends = (case.x as u32).wrapping_add(case.place as u32);
            let low = u64::from(case.y as u32) + case.second_place;
            case.place == 0 || case.second_place == 0 || ends > case.w || low > case.h.into()
        })
    }),
    ("y + high in 32 bits", |case| {
        taken(case, |case| {
            let ends = (case.y as u32).wrapping_add(case.second_place as u32);
            let right = u64::from(case.x as u32) + case.place;
            case.place == 0 || case.second_place == 0 || ends > case.h || right > case.w.into()
        })
    }),
    ("an empty box taken", |case| {
        taken(case, |case| {
            let (x, y) = (u64::from(case.x as u32), u64::from(case.y as u32));
            x + case.place > case.w.into() || y + case.second_place > case.h.into()
        })
    }),
    ("a box at the border refused", |case| {
        let right = u64::from(case.x as u32) + case.place;
        if lawful(case).answer == 0 && right == case.w.into() {
            refused(case, 20)
        } else {
            lawful(case)
        }
    }),
    ("a sum answered on 20", |case| changed(case, 20, |outcome| outcome.numbers[0] = 7)),
    ("20 before 3", |case| ordered(case, [1, 20, 3])),
    ("20 before 1", |case| ordered(case, [20, 1, 3])),
    ("3 before 1", |case| ordered(case, [3, 1, 20])),
];

/// An accepted update that touches other entries: whether it does, of an entry's column and row and those of the place.
fn touching(case: &Case, touches: fn([usize; 4]) -> bool) -> Outcome {
    moved(case, case.sheet, case.unit as u16, area(case), touches)
}

/// The entries below `end` that are touched gain one number and lose another.
fn moved(case: &Case, gain: u16, loss: u16, end: usize, touches: fn([usize; 4]) -> bool) -> Outcome {
    changed(case, 0, |outcome| {
        outcome.list = case.list.clone();
        let w = case.w as usize;
        let (x, y) = (case.place as usize % w, case.place as usize / w);
        for i in (0..end).filter(|i| touches([i % w, i / w, x, y])) {
            let entry = outcome.list[i] as u32;
            outcome.list[i] = entry.wrapping_add(gain.into()).wrapping_sub(loss.into()).into();
        }
    })
}

const TOUCHES: fn([usize; 4]) -> bool = |[i, j, x, y]| i >= x && j >= y;

const UPDATES: [Wrong; 17] = [
    ("whole rows", |case| touching(case, |[_, j, _, y]| j >= y)),
    ("whole columns", |case| touching(case, |[i, _, x, _]| i >= x)),
    ("strictly below", |case| touching(case, |[i, j, x, y]| i >= x && j > y)),
    ("strictly right", |case| touching(case, |[i, j, x, y]| i > x && j >= y)),
    ("transposed", |case| touching(case, |[i, j, x, y]| i >= y && j >= x)),
    ("its own row alone", |case| touching(case, |[i, j, x, y]| i >= x && j == y)),
    ("its own entry alone", |case| touching(case, |[i, j, x, y]| i == x && j == y)),
    ("from the place on, in scan order", |case| touching(case, |[i, j, x, y]| j > y || j == y && i >= x)),
    ("running past wh", |case| moved(case, case.sheet, case.unit as u16, case.list.len(), TOUCHES)),
    ("cleared past wh", |case| changed(case, 0, |outcome| outcome.list[area(case)..].fill(0))),
    ("old and new exchanged", |case| moved(case, case.unit as u16, case.sheet, area(case), TOUCHES)),
    ("held at 0", |case| moved(case, case.sheet.saturating_sub(case.unit as u16), 0, area(case), TOUCHES)),
    ("the place in 32 bits", |case| lawful(&Case { place: case.place as u32 as u64, ..case.clone() })),
    ("the place in 16 bits", |case| lawful(&Case { place: case.place as u16 as u64, ..case.clone() })),
    ("the place after the last taken", |case| {
        if lawful(case).answer == 20 && case.place == area(case) as u64 {
            refused(case, 0)
        } else {
            lawful(case)
        }
    }),
    ("20 before 3", |case| ordered(case, [1, 20, 3])),
    ("20 before 1", |case| ordered(case, [20, 1, 3])),
];

#[test]
fn areas() {
    let cases = cases(&[Entry::AreaBuild, Entry::AreaBox, Entry::AreaUpdate], area_cases::all);
    told_apart(&cases, Entry::AreaBuild, &BUILDS);
    told_apart(&cases, Entry::AreaBox, &BOXES);
    told_apart(&cases, Entry::AreaUpdate, &UPDATES);
    for (case, outcome) in cases.iter().filter(|(case, _)| case.entry == Entry::AreaUpdate) {
        assert_eq!(touching(case, TOUCHES), *outcome, "{case}");
        assert_eq!(ordered(case, [1, 3, 20]), *outcome, "{case}");
    }
}

/// The largest box is answered and the next is not; other limits answer otherwise.
#[test]
fn largest_boxes() {
    let right = largest(&rule_box);
    let numbers: Vec<u32> = right.iter().map(|(number, _)| *number).collect();
    assert_eq!(numbers, [0, 20, 20, 0, 0, 20, 20, 0, 20, 0, 0, 20]);
    for limit in [16843007, 16843012, 16777216, 1 << 28, 65536] {
        let limited = |table: &[u32], w: u32, h: u32, wanted: [u32; 4]| {
            let fits = u64::from(wanted[2]) * u64::from(wanted[3]) <= limit;
            match rule_box(table, w, h, wanted) {
                (20, _) if fits => (0, 0),
                (0, _) if !fits => (20, 0),
                answer => answer,
            }
        };
        assert_ne!(largest(&limited), right, "{limit}");
    }
}

#[test]
fn call_after_call() {
    assert_eq!(area_cases::sequences(&crate::library::RULE, 300), Ok(300));
}

#[test]
fn stored() {
    told_by_vectors(Entry::AreaBuild, &BUILDS, &["kept modulo 2^16"]);
    told_by_vectors(Entry::AreaBox, &BOXES, &[]);
    told_by_vectors(Entry::AreaUpdate, &UPDATES, &[]);
}
