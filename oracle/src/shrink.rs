//! The smallest input that still shows something, by greedy steps.
use crate::case::{Case, Entry};
use crate::recipe_cases;

/// The picture without one column.
fn without_column(case: &Case, gone: u32) -> Case {
    let keep = |(i, _): &(usize, &[u8])| *i as u32 % case.w != gone;
    let picture = case.picture.chunks(4).enumerate().filter(keep).flat_map(|(_, p)| p.to_vec()).collect();
    fitted(Case { w: case.w - 1, picture, ..case.clone() })
}

fn without_row(case: &Case, gone: u32) -> Case {
    let row = 4 * case.w as usize;
    let mut picture = case.picture.clone();
    picture.drain(gone as usize * row..(gone as usize + 1) * row);
    fitted(Case { h: case.h - 1, picture, ..case.clone() })
}

/// Work buffers exactly as long as the picture, where there are any.
fn fitted(case: Case) -> Case {
    if case.scratch.max(case.copy) == 0 {
        return case;
    }
    Case { scratch: case.picture.len(), copy: case.picture.len(), ..case }
}

fn sizes(case: &Case) -> Vec<Case> {
    let mut simpler = vec![fitted(case.clone())];
    let whole = case.picture.len() as u128 == rule::refusal::bytes(case.w, case.h);
    if whole && !case.is_plate() && case.entry != Entry::PamRead {
        // the halves first, so that a large picture shrinks soon
        for (keep_w, keep_h) in [(case.w / 2, case.h), (case.w, case.h / 2)] {
            if keep_w > 0 && keep_h > 0 {
                let rows = case.picture.chunks(4 * case.w as usize).take(keep_h as usize);
                let picture = rows.flat_map(|row| row[..4 * keep_w as usize].to_vec()).collect();
                simpler.push(fitted(Case { w: keep_w, h: keep_h, picture, ..case.clone() }));
            }
        }
        if case.w > 1 {
            simpler.extend((0..case.w.min(64)).map(|x| without_column(case, x)));
        }
        if case.h > 1 {
            simpler.extend((0..case.h.min(64)).map(|y| without_row(case, y)));
        }
    }
    simpler
}

/// Simpler offsets: whole before broken, then by size, then positive before negative.
fn nearer(value: f32) -> Vec<f32> {
    let odd = |v: f32| (v.fract() != 0.0, v.abs(), v.is_sign_negative());
    let mut near = vec![0.0, 1.0, -1.0, -value, value.round(), (value / 2.0).trunc(), value - value.signum()];
    near.retain(|v| odd(*v) < odd(value));
    near
}

fn numbers(case: &Case) -> Vec<Case> {
    let mut simpler = Vec::new();
    let mut add = |change: &dyn Fn(&mut Case)| {
        let mut changed = case.clone();
        change(&mut changed);
        simpler.push(changed);
    };
    for n in [0, case.n / 2, case.n.saturating_sub(1)] {
        add(&|c| c.n = n);
    }
    for edge in 0..case.edge.min(4) {
        add(&|c| c.edge = edge);
    }
    for dx in nearer(case.dx) {
        add(&|c| c.dx = dx);
    }
    for dy in nearer(case.dy) {
        add(&|c| c.dy = dy);
    }
    add(&|c| c.strength = 1.0);
    add(&|c| c.composite = c.composite.min(1));
    for i in 0..4 {
        for component in SIMPLE.into_iter().filter(|v| oddness(v) < oddness(&case.colour[i])) {
            add(&|c| c.colour[i] = component);
        }
    }
    for x in [0, case.x / 2] {
        add(&|c| c.x = x);
    }
    for y in [0, case.y / 2] {
        add(&|c| c.y = y);
    }
    simpler
}

fn kernels(case: &Case) -> Vec<Case> {
    let mut lists = vec![vec![1.0], vec![0.5, 0.5]];
    for j in 0..case.weights.len() {
        let mut fewer = case.weights.clone();
        fewer.remove(j);
        lists.push(fewer);
        for weight in SIMPLE {
            let mut simpler = case.weights.clone();
            simpler[j] = weight;
            lists.push(simpler);
        }
    }
    lists.retain(|weights| (weights.len(), cost(weights)) < (case.weights.len(), cost(&case.weights)));
    let weights = lists.into_iter().map(|weights| Case { weights, ..case.clone() });
    weights.chain(whole_numbers(case)).collect()
}

/// Fewer numerators, and smaller ones.
fn whole_numbers(case: &Case) -> Vec<Case> {
    let mut lists = Vec::new();
    for (j, numerator) in case.numerators.iter().enumerate() {
        let mut fewer = case.numerators.clone();
        fewer.remove(j);
        lists.push(fewer);
        for smaller in [0, numerator / 2].into_iter().filter(|smaller| smaller < numerator) {
            let mut simpler = case.numerators.clone();
            simpler[j] = smaller;
            lists.push(simpler);
        }
    }
    lists.into_iter().map(|numerators| Case { numerators, ..case.clone() }).collect()
}

/// Weights and colour components, the simplest first.
const SIMPLE: [f32; 3] = [1.0, 0.5, 0.0];

fn oddness(value: &f32) -> u32 {
    SIMPLE.iter().position(|v| v.to_bits() == value.to_bits()).unwrap_or(9) as u32
}

/// How odd a kernel is.
fn cost(weights: &[f32]) -> u32 {
    weights.iter().map(oddness).sum()
}

fn bytes(case: &Case) -> Vec<Case> {
    let with = |i: usize, byte: u8| {
        let mut picture = case.picture.clone();
        picture[i] = byte;
        Case { picture, ..case.clone() }
    };
    let some = case.picture.len().min(400);
    let lit = (0..some).filter(|i| case.picture[*i] > 0);
    let mut simpler: Vec<Case> =
        lit.flat_map(|i| [0, case.picture[i] / 2, case.picture[i] - 1].map(|b| with(i, b))).collect();
    if !case.is_plate() {
        let alone = |p: &[u8]| [0, 0, 0, *p.iter().max().unwrap()];
        let picture = case.picture.chunks_exact(4).flat_map(alone).collect();
        simpler.insert(0, Case { picture, ..case.clone() });
    }
    simpler
}

/// What the entries after the first release take: second buffer and list shorter and simpler, and small numbers.
fn later(case: &Case) -> Vec<Case> {
    let mut simpler = Vec::new();
    let shorter =
        [0, case.other.len() / 2, case.other.len().saturating_sub(1)].map(|length| case.other[..length].to_vec());
    let dark = (0..case.other.len().min(400)).filter(|i| case.other[*i] > 0).map(|i| {
        let mut other = case.other.clone();
        other[i] = 0;
        other
    });
    simpler.extend(shorter.into_iter().chain(dark).map(|other| Case { other, ..case.clone() }));
    let fields = if case.entry == Entry::Recipes { recipe_cases::WORDS } else { 2 };
    let entries = case.list.len() / fields;
    let fewer = [0, entries / 2, entries.saturating_sub(1)].map(|count| case.list[..fields * count].to_vec());
    simpler.extend(fewer.map(|list| Case { list, ..case.clone() }));
    simpler.push(Case { list: case.list.iter().map(|word| word / 2).collect(), ..case.clone() });
    simpler.push(Case { used: case.used / 2, ..case.clone() });
    simpler.push(Case { unit: case.unit / 2, ..case.clone() });
    simpler.push(Case { sheet: case.sheet / 2, ..case.clone() });
    if case.traces() {
        simpler.extend([(case.w / 2, case.h), (case.w, case.h / 2)].map(|(w, h)| Case { w, h, ..case.clone() }));
        simpler.extend([case.place / 2, case.place.saturating_sub(1)].map(|place| Case { place, ..case.clone() }));
        simpler.push(Case { second_place: case.second_place / 2, ..case.clone() });
    }
    if case.is_plate() || case.entry == Entry::PamRead {
        let length = case.picture.len().saturating_sub(1);
        simpler.push(Case { picture: case.picture[..length].to_vec(), ..case.clone() });
    }
    simpler
}

/// Takes each step after which `shows` still holds, until none is left.
pub fn shrink(mut case: Case, shows: &mut dyn FnMut(&Case) -> bool) -> Case {
    loop {
        let before = case.clone();
        for steps in [sizes, numbers, kernels, bytes, later] {
            while let Some(step) = steps(&case).into_iter().find(|c| different(c, &case) && shows(c)) {
                case = step;
            }
        }
        if !different(&before, &case) {
            return case;
        }
    }
}

/// By their text, since NaN differs from itself.
fn different(a: &Case, b: &Case) -> bool {
    format!("{a:?}") != format!("{b:?}")
}
