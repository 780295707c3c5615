//! The cases, group by group.
use crate::area_cases;
use crate::case::{Case, Entry, ENTRIES};
use crate::inputs::{self, NOT_FINITE, NO_SHARE, OFFSETS};
use crate::larger_cases;
use crate::mend_cases;
use crate::pam_cases;
use crate::plane_cases;
use crate::plate_cases;
use crate::premultiplied;
use crate::random::Random;
use crate::recipe_cases;
use crate::share_cases;
use crate::whole_cases;
use rule::{LARGEST_SIDE, MOST_DECIMATIONS, MOST_TAPS};

pub type Take<'a> = &'a mut dyn FnMut(Case);

/// How much of each group to run.
#[derive(Clone, Copy, PartialEq)]
pub enum Amount {
    Quick,
    Full,
}

impl Amount {
    fn of<T>(self, quick: T, full: T) -> T {
        if self == Amount::Quick {
            quick
        } else {
            full
        }
    }
}

/// All groups in order.
pub fn all(amount: Amount, take: Take) {
    let mut random = Random::new(1);
    small_blurs(&mut random, amount, take);
    long_blurs(&mut random, amount, take);
    limits(&mut random, amount, take);
    tall(&mut Random::new(18), amount, take);
    shifts(&mut random, take);
    far_shifts(&mut random, take);
    shadow_alphas(&mut random, amount, take);
    shadow_colours(take);
    if amount == Amount::Full {
        compositing(&mut random, take);
        largest(&mut random, take);
        larger_cases::longest_jobs(&mut random, take);
    }
    larger_cases::longest_plates(&mut random, take);
    plane_cases::by_blocks(&mut Random::new(13), take);
    refusals(&mut random, &ENTRIES, amount.of(8, 60), u32::MAX, take);
    samples(&mut random, take);
    premultiplied::counterexamples().into_iter().for_each(&mut *take);
    for _ in 0..amount.of(1, 10) {
        plate_cases::all(&mut random, take);
        pam_cases::all(&mut random, take);
        mend_cases::all(&mut random, take);
        larger_cases::all(&mut random, take);
        whole_cases::all(&mut random, take);
        premultiplied::all(&mut random, take);
        area_cases::all(&mut random, take);
        share_cases::all(&mut random, take);
        plane_cases::all(&mut random, take);
        recipe_cases::all(&mut random, take);
    }
    for _ in 0..amount.of(30_000, 900_000) {
        take(any(&mut random));
    }
}

/// An n that is accepted.
fn any_depth(random: &mut Random) -> u32 {
    random.below(u64::from(MOST_DECIMATIONS) + 1) as u32
}

/// A work buffer at least as long as needed.
pub fn longer(random: &mut Random, needed: usize) -> usize {
    needed + random.pick(&[0, 0, 1, 3, 64])
}

/// A blur that is accepted.
pub fn blur(random: &mut Random, w: u32, h: u32, n: u32, edge: u32, taps: usize) -> Case {
    let case = Case::new(Entry::Blur, w, h, inputs::picture(random, w, h));
    Case {
        scratch: longer(random, case.picture.len()),
        weights: inputs::weights(random, taps),
        n,
        edge,
        strength: inputs::strength(random),
        ..case
    }
}

pub fn shift(random: &mut Random, w: u32, h: u32, dx: f32, dy: f32) -> Case {
    Case { dx, dy, ..Case::new(Entry::Shift, w, h, inputs::picture(random, w, h)) }
}

/// A shadow that is accepted.
pub fn shadow(random: &mut Random, w: u32, h: u32, n: u32, edge: u32, taps: usize) -> Case {
    let case = blur(random, w, h, n, edge, taps);
    Case {
        entry: Entry::Shadow,
        copy: longer(random, case.picture.len()),
        dx: inputs::offset(random, w),
        dy: inputs::offset(random, h),
        colour: [(); 4].map(|_| inputs::component(random)),
        composite: random.pick(&[0, 1, u32::MAX]),
        ..case
    }
}

/// Every size to 9 by 9, mode and n; every tap count in turn, or each of them.
fn small_blurs(random: &mut Random, amount: Amount, take: Take) {
    let mut turn = 0;
    for i in 0..81 * 4 * (MOST_DECIMATIONS + 1) {
        let (w, h, edge, n) = (i % 9 + 1, i / 9 % 9 + 1, i / 81 % 4, i / 324);
        for _ in 0..amount.of(2, MOST_TAPS) {
            take(blur(random, w, h, n, edge, turn % MOST_TAPS + 1));
            turn += 1;
        }
    }
}

/// Long thin pictures, and some that are neither.
fn long_blurs(random: &mut Random, amount: Amount, take: Take) {
    let lengths = (10..=70).chain([127, 128, 129, 255, 256, 257, 300, 511, 513, 1025]);
    for length in lengths {
        for edge in 0..4 {
            for _ in 0..amount.of(2, 24) {
                let side = random.pick(&[1, 1, 2, 3, 5]);
                let (w, h) = if random.one_in(2) { (side, length) } else { (length, side) };
                let n = any_depth(random);
                let taps = random.range(1, MOST_TAPS as i64) as usize;
                take(blur(random, w, h, n, edge, taps));
            }
        }
    }
    for _ in 0..amount.of(4, 60) {
        let (w, h) = (random.range(30, 150) as u32, random.range(30, 150) as u32);
        let (n, edge) = (any_depth(random), random.below(4) as u32);
        take(blur(random, w, h, n, edge, 5));
        take(shadow(random, w, h, n, edge, 4));
    }
}

/// Narrow pictures of about 64 rows and of more: so many short rows are made as one line.
fn tall(random: &mut Random, amount: Amount, take: Take) {
    for i in 0..18 * 4 * 4 {
        let (w, edge, h) = (i % 18 + 1, i / 18 % 4, [63, 64, 65, 130][i as usize / 72]);
        for _ in 0..amount.of(1, 8) {
            let (n, taps) = (random.below(4) as u32, random.range(1, MOST_TAPS as i64) as usize);
            take(blur(random, w, h, n, edge, taps));
            take(shadow(random, w, h, n, edge, taps));
        }
    }
}

/// Sides at the limit.
fn limits(random: &mut Random, amount: Amount, take: Take) {
    let sides = [LARGEST_SIDE, LARGEST_SIDE - 1];
    for i in 0..amount.of(60, 600) {
        let (edge, n) = (i % 4, i / 4 % (MOST_DECIMATIONS + 1));
        let (long, short) = (random.pick(&sides), random.pick(&[1, 1, 2]));
        let (w, h) = if (i + i / 4) % 2 == 0 { (long, short) } else { (short, long) };
        let taps = random.pick(&[1, 2, 3, 8, 33]);
        take(blur(random, w, h, n, edge, taps));
        if i % 5 == 0 {
            take(shadow(random, w, h, n, edge, 3));
            let (dx, dy) = (inputs::offset(random, w), inputs::offset(random, h));
            take(shift(random, w, h, dx, dy));
        }
    }
}

/// Every size to 9 by 9 moved by every whole offset that reaches two past the border.
fn shifts(random: &mut Random, take: Take) {
    for i in 0..81 {
        let (w, h) = (i % 9 + 1, i / 9 + 1);
        let reach = |side: u32| -(side as i64) - 2..=side as i64 + 2;
        for dx in reach(w) {
            for dy in reach(h) {
                take(shift(random, w, h, dx as f32, dy as f32));
            }
        }
    }
}

/// Offsets at every limit, in pairs.
fn far_shifts(random: &mut Random, take: Take) {
    for (w, h) in [(1, 1), (2, 1), (3, 1), (1, 3), (3, 3), (5, 4), (130, 1), (1, 130)] {
        for dx in OFFSETS {
            for dy in OFFSETS {
                take(shift(random, w, h, dx, dy));
            }
        }
    }
}

/// Every alpha under many colours.
fn shadow_alphas(random: &mut Random, amount: Amount, take: Take) {
    for k in 0..amount.of(300, 2000) {
        let mut case = shadow(random, 256, 1, 0, 0, 1);
        for (i, pixel) in case.picture.chunks_exact_mut(4).enumerate() {
            pixel[3] = i as u8;
        }
        if k < 256 {
            case.colour = [(); 4].map(|_| k as f32 / 255.0);
        }
        take(Case { strength: 0.0, dx: 0.0, dy: 0.0, ..case });
    }
}

/// Every colour's channel at every alpha, three channels a picture: the shadow of a row lies on the next one, which is
/// empty; with the original and without.
fn shadow_colours(take: Take) {
    let picture = (0..512).flat_map(|i| [0, 0, 0, u8::try_from(i).unwrap_or(0)]).collect();
    let plain = Case { weights: vec![1.0], strength: 0.0, dy: 1.0, ..Case::new(Entry::Shadow, 256, 2, picture) };
    for k in (0..256).step_by(3) {
        let colour = [k, (k + 1).min(255), (k + 2).min(255), 255].map(|c| c as f32 / 255.0);
        take(Case { colour, ..plain.clone() });
        take(Case { colour, composite: 1, ..plain.clone() });
    }
}

/// Every triple of source, destination and source alpha: three destinations a picture. Thirty-three
/// weights of 1 make every alpha of the blurred copy 255.
fn compositing(random: &mut Random, take: Take) {
    for k in (0..256).step_by(3) {
        let mut case = shadow(random, 256, 256, 0, 0, MOST_TAPS);
        for (i, pixel) in case.picture.chunks_exact_mut(4).enumerate() {
            pixel.copy_from_slice(&[i as u8, i as u8, i as u8, (i / 256) as u8]);
        }
        let colour = [k, (k + 1).min(255), (k + 2).min(255), 255].map(|c| c as f32 / 255.0);
        let weights = vec![1.0; MOST_TAPS];
        take(Case { weights, colour, dx: 0.0, dy: 0.0, strength: 1.0, composite: 1, ..case });
    }
}

/// The largest square of version 1 and 2; the command `large` has that of version 3.
fn largest(random: &mut Random, take: Take) {
    let side = 4096;
    for (edge, n) in [(0, 0), (1, 1), (2, MOST_DECIMATIONS)] {
        take(blur(random, side, side, n, edge, 3));
    }
    take(shift(random, side, side, 1.0, -4095.0));
    take(shadow(random, side, side, 1, 3, 2));
}

/// The refusal numbers of an entry.
pub fn numbers(entry: Entry) -> &'static [u32] {
    match entry {
        Entry::Blur | Entry::BlurPlanes => &[1, 2, 3, 4, 5, 6, 7, 9],
        Entry::Shift | Entry::ShiftPlanes => &[1, 2, 7],
        Entry::Shadow | Entry::ShadowPlanes => &[1, 2, 3, 4, 5, 6, 7, 8, 9],
        Entry::Check => &[1, 2],
        Entry::View | Entry::Sample => &[1, 2, 9],
        Entry::Spread => &[4, 6, 11],
        Entry::PlatePicture => &[10, 12],
        Entry::PlateJob => &[3, 10],
        Entry::PlateStart => &[10, 13],
        Entry::PlateAdd => &[10, 1, 2, 13],
        Entry::PlateLabel => &[10, 12],
        Entry::PamRead => &[15, 3],
        Entry::PamWrite => &[1, 2, 16, 3],
        Entry::Mend => &[1, 2, 17],
        Entry::Rebuild => &[1, 2, 18],
        Entry::BlurWhole => &[1, 2, 3, 4, 14, 6, 9],
        Entry::AreaBuild | Entry::ToPlanes | Entry::FromPlanes => &[1, 2, 3],
        Entry::AreaBox | Entry::AreaUpdate => &[1, 3, 20],
        Entry::Recipes => &[1, 2, 3, 19, 4, 5, 6, 7, 8, 9],
        Entry::Share => &[1, 4, 9, 21, 22, 14],
        Entry::Shares => &[1, 4, 9, 21, 22, 14, 17],
    }
}

fn bad_sides(random: &mut Random, case: &mut Case) {
    let bad = random.pick(&[0, LARGEST_SIDE + 1, 65536, 1 << 30, u32::MAX]);
    // so that 4wh is the picture's length all the same, which is not a great one
    let near = bad == 0 || bad == LARGEST_SIDE + 1;
    let other = if near { 1 } else { case.w };
    (case.w, case.h) = if random.one_in(2) { (bad, other) } else { (other, bad) };
    if near {
        let length = 4 * case.w as usize * case.h as usize;
        case.pixels().resize(length, 7);
    }
    if case.convolves() {
        (case.scratch, case.copy) = (case.picture.len(), case.picture.len());
    }
}

fn bad_length(random: &mut Random, case: &mut Case) {
    let length = case.pixels().len() as i64 + random.pick(&[-4, -1, 1, 4, -1_000_000]);
    case.pixels().resize(length.max(0) as usize, 9);
}

fn short_work(random: &mut Random, case: &mut Case) {
    let needed = match case.entry {
        Entry::PamRead | Entry::PamWrite => return pam_cases::spoil_room(random, case),
        Entry::ToPlanes | Entry::FromPlanes => return plane_cases::spoil_room(random, case),
        Entry::PlateJob => {
            let bodies = rule::plate::pictures(&case.picture).unwrap_or_default();
            bodies.iter().map(|p| p.length as usize).max().unwrap_or(0)
        }
        _ => rule::refusal::bytes(case.w, case.h).min(1 << 20) as usize,
    };
    let work = if (case.casts() || case.entry == Entry::Recipes) && random.one_in(2) {
        &mut case.copy
    } else {
        &mut case.scratch
    };
    *work = needed.saturating_sub(random.pick(&[1, 4, usize::MAX]));
}

fn bad_weight(random: &mut Random, case: &mut Case) {
    let off_grid = [NO_SHARE.as_slice(), &[1e-45, 0.1, 0.25]].concat();
    let bad = random.pick(if case.entry == Entry::Spread { &off_grid } else { &NO_SHARE });
    let last = case.weights.len() as u64;
    if last > 0 {
        let inner = random.below(last);
        let at = random.pick(&[0, last - 1, inner]);
        case.weights[at as usize] = bad;
    }
}

fn bad_number(random: &mut Random, case: &mut Case) {
    let bad = random.pick(&NOT_FINITE);
    match (case.on_picture().unwrap_or(case.entry), random.below(3)) {
        (Entry::Blur, _) | (Entry::Shadow, 0) => case.strength = bad,
        (_, 1) => case.dx = bad,
        _ => case.dy = bad,
    }
}

fn bad_plate(random: &mut Random, case: &mut Case) {
    match case.entry {
        Entry::PlateStart => case.unit = random.pick(&plate_cases::VERSIONS),
        Entry::PlateAdd => plate_cases::spoil_plate(random, case),
        Entry::PlateLabel => plate_cases::spoil_table(random, case),
        _ => case.picture = inputs::bad_plate(random, 1),
    }
}

/// Makes the condition of a refusal hold, where the rest of the case lets it.
fn spoil(random: &mut Random, case: &mut Case, number: u32) {
    match number {
        1 | 3 | 20 if case.is_area() => area_cases::spoil(random, case, number),
        1 | 17 | 21 | 22 if case.traces() => share_cases::spoil(random, case, number),
        4.. if case.entry == Entry::Recipes => recipe_cases::spoil(random, case, number),
        1 => bad_sides(random, case),
        2 => bad_length(random, case),
        3 => short_work(random, case),
        4 if case.is_whole() => case.numerators.resize(random.pick(&[0, MOST_TAPS + 1, 100]), 1),
        4 => case.weights.resize(random.pick(&[0, MOST_TAPS + 1, 100]), 0.01),
        5 | 11 => bad_weight(random, case),
        6 => case.n = random.pick(&[MOST_DECIMATIONS + 1, 64, u32::MAX]),
        7 => bad_number(random, case),
        8 => case.colour[random.below(4) as usize] = random.pick(&NO_SHARE),
        9 => case.edge = random.pick(&[4, 5, 255, u32::MAX]),
        10 => bad_plate(random, case),
        13 => plate_cases::spoil_room(random, case),
        14 => whole_cases::spoil_sum(random, case),
        15 => pam_cases::spoil_file(random, case),
        16 => pam_cases::spoil_pixel(random, case),
        17 => mend_cases::spoil_room(random, case),
        18 => mend_cases::spoil_list(random, case),
        _ => case.x = random.pick(&[64, 65, i32::MIN, -1]),
    }
}

/// A case of an entry that is accepted.
pub fn accepted(random: &mut Random, entry: Entry) -> Case {
    match entry {
        Entry::PlateStart | Entry::PlateAdd | Entry::PlateLabel => return plate_cases::accepted(random, entry),
        Entry::PamRead | Entry::PamWrite => return pam_cases::accepted(random, entry),
        Entry::Mend | Entry::Rebuild => return mend_cases::accepted(random, entry),
        Entry::BlurWhole => return whole_cases::accepted(random),
        Entry::AreaBuild | Entry::AreaBox | Entry::AreaUpdate => return area_cases::accepted(random, entry),
        Entry::Share | Entry::Shares => return share_cases::accepted(random, entry),
        Entry::Recipes => return recipe_cases::accepted(random),
        Entry::ToPlanes | Entry::FromPlanes => return plane_cases::converting(random, entry),
        Entry::BlurPlanes | Entry::ShiftPlanes | Entry::ShadowPlanes => return plane_cases::accepted(random, entry),
        _ => (),
    }
    let (w, h) = (random.range(1, 6) as u32, random.range(1, 6) as u32);
    let (n, edge) = (any_depth(random), random.below(4) as u32);
    let taps = random.range(1, MOST_TAPS as i64) as usize;
    let mut case = shadow(random, w, h, n, edge, taps);
    case.entry = entry;
    match entry {
        Entry::Spread => case.weights = inputs::on_grid(&inputs::numerators(random, taps, 65536)),
        Entry::PlatePicture | Entry::PlateJob => {
            let plate = inputs::plate(random, 1);
            let count = i64::from(plate[2]);
            let x = random.range(0, (count - 1).max(0)) as i32;
            return Case { x, scratch: longer(random, plate.len()), ..Case::new(entry, 0, 0, plate) };
        }
        _ => (),
    }
    (case.x, case.y) = (coordinate(random, w), coordinate(random, h));
    case
}

/// Every set of at most `most` of the conditions of each entry.
pub fn refusals(random: &mut Random, entries: &[Entry], rounds: u32, most: u32, take: Take) {
    for entry in entries.iter().copied() {
        let numbers = numbers(entry);
        for set in (0..1_u32 << numbers.len()).filter(|set| set.count_ones() <= most) {
            for _ in 0..rounds {
                let mut case = accepted(random, entry);
                // in the order of the checks: what 1 does to the sides decides what 2 and 3 must do
                for (bit, number) in numbers.iter().enumerate() {
                    if set >> bit & 1 == 1 {
                        spoil(random, &mut case, *number);
                    }
                }
                take(case);
            }
        }
    }
}

fn coordinate(random: &mut Random, side: u32) -> i32 {
    let near = 3 * i64::from(side) + 2;
    match random.below(5) {
        0..=2 => random.range(-near, near) as i32,
        3 => random.pick(&[i32::MIN, i32::MIN + 1, i32::MAX, i32::MAX - 1, 65536, -65536]),
        _ => random.next() as i32,
    }
}

/// Every coordinate to three sizes past the border, on every size to 5 by 5.
fn samples(random: &mut Random, take: Take) {
    for i in 0..100 {
        let (w, h, edge) = (i % 5 + 1, i / 5 % 5 + 1, i / 25);
        let case = Case { edge, ..Case::new(Entry::Sample, w, h, inputs::picture(random, w, h)) };
        let reach = |side: u32| -3 * (side as i32)..=3 * side as i32;
        for x in reach(w) {
            take(Case { x, y: random.range(-15, 15) as i32, ..case.clone() });
        }
        for y in reach(h) {
            take(Case { x: random.range(-15, 15) as i32, y, ..case.clone() });
        }
    }
}

/// A small case of one entry that is accepted, with simple numbers.
pub fn small(random: &mut Random, entry: Entry) -> Case {
    let (w, h) = (random.range(1, 7) as u32, random.range(1, 7) as u32);
    let (n, edge, taps) = (random.below(3) as u32, random.below(4) as u32, random.range(1, 3) as usize);
    let mut case = Case { entry, strength: 1.0, ..shadow(random, w, h, n, edge, taps) };
    let lit = random.range(1, 8) as u64;
    case.picture.iter_mut().filter(|_| random.below(8) >= lit).for_each(|byte| *byte = 0);
    case
}

/// Any entry, mostly accepted.
fn any(random: &mut Random) -> Case {
    let (w, h) = match random.below(10) {
        0..=5 => (random.range(1, 9) as u32, random.range(1, 9) as u32),
        6..=7 => (random.range(1, 20) as u32, random.range(1, 20) as u32),
        8 => (random.range(1, 60) as u32, random.range(1, 3) as u32),
        _ => (random.range(1, 3) as u32, random.range(1, 60) as u32),
    };
    let n = random.pick(&[0, 0, 1, 1, 1, 2, 2, 3, 3, 4, 5, 6, 8, 12, 13, 14]);
    let edge = random.pick(&[0, 1, 1, 2, 3]);
    let taps = random.pick(&[1, 1, 2, 3, 3, 4, 5, 7, 8, 13, 32, 33]);
    match random.below(12) {
        0..=4 => blur(random, w, h, n, edge, taps),
        5..=7 => shadow(random, w, h, n, edge, taps),
        8..=9 => {
            let (dx, dy) = (inputs::offset(random, w), inputs::offset(random, h));
            shift(random, w, h, dx, dy)
        }
        _ => {
            let entry = random.pick(&ENTRIES);
            let mut case = accepted(random, entry);
            if random.one_in(3) {
                let number = random.pick(numbers(entry));
                spoil(random, &mut case, number);
            }
            case
        }
    }
}
