//! Cases of shares (request 14). The output's place is the place, the input's the second place, and the list is points.
use crate::case::{run, Case, Entry, Outcome};
use crate::generate::Take;
use crate::inputs;
use crate::library::{Library, RULE};
use crate::random::Random;
use crate::tracing;
use crate::whole_cases::{kernel, limits};
use rule::edges::Edge;
use rule::exact;
use rule::scheme::Plane;
use rule::share::MOST_DECIMATIONS;
use rule::{LARGEST_SIDE, MOST_TAPS};

/// How many entries more a list has than there are points.
const ROOMS: [i64; 7] = [-1_000_000, -2, -1, 0, 1, 2, 30];

const TAPS: [usize; 12] = [1, 2, 2, 3, 3, 4, 5, 7, 8, 13, 32, 33];

/// What a list holds before a call: numbers of every length.
fn words(random: &mut Random, entries: usize) -> Vec<u64> {
    (0..2 * entries).map(|_| random.next() >> random.below(64)).collect()
}

/// A call without places.
fn asked(entry: Entry, [w, h]: [u32; 2], n: u32, edge: u32, numerators: Vec<u32>) -> Case {
    Case { w, h, n, edge, numerators, ..Case::plain(entry, Vec::new()) }
}

fn share(case: &Case, place: u64, second_place: u64) -> Case {
    Case { entry: Entry::Share, place, second_place, list: Vec::new(), ..case.clone() }
}

/// A list with room for so many entries more than there are points, or fewer.
fn listing(random: &mut Random, case: &Case, place: u64, room: i64) -> Case {
    let case = Case { entry: Entry::Shares, place, second_place: 0, ..case.clone() };
    let entries = (tracing::RIGHT.count(&case) as i64 + room).max(0);
    Case { list: words(random, entries as usize), ..case }
}

fn area(case: &Case) -> u64 {
    u64::from(case.w) * u64::from(case.h)
}

/// A place inside: often a corner.
fn inside(random: &mut Random, case: &Case) -> u64 {
    let (w, area) = (u64::from(case.w), area(case));
    let any = random.below(area);
    random.pick(&[0, w - 1, area - w, area - 1, any, any, any])
}

pub fn accepted(random: &mut Random, entry: Entry) -> Case {
    let sides = [random.range(1, 6) as u32, random.range(1, 6) as u32];
    let (n, edge) = (random.below(u64::from(MOST_DECIMATIONS) + 1) as u32, random.below(4) as u32);
    let taps = random.range(1, MOST_TAPS as i64) as usize;
    let case = asked(entry, sides, n, edge, kernel(random, taps));
    let (place, second) = (inside(random, &case), inside(random, &case));
    let room = random.pick(&[0, 0, 1, 9]);
    if entry == Entry::Share {
        share(&case, place, second)
    } else {
        listing(random, &case, place, room)
    }
}

/// A place that is outside, also where only some of its bits are looked at.
fn outside(random: &mut Random, area: u64) -> u64 {
    let far = [area, area + 1, (1 << 16) + area / 2, 1 << 32, (1 << 32) + area / 2, 1 << 63, u64::MAX];
    random.pick(&far).max(area)
}

/// Makes the condition of a refusal hold.
pub fn spoil(random: &mut Random, case: &mut Case, number: u32) {
    match number {
        1 => {
            let bad = random.pick(&[0, LARGEST_SIDE + 1, 65536, 1 << 31, u32::MAX]);
            (case.w, case.h) = if random.one_in(2) { (bad, case.h) } else { (case.w, bad) };
        }
        21 => case.n = random.pick(&[MOST_DECIMATIONS + 1, 5, 14, 15, 256, u32::MAX]),
        22 => {
            let far = outside(random, area(case));
            if case.entry == Entry::Share && random.one_in(2) {
                case.second_place = far;
            } else {
                case.place = far;
            }
        }
        _ => {
            if tracing::RIGHT.count(case) == 0 && !case.numerators.is_empty() {
                case.numerators = vec![65536];
            }
            let fewer = tracing::RIGHT.count(case).saturating_sub(1);
            case.list.truncate(2 * random.pick(&[0, fewer, fewer, fewer / 2]));
        }
    }
}

/// Every size to 12 by 12, in every mode at every n, with every second tap count even.
fn sizes(random: &mut Random, take: Take) {
    for i in 0..144 * 16 {
        let (w, h, edge, n) = (i % 12 + 1, i / 12 % 12 + 1, i / 144 % 4, i / 576);
        let taps = random.pick(&TAPS);
        let case = asked(Entry::Shares, [w, h], n, edge, kernel(random, taps));
        let (place, second) = (inside(random, &case), inside(random, &case));
        let room = random.pick(&[0, 0, 1, -1, 3]);
        take(share(&case, place, second));
        take(listing(random, &case, place, room));
    }
}

/// Thin pictures to 60, in every mode; and about the seam where levels are odd.
fn thin(random: &mut Random, take: Take) {
    for (long, edge) in (13..=60).flat_map(|long| (0..4).map(move |edge| (long, edge))) {
        let (short, taps, n) = (random.pick(&[1, 1, 2]), random.pick(&TAPS), random.below(4) as u32);
        let sides = if random.one_in(2) { [long, short] } else { [short, long] };
        let case = asked(Entry::Shares, sides, n, edge, kernel(random, taps));
        let (place, second) = (inside(random, &case), inside(random, &case));
        take(share(&case, place, second));
        take(listing(random, &case, place, 0));
    }
    for (sides, edge) in [[644, 1], [1, 644], [301, 1]].into_iter().flat_map(|s| [0, 1, 2].map(|edge| (s, edge))) {
        let case = asked(Entry::Shares, sides, 3, edge, vec![1985; MOST_TAPS]);
        for place in [0, 1, area(&case) - 1] {
            take(listing(random, &case, place, 0));
            take(listing(random, &case, place, -1));
        }
    }
}

/// Every kernel at a limit of the sum, in every mode, with every n.
fn kernels(random: &mut Random, take: Take) {
    for (numerators, i) in limits().into_iter().flat_map(|kernel| (0..16).map(move |i| (kernel.clone(), i))) {
        let sides = [random.range(1, 7) as u32, random.range(1, 7) as u32];
        let case = asked(Entry::Shares, sides, i / 4, i % 4, numerators);
        let (place, second) = (inside(random, &case), inside(random, &case));
        take(share(&case, place, place));
        take(share(&case, place, second));
        take(listing(random, &case, place, 1));
    }
    for taps in 0..MOST_TAPS + 3 {
        let mut case = asked(Entry::Shares, [4, 3], taps as u32 / 4 % 4, taps as u32 % 4, kernel(random, taps.max(1)));
        case.numerators.resize(taps, 0);
        take(share(&case, 5, 6));
        take(listing(random, &case, 7, 0));
    }
}

/// Every n about the limit, and far ones, in every mode.
fn depths(random: &mut Random, take: Take) {
    for (n, edge) in [2, 3, 4, 5, 6, 14, 15, 256, u32::MAX].into_iter().flat_map(|n| (0..4).map(move |edge| (n, edge)))
    {
        let sides = [random.range(1, 9) as u32, random.range(1, 9) as u32];
        let case = asked(Entry::Shares, sides, n, edge, kernel(random, 3));
        let place = inside(random, &case);
        take(share(&case, place, place));
        take(Case { place, list: words(random, area(&case) as usize), ..case });
    }
}

/// Pairs of places: all of small pictures, the corners, and far ones on either side.
fn places(random: &mut Random, take: Take) {
    for (i, sides) in [[1, 1], [3, 2], [2, 5], [7, 1], [1, 4], [300, 250]].into_iter().enumerate() {
        let case = asked(Entry::Shares, sides, i as u32 % 3, i as u32 % 4, vec![1, 65534, 0, 1]);
        let (w, area) = (u64::from(case.w), area(&case));
        let mut near: Vec<u64> = (0..area.min(12)).chain([w - 1, w, area - w, area - 1]).collect();
        let far = [area, area + 1, 2 * area, 65536 + area - 1, 1 << 32, (1 << 32) + area - 1, 1 << 63, u64::MAX];
        near.extend(far);
        near.retain(|place| area < 1000 || *place > 11);
        for (place, second) in near.iter().flat_map(|place| near.iter().map(move |second| (*place, *second))) {
            take(share(&case, place, second));
        }
        for place in near.into_iter().filter(|place| area < 1000 || *place >= area) {
            take(listing(random, &case, place, 0));
            take(Case { place, list: Vec::new(), ..case.clone() });
        }
    }
}

/// Every size to 4 by 4, with more room and less than is needed, and none; kernels of zeros need none.
fn rooms(random: &mut Random, take: Take) {
    for i in 0..16 * 4 {
        let (w, h, edge) = (i % 4 + 1, i / 4 % 4 + 1, i / 16);
        for (j, room) in ROOMS.into_iter().enumerate() {
            let taps = random.pick(&[1, 2, 3, 4]);
            let case = asked(Entry::Shares, [w, h], j as u32 % 4, edge, kernel(random, taps));
            let place = inside(random, &case);
            take(listing(random, &case, place, room));
        }
        let zeros = asked(Entry::Shares, [w, h], i % 4, edge, vec![0; 1 + i as usize % 33]);
        take(listing(random, &zeros, 0, 0));
        take(listing(random, &zeros, 0, 3));
    }
}

/// Sides that are wrong, and shares at the limit of the sides, from one end to the other.
fn sides(random: &mut Random, take: Take) {
    let large = [0, 1, 2, LARGEST_SIDE, LARGEST_SIDE + 1, 65536, 1 << 31, u32::MAX];
    for (w, h) in large.into_iter().flat_map(|w| large.map(|h| (w, h))) {
        let case = asked(Entry::Shares, [w, h], 1, 1, vec![65536, 0]);
        let far = area(&case);
        if rule::refusal::sides(w, h) {
            take(share(&case, 0, 1));
            take(Case { place: 1, list: words(random, 2), ..case.clone() });
        }
        take(share(&case, far, 0));
        take(Case { place: far, list: words(random, 2), ..case });
    }
    for (i, sides) in [[LARGEST_SIDE, 1], [1, LARGEST_SIDE], [LARGEST_SIDE - 1, 2]].into_iter().enumerate() {
        for n in 0..4 {
            let numerators = kernel(random, MOST_TAPS - i);
            let case = asked(Entry::Share, sides, n, (n + i as u32) % 4, numerators);
            let last = area(&case) - 1;
            for (place, second) in [(0, last), (last, 0), (last, last - 1), (1, 3), (0, 0), (last / 2, last / 2)] {
                take(share(&case, place, second));
            }
        }
    }
}

/// All groups.
pub fn all(random: &mut Random, take: Take) {
    for group in [sizes, thin, kernels, depths, places, rooms, sides] {
        group(random, take);
    }
}

/// Small ones to be stored.
pub fn stored(random: &mut Random) -> Vec<Case> {
    let mut cases = Vec::new();
    let both = |random: &mut Random, case: &Case, place: u64, second: u64, room: i64| {
        [share(case, place, second), listing(random, case, place, room)]
    };
    for (i, numerators) in limits().into_iter().enumerate() {
        let case = asked(Entry::Shares, [3, 2], i as u32 % 4, i as u32 / 4 % 4, numerators);
        cases.extend(both(random, &case, i as u64 % 6, i as u64 / 6 % 6, i as i64 % 2));
    }
    for i in 0..16 {
        let sides = [random.range(1, 6) as u32, random.range(1, 6) as u32];
        let taps = random.range(1, 6) as usize;
        let case = asked(Entry::Shares, sides, i / 4, i % 4, kernel(random, taps));
        let (place, second) = (inside(random, &case), inside(random, &case));
        cases.extend(both(random, &case, place, second, i64::from(i) % 3 - 1));
    }
    // the last column and the first row under Wrap; more taps than pixels; the middle of an even count
    for (i, sides) in [[5, 3], [9, 2], [2, 7], [1, 1], [4, 4], [11, 1]].into_iter().enumerate() {
        let case = asked(Entry::Shares, sides, i as u32 % 4, 1, vec![1, 65000, 500, 7, 28]);
        cases.extend(both(random, &case, u64::from(case.w) - 1, 0, 0));
        let n = (i as u32 + 2) % 4;
        cases.extend(both(random, &Case { n, edge: 2, numerators: vec![20000, 45536], ..case }, 0, 1, 1));
    }
    // a kernel with a hole
    let case = asked(Entry::Shares, [5, 2], 0, 0, vec![30000, 0, 35536]);
    cases.extend(both(random, &case, 2, 1, 4));
    let case = asked(Entry::Shares, [3, 2], 0, 3, vec![65536]);
    for place in [4, 5, 6, 7, 65541, 1 << 32, (1 << 32) + 5, u64::MAX] {
        cases.extend([share(&case, place, 5), share(&case, 5, place), listing(random, &case, place, 0)]);
    }
    for n in [3, 4, 14] {
        cases.extend(both(random, &Case { n, ..case.clone() }, 2, 2, 2));
    }
    cases
}

/// A kernel of 65536 loses nothing but under None, so that the listed shares of an output sum to 2^(10n+32).
pub fn loses_nothing(case: &Case, outcome: &Outcome) -> bool {
    let whole = case.numerators.iter().map(|m| u64::from(*m)).sum::<u64>() == 65536 && case.edge != 3;
    if case.entry != Entry::Shares || outcome.answer != 0 || !whole {
        return true;
    }
    points(outcome).iter().map(|point| u128::from(point[1])).sum::<u128>() == exact::scale(case.n)
}

/// The points that a listing has found.
fn points(outcome: &Outcome) -> Vec<[u64; 2]> {
    let entries = outcome.list.chunks_exact(2).take(outcome.numbers[0] as usize);
    entries.map(|entry| [entry[0], entry[1]]).collect()
}

/// One output of a picture explained: over its listing share times channel is the exact blur of each channel, which the
/// whole-number blur is near; places rise; and the share of a place is the listed one, or 0.
fn explains(library: &Library, random: &mut Random, case: &Case, picture: &[u8]) -> bool {
    let found = run(library, case);
    let points = points(&found);
    let numerators: Vec<u64> = case.numerators.iter().map(|m| u64::from(*m)).collect();
    let edge = Edge::of(case.edge).expect("a mode");
    let blurred = {
        let (list, scratch) = (Vec::new(), picture.len());
        run(library, &Case { entry: Entry::BlurWhole, picture: picture.to_vec(), list, scratch, ..case.clone() })
    };
    let scale = exact::scale(case.n);
    let explained = (0..4).all(|channel| {
        let values: Vec<u8> = picture.iter().skip(channel).step_by(4).copied().collect();
        let product = |point: &[u64; 2]| u128::from(point[1]) * u128::from(values[point[0] as usize]);
        let sum: u128 = points.iter().map(product).sum();
        let plane = Plane { w: case.w as usize, h: case.h as usize, values: values.clone() };
        let right = exact::blur(&numerators, edge, case.n, &plane).values[case.place as usize];
        let byte = blurred.picture[4 * case.place as usize + channel];
        sum == right && sum.abs_diff(u128::from(byte) * scale) <= u128::from(2 * case.n + 1) * scale
    });
    let rise = points.windows(2).all(|pair| pair[0][0] < pair[1][0]);
    let agrees = (0..4).all(|_| {
        let second_place = random.below(area(case));
        let listed = points.iter().find(|point| point[0] == second_place).map_or(0, |point| point[1]);
        let answer = run(library, &share(case, case.place, second_place));
        (answer.answer, answer.numbers[0]) == (0, listed)
    });
    [found.answer, blurred.answer] == [0; 2] && explained && rise && agrees && loses_nothing(case, &found)
}

/// So many outputs in each mode, each of a picture and a kernel of its own. How many there were.
pub fn explained(library: &Library, outputs: u32) -> Result<u32, String> {
    let mut random = Random::new(19);
    for i in 0..4 * outputs {
        let most = if i % 400 < 4 { 24 } else { 12 };
        let sides = [random.range(1, most) as u32, random.range(1, most) as u32];
        let taps = random.pick(&TAPS);
        let case = asked(Entry::Shares, sides, i / 4 % 4, i % 4, kernel(&mut random, taps));
        let list = words(&mut random, area(&case) as usize);
        let case = Case { place: inside(&mut random, &case), list, ..case };
        let picture = inputs::picture(&mut random, case.w, case.h);
        if !explains(library, &mut random, &case, &picture) {
            return Err(format!("{case} of the picture {picture:?}"));
        }
    }
    Ok(4 * outputs)
}

/// Listings of large pictures beside those that are traced back, since the rule tries every input. How many there were,
/// and the most points of one.
fn large(library: &Library) -> Result<(usize, u64), String> {
    let mut random = Random::new(20);
    let (mut count, mut most) = (0, 0);
    let sides = [[16384, 16384], [4096, 4096], [644, 644], [16384, 2], [3, 16384], [16383, 4097]];
    for (i, sides) in sides.into_iter().enumerate() {
        for edge in 0..4 {
            let taps = random.pick(&[MOST_TAPS, MOST_TAPS, MOST_TAPS - 1]);
            let case = asked(Entry::Shares, sides, if i % 2 == 0 { 3 } else { edge }, edge, kernel(&mut random, taps));
            let (w, area) = (u64::from(case.w), area(&case));
            let any = random.below(area);
            for place in [0, w - 1, w + 1, area / 2 + w / 2, area - w, area - 1, any] {
                let case = listing(&mut random, &case, place, 1);
                let found = run(library, &case);
                if found != tracing::RIGHT.answer(&case) {
                    return Err(case.to_string());
                }
                (count, most) = (count + 1, most.max(found.numbers[0]));
            }
        }
    }
    Ok((count, most))
}

/// Outputs explained, and large listings where the rule does not stand in.
pub fn compare(library: &Library, outputs: u32) -> bool {
    let answer = explained(library, outputs);
    match &answer {
        Ok(outputs) => println!("outputs explained {outputs}"),
        Err(input) => println!("DIFFERENCE: shares and the exact blur: {input}"),
    }
    if library.shares as usize == RULE.shares as usize {
        println!("large listings: none, since the rule stands in");
        return answer.is_ok();
    }
    let large = large(library);
    match &large {
        Ok((count, most)) => println!("large listings {count}, of up to {most} points"),
        Err(input) => println!("DIFFERENCE: large listing: {input}"),
    }
    answer.is_ok() && large.is_ok()
}
