//! Cases of area sums (request 12). The table is the lent list; wide and high are place and second place, and the old and
//! the new alpha unit and sheet.
use crate::case::{run, Case, Entry};
use crate::generate::Take;
use crate::inputs;
use crate::library::Library;
use crate::random::Random;
use rule::area::{box_sum, built};
use rule::LARGEST_SIDE;

/// How much longer a table is than it needs to be.
const ROOMS: [i64; 6] = [-1_000_000, -1, 0, 1, 3, 20];

/// Words that a table holds before a call, or that no picture has.
fn words(random: &mut Random, count: usize) -> Vec<u64> {
    (0..count).map(|_| u64::from(random.next() as u32)).collect()
}

/// The table of a picture with some entries after it, or one of any words.
fn table(random: &mut Random, w: u32, h: u32, room: i64) -> Vec<u64> {
    let area = (w * h) as usize;
    let mut table = words(random, area);
    if random.one_in(2) {
        let picture = inputs::picture(random, w, h);
        table = built(&picture, w as usize).into_iter().map(u64::from).collect();
    }
    let after = words(random, room.max(0) as usize);
    table.extend(after);
    table.truncate((area as i64 + room).max(0) as usize);
    table
}

fn build(random: &mut Random, w: u32, h: u32, room: i64) -> Case {
    let list = words(random, (i64::from(w * h) + room).max(0) as usize);
    Case { w, h, list, ..Case::plain(Entry::AreaBuild, inputs::picture(random, w, h)) }
}

/// A box of any table.
fn boxed(random: &mut Random, w: u32, h: u32, room: i64, [x, y, wide, high]: [u32; 4]) -> Case {
    let list = table(random, w, h, room);
    let plain = Case { w, h, list, x: x as i32, y: y as i32, ..Case::plain(Entry::AreaBox, Vec::new()) };
    Case { place: wide.into(), second_place: high.into(), ..plain }
}

fn update(random: &mut Random, w: u32, h: u32, room: i64, place: u64) -> Case {
    let list = table(random, w, h, room);
    let (old, new) = (random.pick(&[0, 1, 255, 77]), random.pick(&[0, 255, 78, 1]));
    Case { w, h, list, place, unit: old, sheet: new, ..Case::plain(Entry::AreaUpdate, Vec::new()) }
}

/// A box that lies inside.
fn inside(random: &mut Random, w: u32, h: u32) -> [u32; 4] {
    let mut part = |side: u32| {
        let from = random.below(side.into()) as u32;
        (from, random.range(1, i64::from(side - from)) as u32)
    };
    let ((x, wide), (y, high)) = (part(w), part(h));
    [x, y, wide, high]
}

pub fn accepted(random: &mut Random, entry: Entry) -> Case {
    let (w, h) = (random.range(1, 6) as u32, random.range(1, 6) as u32);
    let room = random.pick(&[0, 0, 1, 9]);
    match entry {
        Entry::AreaBuild => build(random, w, h, room),
        Entry::AreaBox => {
            let wanted = inside(random, w, h);
            boxed(random, w, h, room, wanted)
        }
        _ => {
            let place = random.below((w * h).into());
            update(random, w, h, room, place)
        }
    }
}

/// Makes the condition of a refusal hold; 2 is that of every picture.
pub fn spoil(random: &mut Random, case: &mut Case, number: u32) {
    let (w, h) = (case.w, case.h);
    match (number, case.entry) {
        (1, _) => {
            let bad = random.pick(&[0, LARGEST_SIDE + 1, 65536, u32::MAX]);
            (case.w, case.h) = if random.one_in(2) { (bad, h) } else { (w, bad) };
        }
        (3, _) => {
            let short = (u64::from(w) * u64::from(h)).min(1000) as usize;
            case.list.truncate(short.saturating_sub(random.pick(&[1, 1, 2, usize::MAX])));
        }
        (_, Entry::AreaBox) => {
            let far = random.pick(&[w, w.wrapping_add(1), u32::MAX, u32::MAX - 1, 1 << 31]);
            match random.below(4) {
                0 => case.place = random.pick(&[0, u64::from(w) + 1, u64::from(u32::MAX)]),
                1 => case.second_place = random.pick(&[0, u64::from(h) + 1, u64::from(u32::MAX)]),
                2 => case.x = far as i32,
                _ => case.y = far as i32,
            }
        }
        _ => {
            let area = u64::from(w) * u64::from(h);
            case.place = random.pick(&[area, area + 1, 1 << 32, (1 << 32) + area / 2, 1 << 63, u64::MAX]);
        }
    }
}

/// Every size to 4 by 4 and some to 40, with longer tables and shorter ones; sides at the limit; long pictures, bright.
fn builds(random: &mut Random, take: Take) {
    for i in 0..16 * ROOMS.len() as u32 {
        take(build(random, i % 4 + 1, i / 4 % 4 + 1, ROOMS[i as usize / 16]));
    }
    for _ in 0..60 {
        let (w, h) = (random.range(1, 40) as u32, random.range(1, 40) as u32);
        let room = random.pick(&ROOMS);
        take(build(random, w, h, room));
    }
    for (w, h) in [(LARGEST_SIDE, 1), (1, LARGEST_SIDE), (LARGEST_SIDE, 5), (700, 90)] {
        let case = build(random, w, h, 2);
        take(Case { picture: vec![255; case.picture.len()], ..case.clone() });
        take(Case { w: w + 1, ..case });
    }
}

/// Every box of 3 by 2 and of 2 by 4 from none to one past the border, some inside larger ones, and far ones.
fn boxes(random: &mut Random, take: Take) {
    for (w, h) in [(3, 2), (2, 4), (1, 1)] {
        for i in 0..(w + 2) * (w + 2) * (h + 2) * (h + 2) {
            let (x, i) = (i % (w + 2), i / (w + 2));
            let (wide, i) = (i % (w + 2), i / (w + 2));
            take(boxed(random, w, h, 1, [x, i % (h + 2), wide, i / (h + 2)]));
        }
    }
    for _ in 0..200 {
        let (w, h) = (random.range(1, 40) as u32, random.range(1, 40) as u32);
        let (wanted, room) = (inside(random, w, h), random.pick(&ROOMS));
        take(boxed(random, w, h, room, wanted));
        take(boxed(random, w, h, 0, [0, 0, w, h]));
    }
    let far = [0, 1, 3, 4, 65536, 1 << 31, u32::MAX - 2, u32::MAX];
    for i in 0..64 {
        let (x, wide) = (far[i % 8], far[i / 8]);
        take(boxed(random, 4, 3, 0, [x, 1, wide, 1]));
        take(boxed(random, 3, 4, 0, [1, x, 1, wide]));
    }
}

/// Every place of small tables and far ones; longer tables, whose rest must stay.
fn updates(random: &mut Random, take: Take) {
    for (w, h) in [(3, 1), (1, 3), (3, 2), (2, 4), (5, 5), (1, 1)] {
        let area = u64::from(w * h);
        let far = [(1 << 16) + area - 1, (1 << 32) - 1, 1 << 32, (1 << 32) + area - 1, 1 << 63, u64::MAX];
        for (place, room) in (0..area + 3).chain(far).flat_map(|place| [0, 1, 3, 9].map(|room| (place, room))) {
            take(update(random, w, h, room, place));
        }
    }
    for _ in 0..60 {
        let (w, h) = (random.range(1, 40) as u32, random.range(1, 40) as u32);
        let (place, room) = (random.below((w * h).into()), random.pick(&ROOMS));
        take(update(random, w, h, room, place));
    }
    for (w, h, place) in [(LARGEST_SIDE, 1, 9000), (1, LARGEST_SIDE, 9000), (LARGEST_SIDE, 5, 70000)] {
        take(update(random, w, h, 2, place));
    }
    let case = update(random, 2, 2, 3, 1);
    for (old, new) in [(0, 0), (255, 255), (0, 255), (255, 0), (7, 8)] {
        take(Case { unit: old, sheet: new, list: vec![0, 1, u64::from(u32::MAX), 300, 9, 9, 9], ..case.clone() });
    }
}

/// Sides that are wrong, with tables of some lengths.
fn sides(random: &mut Random, take: Take) {
    let large = [0, 1, 2, LARGEST_SIDE, LARGEST_SIDE + 1, 65536, 1 << 31, u32::MAX];
    for (w, h) in large.into_iter().flat_map(|w| large.map(|h| (w, h))) {
        for length in [0, 1, 4] {
            let list = words(random, length);
            let case = Case { w, h, list, ..Case::plain(Entry::AreaBuild, vec![9; 4]) };
            take(case.clone());
            let plain = Case { picture: Vec::new(), ..case };
            take(Case { entry: Entry::AreaUpdate, place: 1, unit: 3, sheet: 4, ..plain.clone() });
            take(Case { entry: Entry::AreaBox, place: 1, second_place: 1, ..plain });
        }
    }
}

/// All groups.
pub fn all(random: &mut Random, take: Take) {
    for group in [builds, boxes, updates, sides] {
        group(random, take);
    }
}

/// Small ones to be stored.
pub fn stored(random: &mut Random) -> Vec<Case> {
    let mut cases: Vec<Case> = [(1, 1, 0), (3, 2, 2), (2, 3, -1), (5, 1, 0), (1, 4, 3), (4, 4, 0), (2, 2, -4)]
        .map(|(w, h, room)| build(random, w, h, room))
        .into();
    for wanted in [[0, 0, 3, 2], [1, 1, 2, 1], [1, 0, 1, 2], [0, 1, 2, 1], [2, 1, 1, 1], [1, 1, 1, 1]] {
        cases.push(boxed(random, 3, 2, 1, wanted));
        cases.push(Case { list: vec![1, 3, 6, 5, 12, 21, 9], ..boxed(random, 3, 2, 1, wanted) });
    }
    for wanted in
        [[0, 0, 0, 1], [0, 0, 1, 0], [3, 0, 1, 1], [0, 2, 1, 1], [1, 0, 3, 1], [0, 1, 1, 2], [u32::MAX, 0, 2, 1]]
    {
        cases.push(boxed(random, 3, 2, 0, wanted));
    }
    cases.extend([[1, 0, u32::MAX, 1], [0, 1, 1, u32::MAX], [0, 0, 0, 0]].map(|wanted| boxed(random, 3, 2, 0, wanted)));
    cases.extend([[0, 0, 0, 0], [0, 0, 1, 1]].map(|wanted| boxed(random, 3, 2, -1, wanted)));
    cases.push(boxed(random, 7, 1, 0, [2, 0, 4, 1]));
    // a table that no picture has: 5 - 7 - 9 + 1, modulo 2^32
    cases.push(Case { list: vec![1, 9, 7, 5], ..boxed(random, 2, 2, 0, [1, 1, 1, 1]) });
    for place in (0..8).chain([1 << 32, (1 << 32) + 1, 65537, u64::MAX]) {
        cases.push(update(random, 3, 2, 2, place));
    }
    let case = update(random, 3, 1, 3, 0);
    for (old, new) in [(0, 255), (255, 0), (9, 9), (4, 5)] {
        cases.push(Case { unit: old, sheet: new, list: vec![2, u64::from(u32::MAX), 300, 7, 8, 9], ..case.clone() });
    }
    cases.extend([6, 0].map(|place| update(random, 2, 3, -1, place)));
    cases
}

/// A table built, a pixel's alpha changed, the table updated, and built afresh: the two must be the same; and boxes of a
/// built table are plain sums. How many were tried.
pub fn sequences(library: &Library, rounds: u32) -> Result<u32, String> {
    let mut random = Random::new(16);
    for round in 0..rounds {
        let (w, h) = (random.range(1, 40) as u32, random.range(1, 40) as u32);
        let room = random.pick(&[0, 1, 7]);
        let case = build(&mut random, w, h, room);
        let before = run(library, &case);
        let (place, new) = (random.below((w * h).into()), random.byte());
        let at = 4 * place as usize + 3;
        let mut changed = Case { list: before.list.clone(), ..case.clone() };
        changed.picture[at] = new;
        let call = Case {
            entry: Entry::AreaUpdate,
            picture: Vec::new(),
            place,
            unit: case.picture[at].into(),
            ..changed.clone()
        };
        let updated = run(library, &Case { sheet: new.into(), ..call });
        let afresh = run(library, &changed);
        let [x, y, wide, high] = inside(&mut random, w, h);
        let rows = changed.picture.chunks_exact(4 * w as usize).skip(y as usize).take(high as usize);
        let alphas = rows.flat_map(|row| row.chunks_exact(4).skip(x as usize).take(wide as usize));
        let plain: u64 = alphas.map(|pixel| u64::from(pixel[3])).sum();
        let call = Case { entry: Entry::AreaBox, picture: Vec::new(), list: afresh.list.clone(), ..changed };
        let asked = Case { x: x as i32, y: y as i32, place: wide.into(), second_place: high.into(), ..call };
        let found = run(library, &asked);
        let good = [before.answer, updated.answer, afresh.answer, found.answer] == [0; 4];
        if !good || updated.list != afresh.list || found.numbers[0] != plain {
            return Err(format!("round {round}: {case}, place {place} to {new}, box {x} {y} {wide} {high}"));
        }
    }
    Ok(rounds)
}

/// Boxes about the largest one that is answered: by the sides, the largest below, the smallest above, and the whole.
const LARGEST: [(u32, u32, [u32; 4]); 12] = [
    (16384, 16384, [0, 0, 16384, 1028]),
    (16384, 16384, [0, 0, 16384, 1029]),
    (16384, 16384, [0, 0, 16384, 16384]),
    (16384, 16384, [7, 9, 15424, 1092]),
    (16384, 16384, [960, 15292, 15424, 1092]),
    (16384, 16384, [7, 9, 1609, 10468]),
    (16384, 16384, [14775, 5916, 1609, 10468]),
    (16384, 16384, [1, 1, 4104, 4104]),
    (16384, 16384, [1, 1, 4104, 4105]),
    (16384, 1029, [0, 0, 16384, 1028]),
    (16384, 1029, [0, 1, 16384, 1028]),
    (16384, 1029, [0, 0, 16384, 1029]),
];

/// How a box of a table of w by h is answered.
type Answer<'a> = dyn Fn(&[u32], u32, u32, [u32; 4]) -> (u32, u64) + 'a;

/// What a way to answer a box makes of a large table: one of zeros but for the four entries, so that no memory is needed.
pub fn largest(answer: &Answer) -> Vec<(u32, u64)> {
    let mut table = vec![0_u32; 16384 * 16384];
    let mut answers = Vec::new();
    for (i, (w, h, [x, y, wide, high])) in LARGEST.into_iter().enumerate() {
        let corners = [(x + wide, y + high), (x, y + high), (x + wide, y), (x, y)];
        let places: Vec<usize> = corners
            .iter()
            .filter(|(x, y)| *x > 0 && *y > 0)
            .map(|(x, y)| (*y as usize - 1) * w as usize + *x as usize - 1)
            .collect();
        places.iter().zip([5, 4_000_000_000, 77, 1 << 31]).for_each(|(place, word)| table[*place] = word + i as u32);
        answers.push(answer(&table[..w as usize * h as usize], w, h, [x, y, wide, high]));
        places.iter().for_each(|place| table[*place] = 0);
    }
    answers
}

/// A box as the library answers it.
pub fn library_box(library: &Library, table: &[u32], w: u32, h: u32, [x, y, wide, high]: [u32; 4]) -> (u32, u64) {
    let mut sum = 0xDEAD_BEEF;
    // SAFETY: the table is lent for the call.
    let number = unsafe { (library.area_box)(table.as_ptr(), table.len(), w, h, x, y, wide, high, &mut sum) };
    (number, sum)
}

pub fn rule_box(table: &[u32], w: u32, h: u32, [x, y, wide, high]: [u32; 4]) -> (u32, u64) {
    box_sum(table, w, h, x, y, wide, high)
}

/// Call after call, and the largest boxes.
pub fn compare(library: &Library, rounds: u32) -> bool {
    let answer = sequences(library, rounds);
    match &answer {
        Ok(rounds) => println!("area sums call after call {rounds}"),
        Err(input) => println!("DIFFERENCE: area sums call after call: {input}"),
    }
    let (found, right) = (largest(&|t, w, h, b| library_box(library, t, w, h, b)), largest(&rule_box));
    println!("largest boxes {}: {}", right.len(), if found == right { "agree" } else { "DIFFERENCE" });
    answer.is_ok() && found == right
}

/// By hand, 2 GiB: the whole table of the largest picture with every alpha at 255, which passes 2^32; boxes of it; and
/// an update of its first pixel.
pub fn large(library: &Library, side: u32) -> bool {
    let count = (side as usize).pow(2);
    let (picture, mut table) = (vec![255_u8; 4 * count], vec![7_u32; count]);
    // SAFETY of all calls: the buffers are lent for the call, and do not overlap.
    let built =
        unsafe { (library.area_build)(picture.as_ptr(), picture.len(), side, side, table.as_mut_ptr(), table.len()) };
    drop(picture);
    let right = |i: usize, first: u64| {
        let pixels = (i % side as usize + 1) as u64 * (i / side as usize + 1) as u64;
        (255 * (pixels - 1) + first) as u32
    };
    let entries = (0..count).filter(|i| table[*i] == right(*i, 255)).count();
    let last = table[count - 1];
    let boxes = LARGEST.iter().filter(|(w, h, _)| *w <= side && *h <= side).map(|(_, _, wanted)| {
        let [_, _, wide, high] = wanted.map(u64::from);
        let fits = wide * high <= rule::area::LARGEST_BOX;
        let (number, sum) = library_box(library, &table, side, side, *wanted);
        (number, sum) == if fits { (0, 255 * wide * high) } else { (20, 0) }
    });
    let boxes: Vec<bool> = boxes.collect();
    let updated = unsafe { (library.area_update)(table.as_mut_ptr(), table.len(), side, side, 0, 255, 3) };
    let again = (0..count).filter(|i| table[*i] == right(*i, 3)).count();
    println!("{side} square of alpha 255: build {built}, {entries} of {count} entries right, last {last}");
    println!("boxes right {boxes:?}; update of place 0 {updated}, {again} entries right");
    [built, updated] == [0; 2] && [entries, again] == [count; 2] && boxes.iter().all(|right| *right)
}
