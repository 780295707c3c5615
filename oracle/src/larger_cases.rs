//! Cases at the limits of request 11: sides to 16384, n to 14, and plates of version 3 to 16 MiB.
use crate::case::{Case, Entry};
use crate::generate::{self, Take};
use crate::inputs;
use crate::mend_cases;
use crate::pam_cases;
use crate::plate_cases;
use crate::random::Random;
use rule::plate::{entry_size, longest, HEAD, NEWEST};
use rule::{LARGEST_SIDE, MOST_DECIMATIONS};

/// The sides of a row and of a column of the largest length.
const LINES: [(u32, u32); 2] = [(LARGEST_SIDE, 1), (1, LARGEST_SIDE)];
/// Offsets about the largest side.
const OFFSETS: [f32; 9] = [1.0, -1.0, 16383.0, -16383.0, 16384.0, -16384.0, 16383.5, -32768.0, 49153.0];
const READERS: [Entry; 3] = [Entry::PlatePicture, Entry::PlateLabel, Entry::PlateJob];

/// A picture whose last half is brighter than its first one, so that each level of a blur shows.
fn slope(random: &mut Random, w: u32, h: u32) -> Vec<u8> {
    let bright = |i: u64| if 2 * i < u64::from(w * h) { 40 } else { 220 };
    (0..u64::from(w * h)).flat_map(|i| [(); 4].map(|_| (bright(i) + random.below(36)) as u8)).collect()
}

/// A row and a column of the largest length through every n at a limit, every mode, and every shift about their length.
fn lines(random: &mut Random, take: Take) {
    for (w, h) in LINES {
        for (i, n) in [0, 1, MOST_DECIMATIONS - 1, MOST_DECIMATIONS].into_iter().enumerate() {
            for edge in 0..4 {
                let case = generate::blur(random, w, h, n, edge, 3 + i);
                take(Case { picture: slope(random, w, h), strength: 1.0, ..case });
            }
            let (edge, weights) = (3 - i as u32, vec![0.25, 0.5, 0.25]);
            let case = generate::shadow(random, w, h, n, edge, 3);
            let case = Case { picture: slope(random, w, h), strength: 1.0, weights, dx: 2.0, dy: 0.0, ..case };
            take(Case { composite: 0, ..case.clone() });
            take(Case { composite: 1, ..case });
        }
        for offset in OFFSETS {
            take(generate::shift(random, w, h, offset, 0.0));
            take(generate::shift(random, w, h, 0.0, offset));
        }
    }
}

/// Every n about its limit.
fn depths(random: &mut Random, take: Take) {
    for n in MOST_DECIMATIONS - 2..MOST_DECIMATIONS + 3 {
        for edge in 0..4 {
            take(generate::blur(random, 5, 3, n, edge, 3));
            take(generate::shadow(random, 3, 5, n, edge, 3));
        }
        for taps in [1, 3, 33] {
            let weights = inputs::on_grid(&inputs::numerators(random, taps, 65536));
            take(Case { weights, n, ..Case::plain(Entry::Spread, Vec::new()) });
        }
    }
}

/// The entries that take sides and a picture, and nothing else that these cases change.
const SIDED: [Entry; 9] = [
    Entry::Blur,
    Entry::Shift,
    Entry::Shadow,
    Entry::Check,
    Entry::View,
    Entry::Sample,
    Entry::PamWrite,
    Entry::Mend,
    Entry::Rebuild,
];

/// A picture of these sides lent to an entry, which does the least that it can with it.
fn sided(entry: Entry, w: u32, h: u32, picture: Vec<u8>) -> Case {
    let plain = Case { w, h, ..Case::plain(entry, picture) };
    let length = plain.picture.len();
    match entry {
        Entry::Blur => Case { scratch: length, weights: vec![1.0], strength: 0.0, ..plain },
        Entry::Shadow => Case { scratch: length, copy: length, weights: vec![1.0], strength: 0.0, ..plain },
        Entry::Sample => Case { x: w as i32 - 1, y: h as i32 - 1, ..plain },
        Entry::PamWrite => Case { other: vec![3; length + 80], ..plain },
        Entry::Mend | Entry::Rebuild => Case { list: vec![0, 9], ..plain },
        _ => plain,
    }
}

/// Every side about the old limit and the new, with a picture as long as they say or of one pixel.
fn sides(random: &mut Random, take: Take) {
    for (entry, side) in SIDED.into_iter().flat_map(|entry| [4096, 4097, 16383, 16384, 16385].map(|side| (entry, side)))
    {
        for (w, h) in [(side, 1), (1, side)] {
            let mut picture: Vec<u8> = (0..4 * side).map(|_| random.byte()).collect();
            picture.chunks_exact_mut(4).for_each(rule::mend::lowered);
            take(sided(entry, w, h, picture));
            take(sided(entry, w, h, vec![9; 4]));
        }
    }
}

/// More than 65536 pixels, so that a place needs more than 16 bits.
fn places(random: &mut Random, take: Take) {
    let (w, h) = (LARGEST_SIDE, 5);
    let mut picture = vec![7; (4 * w * h) as usize];
    for place in [65536, 70000, 81919] {
        picture[4 * place] = 8;
        take(sided(Entry::Check, w, h, picture.clone()));
        take(sided(Entry::PamWrite, w, h, picture.clone()));
        take(Case { list: vec![5; 6], ..sided(Entry::Mend, w, h, picture.clone()) });
        take(Case { list: vec![3, 1, place as u64, 2], ..sided(Entry::Rebuild, w, h, picture.clone()) });
        picture[4 * place] = 7;
    }
    take(Case { list: vec![81919, 1, 81920, 2], ..sided(Entry::Rebuild, w, h, picture) });
    take(mend_cases::mend(random, w, h, 0));
    take(pam_cases::export(random, w, h, 3));
    take(pam_cases::import(random, w, h, 3));
}

/// A function that reads a plate, asked for one of its pictures.
fn reading(entry: Entry, plate: Vec<u8>, index: i32) -> Case {
    match entry {
        Entry::PlateJob => Case { scratch: plate.len(), ..Case::plain(entry, plate) },
        _ => Case { x: index, ..Case::plain(entry, plate) },
    }
}

/// The sides of one picture of so many pixels, none longer than 16384 where that can be.
fn shaped(pixels: u32) -> (u32, u32) {
    let rows = (1..8).find(|rows| pixels.is_multiple_of(*rows) && pixels / rows <= LARGEST_SIDE).unwrap_or(1);
    (pixels / rows, rows)
}

/// Plates of every version whose length lies about 16384 or 65536 bytes, and some with offsets past 65536.
fn plates(random: &mut Random, take: Take) {
    for version in 1..=NEWEST as u16 {
        let entry = entry_size(version.into());
        for whole in [16376, 16380, 16384, 16388, 16392, 65532, 65536, 65540, 70000] {
            let (w, h) = shaped(((whole - HEAD - entry) / 4) as u32);
            let plate = inputs::plate_of(random, version, &[(w, h)]);
            READERS.iter().for_each(|reader| take(reading(*reader, plate.clone(), 0)));
        }
        for sides in [vec![(16384, 1), (3, 2), (1, 16384)], vec![(4097, 1)], vec![(1, 1), (1, 4097)], vec![(16385, 1)]]
        {
            let plate = inputs::plate_of(random, version, &sides);
            READERS.iter().for_each(|reader| take(reading(*reader, plate.clone(), sides.len() as i32 - 1)));
            let body = sides.iter().map(|(w, h)| 4 * w * h).max().unwrap_or(0) as usize;
            let job = reading(Entry::PlateJob, plate, 0);
            [body, body - 1].iter().for_each(|scratch| take(Case { scratch: *scratch, ..job.clone() }));
        }
    }
}

/// A picture of every side about a limit, with the right length and a wrong one, added to a plate that has room for it
/// and to one that is nearly 16384 bytes long.
fn additions(random: &mut Random, take: Take) {
    for version in 1..=NEWEST as u16 {
        for old in [vec![], vec![(4000, 1)], vec![(16384, 1), (2, 2)]] {
            for (w, h) in [(4096, 1), (4097, 1), (1, 4097), (16384, 1), (1, 16384), (16385, 1), (60, 3)] {
                let plate = inputs::plate_of(random, version, &old);
                let case = plate_cases::add(random, plate, w, h, 40);
                take(Case { other: case.other[1..].to_vec(), ..case.clone() });
                take(case);
            }
        }
    }
}

/// Two pictures of a plate of exactly 16 MiB; the second with one pixel more is too much.
const FULL: [(u32, u32); 2] = [(LARGEST_SIDE, 255), (16375, 1)];
const OVERFULL: (u32, u32) = (16376, 1);

/// Version 3 at 16 MiB and four bytes more: read, and added to.
pub fn longest_plates(random: &mut Random, take: Take) {
    let full = inputs::plate_of(random, 3, &FULL);
    assert_eq!(full.len(), longest(3), "a full plate");
    let used = full.len() as u64;
    let mut one = vec![1, 2, 3, 4];
    one.extend(vec![0; 40]);
    let room = [&full[..], &one[..]].concat();
    take(Case { w: 1, h: 1, other: vec![9; 4], used, unit: 1, ..Case::plain(Entry::PlateAdd, room) });
    take(reading(Entry::PlatePicture, full.clone(), 1));
    take(reading(Entry::PlateLabel, full, 1));
    let over = inputs::plate_of(random, 3, &[FULL[0], OVERFULL]);
    take(reading(Entry::PlatePicture, over.clone(), 1));
    take(reading(Entry::PlateLabel, over, 1));
    let first = inputs::plate_of(random, 3, &FULL[..1]);
    for ((w, h), room) in [(FULL[1], 0), (FULL[1], -1), (OVERFULL, 0)] {
        take(plate_cases::add(random, first.clone(), w, h, room));
    }
}

/// The job over 16 MiB, and over four bytes more.
pub fn longest_jobs(random: &mut Random, take: Take) {
    for sides in [FULL, [FULL[0], OVERFULL]] {
        take(reading(Entry::PlateJob, inputs::plate_of(random, 3, &sides), 0));
    }
}

/// All groups but those of 16 MiB.
pub fn all(random: &mut Random, take: Take) {
    for group in [lines, depths, sides, places, plates, additions] {
        group(random, take);
    }
}

/// Small ones to be stored: every n and side about its limit. The longer ones are only run.
pub fn stored(random: &mut Random) -> Vec<Case> {
    let mut cases = Vec::new();
    for (n, edge) in (MOST_DECIMATIONS - 1..MOST_DECIMATIONS + 2).zip(0..) {
        let case = Case { scratch: 24, weights: vec![0.25, 0.5], n, edge, ..Case::plain(Entry::Blur, Vec::new()) };
        let picture = inputs::picture(random, 3, 2);
        cases.push(Case { w: 3, h: 2, picture: picture.clone(), ..case.clone() });
        cases.push(Case { entry: Entry::Shadow, w: 2, h: 3, picture, copy: 24, composite: 1, ..case });
    }
    for (entry, side) in SIDED.into_iter().flat_map(|entry| [4097, 16384, 16385].map(|side| (entry, side))) {
        let turn = cases.len() as u32 % 2;
        let (w, h) = if turn == 0 { (side, 1) } else { (1, side) };
        let case = sided(entry, w, h, vec![1, 1, 1, 1]);
        cases.push(Case { other: Vec::new(), ..case });
    }
    cases
}
