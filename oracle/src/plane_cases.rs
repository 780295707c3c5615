//! Cases of four planes (request 13). What is converted is the picture, and the room for it the other buffer.
use crate::case::{run, Case, Entry, Outcome};
use crate::generate::{self, Take};
use crate::inputs::{self, OFFSETS};
use crate::library::Library;
use crate::random::Random;
use crate::vectors::tidy;
use rule::planes::planes;
use rule::refusal;
use rule::{LARGEST_SIDE, MOST_DECIMATIONS, MOST_TAPS};

/// How much longer the room is than it needs to be.
const ROOMS: [i64; 7] = [-1_000_000, -4, -1, 0, 1, 3, 64];

/// The entries that work on planes, and what they do to a picture.
const WORKING: [(Entry, Entry); 3] =
    [(Entry::BlurPlanes, Entry::Blur), (Entry::ShiftPlanes, Entry::Shift), (Entry::ShadowPlanes, Entry::Shadow)];

fn some_bytes(random: &mut Random, count: usize) -> Vec<u8> {
    (0..count).map(|_| random.byte()).collect()
}

fn convert(random: &mut Random, entry: Entry, w: u32, h: u32, room: i64) -> Case {
    let picture = inputs::picture(random, w, h);
    let other = some_bytes(random, (picture.len() as i64 + room).max(0) as usize);
    Case { w, h, other, ..Case::plain(entry, picture) }
}

/// A case of a picture as one of its planes.
fn on_planes(case: Case) -> Case {
    let (entry, _) = WORKING.into_iter().find(|(_, plain)| *plain == case.entry).expect("an entry of pictures");
    tidy(Case { entry, picture: planes(&case.picture), ..case })
}

/// A case of converting that is accepted.
pub fn converting(random: &mut Random, entry: Entry) -> Case {
    let (w, h) = (random.range(1, 6) as u32, random.range(1, 6) as u32);
    let room = random.pick(&[0, 0, 1, 9]);
    convert(random, entry, w, h, room)
}

/// A case of one that works on planes that is accepted.
pub fn accepted(random: &mut Random, entry: Entry) -> Case {
    let (_, plain) = WORKING.into_iter().find(|(on_planes, _)| *on_planes == entry).expect("an entry on planes");
    on_planes(generate::accepted(random, plain))
}

/// Less room than 4wh bytes.
pub fn spoil_room(random: &mut Random, case: &mut Case) {
    let needed = refusal::bytes(case.w, case.h).min(1 << 20) as usize;
    case.other.truncate(needed.saturating_sub(random.pick(&[1, 1, 4, usize::MAX])));
}

/// The entries that convert, by turns.
fn either(i: u32) -> Entry {
    if i.is_multiple_of(2) {
        Entry::ToPlanes
    } else {
        Entry::FromPlanes
    }
}

/// Every size to 6 by 6 with more room and less than is needed; wider ones, and sides at the limit.
fn conversions(random: &mut Random, take: Take) {
    for i in 0..36 * ROOMS.len() as u32 {
        let (w, h, room) = (i % 6 + 1, i / 6 % 6 + 1, ROOMS[i as usize / 36]);
        take(convert(random, Entry::ToPlanes, w, h, room));
        take(convert(random, Entry::FromPlanes, w, h, room));
    }
    for i in 0..120 {
        let (w, h, room) = (random.range(1, 70) as u32, random.range(1, 40) as u32, random.pick(&ROOMS));
        take(convert(random, either(i), w, h, room));
    }
    for (i, (w, h)) in [(LARGEST_SIDE, 1), (1, LARGEST_SIDE), (LARGEST_SIDE - 1, 3), (700, 90)].into_iter().enumerate()
    {
        take(convert(random, Entry::ToPlanes, w, h, i as i64));
        take(convert(random, Entry::FromPlanes, w, h, i as i64));
    }
}

/// Pictures that no cache holds, which are made into planes by blocks of 64 pixels: the smallest such, which is whole
/// blocks, and one that ends within a block.
pub fn by_blocks(random: &mut Random, take: Take) {
    for (w, h) in [(2048, 1024), (1451, 1447)] {
        take(convert(random, Entry::ToPlanes, w, h, 5));
        take(convert(random, Entry::FromPlanes, w, h, 5));
    }
}

/// Sides that are wrong, and bytes that are too few or too many, with rooms of some lengths.
fn lengths(random: &mut Random, take: Take) {
    let large = [0, 1, 2, LARGEST_SIDE, LARGEST_SIDE + 1, 65536, 1 << 31, u32::MAX];
    for (i, (w, h)) in large.into_iter().flat_map(|w| large.map(|h| (w, h))).enumerate() {
        for (length, room) in [(0, 0), (4, 4), (8, 9), (4, 0), (16, 3)] {
            let (picture, other) = (some_bytes(random, length), some_bytes(random, room));
            let case = Case { w, h, other, ..Case::plain(either(i as u32), picture) };
            take(case.clone());
            let work = Case { other: Vec::new(), scratch: room, weights: vec![1.0], ..case };
            take(Case { entry: Entry::BlurPlanes, ..work.clone() });
            take(Case { entry: Entry::ShadowPlanes, copy: length, ..work.clone() });
            take(Case { entry: Entry::ShiftPlanes, scratch: 0, weights: Vec::new(), ..work });
        }
    }
}

/// Every size to 6 by 6, mode and n to 4, with blur and shadow; then every n; thin pictures, and sides at the limit.
fn sizes(random: &mut Random, take: Take) {
    for i in 0..36 * 4 * 5 {
        let (w, h, edge, n) = (i % 6 + 1, i / 6 % 6 + 1, i / 36 % 4, i / 144);
        let taps = random.pick(&[1, 2, 3, 3, 4, 5, 8, 13, 32, MOST_TAPS]);
        take(on_planes(generate::blur(random, w, h, n, edge, taps)));
        take(on_planes(generate::shadow(random, w, h, n, edge, taps)));
    }
    for (n, edge) in (0..MOST_DECIMATIONS + 2).flat_map(|n| (0..4).map(move |edge| (n, edge))) {
        let (w, h) = (random.range(1, 40) as u32, random.range(1, 20) as u32);
        take(on_planes(generate::blur(random, w, h, n, edge, 3)));
        take(on_planes(generate::shadow(random, h, w, n, edge, 4)));
    }
    for (i, long) in [31, 32, 33, 63, 64, 65, 127, 128, 129, 255, 256, 257, 511, 513, 1025].into_iter().enumerate() {
        for edge in 0..4 {
            let (n, taps) = (i as u32 % 4, random.range(1, MOST_TAPS as i64) as usize);
            let short = random.pick(&[1, 1, 2, 3, 5]);
            take(on_planes(generate::blur(random, long, short, n, edge, taps)));
            take(on_planes(generate::shadow(random, short, long, n, edge, taps)));
        }
    }
    for (i, (w, h)) in [(LARGEST_SIDE, 1), (1, LARGEST_SIDE), (LARGEST_SIDE - 1, 2)].into_iter().enumerate() {
        for n in [0, 1, MOST_DECIMATIONS] {
            take(on_planes(generate::blur(random, w, h, n, i as u32, 3)));
            take(on_planes(generate::shadow(random, w, h, n, 3 - i as u32, 2)));
        }
    }
}

/// Every size to 6 by 6 moved by every whole offset that reaches two past the border; offsets at every limit, in pairs.
fn shifts(random: &mut Random, take: Take) {
    for i in 0..36 {
        let (w, h) = (i % 6 + 1, i / 6 + 1);
        let reach = |side: u32| -(side as i64) - 2..=side as i64 + 2;
        for (dx, dy) in reach(w).flat_map(|dx| reach(h).map(move |dy| (dx, dy))) {
            take(on_planes(generate::shift(random, w, h, dx as f32, dy as f32)));
        }
    }
    for (w, h) in [(1, 1), (3, 1), (1, 3), (5, 4), (130, 1), (33, 9)] {
        for (dx, dy) in OFFSETS.into_iter().flat_map(|dx| OFFSETS.map(|dy| (dx, dy))) {
            take(on_planes(generate::shift(random, w, h, dx, dy)));
        }
    }
}

/// One plane that is bright among dark ones, or dark among bright ones, so that what leaks into its neighbours shows.
fn leaks(random: &mut Random, take: Take) {
    for i in 0..4 * 4 * 2 * 6 {
        let (channel, edge, dark, turn) = (i % 4, i as u32 / 4 % 4, i / 16 % 2, i / 32);
        let (w, h) = [(1, 1), (3, 2), (2, 5), (7, 3), (16, 9), (40, 1)][turn];
        let (lit, rest) = if dark == 1 { (0, 255) } else { (255, 0) };
        let picture: Vec<u8> = (0..4 * w * h).map(|i| if i as usize % 4 == channel { lit } else { rest }).collect();
        let taps = random.pick(&[2, 3, 8, MOST_TAPS]);
        let case = generate::shadow(random, w, h, turn as u32 % 3, edge, taps);
        let (dx, dy) = (inputs::offset(random, w), inputs::offset(random, h));
        let case = Case { picture, weights: vec![1.0 / taps as f32; taps], strength: 1.0, dx, dy, ..case };
        for (_, entry) in WORKING {
            take(on_planes(Case { entry, ..case.clone() }));
        }
    }
}

/// All groups.
pub fn all(random: &mut Random, take: Take) {
    for group in [conversions, lengths, sizes, shifts, leaks] {
        group(random, take);
    }
}

/// Small ones to be stored.
pub fn stored(random: &mut Random) -> Vec<Case> {
    let sides = [(1, 1, 0), (2, 1, 2), (3, 2, 0), (2, 3, -1), (5, 1, 3), (1, 4, 0), (4, 4, 1), (2, 2, -16)];
    let convert = |random: &mut Random, entry, (w, h, room)| {
        let plain = convert(random, entry, w, h, room);
        Case { picture: (1..=plain.picture.len() as u8).collect(), ..plain }
    };
    let mut cases = Vec::new();
    for entry in [Entry::ToPlanes, Entry::FromPlanes] {
        cases.extend(sides.map(|sides| convert(random, entry, sides)));
        // one pixel too many and too few to read, and a byte
        let whole = convert(random, entry, (2, 2, 4));
        let lengths = [20, 12, 17, 15, 0].map(|length| Case { picture: vec![9; length], ..whole.clone() });
        cases.extend(lengths);
    }
    for i in 0..24 {
        let (edge, n, taps) = (i % 4, i / 4 % 3, random.range(1, 5) as usize);
        let (w, h) = (random.range(1, 5) as u32, random.range(1, 4) as u32);
        cases.push(on_planes(generate::blur(random, w, h, n, edge, taps)));
        cases.push(on_planes(generate::shadow(random, h, w, n, edge, taps)));
    }
    for (i, n) in [0, 1, MOST_DECIMATIONS].into_iter().enumerate() {
        cases.push(on_planes(generate::blur(random, 3, 2, n, i as u32, MOST_TAPS)));
        cases.push(on_planes(generate::shadow(random, 2, 3, n, i as u32, MOST_TAPS - 1)));
    }
    for i in 0..63 {
        let (dx, dy) = (i % 9 - 4, i / 9 - 3);
        if (dx + dy) % 2 == 0 {
            cases.push(on_planes(generate::shift(random, 3, 2, dx as f32, dy as f32)));
        }
    }
    for (dx, dy) in OFFSETS.into_iter().zip(OFFSETS.into_iter().rev()).step_by(3) {
        cases.push(on_planes(generate::shift(random, 2, 3, dx, dy)));
    }
    // alphas that grow under their shadow
    let picture = vec![100, 50, 20, 128, 9, 8, 7, 60, 0, 0, 0, 200];
    let lit = Case { weights: vec![1.0], composite: 1, ..Case::new(Entry::Shadow, 3, 1, picture) };
    let lit = Case { colour: [1.0, 0.5, 0.25, 0.9], ..lit };
    cases.extend([0.0, 1.0].map(|dx| on_planes(Case { dx, ..lit.clone() })));
    leaks(random, &mut |case| {
        if case.w == 3 {
            cases.push(Case { composite: case.composite.min(1), ..case });
        }
    });
    cases
}

/// Blurs of planes of 256 bytes and more to a row, which are blurred where they lie, to be stored: every mode at n to 2.
/// Most bytes are 0, so that the lines of the file are short.
pub fn wide(random: &mut Random) -> Vec<Case> {
    let kernels: [&[f32]; 4] = [&[0.25, 0.5, 0.25], &[0.6, 0.4], &[0.1, 0.2, 0.3, 0.25, 0.15], &[0.05, 0.3, 0.5, 0.15]];
    let mut cases = Vec::new();
    for (n, edge) in (0..3).flat_map(|n| (0..4).map(move |edge| (n, edge))) {
        let (w, h) = [(256, 2), (300, 1), (257, 1)][(n + edge) as usize % 3];
        let picture = (0..4 * w * h).map(|_| if random.one_in(16) { random.byte() } else { 0 }).collect();
        let weights = random.pick(&kernels).to_vec();
        cases.push(on_planes(Case { n, edge, weights, ..Case::new(Entry::Blur, w, h, picture) }));
    }
    cases
}

/// The bytes that the library makes of others by converting.
fn converted(library: &Library, entry: Entry, case: &Case, bytes: Vec<u8>) -> Vec<u8> {
    let other = vec![0; bytes.len()];
    run(library, &Case { w: case.w, h: case.h, other, ..Case::plain(entry, bytes) }).other
}

/// What converting, the library's own work on the picture and converting back leave; of a case that converts, what is
/// converted back is what was read.
pub fn by_picture(library: &Library, case: &Case, lawful: &Outcome) -> Outcome {
    let mut outcome = lawful.clone();
    if let Some(entry) = case.on_picture() {
        let whole = !refusal::sides(case.w, case.h) && !refusal::length(&case.picture, case.w, case.h);
        let turn = |entry, bytes: Vec<u8>| if whole { converted(library, entry, case, bytes) } else { bytes };
        let picture = turn(Entry::FromPlanes, case.picture.clone());
        outcome = run(library, &Case { entry, picture, ..case.clone() });
        outcome.picture = turn(Entry::ToPlanes, outcome.picture);
    }
    if case.converts() && lawful.answer == 0 {
        let back = if case.entry == Entry::ToPlanes { Entry::FromPlanes } else { Entry::ToPlanes };
        outcome.picture = converted(library, back, case, lawful.other[..case.picture.len()].to_vec());
    }
    outcome
}
