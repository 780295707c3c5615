//! Cases of the mender and of the tool that takes its work back.
use crate::case::{Case, Entry};
use crate::inputs;
use crate::random::Random;
use rule::mend::changes;
use rule::LARGEST_SIDE;

/// What a lent list holds before a call.
fn entries(random: &mut Random, count: usize) -> Vec<u64> {
    (0..2 * count).map(|_| u64::from(random.next() as u32)).collect()
}

/// A picture with pixels that fail and pixels that do not.
fn mixed(random: &mut Random, w: u32, h: u32) -> Vec<u8> {
    let mut bytes = inputs::picture(random, w, h);
    let failing = random.below(5);
    for pixel in bytes.chunks_exact_mut(4).filter(|_| random.below(4) >= failing) {
        rule::mend::lowered(pixel);
    }
    bytes
}

/// A picture to be mended, and a list with room for so many entries more than fail, or fewer.
fn with_room(random: &mut Random, w: u32, h: u32, picture: Vec<u8>, room: i64) -> Case {
    let count = changes(&picture).len() as i64;
    let list = entries(random, (count + room).max(0) as usize);
    Case { w, h, list, ..Case::plain(Entry::Mend, picture) }
}

pub fn mend(random: &mut Random, w: u32, h: u32, room: i64) -> Case {
    let picture = mixed(random, w, h);
    with_room(random, w, h, picture, room)
}

/// A list of rising places that is put into any picture.
pub fn rebuild(random: &mut Random, w: u32, h: u32) -> Case {
    let share = random.range(1, 4) as u64;
    let places = (0..u64::from(w * h)).filter(|_| random.below(4) < share).collect::<Vec<_>>();
    let list = places.into_iter().flat_map(|place| [place, u64::from(random.next() as u32)]).collect();
    Case { w, h, list, ..Case::plain(Entry::Rebuild, inputs::picture(random, w, h)) }
}

pub fn accepted(random: &mut Random, entry: Entry) -> Case {
    let (w, h) = (random.range(1, 6) as u32, random.range(1, 6) as u32);
    if entry == Entry::Mend {
        let room = random.pick(&[0, 0, 1, 40]);
        mend(random, w, h, room)
    } else {
        rebuild(random, w, h)
    }
}

/// Takes away the room for one entry or more.
pub fn spoil_room(random: &mut Random, case: &mut Case) {
    if let Some(pixel) = case.picture.get_mut(..4) {
        pixel.copy_from_slice(&[1, 0, 0, 0]);
    }
    let count = changes(&case.picture).len();
    case.list.truncate(2 * count.saturating_sub(random.pick(&[1, 1, 2, usize::MAX])));
}

/// Makes one place, or two, wrong.
pub fn spoil_list(random: &mut Random, case: &mut Case) {
    let area = u64::from(case.w) * u64::from(case.h) % (1 << 32);
    let count = case.list.len() / 2;
    let bad = random.pick(&[area, area + 1, (1 << 31) + area, u64::from(u32::MAX)]) % (1 << 32);
    match (random.below(4), count) {
        (_, 0) => case.list = vec![bad, 7],
        (0, _) => case.list.extend([bad, 7]),
        (1, _) => {
            let last = case.list[2 * count - 2];
            case.list.extend([random.below(last + 1), 7]);
        }
        (2, _) => {
            let at = random.below(count as u64) as usize;
            case.list[2 * at] = bad;
        }
        _ => {
            let at = random.below(count as u64) as usize;
            let entry = [case.list[2 * at], 9];
            case.list.splice(2 * at..2 * at, entry);
        }
    }
}

/// Every size to 5 by 4, with more room and less than is needed, and none.
fn rooms(random: &mut Random, take: &mut dyn FnMut(Case)) {
    for (w, h) in (1..6).flat_map(|w| (1..5).map(move |h| (w, h))) {
        for room in [-1000, -2, -1, 0, 1, 2, 30] {
            let case = mend(random, w, h, room);
            take(Case { list: entries(random, (w * h) as usize), ..case.clone() });
            take(case);
        }
    }
}

/// Each channel above its alpha by one, alone, at each place; each equal to it; and clean pictures, with no room.
fn channels(random: &mut Random, take: &mut dyn FnMut(Case)) {
    for (alpha, channel) in [0, 1, 127, 254].into_iter().flat_map(|alpha| [0, 1, 2].map(|c| (alpha, c))) {
        for place in 0..6 {
            for room in [-1, 0, 1] {
                let mut picture = vec![alpha; 24];
                picture[4 * place + channel] = alpha + 1;
                take(with_room(random, 3, 2, picture, room));
            }
        }
    }
    for alpha in [0, 1, 128, 255] {
        take(with_room(random, 2, 3, vec![alpha; 24], 0));
    }
    let pixel = |i: u32| [i as u8, (i + 85) as u8, (i + 170) as u8, (i / 256) as u8];
    let every: Vec<u8> = (0..65536).flat_map(pixel).collect();
    take(with_room(random, 256, 256, every.clone(), 0));
    take(with_room(random, 256, 256, every, -1));
}

/// A mended picture mended again, and rebuilt from its list.
fn again(random: &mut Random, take: &mut dyn FnMut(Case)) {
    for i in 0..120 {
        let (w, h) = (random.range(1, 8) as u32, random.range(1, 8) as u32);
        let picture = mixed(random, w, h);
        let list = changes(&picture).iter().flat_map(|c| [u64::from(c.place), u64::from(c.pixel)]).collect();
        let mut mended = picture;
        mended.chunks_exact_mut(4).for_each(rule::mend::lowered);
        let case = Case { w, h, list, ..Case::plain(Entry::Rebuild, mended) };
        if i % 4 == 0 {
            take(Case { entry: Entry::Mend, ..case.clone() });
            take(Case { entry: Entry::Mend, list: Vec::new(), ..case.clone() });
        }
        take(case);
    }
}

/// Every list of up to three places from 0 to one past a picture of 2 by 1 or of 3 by 1.
fn lists(random: &mut Random, take: &mut dyn FnMut(Case)) {
    for w in [2, 3] {
        let picture = inputs::picture(random, w, 1);
        let places = u64::from(w) + 2;
        for (count, i) in (0..4).flat_map(|count| (0..places.pow(count)).map(move |i| (count, i))) {
            let list = (0..count).flat_map(|k| [i / places.pow(k) % places, random.next() % (1 << 32)]).collect();
            take(Case { w, h: 1, list, ..Case::plain(Entry::Rebuild, picture.clone()) });
        }
        for far in [1 << 16, 1 << 30, 1 << 31, (1 << 32) - 1] {
            take(Case { w, h: 1, list: vec![0, 1, far, 2], ..Case::plain(Entry::Rebuild, picture.clone()) });
        }
    }
}

/// Sides and lengths that are wrong, and sides at the limit.
fn sides(random: &mut Random, take: &mut dyn FnMut(Case)) {
    let large = [0, 1, 2, 4096, 4097, 16384, 16385, 65536, 65537, 1 << 30, 1 << 31, u32::MAX];
    for (w, h) in large.into_iter().flat_map(|w| large.map(|h| (w, h))) {
        for length in [0, 4, 8] {
            let picture: Vec<u8> = (0..length).map(|_| random.byte()).collect();
            take(Case { w, h, list: vec![0; 4], ..Case::plain(Entry::Mend, picture.clone()) });
            take(Case { w, h, list: vec![0, 5], ..Case::plain(Entry::Rebuild, picture) });
        }
    }
    for (w, h) in [(LARGEST_SIDE, 1), (1, LARGEST_SIDE), (300, 7)] {
        take(mend(random, w, h, 0));
        take(mend(random, w, h, -1));
        let case = rebuild(random, w, h);
        let area = u64::from(w * h);
        take(Case { list: [case.list.clone(), vec![area, 1]].concat(), ..case.clone() });
        take(case);
    }
}

/// All groups.
pub fn all(random: &mut Random, take: &mut dyn FnMut(Case)) {
    for group in [rooms, channels, again, lists, sides] {
        group(random, take);
    }
}

/// Small ones to be stored.
pub fn stored(random: &mut Random) -> Vec<Case> {
    let mut cases = Vec::new();
    for (w, h, room) in [(1, 1, 0), (2, 1, 1), (3, 2, 0), (2, 3, -1), (4, 1, 3), (1, 5, 0), (5, 5, -1), (3, 3, 2)] {
        cases.push(mend(random, w, h, room));
        cases.push(rebuild(random, w, h));
    }
    for (alpha, channel) in [(0, 0), (127, 1), (254, 2), (254, 3)] {
        let mut picture = vec![alpha; 12];
        picture[4 + channel] = alpha + 1;
        cases.push(with_room(random, 1, 3, picture, 0));
    }
    for room in [-1, 0] {
        cases.push(with_room(random, 1, 3, vec![200, 3, 77, 50, 9, 9, 9, 9, 0, 1, 0, 0], room));
    }
    let clean = vec![7; 8];
    cases.push(with_room(random, 2, 1, clean.clone(), 0));
    for list in [
        vec![],
        vec![0],
        vec![1],
        vec![2],
        vec![0, 1],
        vec![1, 0],
        vec![1, 1],
        vec![0, 2],
        vec![0, 1, 1],
        vec![0xFFFF_FFFF],
    ] {
        let list = list.into_iter().flat_map(|place| [place, 0x0403_0201]).collect();
        cases.push(Case { w: 2, h: 1, list, ..Case::plain(Entry::Rebuild, clean.clone()) });
    }
    again(random, &mut |case| cases.push(case));
    cases.truncate(40);
    cases
}
