//! Cases of the functions that read and write image files.
use crate::case::{Case, Entry};
use crate::inputs;
use crate::random::Random;
use rule::pam::header;
use rule::LARGEST_SIDE;

/// How much longer an output is than needed.
const ROOMS: [i64; 7] = [-1_000_000, -65, -4, -1, 0, 1, 64];

/// Other spellings of a header: what stands for what.
#[rustfmt::skip]
const SPELLINGS: [(&str, &str); 52] = [
    ("P7", "P6"), ("P7", "p7"), ("P7", " P7"), ("P7", "P7 "), ("P7\n", "P7"), ("P7\n", "\nP7\n"), ("P7\n", ""),
    ("\n", "\r\n"), ("\n", "\r"), ("\n", " "), ("\n", "\n\n"), ("\n", " \n"), (" ", "\t"), (" ", "  "), (" ", ""),
    ("WIDTH ", "width "), ("WIDTH ", "WIDTH +"), ("WIDTH ", "WIDTH 0"), ("WIDTH ", "WIDTH -"), ("WIDTH ", "WIDTH 0x"),
    ("WIDTH ", " WIDTH "), ("WIDTH", "HEIGHT"), ("WIDTH ", "WIDTH 1\nWIDTH "), ("WIDTH", "# scan\nWIDTH"),
    ("HEIGHT ", "height "), ("HEIGHT ", "HEIGHT +"), ("HEIGHT ", "HEIGHT 00"), ("HEIGHT ", "HEIGHT 0"),
    ("HEIGHT", "WIDTH"), ("\nDEPTH", ".0\nDEPTH"), ("\nDEPTH", " \nDEPTH"), ("\nDEPTH", ""),
    ("DEPTH 4", "DEPTH 04"), ("DEPTH 4", "DEPTH 3"), ("DEPTH 4", "DEPTH 5"), ("DEPTH 4\n", ""), ("DEPTH", "# scan\nDEPTH"),
    ("255", "0255"), ("255", "254"), ("255", "256"), ("255", "65535"), ("255", "+255"), ("MAXVAL 255\n", ""),
    ("RGB_ALPHA", "RGB"), ("RGB_ALPHA", "rgb_alpha"), ("RGB_ALPHA", "RGB_ALPHA "), ("RGB_ALPHA", "GRAYSCALE_ALPHA"),
    ("TUPLTYPE RGB_ALPHA\n", ""), ("ENDHDR\n", "ENDHDR"), ("ENDHDR\n", "ENDHDR\r"), ("ENDHDR", " ENDHDR"),
    ("ENDHDR", "# scan\nENDHDR"),
];

/// Those of them that are stored.
#[rustfmt::skip]
const STORED: [&str; 14] = [
    "P6", "\r\n", "  ", "\n\n", "\t", "width ", "WIDTH +", "WIDTH 0", "DEPTH 3", "# scan\nDEPTH", "0255", "65535", "RGB",
    "ENDHDR\r",
];

/// Sides in text: at and past the limits, and some that 16, 32 or 64 bits would take for 1, 2 or 4096.
const SIDES: [&str; 23] = [
    "",
    "0",
    "00",
    "1",
    "2",
    "01",
    "9",
    "10",
    "99",
    "4095",
    "4096",
    "4097",
    "9999",
    "10000",
    "16383",
    "16384",
    "16385",
    "65536",
    "65537",
    "99999",
    "100001",
    "4294967297",
    "18446744073709551617",
];

/// A file with this text before its body, and an output of some room.
fn file(random: &mut Random, text: &str, body: usize, room: i64) -> Case {
    let mut other = text.as_bytes().to_vec();
    other.extend((0..body).map(|_| random.byte()));
    let length = (body as i64 + room).max(0);
    let output = (0..length).map(|_| random.byte()).collect();
    Case { other, ..Case::plain(Entry::PamRead, output) }
}

/// An import that is accepted where there is room.
pub fn import(random: &mut Random, w: u32, h: u32, room: i64) -> Case {
    let case = file(random, &header(w, h), 0, 0);
    let body = inputs::picture(random, w, h);
    let output = (0..(body.len() as i64 + room).max(0)).map(|_| random.byte()).collect();
    Case { picture: output, other: [case.other, body].concat(), ..case }
}

/// A picture with no channel above its alpha.
fn premultiplied(random: &mut Random, w: u32, h: u32) -> Vec<u8> {
    let mut bytes = inputs::picture(random, w, h);
    for pixel in bytes.chunks_exact_mut(4) {
        let alpha = pixel[3];
        pixel[..3].iter_mut().for_each(|c| *c = (*c).min(alpha));
    }
    bytes
}

/// An export that is accepted where there is room.
pub fn export(random: &mut Random, w: u32, h: u32, room: i64) -> Case {
    let picture = premultiplied(random, w, h);
    let length = (picture.len() + header(w, h).len()) as i64 + room;
    let other = (0..length.max(0)).map(|_| random.byte()).collect();
    Case { w, h, other, ..Case::plain(Entry::PamWrite, picture) }
}

pub fn accepted(random: &mut Random, entry: Entry) -> Case {
    let (w, h, room) = (random.range(1, 6) as u32, random.range(1, 6) as u32, random.pick(&[0, 1, 64]));
    if entry == Entry::PamRead {
        import(random, w, h, room)
    } else {
        export(random, w, h, room)
    }
}

/// Makes a file one that does not fit, most times.
pub fn spoil_file(random: &mut Random, case: &mut Case) {
    let length = case.other.len();
    match random.below(3) {
        0 => case.other.truncate(random.below(length as u64) as usize),
        1 => case.other.extend([random.byte()]),
        _ => {
            let at = random.below(60) as usize;
            case.other[at] = random.pick(b"\n\r\t 019Pw#");
        }
    }
}

/// Makes the first of some channels of a picture exceed its alpha.
pub fn spoil_pixel(random: &mut Random, case: &mut Case) {
    let pixels = case.picture.len() / 4;
    for _ in 0..random.range(1, 3) {
        if pixels > 0 {
            let (at, channel) = (random.below(pixels as u64) as usize, random.below(3) as usize);
            let alpha = case.picture[4 * at + 3].min(254);
            case.picture[4 * at + 3] = alpha;
            case.picture[4 * at + channel] = random.range(i64::from(alpha) + 1, 255) as u8;
        }
    }
}

/// Takes away room from the output.
pub fn spoil_room(random: &mut Random, case: &mut Case) {
    let fewer = random.pick(&[1, 4, 60, usize::MAX]);
    if case.entry == Entry::PamRead {
        let body = case.other.len().saturating_sub(64);
        case.picture.truncate(body.saturating_sub(fewer));
    } else {
        let whole = header(case.w, case.h).len() + case.picture.len();
        case.other.truncate(whole.saturating_sub(fewer));
    }
}

/// Every spelling, every length and every byte of a file.
fn spellings(random: &mut Random, take: &mut dyn FnMut(Case)) {
    let good = header(2, 3);
    for (old, new) in SPELLINGS {
        for text in [good.replace(old, new), good.replacen(old, new, 1)] {
            take(file(random, &text, 24, 5));
        }
    }
    let mut lines: Vec<&str> = good.split_inclusive('\n').collect();
    for i in 1..lines.len() {
        lines.swap(i - 1, i);
        take(file(random, &lines.concat(), 24, 5));
        lines.swap(i - 1, i);
    }
    let case = import(random, 2, 3, 5);
    for at in 0..good.len() {
        for byte in [0, 9, 10, 13, 32, 35, b'0', b'1', b'9', good.as_bytes()[at] + 1, good.as_bytes()[at] ^ 32] {
            let mut other = case.other.clone();
            other[at] = byte;
            take(Case { other, ..case.clone() });
        }
    }
    for length in 0..case.other.len() + 5 {
        let mut other = case.other.clone();
        other.resize(length, 10);
        take(Case { other, ..case.clone() });
    }
}

/// Every pair of sides in text, with the body that they or their last bits ask for.
fn sides(random: &mut Random, take: &mut dyn FnMut(Case)) {
    for (wide, high) in SIDES.into_iter().flat_map(|wide| SIDES.map(|high| (wide, high))) {
        let text =
            header(7, 8).replace("WIDTH 7", &format!("WIDTH {wide}")).replace("HEIGHT 8", &format!("HEIGHT {high}"));
        let (w, h) = (wide.parse::<u128>().unwrap_or(0), high.parse::<u128>().unwrap_or(0));
        let last = |side: u128, bits: u32| side & (u128::MAX >> (128 - bits));
        let body = |bits: u32| last(w, bits).saturating_mul(last(h, bits)).saturating_mul(4);
        let mut bodies: Vec<u128> = [128, 64, 32, 16].map(body).into();
        bodies.dedup();
        for body in bodies.into_iter().filter(|body| *body <= 66_000) {
            take(file(random, &text, body as usize, 3));
        }
    }
}

/// Outputs with more room and less than is needed; sides of every number of digits.
fn rooms(random: &mut Random, take: &mut dyn FnMut(Case)) {
    for (w, h) in
        [(1, 1), (2, 1), (1, 3), (9, 10), (10, 9), (100, 1), (1, 999), (1000, 1), (LARGEST_SIDE, 1), (1, LARGEST_SIDE)]
    {
        for room in ROOMS {
            take(import(random, w, h, room));
            take(export(random, w, h, room));
        }
    }
    for room in -75..3 {
        take(export(random, 2, 1, room));
        take(import(random, 5, 4, room));
    }
}

/// Every channel under every alpha, on the way in and, where it is not above, on the way out.
fn channels(random: &mut Random, take: &mut dyn FnMut(Case)) {
    let pixel = |i: u32| [i as u8, (i + 85) as u8, (i + 170) as u8, (i / 256) as u8];
    let straight: Vec<u8> = (0..65536).flat_map(pixel).collect();
    let case = import(random, 256, 256, 0);
    let other = [header(256, 256).as_bytes(), &straight].concat();
    take(Case { other, ..case });
    let pixel = |i: u32| pixel(i).map(|c| c.min((i / 256) as u8));
    take(Case { picture: (0..65536).flat_map(pixel).collect(), ..export(random, 256, 256, 3) });
}

/// One channel or more above its alpha, by one or by much, at every place.
fn above(random: &mut Random, take: &mut dyn FnMut(Case)) {
    for (w, h) in [(1, 1), (3, 2), (2, 5)] {
        let case = export(random, w, h, 2);
        for place in 0..(w * h) as usize {
            for channel in 0..3 {
                for alpha in [0, 1, 127, 254] {
                    let mut picture = case.picture.clone();
                    picture[4 * place..4 * place + 4].fill(alpha);
                    picture[4 * place + channel] = alpha + 1;
                    take(Case { picture: picture.clone(), ..case.clone() });
                    picture[4 * (w * h) as usize - 4..].copy_from_slice(&[1, 0, 0, 0]);
                    take(Case { picture, ..case.clone() });
                }
            }
        }
    }
    for _ in 0..200 {
        let (w, h) = (random.range(1, 9) as u32, random.range(1, 9) as u32);
        let case = export(random, w, h, 0);
        take(Case { picture: inputs::picture(random, w, h), ..case });
    }
}

/// All groups.
pub fn all(random: &mut Random, take: &mut dyn FnMut(Case)) {
    for group in [spellings, sides, rooms, channels, above] {
        group(random, take);
    }
}

/// Small ones to be stored.
pub fn stored(random: &mut Random) -> Vec<Case> {
    let mut cases = Vec::new();
    for (w, h, room) in [(1, 1, 0), (2, 1, 3), (3, 2, -1), (10, 1, 0), (1, 12, 1), (2, 2, -1_000_000)] {
        cases.push(import(random, w, h, room));
        cases.push(export(random, w, h, room));
    }
    // where rounding matters, and alpha 0
    let (straight, whole) = ([127, 128, 255, 1, 85, 170, 1, 3, 9, 9, 9, 0], [1, 2, 7, 7, 0, 0, 0, 0, 0, 254, 255, 255]);
    let (case, other) = (import(random, 3, 1, 2), [header(3, 1).as_bytes(), &straight].concat());
    cases.push(Case { other, ..case });
    cases.push(Case { picture: whole.to_vec(), ..export(random, 3, 1, 2) });
    let good = header(2, 3);
    for (old, new) in SPELLINGS.iter().filter(|(_, new)| STORED.contains(new)) {
        cases.push(file(random, &good.replacen(old, new, 1), 24, 0));
    }
    cases.push(file(random, &good.replace("WIDTH 2\nHEIGHT 3", "HEIGHT 3\nWIDTH 2"), 24, 0));
    cases.push(file(random, &good.replace("DEPTH 4", "DEPTH 3"), 24, -24));
    for (wide, body) in
        [("0", 0), ("16385", 12), ("65538", 24), ("4294967298", 24), ("18446744073709551618", 24), ("", 0)]
    {
        cases.push(file(random, &good.replace("WIDTH 2", &format!("WIDTH {wide}")), body, 3));
    }
    let case = import(random, 2, 3, 1);
    for length in [0, 2, 40, good.len() - 1, case.other.len() - 1, case.other.len() + 1] {
        let mut other = case.other.clone();
        other.resize(length, 10);
        cases.push(Case { other, ..case.clone() });
    }
    let case = export(random, 2, 2, 1);
    for (at, above) in [(0, 0), (5, 1), (10, 254), (14, 7), (12, 0)] {
        let mut picture = case.picture.clone();
        picture[at / 4 * 4..at / 4 * 4 + 4].fill(above);
        picture[at] = above + 1;
        cases.push(Case { picture, ..case.clone() });
    }
    cases.push(Case { picture: vec![5, 5, 5, 5, 6, 5, 5, 5, 5, 5, 5, 5, 5, 5, 6, 5], ..case });
    for room in [-1, -20, -65] {
        cases.push(export(random, 2, 2, room));
    }
    cases
}
