//! Pictures, kernels, offsets and plates to build cases from.
use crate::random::Random;
use rule::plate::{entry_size, HEAD};
use rule::plate_write::{file, Scan};

/// Offsets at and past every limit that the shift's arithmetic has.
pub const OFFSETS: [f32; 36] = [
    0.0,
    -0.0,
    0.5,
    -0.5,
    0.49999997,
    -0.49999997,
    1.0,
    -1.0,
    1.5,
    -1.5,
    2.5,
    -2.5,
    -4.0,
    1e-45,
    4095.5,
    -4096.0,
    32767.0,
    32768.0,
    -32768.0,
    65535.0,
    65536.0,
    -65536.0,
    65537.0,
    -65537.0,
    -65539.0,
    131072.0,
    16777216.0,
    2147483520.0,
    2147483648.0,
    -2147483648.0,
    -2147483904.0,
    4294967296.0,
    4295032832.0,
    -1e10,
    f32::MAX,
    f32::MIN,
];

pub const NOT_FINITE: [f32; 3] = [f32::NAN, f32::INFINITY, f32::NEG_INFINITY];

/// NaN, below 0 or above 1.
pub const NO_SHARE: [f32; 7] = [f32::NAN, -1e-45, -1.0, 1.0000001, 2.0, f32::INFINITY, f32::NEG_INFINITY];

/// The bytes of a picture: 4wh of them.
pub fn picture(random: &mut Random, w: u32, h: u32) -> Vec<u8> {
    let (kind, flat) = (random.below(9), [(); 4].map(|_| random.byte()));
    let mut bytes = Vec::with_capacity(4 * w as usize * h as usize);
    for i in 0..w * h {
        let (x, y) = (i % w, i / w);
        bytes.extend(match kind {
            0..=2 => [(); 4].map(|_| random.byte()),
            3 => [(); 4].map(|_| random.pick(&[0, 255])),
            4 => [(); 4].map(|_| if random.one_in(8) { random.byte() } else { 0 }),
            5 => [x, y, x + y, 2 * x + 3 * y].map(|v| v as u8),
            6 => {
                let a = random.byte();
                [(); 4].map(|_| random.below(u64::from(a) + 1) as u8).map(|c| c.min(a))
            }
            7 => [(); 4].map(|_| random.pick(&[0, 1, 2, 253, 254, 255])),
            _ => flat,
        });
        if kind == 6 {
            let at = bytes.len() - 4;
            bytes[at + 3] = *bytes[at..].iter().max().unwrap();
        }
    }
    bytes
}

/// Numerators over 65536 that sum to `sum`.
pub fn numerators(random: &mut Random, taps: usize, sum: u64) -> Vec<u64> {
    let mut cuts: Vec<u64> = (1..taps).map(|_| random.below(sum + 1)).collect();
    cuts.extend([0, sum]);
    cuts.sort();
    cuts.windows(2).map(|pair| pair[1] - pair[0]).collect()
}

pub fn on_grid(numerators: &[u64]) -> Vec<f32> {
    numerators.iter().map(|m| *m as f32 / 65536.0).collect()
}

/// A weight with some byte's product at or one step beside a half.
fn tie(random: &mut Random) -> f32 {
    let byte = random.range(1, 255);
    let half = random.below(byte as u64) as f32 + 0.5;
    let near = half / byte as f32;
    f32::from_bits((i64::from(near.to_bits()) + random.range(-2, 2)) as u32).min(1.0)
}

/// Weights near a bell curve, as a caller would make them.
pub fn bell(taps: usize) -> Vec<f32> {
    let middle = (taps / 2) as f32;
    let raw: Vec<f32> = (0..taps).map(|j| (-(j as f32 - middle).powi(2) / (taps as f32)).exp()).collect();
    let sum: f32 = raw.iter().sum();
    raw.iter().map(|w| w / sum).collect()
}

/// Weights on the grid and off it, ties, extremes, minus zero.
pub fn weights(random: &mut Random, taps: usize) -> Vec<f32> {
    let least = [0.0, -0.0, 1e-45, 1.1754944e-38, 0.49999997, 0.5, 0.50000006, 0.99999994, 1.0];
    let kind = random.below(9);
    let sum = if kind == 1 { random.below(65537) } else { 65536 };
    let one = |random: &mut Random| match kind {
        2 => random.below(65537) as f32 / 65536.0,
        3 => random.share() / taps as f32,
        4 => random.share(),
        5 => random.pick(&[0.0, -0.0, -0.0, 0.0, 1.0]),
        6 => tie(random),
        _ => random.pick(&least),
    };
    match kind {
        0 | 1 => on_grid(&numerators(random, taps, sum)),
        8 => bell(taps),
        _ => (0..taps).map(|_| one(random)).collect(),
    }
}

pub fn strength(random: &mut Random) -> f32 {
    if random.one_in(12) {
        random.pick(&[0.0, -0.0, -1.0, -1e-45, f32::MIN, 1e-45, f32::MAX])
    } else {
        1.0
    }
}

/// An offset near a side's border, at a limit, or near a multiple of 65536.
pub fn offset(random: &mut Random, side: u32) -> f32 {
    let near = i64::from(side) + 2;
    match random.below(6) {
        0..=2 => random.range(-near, near) as f32,
        3 => random.range(-4 * near, 4 * near) as f32 / 4.0,
        4 => random.pick(&OFFSETS),
        _ => (65536 * random.range(-3, 3) + random.range(-near, near)) as f32,
    }
}

/// A colour component.
pub fn component(random: &mut Random) -> f32 {
    match random.below(4) {
        0 => random.pick(&[0.0, -0.0, 1.0, 1e-45, 0.5]),
        1 => random.below(256) as f32 / 255.0,
        2 => tie(random),
        _ => random.share(),
    }
}

/// A plate of random pictures that keeps every rule.
pub fn plate(random: &mut Random, version: u16) -> Vec<u8> {
    let count = random.pick(&[0, 1, 1, 2, 3, 5, 64]);
    let side = random.pick(&[1, 3, 6]);
    let long = random.one_in(20);
    let sides: Vec<(u32, u32)> = (0..count)
        .map(|_| (random.range(1, side) as u32, random.range(1, side) as u32))
        .map(|(w, h)| if long && count == 1 { (w, 4084 / (4 * w)) } else { (w, h) })
        .collect();
    plate_of(random, version, &sides)
}

/// A plate of random pictures of these sides, labelled from version 2 on.
pub fn plate_of(random: &mut Random, version: u16, sides: &[(u32, u32)]) -> Vec<u8> {
    let scan = |(w, h): &(u32, u32)| {
        let (unit, sheet) = if version == 1 { (0, 0) } else { (random.pick(&[1, 2]), random.next() as u16) };
        Scan { w: *w, h: *h, unit, sheet, body: picture(random, *w, *h) }
    };
    file(version, &sides.iter().map(scan).collect::<Vec<_>>())
}

/// A plate with one thing wrong, most times.
pub fn bad_plate(random: &mut Random, version: u16) -> Vec<u8> {
    let mut bytes = plate(random, version);
    let table = HEAD + entry_size(version.into()) * usize::from(bytes[2]);
    match random.below(6) {
        0 => bytes.push(random.byte()),
        1 => bytes.truncate(random.below(bytes.len() as u64) as usize),
        2 => bytes.extend(vec![0; 16385]),
        3 => bytes[2] = bytes[2].wrapping_add(random.byte()),
        4 => {
            let at = random.below(table as u64) as usize;
            bytes[at] = bytes[at].wrapping_add(random.pick(&[1, 255, 16, 128]));
        }
        _ => {
            let at = random.below(table as u64) as usize;
            bytes[at] = random.byte();
        }
    }
    bytes
}
