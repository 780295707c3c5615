//! The premultiplied check, the sampling view and the spread report.
use crate::edges::{extend, Edge};
use crate::refusal::{self, first};

/// A pixel whose r, g or b exceeds its alpha.
pub fn exceeds(pixel: &[u8]) -> bool {
    pixel[..3].iter().any(|c| *c > pixel[3])
}

/// Check: refusals 1, 2. The number, whether a bad pixel was found, and the first one's place.
pub fn check(picture: &[u8], w: u32, h: u32) -> (u32, bool, u64) {
    let refused = first(&[(1, refusal::sides(w, h)), (2, refusal::length(picture, w, h))]);
    if refused != 0 {
        return (refused, false, 0);
    }
    match picture.chunks_exact(4).position(exceeds) {
        Some(place) => (0, true, place as u64),
        None => (0, false, 0),
    }
}

/// View: refusals 1, 2 and 9.
pub fn view(picture: &[u8], w: u32, h: u32, edge: u32) -> u32 {
    first(&[(1, refusal::sides(w, h)), (2, refusal::length(picture, w, h)), (9, refusal::edge(edge))])
}

/// The pixel at any two coordinates; a refused view answers four zeros everywhere.
pub fn sample(picture: &[u8], w: u32, h: u32, edge: u32, x: i32, y: i32) -> [u8; 4] {
    let (0, Some(edge)) = (view(picture, w, h, edge), Edge::of(edge)) else { return [0; 4] };
    let (x, y) = (extend(x.into(), w as usize, edge), extend(y.into(), h as usize, edge));
    let (Some(x), Some(y)) = (x, y) else { return [0; 4] };
    let place = 4 * (y * w as usize + x);
    picture[place..place + 4].try_into().unwrap()
}

/// The whole m from 0 to 65536 with weight = m/65536, where there is one.
pub fn numerator(weight: f32) -> Option<u64> {
    let scaled = f64::from(weight) * 65536.0;
    let whole = (0.0..=65536.0).contains(&scaled) && scaled.fract() == 0.0;
    whole.then_some(scaled as u64)
}

/// The spread of numerators that sum to 65536, with n decimations, in 1/131072 of a square full-size pixel. Level by
/// level, halving and doubling at level i each add 0.75 · 4^i square pixels; no limit on n is asked for here.
pub fn units(numerators: &[u64], n: u32) -> u64 {
    let middle = numerators.len() / 2;
    let squares = |(j, m): (usize, &u64)| m * (j.abs_diff(middle) as u64).pow(2);
    let kernel: u64 = numerators.iter().enumerate().map(squares).sum();
    let passes: u64 = (0..n).map(|i| 2 * (131072 * 3 / 4) * 4_u64.pow(i)).sum();
    2 * 4_u64.pow(n) * kernel + passes
}

/// Spread: refusals 4, 6, 11. The number, and the spread as `units` counts it.
pub fn spread(weights: &[f32], n: u32) -> (u32, u64) {
    let numerators: Option<Vec<u64>> = weights.iter().map(|w| numerator(*w)).collect();
    let sums_to_one = |m: &Vec<u64>| m.iter().sum::<u64>() == 65536;
    let refused = first(&[
        (4, refusal::taps(weights)),
        (6, refusal::decimations(n)),
        (11, !numerators.as_ref().is_some_and(sums_to_one)),
    ]);
    let (0, Some(numerators)) = (refused, numerators) else { return (refused, 0) };
    (0, units(&numerators, n))
}
