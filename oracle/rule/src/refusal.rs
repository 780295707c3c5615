//! Refusal numbers: each condition is total, and the first that holds in number order is the answer.
use crate::edges::Edge;
use crate::{LARGEST_SIDE, MOST_DECIMATIONS, MOST_TAPS};

/// The number of the first condition that holds, else 0.
pub fn first(checks: &[(u32, bool)]) -> u32 {
    checks.iter().find(|(_, holds)| *holds).map_or(0, |(number, _)| *number)
}

/// The bytes of a picture, 4wh, for any sides.
pub fn bytes(w: u32, h: u32) -> u128 {
    4 * u128::from(w) * u128::from(h)
}

pub fn side(s: u32) -> bool {
    s == 0 || s > LARGEST_SIDE
}

pub fn sides(w: u32, h: u32) -> bool {
    side(w) || side(h)
}

pub fn length(picture: &[u8], w: u32, h: u32) -> bool {
    picture.len() as u128 != bytes(w, h)
}

pub fn short(work: &[u8], w: u32, h: u32) -> bool {
    (work.len() as u128) < bytes(w, h)
}

/// Of weights or numerators.
pub fn taps<T>(weights: &[T]) -> bool {
    weights.is_empty() || weights.len() > MOST_TAPS
}

/// NaN, below 0 or above 1; minus zero is not below 0.
pub fn share(value: f32) -> bool {
    !(0.0..=1.0).contains(&value)
}

pub fn weights(weights: &[f32]) -> bool {
    weights.iter().any(|w| share(*w))
}

pub fn decimations(n: u32) -> bool {
    n > MOST_DECIMATIONS
}

pub fn edge(number: u32) -> bool {
    Edge::of(number).is_none()
}
