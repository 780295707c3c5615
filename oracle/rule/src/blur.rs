//! Halving, doubling, convolution and the blur of bytes.
use crate::edges::{sample, Edge};
use crate::refusal::{self, first};
use crate::scheme::{self, Passes, Plane};

/// The rounding passes under one kernel and edge rule.
pub struct Rounding<'a> {
    pub weights: &'a [f32],
    pub edge: Edge,
}

/// To the nearest whole number, halves upward, and 255 where that exceeds 255.
pub fn to_channel(value: f32) -> u8 {
    (f64::from(value) + 0.5).floor().min(255.0) as u8
}

impl Rounding<'_> {
    pub fn at(&self, line: &[u8], c: i64) -> u32 {
        u32::from(sample(line, c, self.edge))
    }
}

impl Passes for Rounding<'_> {
    type Value = u8;

    fn halve(&self, line: &[u8]) -> Vec<u8> {
        let output = |x: i64| {
            let [p0, p1, p2, p3] = [-1, 0, 1, 2].map(|d| self.at(line, 2 * x + d));
            ((p0 + 3 * p1 + 3 * p2 + p3 + 4) / 8) as u8
        };
        (0..line.len().div_ceil(2) as i64).map(output).collect()
    }

    fn double(&self, line: &[u8], finer: usize) -> Vec<u8> {
        let output = |i: i64| {
            let near = self.at(line, i / 2);
            let far = self.at(line, if i % 2 == 0 { i / 2 - 1 } else { i / 2 + 1 });
            ((far + 3 * near + 2) / 4) as u8
        };
        (0..finer as i64).map(output).collect()
    }

    fn convolve(&self, line: &[u8]) -> Vec<u8> {
        let middle = self.weights.len() as i64 / 2;
        let output = |x: i64| {
            let mut sum = 0.0_f32;
            for (j, weight) in self.weights.iter().enumerate() {
                let product = self.at(line, x + j as i64 - middle) as f32 * weight;
                sum += product;
            }
            to_channel(sum)
        };
        (0..line.len() as i64).map(output).collect()
    }
}

/// Each channel of a picture of exactly 4wh bytes, blurred by `passes`.
pub fn blurred<P: Passes<Value = u8>>(passes: &P, n: u32, picture: &[u8], w: usize, h: usize) -> Vec<u8> {
    let mut answer = vec![0; picture.len()];
    for channel in 0..4 {
        let values = picture.iter().skip(channel).step_by(4).copied().collect();
        let plane = scheme::blur(passes, n, &Plane { w, h, values });
        for (i, value) in plane.values.into_iter().enumerate() {
            answer[4 * i + channel] = value;
        }
    }
    answer
}

/// Refusals 1 to 7 and 9.
#[allow(clippy::too_many_arguments)]
pub fn refused(
    picture: &[u8],
    w: u32,
    h: u32,
    scratch: &[u8],
    weights: &[f32],
    n: u32,
    strength: f32,
    edge: u32,
) -> u32 {
    first(&[
        (1, refusal::sides(w, h)),
        (2, refusal::length(picture, w, h)),
        (3, refusal::short(scratch, w, h)),
        (4, refusal::taps(weights)),
        (5, refusal::weights(weights)),
        (6, refusal::decimations(n)),
        (7, !strength.is_finite()),
        (9, refusal::edge(edge)),
    ])
}

#[allow(clippy::too_many_arguments)]
pub fn blur(
    picture: &mut [u8],
    w: u32,
    h: u32,
    scratch: &mut [u8],
    weights: &[f32],
    n: u32,
    strength: f32,
    edge: u32,
) -> u32 {
    let refused = refused(picture, w, h, scratch, weights, n, strength, edge);
    let (0, Some(edge)) = (refused, Edge::of(edge)) else { return refused };
    if strength > 0.0 {
        let answer = blurred(&Rounding { weights, edge }, n, picture, w as usize, h as usize);
        picture.copy_from_slice(&answer);
    }
    scratch[..picture.len()].fill(0);
    0
}
