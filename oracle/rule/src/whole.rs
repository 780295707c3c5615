//! The whole-number profile (request 04): the blur with numerators over 65536, by integers alone.
use crate::blur::{blurred, Rounding};
use crate::edges::{sample, Edge};
use crate::refusal::{self, first};
use crate::scheme::Passes;

/// The passes under one list of numerators and edge rule. Halving and doubling are those of the float profile.
pub struct Whole<'a> {
    pub numerators: &'a [u32],
    pub edge: Edge,
}

impl Passes for Whole<'_> {
    type Value = u8;

    fn halve(&self, line: &[u8]) -> Vec<u8> {
        Rounding { weights: &[], edge: self.edge }.halve(line)
    }

    fn double(&self, line: &[u8], finer: usize) -> Vec<u8> {
        Rounding { weights: &[], edge: self.edge }.double(line, finer)
    }

    /// To the nearest whole number, halves upward.
    fn convolve(&self, line: &[u8]) -> Vec<u8> {
        let first = -(self.numerators.len() as i64 / 2);
        let output = |x: i64| {
            let taps = self.numerators.iter().zip(x + first..);
            let sum: u64 = taps.map(|(m, c)| u64::from(*m) * u64::from(sample(line, c, self.edge))).sum();
            ((sum + 32768) / 65536) as u8
        };
        (0..line.len() as i64).map(output).collect()
    }
}

/// The sum of the numerators, as a whole number, is above 65536.
pub fn heavy(numerators: &[u32]) -> bool {
    numerators.iter().map(|m| u128::from(*m)).sum::<u128>() > 65536
}

/// Blur with numerators: refusals 1, 2, 3, 4, 14, 6 and 9.
pub fn blur_whole(
    picture: &mut [u8],
    w: u32,
    h: u32,
    scratch: &mut [u8],
    numerators: &[u32],
    n: u32,
    edge: u32,
) -> u32 {
    let refused = first(&[
        (1, refusal::sides(w, h)),
        (2, refusal::length(picture, w, h)),
        (3, refusal::short(scratch, w, h)),
        (4, refusal::taps(numerators)),
        (14, heavy(numerators)),
        (6, refusal::decimations(n)),
        (9, refusal::edge(edge)),
    ]);
    let (0, Some(edge)) = (refused, Edge::of(edge)) else { return refused };
    let answer = blurred(&Whole { numerators, edge }, n, picture, w as usize, h as usize);
    picture.copy_from_slice(&answer);
    scratch[..picture.len()].fill(0);
    0
}
