//! The exact blur of demand 3: the same passes, edges and level sizes without any floor or rounding.
use crate::edges::{sample, Edge};
use crate::scheme::{self, Passes, Plane};

/// Whole-number passes: each scales by 8, 4 or 65536. 128 bits hold every n up to 8.
pub struct Exact<'a> {
    pub numerators: &'a [u64],
    pub edge: Edge,
}

pub const MOST: u32 = 8;

/// 2^(10n+32): rows and columns together.
pub fn scale(n: u32) -> u128 {
    1 << (10 * n + 32)
}

impl Exact<'_> {
    fn at(&self, line: &[u128], c: i64) -> u128 {
        sample(line, c, self.edge)
    }
}

impl Passes for Exact<'_> {
    type Value = u128;

    fn halve(&self, line: &[u128]) -> Vec<u128> {
        let output = |x: i64| {
            let [p0, p1, p2, p3] = [-1, 0, 1, 2].map(|d| self.at(line, 2 * x + d));
            p0 + 3 * p1 + 3 * p2 + p3
        };
        (0..line.len().div_ceil(2) as i64).map(output).collect()
    }

    fn double(&self, line: &[u128], finer: usize) -> Vec<u128> {
        let output = |i: i64| {
            let far = if i % 2 == 0 { i / 2 - 1 } else { i / 2 + 1 };
            self.at(line, far) + 3 * self.at(line, i / 2)
        };
        (0..finer as i64).map(output).collect()
    }

    fn convolve(&self, line: &[u128]) -> Vec<u128> {
        let middle = self.numerators.len() as i64 / 2;
        let tap = |x: i64, j: usize| u128::from(self.numerators[j]) * self.at(line, x + j as i64 - middle);
        let output = |x: i64| (0..self.numerators.len()).map(|j| tap(x, j)).sum();
        (0..line.len() as i64).map(output).collect()
    }
}

/// One channel blurred exactly: whole numbers over `scale(n)`.
pub fn blur(numerators: &[u64], edge: Edge, n: u32, plane: &Plane<u8>) -> Plane<u128> {
    assert!(n <= MOST, "128 bits hold n up to {MOST}");
    let values = plane.values.iter().map(|v| u128::from(*v)).collect();
    scheme::blur(&Exact { numerators, edge }, n, &Plane { w: plane.w, h: plane.h, values })
}
