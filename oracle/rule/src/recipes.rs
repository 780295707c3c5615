//! Lists of recipes (request 10): all are checked, and then they run one after the other on one picture.
use crate::blur::{blurred, Rounding};
use crate::edges::Edge;
use crate::refusal::{self, first};
use crate::shadow::{finished, premultiply};
use crate::shift::{shifted, whole};
use crate::MOST_TAPS;

pub const BLUR: u32 = 0;
pub const SHIFT: u32 = 1;
pub const SHADOW: u32 = 2;

/// One recipe, as C has it. What its operation does not name is not read.
#[repr(C)]
#[derive(Clone, Copy, Debug, PartialEq)]
pub struct Step {
    pub operation: u32,
    pub kernel: u32,
    pub taps: u32,
    pub n: u32,
    pub edge: u32,
    pub composite: u32,
    pub dx: f32,
    pub dy: f32,
    pub strength: f32,
    /// Red, green, blue, alpha.
    pub colour: [f32; 4],
}

impl Step {
    /// 19: no such operation, or no such kernel of the table but for a shift. A shorter rest of the table is no kernel.
    fn unknown(&self, table: &[f32]) -> bool {
        let kernels = table.len() / MOST_TAPS;
        self.operation > SHADOW || self.operation != SHIFT && self.kernel as usize >= kernels
    }

    /// The first of the kernel's weights, as many as there are taps.
    pub fn weights<'a>(&self, table: &'a [f32]) -> &'a [f32] {
        let kernel = table.chunks_exact(MOST_TAPS).nth(self.kernel as usize).unwrap_or(&[]);
        &kernel[..kernel.len().min(self.taps as usize)]
    }

    /// A recipe's own number: 19, then the checks of its operation.
    pub fn refused(&self, table: &[f32]) -> u32 {
        let blurs = self.operation != SHIFT;
        let casts = self.operation == SHADOW;
        let moves = self.operation != BLUR;
        first(&[
            (19, self.unknown(table)),
            (4, blurs && (self.taps == 0 || self.taps as usize > MOST_TAPS)),
            (5, blurs && refusal::weights(self.weights(table))),
            (6, blurs && refusal::decimations(self.n)),
            (7, blurs && !self.strength.is_finite() || moves && !(self.dx.is_finite() && self.dy.is_finite())),
            (8, casts && self.colour.iter().any(|component| refusal::share(*component))),
            (9, blurs && refusal::edge(self.edge)),
        ])
    }

    /// What a good recipe makes of a picture.
    fn worked(&self, table: &[f32], picture: &[u8], w: usize, h: usize) -> Vec<u8> {
        let moved = || shifted(picture, w, h, whole(self.dx), whole(self.dy));
        let blurred = |picture: Vec<u8>| match Edge::of(self.edge) {
            Some(edge) if self.strength > 0.0 => {
                blurred(&Rounding { weights: self.weights(table), edge }, self.n, &picture, w, h)
            }
            _ => picture,
        };
        match self.operation {
            BLUR => blurred(picture.to_vec()),
            SHIFT => moved(),
            _ => finished(picture, &blurred(moved()), self.colour, premultiply, self.composite != 0),
        }
    }
}

/// The number and the index of the first bad recipe, or 0 and 0.
pub fn first_bad(steps: &[Step], table: &[f32]) -> (u32, u64) {
    let bad = steps.iter().map(|step| step.refused(table)).zip(0..).find(|(number, _)| *number != 0);
    bad.unwrap_or((0, 0))
}

/// A list of recipes: 1, 2, 3 of both work buffers, and then recipe by recipe its own. The number and the index.
pub fn recipes(
    picture: &mut [u8],
    w: u32,
    h: u32,
    scratch: &mut [u8],
    copy: &mut [u8],
    steps: &[Step],
    table: &[f32],
) -> (u32, u64) {
    let refused = first(&[
        (1, refusal::sides(w, h)),
        (2, refusal::length(picture, w, h)),
        (3, refusal::short(scratch, w, h) || refusal::short(copy, w, h)),
    ]);
    let answer = if refused == 0 { first_bad(steps, table) } else { (refused, 0) };
    if answer.0 == 0 {
        for step in steps {
            picture.copy_from_slice(&step.worked(table, picture, w as usize, h as usize));
        }
        scratch[..picture.len()].fill(0);
        copy[..picture.len()].fill(0);
    }
    answer
}
