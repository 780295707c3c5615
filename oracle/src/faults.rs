//! Small models of the Rust's faults: the rule, and where a fault departs from it.
use crate::case::{Case, Entry};
use crate::rust::checks_overflow;
use filters::Class;
use rule::blur::{blurred, Rounding};
use rule::edges::Edge;
use rule::scheme::Passes;
use rule::shadow::{finished, premultiply, Premultiply};
use rule::shift::{shifted, whole};

/// Which faults a model has.
#[derive(Clone, Copy)]
pub struct Faults<'a>(pub &'a dyn Fn(Class) -> bool);

pub const ALL: Faults<'static> = Faults(&|_| true);

/// The line passes of the Rust, which write over the line that they read.
pub struct InPlace<'a> {
    pub rounding: Rounding<'a>,
    pub faults: Faults<'a>,
}

impl InPlace<'_> {
    fn wraps(&self, class: Class) -> bool {
        self.rounding.edge == Edge::Wrap && (self.faults.0)(class)
    }
}

impl Passes for InPlace<'_> {
    type Value = u8;

    /// The last output's samples past the end are the line's first pixels. Those of them that an
    /// earlier output was written over (0 from three pixels on, 1 from five on) are read halved.
    fn halve(&self, line: &[u8]) -> Vec<u8> {
        let mut out = self.rounding.halve(line);
        let (size, last) = (line.len(), out.len() - 1);
        if self.wraps(Class::Halving) {
            let late = |past: usize| {
                let i = past % size;
                u32::from(if i < last { out[i] } else { line[i] })
            };
            let [p0, p1] = [-1, 0].map(|d| self.rounding.at(line, 2 * last as i64 + d));
            let [p2, p3] =
                [2 * last + 1, 2 * last + 2].map(|c| if c < size { u32::from(line[c]) } else { late(c - size) });
            out[last] = ((p0 + 3 * p1 + 3 * p2 + p3 + 4) / 8) as u8;
        }
        out
    }

    /// Output 0 is written last. Its sample before the beginning is the line's last pixel, which
    /// from three pixels on is read doubled.
    fn double(&self, line: &[u8], finer: usize) -> Vec<u8> {
        let mut out = self.rounding.double(line, finer);
        if self.wraps(Class::Doubling) && line.len() >= 3 {
            let [far, near] = [out[line.len() - 1], line[0]].map(u32::from);
            out[0] = ((far + 3 * near + 2) / 4) as u8;
        }
        out
    }

    fn convolve(&self, line: &[u8]) -> Vec<u8> {
        self.rounding.convolve(line)
    }
}

/// Offsets as the Rust has them: rounded, then held to 32 bits.
fn held(offset: f32) -> i64 {
    whole(offset).clamp(i32::MIN.into(), i32::MAX.into())
}

/// The Rust clears index i of a side s moved by d: compared through a 16-bit cast.
fn clears(i: i64, s: i64, d: i64) -> bool {
    (d > 0 && i < d.rem_euclid(65536)) || (d < 0 && i >= (s + d).rem_euclid(65536))
}

/// Where no pixel stays inside, the Rust moves nothing and keeps whatever the cast does not clear.
fn shifted_in_place(picture: &[u8], w: usize, h: usize, dx: i64, dy: i64) -> Vec<u8> {
    if dx.abs() < w as i64 && dy.abs() < h as i64 {
        return shifted(picture, w, h, dx, dy);
    }
    let mut answer = picture.to_vec();
    for (i, pixel) in answer.chunks_exact_mut(4).enumerate() {
        if clears((i % w) as i64, w as i64, dx) || clears((i / w) as i64, h as i64, dy) {
            pixel.fill(0);
        }
    }
    answer
}

/// The Rust's colour: a 255th of the product, down to a whole number.
fn floored(channel: u8, alpha: u8) -> u8 {
    (u32::from(channel) * u32::from(alpha) / 255) as u8
}

/// A coordinate of the picture plus the offset passes 32 bits.
pub fn overflows(case: &Case) -> bool {
    let passes = |side: u32, offset: f32| i64::from(side) - 1 + held(offset) > i32::MAX.into();
    case.shifts() && (passes(case.w, case.dx) || passes(case.h, case.dy))
}

/// The picture after an accepted case, or none where the Rust panics.
pub fn picture(case: &Case, faults: Faults) -> Option<Vec<u8>> {
    if overflows(case) && checks_overflow() && (faults.0)(Class::Overflow) {
        return None;
    }
    if case.entry == Entry::PlateJob {
        let (mut plate, mut scratch) = (case.picture.clone(), vec![0; case.scratch]);
        rule::plate::job(&mut plate, &mut scratch);
        return Some(plate);
    }
    let (w, h) = (case.w as usize, case.h as usize);
    let mut copy = case.picture.clone();
    if case.shifts() {
        let shift = if (faults.0)(Class::Clearing) { shifted_in_place } else { shifted };
        copy = shift(&copy, w, h, held(case.dx), held(case.dy));
    }
    if case.blurs() && case.strength > 0.0 {
        let edge = Edge::of(case.edge).expect("an accepted edge");
        let rounding = Rounding { weights: &case.weights, edge };
        copy = blurred(&InPlace { rounding, faults }, case.n, &copy, w, h);
    }
    let times: Premultiply = if (faults.0)(Class::Flooring) { floored } else { premultiply };
    match case.entry {
        Entry::Shadow => Some(finished(&case.picture, &copy, case.colour, times, case.composite != 0)),
        _ => Some(copy),
    }
}
