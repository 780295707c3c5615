//! Which points made this pixel (request 14): the exact weight of one input in one output, over 2^(10n+32).
use crate::edges::Edge;
use crate::exact;
use crate::refusal::{self, first};
use crate::scheme::Plane;
use crate::whole::heavy;

/// Shares are answered for this many decimations and fewer.
pub const MOST_DECIMATIONS: u32 = 3;

/// An input's place and its share.
#[repr(C)]
#[derive(Clone, Copy, Debug, Default, PartialEq)]
pub struct Point {
    pub place: u64,
    pub share: u64,
}

/// What is asked about: the size and the blur.
#[derive(Clone, Copy)]
pub struct Blur<'a> {
    pub w: u32,
    pub h: u32,
    pub numerators: &'a [u32],
    pub n: u32,
    pub edge: u32,
}

impl Blur<'_> {
    fn area(&self) -> u64 {
        u64::from(self.w) * u64::from(self.h)
    }

    /// 1, 4, 9, 21, 22 and 14.
    fn refused(&self, places: &[u64]) -> u32 {
        first(&[
            (1, refusal::sides(self.w, self.h)),
            (4, refusal::taps(self.numerators)),
            (9, refusal::edge(self.edge)),
            (21, self.n > MOST_DECIMATIONS),
            (22, places.iter().any(|place| *place >= self.area())),
            (14, heavy(self.numerators)),
        ])
    }

    /// What the exact blur makes, at the output, of a picture that is 1 at the input alone.
    fn weight(&self, edge: Edge, out_place: u64, in_place: u64) -> u64 {
        let mut values = vec![0; self.area() as usize];
        values[in_place as usize] = 1;
        let numerators: Vec<u64> = self.numerators.iter().map(|m| u64::from(*m)).collect();
        let picture = Plane { w: self.w as usize, h: self.h as usize, values };
        let blurred = exact::blur(&numerators, edge, self.n, &picture);
        u64::try_from(blurred.values[out_place as usize]).expect("at most 2^62")
    }

    /// The number, and the share.
    pub fn share(&self, out_place: u64, in_place: u64) -> (u32, u64) {
        match (self.refused(&[out_place, in_place]), Edge::of(self.edge)) {
            (0, Some(edge)) => (0, self.weight(edge, out_place, in_place)),
            (refused, _) => (refused, 0),
        }
    }

    /// The inputs with a share, in scan order: every input is tried. Or the refusal.
    pub fn points(&self, out_place: u64) -> Result<Vec<Point>, u32> {
        match (self.refused(&[out_place]), Edge::of(self.edge)) {
            (0, Some(edge)) => {
                let point = |place| Point { place, share: self.weight(edge, out_place, place) };
                Ok((0..self.area()).map(point).filter(|point| point.share != 0).collect())
            }
            (refused, _) => Err(refused),
        }
    }

    /// The number, and how many points are listed: 17 comes after all others. Entries past them stay.
    pub fn shares(&self, out_place: u64, list: &mut [Point]) -> (u32, u64) {
        match self.points(out_place) {
            Ok(found) if list.len() < found.len() => (17, 0),
            Ok(found) => {
                list[..found.len()].copy_from_slice(&found);
                (0, found.len() as u64)
            }
            Err(refused) => (refused, 0),
        }
    }
}
