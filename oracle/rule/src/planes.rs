//! Four planes (request 13): all r, then all g, b and a, and the three operations on them, each plane by itself.
use crate::blur::{self, Rounding};
use crate::edges::Edge;
use crate::refusal::{self, first};
use crate::scheme::{self, Plane};
use crate::shadow::{self, over, premultiply, Recipe};
use crate::shift::{self, whole};

/// The planes of a picture.
pub fn planes(picture: &[u8]) -> Vec<u8> {
    (0..4).flat_map(|channel| picture.iter().skip(channel).step_by(4).copied()).collect()
}

/// The picture of four planes.
pub fn interleaved(planes: &[u8]) -> Vec<u8> {
    let area = planes.len() / 4;
    (0..planes.len()).map(|i| planes[i % 4 * area + i / 4]).collect()
}

/// Converting: 1, 2 of what is read, 3 of the room. Bytes past 4wh stay.
fn converted(src: &[u8], w: u32, h: u32, dst: &mut [u8], convert: fn(&[u8]) -> Vec<u8>) -> u32 {
    let refused = first(&[(1, refusal::sides(w, h)), (2, refusal::length(src, w, h)), (3, refusal::short(dst, w, h))]);
    if refused == 0 {
        dst[..src.len()].copy_from_slice(&convert(src));
    }
    refused
}

pub fn to_planes(src: &[u8], w: u32, h: u32, dst: &mut [u8]) -> u32 {
    converted(src, w, h, dst, planes)
}

pub fn from_planes(src: &[u8], w: u32, h: u32, dst: &mut [u8]) -> u32 {
    converted(src, w, h, dst, interleaved)
}

fn blurred(plane: &[u8], w: usize, h: usize, rounding: &Rounding, n: u32) -> Vec<u8> {
    scheme::blur(rounding, n, &Plane { w, h, values: plane.to_vec() }).values
}

/// Blur: the refusals of the blur, on each plane by itself.
#[allow(clippy::too_many_arguments)]
pub fn blur_planes(
    planes: &mut [u8],
    w: u32,
    h: u32,
    scratch: &mut [u8],
    weights: &[f32],
    n: u32,
    strength: f32,
    edge: u32,
) -> u32 {
    let refused = blur::refused(planes, w, h, scratch, weights, n, strength, edge);
    let (0, Some(edge)) = (refused, Edge::of(edge)) else { return refused };
    let (w, h) = (w as usize, h as usize);
    if strength > 0.0 {
        for plane in planes.chunks_exact_mut(w * h) {
            plane.copy_from_slice(&blurred(plane, w, h, &Rounding { weights, edge }, n));
        }
    }
    scratch[..planes.len()].fill(0);
    0
}

/// Output (x, y) of a plane is input (x - dx, y - dy) where that lies inside, else 0.
fn moved(plane: &[u8], w: usize, h: usize, dx: i64, dy: i64) -> Vec<u8> {
    let inside = |c: usize, d: i64, side: usize| usize::try_from(c as i64 - d).ok().filter(|from| *from < side);
    let byte = |i: usize| match (inside(i % w, dx, w), inside(i / w, dy, h)) {
        (Some(x), Some(y)) => plane[y * w + x],
        _ => 0,
    };
    (0..plane.len()).map(byte).collect()
}

/// Shift: the refusals of the shift, on each plane by itself.
pub fn shift_planes(planes: &mut [u8], w: u32, h: u32, dx: f32, dy: f32) -> u32 {
    let refused = shift::refused(planes, w, h, dx, dy);
    if refused == 0 {
        for plane in planes.chunks_exact_mut(w as usize * h as usize) {
            plane.copy_from_slice(&moved(plane, w as usize, h as usize, whole(dx), whole(dy)));
        }
    }
    refused
}

/// Shadow: the refusals of the shadow. The plane of alphas alone is shifted and blurred.
#[allow(clippy::too_many_arguments)]
pub fn shadow_planes(
    planes: &mut [u8],
    w: u32,
    h: u32,
    scratch: &mut [u8],
    copy: &mut [u8],
    weights: &[f32],
    n: u32,
    edge: u32,
    recipe: Recipe,
    composite: bool,
) -> u32 {
    let refused = shadow::refused(planes, w, h, scratch, copy, weights, n, edge, recipe);
    let (0, Some(edge)) = (refused, Edge::of(edge)) else { return refused };
    let (width, height) = (w as usize, h as usize);
    let alphas = planes[3 * width * height..].to_vec();
    let mut cast = moved(&alphas, width, height, whole(recipe.dx), whole(recipe.dy));
    if recipe.strength > 0.0 {
        cast = blurred(&cast, width, height, &Rounding { weights, edge }, n);
    }
    for (channel, plane) in planes.chunks_exact_mut(width * height).enumerate() {
        for (i, byte) in plane.iter_mut().enumerate() {
            let dst = shadow::coloured(cast[i], recipe.colour, premultiply)[channel];
            *byte = if composite { over(*byte, dst, alphas[i]) } else { dst };
        }
    }
    scratch[..planes.len()].fill(0);
    copy[..planes.len()].fill(0);
    0
}
