//! Shadow: copy, shift the copy, blur it, colour it, and lay the original over it where asked.
use crate::blur::{blurred, to_channel, Rounding};
use crate::edges::Edge;
use crate::refusal::{self, first};
use crate::shift::{shifted, whole};

#[derive(Clone, Copy, Debug, PartialEq)]
pub struct Recipe {
    pub dx: f32,
    pub dy: f32,
    pub strength: f32,
    /// Red, green, blue, alpha.
    pub colour: [f32; 4],
}

fn share(channel: u8) -> f32 {
    f32::from(channel) / 255.0
}

/// A channel multiplied by its alpha.
pub type Premultiply = fn(channel: u8, alpha: u8) -> u8;

/// To the nearest whole number.
pub fn premultiply(channel: u8, alpha: u8) -> u8 {
    ((u32::from(channel) * u32::from(alpha) + 127) / 255) as u8
}

/// The shadow's pixel where the shifted and blurred copy has alpha `a`.
pub fn coloured(a: u8, colour: [f32; 4], premultiply: Premultiply) -> [u8; 4] {
    let [red, green, blue, alpha] = colour;
    let product = share(a) * alpha;
    let alpha = to_channel(product.min(1.0) * 255.0);
    let times = |component: f32| premultiply(to_channel(component * 255.0), alpha);
    [times(red), times(green), times(blue), alpha]
}

/// One channel of the original laid over the shadow's.
pub fn over(src: u8, dst: u8, src_alpha: u8) -> u8 {
    let rest = 1.0 - share(src_alpha);
    let product = share(dst) * rest;
    let sum = share(src) + product;
    to_channel(sum * 255.0)
}

/// The picture that comes of the original and the shifted and blurred copy.
pub fn finished(original: &[u8], copy: &[u8], colour: [f32; 4], premultiply: Premultiply, composite: bool) -> Vec<u8> {
    let pixel = |(src, copied): (&[u8], &[u8])| {
        let dst = coloured(copied[3], colour, premultiply);
        if composite {
            [0, 1, 2, 3].map(|c| over(src[c], dst[c], src[3]))
        } else {
            dst
        }
    };
    original.chunks_exact(4).zip(copy.chunks_exact(4)).flat_map(pixel).collect()
}

/// Refusals 1 to 9.
#[allow(clippy::too_many_arguments)]
pub fn refused(
    picture: &[u8],
    w: u32,
    h: u32,
    scratch: &[u8],
    copy: &[u8],
    weights: &[f32],
    n: u32,
    edge: u32,
    recipe: Recipe,
) -> u32 {
    let Recipe { dx, dy, strength, colour } = recipe;
    first(&[
        (1, refusal::sides(w, h)),
        (2, refusal::length(picture, w, h)),
        (3, refusal::short(scratch, w, h) || refusal::short(copy, w, h)),
        (4, refusal::taps(weights)),
        (5, refusal::weights(weights)),
        (6, refusal::decimations(n)),
        (7, [strength, dx, dy].iter().any(|v| !v.is_finite())),
        (8, colour.iter().any(|c| refusal::share(*c))),
        (9, refusal::edge(edge)),
    ])
}

#[allow(clippy::too_many_arguments)]
pub fn shadow(
    picture: &mut [u8],
    w: u32,
    h: u32,
    scratch: &mut [u8],
    copy: &mut [u8],
    weights: &[f32],
    n: u32,
    edge: u32,
    recipe: Recipe,
    composite: bool,
) -> u32 {
    let refused = refused(picture, w, h, scratch, copy, weights, n, edge, recipe);
    let (0, Some(edge)) = (refused, Edge::of(edge)) else { return refused };
    let Recipe { dx, dy, strength, colour } = recipe;
    let (width, height) = (w as usize, h as usize);
    let mut moved = shifted(picture, width, height, whole(dx), whole(dy));
    if strength > 0.0 {
        moved = blurred(&Rounding { weights, edge }, n, &moved, width, height);
    }
    picture.copy_from_slice(&finished(picture, &moved, colour, premultiply, composite));
    scratch[..picture.len()].fill(0);
    copy[..picture.len()].fill(0);
    0
}
