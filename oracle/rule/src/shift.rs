//! Shift: every pixel moved by a whole number of pixels.
use crate::refusal::{self, first};

/// Nearest whole number, halves away from zero, held far outside every picture.
pub fn whole(offset: f32) -> i64 {
    const FAR: f64 = 1e12;
    let size = f64::from(offset).abs().min(FAR);
    let rounded = (size + 0.5).floor() as i64;
    if offset < 0.0 {
        -rounded
    } else {
        rounded
    }
}

/// Output (x, y) is input (x - dx, y - dy) where that lies inside, else four zeros.
pub fn shifted(picture: &[u8], w: usize, h: usize, dx: i64, dy: i64) -> Vec<u8> {
    let mut answer = vec![0; picture.len()];
    for (i, pixel) in answer.chunks_exact_mut(4).enumerate() {
        let (x, y) = ((i % w) as i64 - dx, (i / w) as i64 - dy);
        if (0..w as i64).contains(&x) && (0..h as i64).contains(&y) {
            let place = 4 * (y as usize * w + x as usize);
            pixel.copy_from_slice(&picture[place..place + 4]);
        }
    }
    answer
}

/// Refusals 1, 2, 7.
pub fn refused(picture: &[u8], w: u32, h: u32, dx: f32, dy: f32) -> u32 {
    first(&[(1, refusal::sides(w, h)), (2, refusal::length(picture, w, h)), (7, !dx.is_finite() || !dy.is_finite())])
}

pub fn shift(picture: &mut [u8], w: u32, h: u32, dx: f32, dy: f32) -> u32 {
    let refused = refused(picture, w, h, dx, dy);
    if refused == 0 {
        let answer = shifted(picture, w as usize, h as usize, whole(dx), whole(dy));
        picture.copy_from_slice(&answer);
    }
    refused
}
