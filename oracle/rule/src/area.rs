//! Area sums (request 12): a table of sums of alphas, kept modulo 2^32, beside a picture.
use crate::refusal::{self, first};

/// 16843009 pixels of alpha 255 sum to 2^32 - 1.
pub const LARGEST_BOX: u64 = 16843009;

/// A whole number kept in 32 bits.
fn kept(value: i128) -> u32 {
    value.rem_euclid(1 << 32) as u32
}

/// For each pixel the sum of all alphas at or left of it in the rows down to its own: by columns first, and as whole
/// numbers up to the end.
pub fn built(picture: &[u8], w: usize) -> Vec<u32> {
    let mut columns = vec![0_u64; w];
    let mut table = Vec::new();
    for row in picture.chunks_exact(4 * w) {
        for (column, pixel) in columns.iter_mut().zip(row.chunks_exact(4)) {
            *column += u64::from(pixel[3]);
        }
        let mut sum = 0;
        table.extend(columns.iter().map(|column| {
            sum += column;
            kept(sum.into())
        }));
    }
    table
}

/// The table has fewer entries than the picture has pixels.
pub fn short(table: &[u32], w: u32, h: u32) -> bool {
    (table.len() as u128) < u128::from(w) * u128::from(h)
}

/// Build: 1, 2, 3. Entries past wh stay.
pub fn build(picture: &[u8], w: u32, h: u32, table: &mut [u32]) -> u32 {
    let refused = first(&[(1, refusal::sides(w, h)), (2, refusal::length(picture, w, h)), (3, short(table, w, h))]);
    if refused == 0 {
        let new = built(picture, w as usize);
        table[..new.len()].copy_from_slice(&new);
    }
    refused
}

/// A box that is empty, not inside, or too large.
pub fn wrong_box(w: u32, h: u32, x: u32, y: u32, wide: u32, high: u32) -> bool {
    let [w, h, x, y, wide, high] = [w, h, x, y, wide, high].map(u64::from);
    wide == 0 || high == 0 || x + wide > w || y + high > h || wide * high > LARGEST_BOX
}

/// What a table holds for the pixels left of x and above y; nothing at the border.
fn corner(table: &[u32], w: u32, x: u32, y: u32) -> i128 {
    match (x.checked_sub(1), y.checked_sub(1)) {
        (Some(left), Some(above)) => table[above as usize * w as usize + left as usize].into(),
        _ => 0,
    }
}

/// Box: 1, 3, 20. The number and the sum.
pub fn box_sum(table: &[u32], w: u32, h: u32, x: u32, y: u32, wide: u32, high: u32) -> (u32, u64) {
    let refused = first(&[(1, refusal::sides(w, h)), (3, short(table, w, h)), (20, wrong_box(w, h, x, y, wide, high))]);
    if refused != 0 {
        return (refused, 0);
    }
    let at = |x, y| corner(table, w, x, y);
    (0, kept(at(x + wide, y + high) - at(x, y + high) - at(x + wide, y) + at(x, y)).into())
}

/// Update: 1, 3, 20. Each entry at or below and right of the place gains the new alpha and loses the old one.
pub fn update(table: &mut [u32], w: u32, h: u32, place: u64, old: u8, new: u8) -> u32 {
    let area = u64::from(w) * u64::from(h);
    let refused = first(&[(1, refusal::sides(w, h)), (3, short(table, w, h)), (20, place >= area)]);
    if refused == 0 {
        let w = w as usize;
        let (x, y) = (place as usize % w, place as usize / w);
        for (i, entry) in table[..area as usize].iter_mut().enumerate() {
            if i % w >= x && i / w >= y {
                *entry = kept(i128::from(*entry) + i128::from(new) - i128::from(old));
            }
        }
    }
    refused
}
