//! The mender and the tool that takes its work back (request 08).
use crate::grading::exceeds;
use crate::refusal::{self, first};

/// A place and the pixel that was there, packed as a sample is: r in the lowest byte, then g, b, a.
#[repr(C)]
#[derive(Clone, Copy, Debug, Default, PartialEq)]
pub struct Change {
    pub place: u32,
    pub pixel: u32,
}

/// What mending changes, in scan order.
pub fn changes(picture: &[u8]) -> Vec<Change> {
    let pixels = picture.chunks_exact(4).enumerate().filter(|(_, pixel)| exceeds(pixel));
    pixels
        .map(|(place, p)| Change { place: place as u32, pixel: u32::from_le_bytes([p[0], p[1], p[2], p[3]]) })
        .collect()
}

/// Each r, g and b above its alpha lowered to it.
pub fn lowered(pixel: &mut [u8]) {
    let alpha = pixel[3];
    pixel.iter_mut().for_each(|c| *c = (*c).min(alpha));
}

/// Mend: 1, 2, then 17. The number, and how many pixels fail the check.
pub fn mend(picture: &mut [u8], w: u32, h: u32, list: &mut [Change]) -> (u32, u64) {
    let found = changes(picture);
    let refused =
        first(&[(1, refusal::sides(w, h)), (2, refusal::length(picture, w, h)), (17, list.len() < found.len())]);
    if refused != 0 {
        return (refused, 0);
    }
    list[..found.len()].copy_from_slice(&found);
    picture.chunks_exact_mut(4).for_each(lowered);
    (0, found.len() as u64)
}

/// A place outside the picture, or places that do not strictly rise.
pub fn wrong_list(list: &[Change], w: u32, h: u32) -> bool {
    let outside = list.iter().any(|change| u64::from(change.place) >= u64::from(w) * u64::from(h));
    outside || list.windows(2).any(|pair| pair[0].place >= pair[1].place)
}

/// Rebuild: 1, 2, then 18. Each listed pixel is put back.
pub fn rebuild(picture: &mut [u8], w: u32, h: u32, list: &[Change]) -> u32 {
    let refused =
        first(&[(1, refusal::sides(w, h)), (2, refusal::length(picture, w, h)), (18, wrong_list(list, w, h))]);
    if refused == 0 {
        for change in list {
            let at = 4 * change.place as usize;
            picture[at..at + 4].copy_from_slice(&change.pixel.to_le_bytes());
        }
    }
    refused
}
