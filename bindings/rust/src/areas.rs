//! Area sums: the sum of the alphas of any box of a picture, from a table beside it.
use crate::refusal::answer;
use crate::{sys, Refusal, Size};

/// A box of pixels: `wide` columns from `x` on, `high` rows from `y` on.
#[derive(Clone, Copy, Debug, PartialEq, Eq, Hash)]
#[allow(missing_docs)]
pub struct Region {
    pub x: u32,
    pub y: u32,
    pub wide: u32,
    pub high: u32,
}

/// Fills the first [`Size::pixels`] entries of `table` with a picture's sums, each modulo 2^32.
///
/// Refusals: 2, 3.
///
/// ```
/// use corbelrush::{area_box, area_build, area_update, Refusal, Region, Size};
/// let (size, mut table) = (Size::new(2, 1)?, [0; 2]);
/// area_build(&[0, 0, 0, 7, 0, 0, 0, 8], size, &mut table)?;
/// let all = Region { x: 0, y: 0, wide: 2, high: 1 };
/// assert_eq!(area_box(&table, size, all)?, 15);
/// area_update(&mut table, size, 1, 8, 9)?;
/// assert_eq!(area_box(&table, size, all)?, 16);
/// # Ok::<(), Refusal>(())
/// ```
pub fn area_build(picture: &[u8], size: Size, table: &mut [u32]) -> Result<(), Refusal> {
    let (bytes, entries) = (picture.as_ptr(), table.as_mut_ptr());
    answer(unsafe { sys::corbelrush_area_build(bytes, picture.len(), size.w, size.h, entries, table.len()) })
}

/// The sum of the alphas of a box, from the table of a picture of this size.
///
/// Refusals: 3, 20.
pub fn area_box(table: &[u32], size: Size, region: Region) -> Result<u64, Refusal> {
    let Region { x, y, wide, high } = region;
    let mut sum = 0;
    answer(unsafe {
        sys::corbelrush_area_box(table.as_ptr(), table.len(), size.w, size.h, x, y, wide, high, &mut sum)
    })?;
    Ok(sum)
}

/// Carries the change of the alpha at the place y * w + x into a table.
///
/// Refusals: 3, 20.
pub fn area_update(table: &mut [u32], size: Size, place: u64, old: u8, new: u8) -> Result<(), Refusal> {
    answer(unsafe { sys::corbelrush_area_update(table.as_mut_ptr(), table.len(), size.w, size.h, place, old, new) })
}
