//! Shares: which points of a picture made a pixel of its blur.
use crate::refusal::answer;
use crate::{sys, Refusal, Size, WholeBlur};

/// A point that made a pixel.
#[derive(Clone, Copy, Debug, Default, PartialEq, Eq, Hash)]
#[repr(C)]
pub struct Point {
    /// Where: y * w + x.
    pub place: u64,
    /// Its share, over 2^(10n+32).
    pub share: u64,
}

/// The exact weight of the input at one place in the output at another, over 2^(10n+32).
///
/// Refusals: 21, 22.
///
/// ```
/// use corbelrush::{share, shares, EdgeMode, Point, Refusal, Size, WholeBlur, WholeKernel};
/// let (size, kernel) = (Size::new(3, 1)?, WholeKernel::new(&[16384, 32768, 16384])?);
/// let how = WholeBlur { kernel: &kernel, decimations: 0, edge: EdgeMode::Duplicate };
/// assert_eq!(share(size, how, 0, 0)?, 3 << 30);
/// let mut list = vec![Point::default(); size.pixels()];
/// assert_eq!(shares(size, how, 0, &mut list)?, 2);
/// assert_eq!(list[1], Point { place: 1, share: 1 << 30 });
/// # Ok::<(), Refusal>(())
/// ```
pub fn share(size: Size, how: WholeBlur, output: u64, input: u64) -> Result<u64, Refusal> {
    let numerators = how.kernel.numerators();
    let mut share = 0;
    answer(unsafe {
        sys::corbelrush_share(
            size.w,
            size.h,
            numerators.as_ptr(),
            numerators.len(),
            how.decimations,
            how.edge as u32,
            output,
            input,
            &mut share,
        )
    })?;
    Ok(share)
}

/// Lists the points that made an output, in the order of their places, and answers how many first entries of `list` they
/// are. Room for [`Size::pixels`] entries is always enough.
///
/// Refusals: 21, 22, 17.
pub fn shares(size: Size, how: WholeBlur, output: u64, list: &mut [Point]) -> Result<usize, Refusal> {
    let numerators = how.kernel.numerators();
    let mut points = 0;
    answer(unsafe {
        sys::corbelrush_shares(
            size.w,
            size.h,
            numerators.as_ptr(),
            numerators.len(),
            how.decimations,
            how.edge as u32,
            output,
            list.as_mut_ptr(),
            list.len(),
            &mut points,
        )
    })?;
    Ok(points as usize)
}
