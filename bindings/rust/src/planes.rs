//! A picture as four planes: all r, then all g, b and a.
use crate::filters::{blur_by, shadow_by, shift_by};
use crate::refusal::answer;
use crate::{sys, Blur, Refusal, Shadow, Size};

fn convert(function: sys::Convert, from: &[u8], size: Size, to: &mut [u8]) -> Result<(), Refusal> {
    answer(unsafe { function(from.as_ptr(), from.len(), size.w, size.h, to.as_mut_ptr(), to.len()) })
}

/// Writes a picture as four planes into the first 4wh bytes of `planes`.
///
/// Refusals: 2, 3.
///
/// ```
/// use corbelrush::{from_planes, shift_planes, to_planes, Refusal, Size};
/// let (size, mut planes, mut picture) = (Size::new(2, 1)?, [0; 8], [0; 8]);
/// to_planes(&[1, 2, 3, 4, 5, 6, 7, 8], size, &mut planes)?;
/// assert_eq!(planes, [1, 5, 2, 6, 3, 7, 4, 8]);
/// shift_planes(&mut planes, size, 1.0, 0.0)?;
/// from_planes(&planes, size, &mut picture)?;
/// assert_eq!(picture, [0, 0, 0, 0, 1, 2, 3, 4]);
/// # Ok::<(), Refusal>(())
/// ```
pub fn to_planes(picture: &[u8], size: Size, planes: &mut [u8]) -> Result<(), Refusal> {
    convert(sys::corbelrush_to_planes, picture, size, planes)
}

/// Writes four planes as a picture into its first 4wh bytes.
///
/// Refusals: 2, 3.
pub fn from_planes(planes: &[u8], size: Size, picture: &mut [u8]) -> Result<(), Refusal> {
    convert(sys::corbelrush_from_planes, planes, size, picture)
}

/// [`blur`](crate::blur) on planes: the same bytes and refusals as on the picture.
pub fn blur_planes(planes: &mut [u8], size: Size, scratch: &mut [u8], how: Blur) -> Result<(), Refusal> {
    blur_by(sys::corbelrush_blur_planes, planes, size, scratch, how)
}

/// [`shift`](crate::shift) on planes: the same bytes and refusals as on the picture.
pub fn shift_planes(planes: &mut [u8], size: Size, dx: f32, dy: f32) -> Result<(), Refusal> {
    shift_by(sys::corbelrush_shift_planes, planes, size, dx, dy)
}

/// [`shadow`](crate::shadow) on planes: the same bytes and refusals as on the picture.
pub fn shadow_planes(
    planes: &mut [u8],
    size: Size,
    scratch: &mut [u8],
    copy: &mut [u8],
    how: Shadow,
) -> Result<(), Refusal> {
    shadow_by(sys::corbelrush_shadow_planes, planes, size, scratch, copy, how)
}
