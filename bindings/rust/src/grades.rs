//! What graders ask of a picture: the check, the mender, the sampling view and the spread report.
use crate::refusal::answer;
use crate::{sys, EdgeMode, Refusal, Size};

/// The place y * w + x of the first pixel of which r, g or b exceeds a, or none.
///
/// Refusal: 2.
///
/// ```
/// use corbelrush::{check, Refusal, Size};
/// let size = Size::new(2, 1)?;
/// assert_eq!(check(&[0, 0, 0, 0, 1, 0, 0, 0], size)?, Some(1));
/// assert_eq!(check(&[0, 0, 0, 0, 1, 0, 0, 1], size)?, None);
/// # Ok::<(), Refusal>(())
/// ```
pub fn check(picture: &[u8], size: Size) -> Result<Option<u64>, Refusal> {
    let (mut found, mut place) = (0, 0);
    answer(unsafe { sys::corbelrush_check(picture.as_ptr(), picture.len(), size.w, size.h, &mut found, &mut place) })?;
    Ok((found != 0).then_some(place))
}

/// An entry of the mender's list.
#[derive(Clone, Copy, Debug, Default, PartialEq, Eq, Hash)]
#[repr(C)]
pub struct Change {
    /// Where: y * w + x.
    pub place: u32,
    /// The pixel that stood there, r | g << 8 | b << 16 | a << 24.
    pub pixel: u32,
}

/// Lowers each r, g or b above its alpha to that alpha, and answers how many first entries of `list` say what it changed.
/// Room for [`Size::pixels`] entries is always enough.
///
/// Refusals: 2, 17.
///
/// ```
/// use corbelrush::{mend, rebuild, Change, Refusal, Size};
/// let (mut picture, size) = ([9, 2, 2, 5, 1, 1, 1, 1], Size::new(2, 1)?);
/// let mut list = vec![Change::default(); size.pixels()];
/// let count = mend(&mut picture, size, &mut list)?;
/// assert_eq!((count, picture), (1, [5, 2, 2, 5, 1, 1, 1, 1]));
/// rebuild(&mut picture, size, &list[..count])?;
/// assert_eq!(picture, [9, 2, 2, 5, 1, 1, 1, 1]);
/// # Ok::<(), Refusal>(())
/// ```
pub fn mend(picture: &mut [u8], size: Size, list: &mut [Change]) -> Result<usize, Refusal> {
    let (bytes, entries) = (picture.as_mut_ptr(), list.as_mut_ptr());
    let mut count = 0;
    answer(unsafe { sys::corbelrush_mend(bytes, picture.len(), size.w, size.h, entries, list.len(), &mut count) })?;
    Ok(count as usize)
}

/// Puts the pixels of a list back, each into its place: the picture as it was before [`mend`].
///
/// Refusals: 2, 18.
pub fn rebuild(picture: &mut [u8], size: Size, list: &[Change]) -> Result<(), Refusal> {
    answer(unsafe {
        sys::corbelrush_rebuild(picture.as_mut_ptr(), picture.len(), size.w, size.h, list.as_ptr(), list.len())
    })
}

/// A picture that is read at any coordinates.
///
/// ```
/// use corbelrush::{EdgeMode, Refusal, Size, View};
/// let picture = [1, 2, 3, 4, 5, 6, 7, 8];
/// let view = View::new(&picture, Size::new(2, 1)?, EdgeMode::Wrap)?;
/// assert_eq!(view.sample(-1, i32::MIN), [5, 6, 7, 8]);
/// # Ok::<(), Refusal>(())
/// ```
#[derive(Clone, Copy, Debug)]
pub struct View<'a> {
    picture: &'a [u8],
    size: Size,
    edge: EdgeMode,
}

impl<'a> View<'a> {
    /// Over a picture. Refusal: 2.
    pub fn new(picture: &'a [u8], size: Size, edge: EdgeMode) -> Result<View<'a>, Refusal> {
        answer(unsafe { sys::corbelrush_view(picture.as_ptr(), picture.len(), size.w, size.h, edge as u32) })?;
        Ok(View { picture, size, edge })
    }

    /// r, g, b and a at column x and row y, each extended by the edge rule.
    pub fn sample(&self, x: i32, y: i32) -> [u8; 4] {
        let (bytes, length, Size { w, h }) = (self.picture.as_ptr(), self.picture.len(), self.size);
        unsafe { sys::corbelrush_sample(bytes, length, w, h, self.edge as u32, x, y) }.to_le_bytes()
    }
}

/// The variance of a blur along an axis, in units of 1/131072 of a square pixel. It is the check of a kernel: weights that
/// do not sum to 1, or are no multiples of 1/65536, are refused.
///
/// Refusals: 4, 6, 11.
pub fn spread(weights: &[f32], decimations: u32) -> Result<u64, Refusal> {
    let mut spread = 0;
    answer(unsafe { sys::corbelrush_spread(weights.as_ptr(), weights.len(), decimations, &mut spread) })?;
    Ok(spread)
}
