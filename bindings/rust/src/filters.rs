//! Blur, shift and shadow.
use crate::refusal::answer;
use crate::{sys, EdgeMode, Kernel, Refusal, Size, WholeKernel};

/// How a picture is blurred: halvings, the convolution in rows and in columns, and as many doublings.
#[derive(Clone, Copy, Debug, PartialEq)]
pub struct Blur<'a> {
    /// What it is convolved with.
    pub kernel: &'a Kernel,
    /// How many halvings and doublings, 0 to [`MAX_DECIMATIONS`](crate::MAX_DECIMATIONS).
    pub decimations: u32,
    /// A switch: above 0 the picture is blurred, and 1 and 100 give the same bytes; else it stays as it is.
    pub strength: f32,
    /// What the picture is beyond its borders.
    pub edge: EdgeMode,
}

/// A blur in whole numbers alone. It is on: there is no strength.
#[derive(Clone, Copy, Debug, PartialEq)]
pub struct WholeBlur<'a> {
    /// What the picture is convolved with.
    pub kernel: &'a WholeKernel,
    /// How many halvings and doublings, 0 to [`MAX_DECIMATIONS`](crate::MAX_DECIMATIONS).
    pub decimations: u32,
    /// What the picture is beyond its borders.
    pub edge: EdgeMode,
}

/// A colour, not premultiplied, each component from 0 to 1.
#[derive(Clone, Copy, Debug, PartialEq)]
#[allow(missing_docs)]
pub struct Colour {
    pub red: f32,
    pub green: f32,
    pub blue: f32,
    pub alpha: f32,
}

/// How a shadow is drawn.
#[derive(Clone, Copy, Debug, PartialEq)]
pub struct Shadow<'a> {
    /// How it is blurred.
    pub blur: Blur<'a>,
    /// How far it lies to the right.
    pub dx: f32,
    /// How far it lies below.
    pub dy: f32,
    /// Its colour.
    pub colour: Colour,
    /// Whether the picture is laid over it; else the shadow alone is left.
    pub composite: bool,
}

/// Blurs a picture. `scratch` is at least as long; its first 4wh bytes are 0 afterwards.
///
/// Refusals: 2, 3, 6, 7.
///
/// ```
/// use corbelrush::{blur, Blur, EdgeMode, Kernel, Refusal, Size};
/// let mut picture = [0, 0, 0, 255, 0, 0, 0, 0, 0, 0, 0, 0];
/// let kernel = Kernel::new(&[0.25, 0.5, 0.25])?;
/// let how = Blur { kernel: &kernel, decimations: 1, strength: 1.0, edge: EdgeMode::Wrap };
/// blur(&mut picture, Size::new(3, 1)?, &mut [0; 12], how)?;
/// assert_eq!(picture, [0, 0, 0, 96, 0, 0, 0, 96, 0, 0, 0, 96]);
/// assert_eq!(blur(&mut picture, Size::new(3, 1)?, &mut [], how), Err(Refusal::TooShort));
/// # Ok::<(), Refusal>(())
/// ```
pub fn blur(picture: &mut [u8], size: Size, scratch: &mut [u8], how: Blur) -> Result<(), Refusal> {
    blur_by(sys::corbelrush_blur, picture, size, scratch, how)
}

/// On a picture or on its planes, as the function says.
pub(crate) fn blur_by(
    function: sys::Blur,
    picture: &mut [u8],
    size: Size,
    scratch: &mut [u8],
    how: Blur,
) -> Result<(), Refusal> {
    let weights = how.kernel.weights();
    answer(unsafe {
        function(
            picture.as_mut_ptr(),
            picture.len(),
            size.w,
            size.h,
            scratch.as_mut_ptr(),
            scratch.len(),
            weights.as_ptr(),
            weights.len(),
            how.decimations,
            how.strength,
            how.edge as u32,
        )
    })
}

/// Blurs a picture in whole numbers, to the bytes of [`blur`] with the same kernel and a strength above 0.
///
/// Refusals: 2, 3, 6.
///
/// ```
/// use corbelrush::{blur_whole, EdgeMode, Refusal, Size, WholeBlur, WholeKernel};
/// let mut picture = [0, 0, 0, 255, 0, 0, 0, 0, 0, 0, 0, 0];
/// let kernel = WholeKernel::new(&[16384, 32768, 16384])?;
/// let how = WholeBlur { kernel: &kernel, decimations: 1, edge: EdgeMode::Wrap };
/// blur_whole(&mut picture, Size::new(3, 1)?, &mut [0; 12], how)?;
/// assert_eq!(picture, [0, 0, 0, 96, 0, 0, 0, 96, 0, 0, 0, 96]);
/// # Ok::<(), Refusal>(())
/// ```
pub fn blur_whole(picture: &mut [u8], size: Size, scratch: &mut [u8], how: WholeBlur) -> Result<(), Refusal> {
    let numerators = how.kernel.numerators();
    answer(unsafe {
        sys::corbelrush_blur_whole(
            picture.as_mut_ptr(),
            picture.len(),
            size.w,
            size.h,
            scratch.as_mut_ptr(),
            scratch.len(),
            numerators.as_ptr(),
            numerators.len(),
            how.decimations,
            how.edge as u32,
        )
    })
}

/// Moves a picture by `dx` to the right and `dy` down, each to the nearest whole number. Zeros come in.
///
/// Refusals: 2, 7.
///
/// ```
/// use corbelrush::{shift, Refusal, Size};
/// let mut picture = [1, 1, 1, 1, 2, 2, 2, 2];
/// shift(&mut picture, Size::new(2, 1)?, 0.5, 0.0)?;
/// assert_eq!(picture, [0, 0, 0, 0, 1, 1, 1, 1]);
/// # Ok::<(), Refusal>(())
/// ```
pub fn shift(picture: &mut [u8], size: Size, dx: f32, dy: f32) -> Result<(), Refusal> {
    shift_by(sys::corbelrush_shift, picture, size, dx, dy)
}

/// On a picture or on its planes, as the function says.
pub(crate) fn shift_by(function: sys::Shift, picture: &mut [u8], size: Size, dx: f32, dy: f32) -> Result<(), Refusal> {
    answer(unsafe { function(picture.as_mut_ptr(), picture.len(), size.w, size.h, dx, dy) })
}

/// Draws a picture's drop shadow. `scratch` and `copy` are at least as long; their first 4wh bytes are 0 afterwards.
///
/// Refusals: 2, 3, 6, 7, 8.
///
/// ```
/// use corbelrush::{shadow, Blur, Colour, EdgeMode, Kernel, Refusal, Shadow, Size};
/// let mut picture = [9, 9, 9, 255, 0, 0, 0, 0];
/// let kernel = Kernel::new(&[1.0])?;
/// let blur = Blur { kernel: &kernel, decimations: 0, strength: 1.0, edge: EdgeMode::None };
/// let colour = Colour { red: 1.0, green: 0.0, blue: 0.0, alpha: 1.0 };
/// let how = Shadow { blur, dx: 1.0, dy: 0.0, colour, composite: true };
/// shadow(&mut picture, Size::new(2, 1)?, &mut [0; 8], &mut [0; 8], how)?;
/// assert_eq!(picture, [9, 9, 9, 255, 255, 0, 0, 255]);
/// # Ok::<(), Refusal>(())
/// ```
pub fn shadow(picture: &mut [u8], size: Size, scratch: &mut [u8], copy: &mut [u8], how: Shadow) -> Result<(), Refusal> {
    shadow_by(sys::corbelrush_shadow, picture, size, scratch, copy, how)
}

/// On a picture or on its planes, as the function says.
pub(crate) fn shadow_by(
    function: sys::Shadow,
    picture: &mut [u8],
    size: Size,
    scratch: &mut [u8],
    copy: &mut [u8],
    how: Shadow,
) -> Result<(), Refusal> {
    let weights = how.blur.kernel.weights();
    answer(unsafe {
        function(
            picture.as_mut_ptr(),
            picture.len(),
            size.w,
            size.h,
            scratch.as_mut_ptr(),
            scratch.len(),
            copy.as_mut_ptr(),
            copy.len(),
            weights.as_ptr(),
            weights.len(),
            how.blur.decimations,
            how.blur.edge as u32,
            how.dx,
            how.dy,
            how.blur.strength,
            how.colour.red,
            how.colour.green,
            how.colour.blue,
            how.colour.alpha,
            how.composite.into(),
        )
    })
}
