//! What the functions take beside bytes: sizes, edge modes and kernels, each checked when it is made.
use crate::refusal::answer;
use crate::{sys, Refusal};
use std::fmt;
use std::ptr::null;

/// The sides of a picture, each from 1 to [`MAX_SIDE`](crate::MAX_SIDE).
///
/// ```
/// use corbelrush::{Refusal, Size};
/// assert_eq!(Size::new(3, 2)?.bytes(), 24);
/// assert_eq!(Size::new(16385, 1), Err(Refusal::WrongSides));
/// # Ok::<(), Refusal>(())
/// ```
#[derive(Clone, Copy, Debug, PartialEq, Eq, Hash)]
pub struct Size {
    pub(crate) w: u32,
    pub(crate) h: u32,
}

impl Size {
    /// Of a picture w pixels wide and h high. Refusal: 1.
    pub fn new(w: u32, h: u32) -> Result<Size, Refusal> {
        // The library's own check 1: of no bytes it answers 1 or 2.
        let (mut found, mut place) = (0, 0);
        match answer(unsafe { sys::corbelrush_check(null(), 0, w, h, &mut found, &mut place) }) {
            Err(Refusal::WrongSides) => Err(Refusal::WrongSides),
            _ => Ok(Size { w, h }),
        }
    }

    /// How many pixels wide.
    pub const fn width(self) -> u32 {
        self.w
    }

    /// How many pixels high.
    pub const fn height(self) -> u32 {
        self.h
    }

    /// How many pixels: as many entries are always enough for a list.
    pub const fn pixels(self) -> usize {
        self.w as usize * self.h as usize
    }

    /// How many bytes a picture of this size has.
    pub const fn bytes(self) -> usize {
        4 * self.pixels()
    }
}

/// What a picture is beyond its borders.
#[derive(Clone, Copy, Debug, PartialEq, Eq, Hash)]
#[repr(u32)]
pub enum EdgeMode {
    /// Its nearest pixel.
    Duplicate = 0,
    /// Itself again.
    Wrap = 1,
    /// Itself, mirrored, the border pixel twice.
    Mirror = 2,
    /// Four zeros.
    None = 3,
}

impl TryFrom<u32> for EdgeMode {
    type Error = Refusal;

    /// By its number. Refusal: 9.
    fn try_from(number: u32) -> Result<EdgeMode, Refusal> {
        let modes = [EdgeMode::Duplicate, EdgeMode::Wrap, EdgeMode::Mirror, EdgeMode::None];
        modes.into_iter().find(|mode| *mode as u32 == number).ok_or(Refusal::WrongEdge)
    }
}

/// The taps of a kernel, held by value.
#[derive(Clone, Copy)]
struct Taps<T> {
    values: [T; crate::MAX_TAPS],
    count: usize,
}

impl<T: Copy + Default> Taps<T> {
    /// Of a slice that is no longer than a kernel may be.
    fn of(taps: &[T]) -> Taps<T> {
        let mut values = [T::default(); crate::MAX_TAPS];
        values[..taps.len()].copy_from_slice(taps);
        Taps { values, count: taps.len() }
    }

    fn slice(&self) -> &[T] {
        &self.values[..self.count]
    }
}

/// A kernel of 1 to 33 weights, each from 0 to 1. Weight j is that of the pixel j - k / 2 to the right or below.
///
/// The weights need not sum to 1: a sum below 1 darkens, and one above 1 whitens. [`spread`](crate::spread), which refuses
/// both, is the check of that.
///
/// ```
/// use corbelrush::{Kernel, Refusal};
/// let kernel = Kernel::new(&[0.25, 0.5, 0.25])?;
/// assert_eq!(corbelrush::spread(kernel.weights(), 1)?, 458752);
/// assert_eq!(Kernel::new(&[]).unwrap_err(), Refusal::WrongTaps);
/// assert_eq!(Kernel::new(&[1.5]).unwrap_err(), Refusal::WrongWeight);
/// # Ok::<(), Refusal>(())
/// ```
#[derive(Clone, Copy)]
pub struct Kernel(Taps<f32>);

impl Kernel {
    /// Of these weights. Refusals: 4, 5.
    pub fn new(weights: &[f32]) -> Result<Kernel, Refusal> {
        // The library's own checks 4 and 5: a blur of one pixel that a strength of 0 leaves as it is.
        let (mut picture, mut scratch) = ([0; 4], [0; 4]);
        let (p, s) = (picture.as_mut_ptr(), scratch.as_mut_ptr());
        answer(unsafe { sys::corbelrush_blur(p, 4, 1, 1, s, 4, weights.as_ptr(), weights.len(), 0, 0.0, 0) })?;
        Ok(Kernel(Taps::of(weights)))
    }

    /// Its weights.
    pub fn weights(&self) -> &[f32] {
        self.0.slice()
    }

    /// Its row in the table of a list of recipes: its weights, and zeros after them.
    pub fn row(&self) -> [f32; crate::MAX_TAPS] {
        self.0.values
    }
}

impl fmt::Debug for Kernel {
    fn fmt(&self, f: &mut fmt::Formatter) -> fmt::Result {
        f.debug_tuple("Kernel").field(&self.weights()).finish()
    }
}

impl PartialEq for Kernel {
    fn eq(&self, other: &Kernel) -> bool {
        self.weights() == other.weights()
    }
}

/// A kernel of 1 to 33 whole numbers over 65536, which sum to at most 65536.
///
/// ```
/// use corbelrush::{Kernel, Refusal, WholeKernel};
/// let whole = WholeKernel::new(&[16384, 32768, 16384])?;
/// assert_eq!(Kernel::from(&whole), Kernel::new(&[0.25, 0.5, 0.25])?);
/// assert_eq!(WholeKernel::new(&[65536, 1]).unwrap_err(), Refusal::WrongSum);
/// # Ok::<(), Refusal>(())
/// ```
#[derive(Clone, Copy)]
pub struct WholeKernel(Taps<u32>);

impl WholeKernel {
    /// Of these numerators. Refusals: 4, 14.
    pub fn new(numerators: &[u32]) -> Result<WholeKernel, Refusal> {
        // The library's own checks 4 and 14: a blur of one pixel.
        let (mut picture, mut scratch) = ([0; 4], [0; 4]);
        let (p, s) = (picture.as_mut_ptr(), scratch.as_mut_ptr());
        answer(unsafe { sys::corbelrush_blur_whole(p, 4, 1, 1, s, 4, numerators.as_ptr(), numerators.len(), 0, 0) })?;
        Ok(WholeKernel(Taps::of(numerators)))
    }

    /// Its numerators.
    pub fn numerators(&self) -> &[u32] {
        self.0.slice()
    }
}

impl fmt::Debug for WholeKernel {
    fn fmt(&self, f: &mut fmt::Formatter) -> fmt::Result {
        f.debug_tuple("WholeKernel").field(&self.numerators()).finish()
    }
}

impl PartialEq for WholeKernel {
    fn eq(&self, other: &WholeKernel) -> bool {
        self.numerators() == other.numerators()
    }
}

impl From<&WholeKernel> for Kernel {
    /// The weights m / 65536, which binary32 holds exactly.
    fn from(whole: &WholeKernel) -> Kernel {
        Kernel(Taps { values: whole.0.values.map(|m| m as f32 / 65536.0), count: whole.0.count })
    }
}
