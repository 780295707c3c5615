//! Lists of recipes: operations that are checked together and run one after the other.
use crate::refusal::answer;
use crate::{sys, Blur, Colour, Placed, Shadow, Size, MAX_TAPS};

/// One operation of a list, as C has it, so that lists can be stored; what its operation does not take is not looked at.
#[derive(Clone, Copy, Debug, Default, PartialEq)]
#[repr(C)]
pub struct Recipe {
    /// 0 blur, 1 shift, 2 shadow.
    pub operation: u32,
    /// The index of its kernel in the table.
    pub kernel: u32,
    /// How many weights of that kernel it uses.
    pub taps: u32,
    /// Decimations.
    pub n: u32,
    /// The number of an [`EdgeMode`](crate::EdgeMode).
    pub edge: u32,
    /// Whether a shadow lies under the picture: 0 for the shadow alone.
    pub composite: u32,
    /// To the right.
    pub dx: f32,
    /// Down.
    pub dy: f32,
    /// A switch, as in [`Blur`].
    pub strength: f32,
    /// Of a shadow's colour, like the three after it.
    pub red: f32,
    /// See `red`.
    pub green: f32,
    /// See `red`.
    pub blue: f32,
    /// See `red`.
    pub alpha: f32,
}

impl Recipe {
    /// A blur, whose kernel stands in that row of the table.
    pub fn blur(row: u32, how: Blur) -> Recipe {
        Recipe {
            kernel: row,
            taps: how.kernel.weights().len() as u32,
            n: how.decimations,
            edge: how.edge as u32,
            strength: how.strength,
            ..Recipe::default()
        }
    }

    /// A shift.
    pub fn shift(dx: f32, dy: f32) -> Recipe {
        Recipe { operation: 1, dx, dy, ..Recipe::default() }
    }

    /// A shadow, whose kernel stands in that row of the table.
    pub fn shadow(row: u32, how: Shadow) -> Recipe {
        let Colour { red, green, blue, alpha } = how.colour;
        let composite = how.composite.into();
        let (operation, dx, dy) = (2, how.dx, how.dy);
        Recipe { operation, composite, dx, dy, red, green, blue, alpha, ..Recipe::blur(row, how.blur) }
    }
}

/// Runs a list of recipes on a picture, as the single calls one after the other; all are checked before the first runs. The
/// rows of the table are made by [`Kernel::row`](crate::Kernel::row). `scratch` and `copy` are at least as long as the
/// picture; their first 4wh bytes are 0 afterwards.
///
/// Refusals: 2, 3; then those of the first bad recipe, at its index: 19, 4 to 9.
///
/// ```
/// use corbelrush::{recipes, Blur, EdgeMode, Kernel, Placed, Recipe, Refusal, Size};
/// let kernel = Kernel::new(&[0.25, 0.5, 0.25])?;
/// let how = Blur { kernel: &kernel, decimations: 1, strength: 1.0, edge: EdgeMode::Wrap };
/// let mut list = [Recipe::blur(0, how), Recipe::shift(2.0, 0.0)];
/// let mut picture = [0, 0, 0, 255, 0, 0, 0, 0, 0, 0, 0, 0];
/// recipes(&mut picture, Size::new(3, 1)?, &mut [0; 12], &mut [0; 12], &list, &[kernel.row()])?;
/// assert_eq!(picture, [0, 0, 0, 0, 0, 0, 0, 0, 0, 0, 0, 96]);
/// list[1].operation = 3;
/// let refused = recipes(&mut picture, Size::new(3, 1)?, &mut [0; 12], &mut [0; 12], &list, &[kernel.row()]);
/// assert_eq!(refused, Err(Placed { refusal: Refusal::WrongRecipe, at: 1 }));
/// # Ok::<(), Refusal>(())
/// ```
pub fn recipes(
    picture: &mut [u8],
    size: Size,
    scratch: &mut [u8],
    copy: &mut [u8],
    list: &[Recipe],
    table: &[[f32; MAX_TAPS]],
) -> Result<(), Placed> {
    let (weights, count) = (table.as_ptr().cast::<f32>(), MAX_TAPS * table.len());
    let mut at = 0;
    answer(unsafe {
        sys::corbelrush_recipes(
            picture.as_mut_ptr(),
            picture.len(),
            size.w,
            size.h,
            scratch.as_mut_ptr(),
            scratch.len(),
            copy.as_mut_ptr(),
            copy.len(),
            list.as_ptr(),
            list.len(),
            weights,
            count,
            &mut at,
        )
    })
    .map_err(|refusal| Placed { refusal, at })
}
