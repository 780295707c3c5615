//! Safe calls of Corbelrush, the proved image filters.
//!
//! A picture is premultiplied RGBA8, `4 * w * h` bytes, row by row from the top; any byte values are taken. What is checked
//! once is a type ([`Size`], [`Kernel`], [`WholeKernel`], [`EdgeMode`], [`Unit`]), so that a call is refused only for what
//! is left, and its text names those refusals by their numbers. A refused call changes no byte.
//!
//! Work buffers are lent to the functions, or owned by a [`Worker`].
//!
//! The library asks for the floating-point environment that a program starts with: under flushing of denormals to zero,
//! which C's `-Ofast` switches on when it links a program, answers differ.

mod areas;
mod explains;
mod filters;
mod grades;
mod images;
mod kinds;
mod planes;
mod plates;
mod recipes;
mod refusal;
mod sys;
mod worker;

pub use areas::{area_box, area_build, area_update, Region};
pub use explains::{share, shares, Point};
pub use filters::{blur, blur_whole, shadow, shift, Blur, Colour, Shadow, WholeBlur};
pub use grades::{check, mend, rebuild, spread, Change, View};
pub use images::{pam_read, pam_write};
pub use kinds::{EdgeMode, Kernel, Size, WholeKernel};
pub use planes::{blur_planes, from_planes, shadow_planes, shift_planes, to_planes};
pub use plates::{
    plate_add, plate_job, plate_label, plate_picture, plate_start, Label, PlatePicture, PlateVersion, Unit,
};
pub use recipes::{recipes, Recipe};
pub use refusal::{Placed, Refusal};
pub use worker::Worker;

/// The largest side of a picture.
pub const MAX_SIDE: u32 = 16384;
/// The most weights or numerators of a kernel.
pub const MAX_TAPS: usize = 33;
/// The most decimations of a blur, a shadow and a spread.
pub const MAX_DECIMATIONS: u32 = 14;
/// The most decimations of shares.
pub const MAX_SHARE_DECIMATIONS: u32 = 3;
/// The most pixels of a box of area sums.
pub const MAX_BOX: u32 = 16843009;
/// The most pictures of a plate.
pub const MAX_PLATE_PICTURES: u32 = 64;
/// The most bytes of a plate of version 3.
pub const MAX_PLATE_BYTES: usize = 16777216;
/// The most bytes of a plate of version 1 or 2.
pub const SMALL_PLATE_BYTES: usize = 16384;
/// The bytes of the longest header of an image file.
pub const PAM_HEADER: usize = 73;
