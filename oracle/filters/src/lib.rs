//! The filters of vello_cpu 0.3.0, compiled as published and with each listed difference mended.
//! Without their source there are no variants and the comparison is skipped.
extern crate alloc;

use vello_common::filter::drop_shadow::DropShadow;
use vello_common::filter::gaussian_blur::GaussianBlur;
use vello_common::filter_effects::EdgeMode;
use vello_common::pixmap::Pixmap;

/// A class of difference between the rules (docs/RULES.md) and the Rust.
#[derive(Clone, Copy, Debug, PartialEq, Eq, PartialOrd, Ord)]
pub enum Class {
    /// Halving under Wrap reads the line's beginning after writing it.
    Halving,
    /// Doubling under Wrap reads the line's end after writing it.
    Doubling,
    /// Clearing after a shift compares through a 16-bit cast.
    Clearing,
    /// A shifted coordinate overflows 32 bits.
    Overflow,
    /// A shadow's colour is a product over 255 that is cut down to a whole number.
    Flooring,
}

pub const CLASSES: [Class; 5] = [Class::Halving, Class::Doubling, Class::Clearing, Class::Overflow, Class::Flooring];

/// One variant: its entries, and the two level passes by themselves.
pub struct Filters {
    pub name: &'static str,
    pub mended: &'static [Class],
    pub blur: fn(&GaussianBlur, &mut Pixmap, &mut Scratch),
    pub shift: fn(&mut Pixmap, f32, f32),
    pub shadow: fn(&DropShadow, &mut Pixmap, &mut Scratch),
    pub halve: fn(&mut Pixmap, u16, u16, EdgeMode),
    pub double: fn(&mut Pixmap, u16, u16, EdgeMode),
}

impl Filters {
    pub fn has(&self, class: Class) -> bool {
        !self.mended.contains(&class)
    }
}

/// The scratch store that the filters keep from call to call.
#[derive(Default)]
pub struct Scratch(#[cfg(vello)] filter::context::ScratchBuffer);

#[cfg(vello)]
macro_rules! entries {
    ($name:literal, [$($class:ident),*]) => {
        use crate::filter::context::ScratchBuffer;
        use crate::Filters;
        use vello_common::pixmap::Pixmap;

        pub(crate) trait FilterEffect {
            fn execute_lowp(&self, pixmap: &mut Pixmap, scratch: &mut ScratchBuffer);
            fn execute_highp(&self, pixmap: &mut Pixmap, scratch: &mut ScratchBuffer);
        }

        pub static FILTERS: Filters = Filters {
            name: $name,
            mended: &[$($crate::Class::$class),*],
            blur: |blur, pixmap, scratch| FilterEffect::execute_lowp(blur, pixmap, &mut scratch.0),
            shift: shift::offset_pixels,
            shadow: |shadow, pixmap, scratch| FilterEffect::execute_lowp(shadow, pixmap, &mut scratch.0),
            halve: |pixmap, w, h, edge| {
                gaussian_blur::downscale(pixmap, w, h, edge);
            },
            double: |pixmap, w, h, edge| {
                gaussian_blur::upscale(pixmap, w, h, edge);
            },
        };
    };
}

#[cfg(vello)]
include!(concat!(env!("OUT_DIR"), "/variants.rs"));

/// No variant: the source is not at hand.
#[cfg(not(vello))]
pub static VARIANTS: &[&Filters] = &[];
