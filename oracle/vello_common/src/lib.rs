//! Stand-ins for the parts of vello_common that the filters name, by the rules of docs/RULES.md.
//! Only the names are vello_common's; no text of it was at hand.

pub mod color {
    //! Colours of four binary32 components.
    use core::marker::PhantomData;

    #[derive(Clone, Copy, Debug, PartialEq)]
    pub struct Srgb;

    /// Straight colour: red, green, blue, alpha.
    #[derive(Clone, Copy, Debug, PartialEq)]
    pub struct AlphaColor<S> {
        pub components: [f32; 4],
        space: PhantomData<S>,
    }

    /// Colour with red, green and blue times alpha.
    #[derive(Clone, Copy, Debug, PartialEq)]
    pub struct PremulColor<S> {
        pub components: [f32; 4],
        space: PhantomData<S>,
    }

    impl<S> AlphaColor<S> {
        pub const fn new(components: [f32; 4]) -> Self {
            Self { components, space: PhantomData }
        }

        pub fn premultiply(self) -> PremulColor<S> {
            let [r, g, b, a] = self.components;
            PremulColor { components: [r * a, g * a, b * a, a], space: PhantomData }
        }
    }

    impl<S> PremulColor<S> {
        pub fn to_rgba8(self) -> crate::peniko::color::PremulRgba8 {
            let [r, g, b, a] = self.components.map(|c| (c * 255.0).round() as u8);
            crate::peniko::color::PremulRgba8 { r, g, b, a }
        }
    }

    pub mod palette {
        pub mod css {
            use crate::color::{AlphaColor, Srgb};
            pub const TRANSPARENT: AlphaColor<Srgb> = AlphaColor::new([0.0; 4]);
        }
    }
}

pub mod peniko {
    pub mod color {
        #[derive(Clone, Copy, Debug, Default, PartialEq, Eq)]
        #[repr(C)]
        pub struct PremulRgba8 {
            pub r: u8,
            pub g: u8,
            pub b: u8,
            pub a: u8,
        }
    }
}

pub mod filter_effects {
    #[derive(Clone, Copy, Debug, PartialEq, Eq)]
    pub enum EdgeMode {
        Duplicate,
        Wrap,
        Mirror,
        None,
    }
}

pub mod filter {
    /// The largest tap count, by rule 3.5.
    pub const MAX_KERNEL_SIZE: usize = 33;

    pub mod gaussian_blur {
        use super::MAX_KERNEL_SIZE;
        use crate::filter_effects::EdgeMode;

        #[derive(Clone, Debug)]
        pub struct GaussianBlur {
            pub std_deviation: f32,
            pub n_decimations: usize,
            pub kernel: [f32; MAX_KERNEL_SIZE],
            pub kernel_size: u8,
            pub edge_mode: EdgeMode,
        }

        /// The sizes of the levels down to the present one; doubling goes back to the remembered size.
        pub struct DecimationSizer {
            finer: Vec<(u16, u16)>,
            current: (u16, u16),
        }

        impl DecimationSizer {
            pub fn new(width: u16, height: u16) -> Self {
                Self { finer: Vec::new(), current: (width, height) }
            }

            pub fn current(&self) -> (u16, u16) {
                self.current
            }

            pub fn downscale(&mut self) {
                self.finer.push(self.current);
                let (w, h) = self.current;
                self.current = (w.div_ceil(2), h.div_ceil(2));
            }

            pub fn upscale(&mut self) {
                self.current = self.finer.pop().expect("as many doublings as halvings");
            }
        }
    }

    pub mod drop_shadow {
        use super::MAX_KERNEL_SIZE;
        use crate::color::{AlphaColor, Srgb};
        use crate::filter_effects::EdgeMode;

        #[derive(Clone, Debug)]
        pub struct DropShadow {
            pub dx: f32,
            pub dy: f32,
            pub std_deviation: f32,
            pub n_decimations: usize,
            pub kernel: [f32; MAX_KERNEL_SIZE],
            pub kernel_size: u8,
            pub color: AlphaColor<Srgb>,
            pub edge_mode: EdgeMode,
            pub composite_original: bool,
        }
    }
}

pub mod pixmap {
    //! A picture: a write outside it is dropped and a read outside it gives four zeros.
    use crate::peniko::color::PremulRgba8;

    #[derive(Clone, Debug)]
    pub struct Pixmap {
        width: u16,
        height: u16,
        pixels: Vec<PremulRgba8>,
    }

    impl Pixmap {
        pub fn new(width: u16, height: u16) -> Self {
            let pixels = vec![PremulRgba8::default(); usize::from(width) * usize::from(height)];
            Self { width, height, pixels }
        }

        pub fn from_bytes(width: u16, height: u16, bytes: &[u8]) -> Self {
            let mut made = Self::new(width, height);
            made.copy_from_bytes(bytes);
            made
        }

        pub fn copy_from_bytes(&mut self, bytes: &[u8]) {
            assert_eq!(bytes.len(), 4 * self.pixels.len(), "four bytes a pixel");
            for (pixel, p) in self.pixels.iter_mut().zip(bytes.chunks_exact(4)) {
                *pixel = PremulRgba8 { r: p[0], g: p[1], b: p[2], a: p[3] };
            }
        }

        pub fn to_bytes(&self) -> Vec<u8> {
            self.pixels.iter().flat_map(|p| [p.r, p.g, p.b, p.a]).collect()
        }

        pub fn width(&self) -> u16 {
            self.width
        }

        pub fn height(&self) -> u16 {
            self.height
        }

        /// New sides; the pixels keep their places in the row-by-row order, new ones are four zeros.
        pub fn resize(&mut self, width: u16, height: u16) {
            self.width = width;
            self.height = height;
            let count = usize::from(width) * usize::from(height);
            self.pixels.resize(count, PremulRgba8::default());
        }

        /// The place of a pixel inside the picture: the one bounds test of `sample` and `set_pixel`.
        #[inline(always)]
        fn place(&self, x: u16, y: u16) -> Option<usize> {
            let inside = (x < self.width) & (y < self.height);
            inside.then(|| usize::from(y) * usize::from(self.width) + usize::from(x))
        }

        #[inline(always)]
        pub fn sample(&self, x: u16, y: u16) -> PremulRgba8 {
            match self.place(x, y) {
                // SAFETY: `pixels` holds width times height pixels, and `place` is inside.
                Some(place) => unsafe { *self.pixels.get_unchecked(place) },
                None => PremulRgba8::default(),
            }
        }

        #[inline(always)]
        pub fn set_pixel(&mut self, x: u16, y: u16, pixel: PremulRgba8) {
            if let Some(place) = self.place(x, y) {
                // SAFETY: `pixels` holds width times height pixels, and `place` is inside.
                unsafe { *self.pixels.get_unchecked_mut(place) = pixel }
            }
        }
    }
}
