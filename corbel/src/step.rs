//! The operations on a picture, blur, shift and shadow, and the blur in whole numbers: from options, and run by the library.
use crate::failure::{usage, Failure};
use crate::files::room;
use crate::numbers::{list, option};
use crate::options::Options;
use crate::picture::Picture;
use crate::weights;
use corbelrush::{blur, blur_whole, shadow, shift, Blur, Colour, EdgeMode, Kernel, Shadow, WholeBlur, WholeKernel};

/// A blur's options, of which each may be wrong in a way that the library refuses.
pub struct Blurring {
    pub weights: Vec<f32>,
    pub n: u32,
    pub strength: f32,
    pub edge: EdgeMode,
}

/// The same of a blur in whole numbers, which no chain has.
pub struct WholeBlurring {
    numerators: Vec<u32>,
    n: u32,
    edge: EdgeMode,
}

pub struct Shadowing {
    pub blur: Blurring,
    pub dx: f32,
    pub dy: f32,
    pub colour: [f32; 4],
    pub alone: bool,
}

pub enum Step {
    Blur(Blurring),
    Shift(f32, f32),
    Shadow(Shadowing),
}

/// What each operation takes, as a command and in a chain.
pub const BLUR: &[&str] = &["weights=", "n=", "edge=", "strength="];
pub const SHIFT: &[&str] = &["dx=", "dy="];
pub const SHADOW: &[&str] = &["weights=", "n=", "edge=", "strength=", "dx=", "dy=", "colour=", "alone"];
const EDGES: [(&str, EdgeMode); 4] = [
    ("duplicate", EdgeMode::Duplicate),
    ("wrap", EdgeMode::Wrap),
    ("mirror", EdgeMode::Mirror),
    ("none", EdgeMode::None),
];

/// The options of an operation; none of one that there is not.
pub fn known(name: &str) -> &'static [&'static str] {
    match name {
        "blur" => BLUR,
        "shift" => SHIFT,
        "shadow" => SHADOW,
        _ => &[],
    }
}

/// The name of an edge rule.
pub fn edge_name(edge: EdgeMode) -> &'static str {
    EDGES[edge as usize].0
}

/// The edge rule of an option.
pub fn edge(options: &Options) -> Result<EdgeMode, Failure> {
    let name = options.value("edge").unwrap_or("duplicate");
    let found = EDGES.iter().find(|(edge, _)| *edge == name).map(|(_, edge)| *edge);
    found.ok_or_else(|| {
        Failure::Usage(format!("-edge is duplicate, wrap, mirror or none, and '{name}' is none of them"))
    })
}

impl WholeBlurring {
    pub fn read(options: &Options) -> Result<WholeBlurring, Failure> {
        if options.has("strength") {
            return usage("-whole has no strength: it blurs");
        }
        let numerators = weights::numerators(options.needed("weights")?)?;
        Ok(WholeBlurring { numerators, n: option(options, "n", 0)?, edge: edge(options)? })
    }

    /// Its kernel. Refusals: 4, 14.
    pub fn kernel(&self) -> Result<WholeKernel, Failure> {
        Ok(WholeKernel::new(&self.numerators)?)
    }

    /// The blur in floats that leaves the same bytes.
    pub fn as_floats(&self) -> Blurring {
        let weights = self.numerators.iter().map(|numerator| *numerator as f32 / 65536.0).collect();
        Blurring { weights, n: self.n, strength: 1.0, edge: self.edge }
    }

    pub fn with<'a>(&self, kernel: &'a WholeKernel) -> WholeBlur<'a> {
        WholeBlur { kernel, decimations: self.n, edge: self.edge }
    }

    /// On a picture, by the library.
    pub fn run(&self, picture: &mut Picture) -> Result<(), Failure> {
        let mut scratch = room(picture.bytes.len())?;
        Ok(blur_whole(&mut picture.bytes, picture.size, &mut scratch, self.with(&self.kernel()?))?)
    }
}

impl Blurring {
    fn read(options: &Options) -> Result<Blurring, Failure> {
        let weights = weights::floats(options.needed("weights")?)?;
        let (n, strength) = (option(options, "n", 0)?, option(options, "strength", 1.0)?);
        Ok(Blurring { weights, n, strength, edge: edge(options)? })
    }

    fn with<'a>(&self, kernel: &'a Kernel) -> Blur<'a> {
        Blur { kernel, decimations: self.n, strength: self.strength, edge: self.edge }
    }
}

impl Shadowing {
    fn read(options: &Options) -> Result<Shadowing, Failure> {
        let colour = list(options.value("colour").unwrap_or("0,0,0,1"), "-colour")?;
        let (dx, dy) = (option(options, "dx", 0.0)?, option(options, "dy", 0.0)?);
        Ok(Shadowing { blur: Blurring::read(options)?, dx, dy, colour, alone: options.has("alone") })
    }

    fn with<'a>(&self, kernel: &'a Kernel) -> Shadow<'a> {
        let [red, green, blue, alpha] = self.colour;
        let colour = Colour { red, green, blue, alpha };
        Shadow { blur: self.blur.with(kernel), dx: self.dx, dy: self.dy, colour, composite: !self.alone }
    }
}

impl Step {
    /// The operation of that name, with its options.
    pub fn read(name: &str, options: &Options) -> Result<Step, Failure> {
        match name {
            "blur" => Ok(Step::Blur(Blurring::read(options)?)),
            "shift" => Ok(Step::Shift(option(options, "dx", 0.0)?, option(options, "dy", 0.0)?)),
            "shadow" => Ok(Step::Shadow(Shadowing::read(options)?)),
            _ => usage(format!("there is no operation '{name}'")),
        }
    }

    /// On a picture, by the library. Work buffers are made where they are wanted, so that no more than three pictures are
    /// held at once.
    pub fn run(&self, picture: &mut Picture) -> Result<(), Failure> {
        let Picture { bytes, size } = picture;
        let length = bytes.len();
        match self {
            Step::Blur(how) => blur(bytes, *size, &mut room(length)?, how.with(&Kernel::new(&how.weights)?)),
            Step::Shift(dx, dy) => shift(bytes, *size, *dx, *dy),
            Step::Shadow(how) => {
                let kernel = Kernel::new(&how.blur.weights)?;
                shadow(bytes, *size, &mut room(length)?, &mut room(length)?, how.with(&kernel))
            }
        }?;
        Ok(())
    }
}
