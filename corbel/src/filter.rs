//! The commands blur, shift, shadow and chain: work on a picture.
use crate::chain::{self, Chain};
use crate::failure::Failure;
use crate::files;
use crate::jobs;
use crate::options::Options;
use crate::picture::{Picture, Samples};
use crate::step::{Step, WholeBlurring};

/// The options of these commands.
pub const COMMON: &[&str] = &["from=", "to=", "o=", "save=", "jobs"];

/// What is done to a picture.
pub trait Work: Sync {
    fn run(&self, picture: &mut Picture) -> Result<(), Failure>;
    /// The lines of a chain that does it.
    fn saved(&self) -> String;
}

impl Work for Step {
    fn run(&self, picture: &mut Picture) -> Result<(), Failure> {
        Step::run(self, picture)
    }

    fn saved(&self) -> String {
        chain::saved(self)
    }
}

impl Work for WholeBlurring {
    fn run(&self, picture: &mut Picture) -> Result<(), Failure> {
        WholeBlurring::run(self, picture)
    }

    /// Recipes have no blur in whole numbers; that in floats is proved to leave the same bytes.
    fn saved(&self) -> String {
        chain::saved(&Step::Blur(self.as_floats()))
    }
}

/// The blur, in floats or in whole numbers.
pub fn blur(options: &Options) -> Result<(), Failure> {
    match options.has("whole") {
        true => run("blur", &WholeBlurring::read(options)?, options),
        false => step("blur", options),
    }
}

/// One operation.
pub fn step(name: &str, options: &Options) -> Result<(), Failure> {
    run(name, &Step::read(name, options)?, options)
}

/// Those of a file.
pub fn chain(options: &Options) -> Result<(), Failure> {
    run("chain", &Chain::read(options.needed("recipes")?)?, options)
}

fn run(name: &str, work: &impl Work, options: &Options) -> Result<(), Failure> {
    let kinds = (Samples::of(options, "from", Samples::Straight)?, Samples::of(options, "to", Samples::Straight)?);
    jobs::deliver(name, options, |file| made(work, file, kinds))?;
    options.value("save").map_or(Ok(()), |chain| files::write(Some(chain), work.saved().as_bytes()))
}

/// The image file that the work makes of another.
fn made(work: &impl Work, name: Option<&str>, (from, to): (Samples, Samples)) -> Result<Vec<u8>, Failure> {
    let mut picture = Picture::of_file(files::read(name)?, from)?;
    work.run(&mut picture)?;
    picture.file(to)
}
