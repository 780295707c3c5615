//! The command spread: how far a blur spreads a pixel.
use crate::exact::Fraction;
use crate::failure::{usage, Failure};
use crate::files;
use crate::numbers::option;
use crate::options::Options;
use crate::weights::floats;

/// A spread counts in parts of a square pixel.
const UNIT: u32 = 131072;

pub fn run(options: &Options) -> Result<(), Failure> {
    if let Some(file) = options.files.first() {
        return usage(format!("no file is taken, and {file} is one"));
    }
    let spread = corbelrush::spread(&floats(options.needed("weights")?)?, option(options, "n", 0)?)?;
    let variance = Fraction::of(spread.into(), UNIT.into());
    let sigma = (spread as f64 / f64::from(UNIT)).sqrt();
    let text = format!("spread {spread}\nvariance {variance}\ndecimal {}\nsigma {sigma:.6}\n", variance.decimal());
    files::write(options.value("o"), text.as_bytes())
}
