//! The command mean: the mean alpha of a box, exact, from the library's area sums.
use crate::exact::Fraction;
use crate::failure::Failure;
use crate::files;
use crate::numbers::list;
use crate::options::Options;
use crate::picture::{Picture, Samples};
use corbelrush::{area_box, area_build, Refusal, Region, Size};

/// The sum of a box's alphas. Refusal: 20.
fn sum(picture: &[u8], size: Size, region: Region) -> Result<u64, Failure> {
    let mut table = Vec::new();
    let short = |_| Failure::System(format!("no memory for {} sums", size.pixels()));
    table.try_reserve_exact(size.pixels()).map_err(short)?;
    table.resize(size.pixels(), 0);
    area_build(picture, size, &mut table)?;
    area_box(&table, size, region).map_err(|refusal| Failure::Refused(refusal, note(refusal, size)))
}

/// What the picture's sides are, where a box does not fit.
fn note(refusal: Refusal, size: Size) -> String {
    match refusal {
        Refusal::WrongBox => format!("the picture is {} by {}", size.width(), size.height()),
        _ => String::new(),
    }
}

/// The sum, the pixels and the mean alpha of a box. Refusal: 20.
pub fn of(picture: &[u8], size: Size, region: Region) -> Result<(u64, u64, Fraction), Failure> {
    let sum = sum(picture, size, region)?;
    let pixels = u64::from(region.wide) * u64::from(region.high);
    Ok((sum, pixels, Fraction::of(sum.into(), pixels.into())))
}

/// All of a picture.
pub fn whole(size: Size) -> Region {
    Region { x: 0, y: 0, wide: size.width(), high: size.height() }
}

pub fn run(options: &Options) -> Result<(), Failure> {
    let named = options.value("box").map(|text| list(text, "-box")).transpose()?;
    let picture = Picture::read(options, Samples::Straight)?;
    let region = named.map_or(whole(picture.size), |[x, y, wide, high]| Region { x, y, wide, high });
    let (sum, pixels, mean) = of(&picture.bytes, picture.size, region)?;
    let text = format!("sum {sum}\npixels {pixels}\nmean {mean}\ndecimal {}\n", mean.decimal());
    files::write(options.value("o"), text.as_bytes())
}
