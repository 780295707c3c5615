//! The command why: which points made a pixel of a blur, each with its share, and what they come to.
use crate::exact::Fraction;
use crate::failure::Failure;
use crate::files::{self, room};
use crate::numbers::list;
use crate::options::Options;
use crate::picture::{Picture, Samples};
use crate::step::WholeBlurring;
use corbelrush::{shares, Point, Refusal, Size, WholeBlur};

/// All points that made an output. A short list is tried first, since room for every pixel is four pictures.
fn points(size: Size, how: WholeBlur, place: u64) -> Result<Vec<Point>, Refusal> {
    let mut room = 1024;
    loop {
        let mut list = vec![Point::default(); room.min(size.pixels())];
        match shares(size, how, place, &mut list) {
            Err(Refusal::ListFull) => room *= 2,
            Ok(count) => {
                list.truncate(count);
                return Ok(list);
            }
            Err(refusal) => return Err(refusal),
        }
    }
}

/// The points, a line each.
fn lines(picture: &Picture, points: &[Point], unit: u128) -> String {
    let line = |point: &Point| {
        let (x, y) = picture.at(point.place);
        let share = u128::from(point.share);
        let [r, g, b, a] = picture.pixel(point.place) else { unreachable!() };
        let percent = Fraction::of(100 * share, unit).decimal();
        format!("{x},{y}: share {}, {percent} percent, of r {r}, g {g}, b {b}, a {a}\n", Fraction::of(share, unit))
    };
    points.iter().map(line).collect()
}

/// What share times channel comes to, for one of the four channels.
fn sum(picture: &Picture, points: &[Point], channel: usize) -> u128 {
    points.iter().map(|point| u128::from(point.share) * u128::from(picture.pixel(point.place)[channel])).sum()
}

/// The shares as a picture: opaque greys, the greatest share white.
fn map(size: Size, points: &[Point]) -> Result<Picture, Failure> {
    let mut picture = Picture { bytes: room(size.bytes())?, size };
    picture.bytes.chunks_exact_mut(4).for_each(|pixel| pixel[3] = 255);
    let most = points.iter().map(|point| u128::from(point.share)).max().unwrap_or(1);
    for point in points {
        let grey = ((510 * u128::from(point.share) + most) / (2 * most)) as u8;
        picture.bytes[4 * point.place as usize..][..3].fill(grey);
    }
    Ok(picture)
}

pub fn run(options: &Options) -> Result<(), Failure> {
    let [x, y]: [u32; 2] = list(options.needed("at")?, "-at")?;
    let blurring = WholeBlurring::read(options)?;
    let mut picture = Picture::read(options, Samples::Straight)?;
    let (kernel, size) = (blurring.kernel()?, picture.size);
    let how = blurring.with(&kernel);
    // A column beyond the last is no place of the next row, but one outside.
    let (w, h) = (u64::from(size.width()), u64::from(size.height()));
    let place = if u64::from(x) < w { u64::from(y) * w + u64::from(x) } else { w * h };
    let points = points(size, how, place)?;

    let unit = 1u128 << (10 * how.decimations + 32);
    let all = Fraction::of(points.iter().map(|point| u128::from(point.share)).sum(), unit);
    let mut text = lines(&picture, &points, unit);
    text += &format!("{} points, whose shares come to {all} ({})\n", points.len(), all.decimal());
    let sums: Vec<_> = (0..4).map(|channel| Fraction::of(sum(&picture, &points, channel), unit)).collect();
    blurring.run(&mut picture)?;
    for ((name, sum), stored) in "rgba".chars().zip(sums).zip(picture.pixel(place)) {
        text += &format!("{name}: share times channel comes to {sum} ({}), and {stored} is stored\n", sum.decimal());
    }
    drop(picture);
    if let Some(name) = options.value("map") {
        files::write(Some(name), &map(size, &points)?.file(Samples::Straight)?)?;
    }
    files::write(options.value("o"), text.as_bytes())
}
