//! The command check: whether a picture is premultiplied.
use crate::failure::Failure;
use crate::files;
use crate::options::Options;
use crate::picture::{Picture, Samples};

pub fn run(options: &Options) -> Result<(), Failure> {
    let picture = Picture::read(options, Samples::Stored)?;
    let found = corbelrush::check(&picture.bytes, picture.size)?;
    let answer = found.map_or("premultiplied\n".to_string(), |place| format!("exceeds: {}\n", picture.exceeds(place)));
    files::write(options.value("o"), answer.as_bytes())?;
    found.map_or(Ok(()), |_| Err(Failure::No))
}
