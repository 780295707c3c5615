//! The commands mend and unmend: colours above their alpha lowered to it, with a list of what stood there, and put back.
use crate::failure::{usage, Failure};
use crate::files;
use crate::numbers::number;
use crate::options::Options;
use crate::picture::{Picture, Samples};
use corbelrush::{check, mend, rebuild, Change, Size};

/// The first line of a list, before the sides of its picture.
const TITLE: &str = "corbel changes";

pub fn run(options: &Options) -> Result<(), Failure> {
    let name = options.needed("list")?;
    let mut picture = Picture::read(options, Samples::Stored)?;
    let mut changes = entries(&picture)?;
    let count = mend(&mut picture.bytes, picture.size, &mut changes)?;
    write_list(name, picture.size, &changes[..count])?;
    drop(changes);
    picture.write(options, Samples::Stored)
}

/// Room for a list: none where the check finds nothing to mend.
fn entries(picture: &Picture) -> Result<Vec<Change>, Failure> {
    let count = check(&picture.bytes, picture.size)?.map_or(0, |_| picture.size.pixels());
    let mut list = Vec::new();
    list.try_reserve_exact(count).map_err(|_| Failure::System(format!("no memory for {count} changes")))?;
    list.resize(count, Change::default());
    Ok(list)
}

/// A list as a text: the sides, and a line for each pixel, its place and what stood there.
fn write_list(name: &str, size: Size, changes: &[Change]) -> Result<(), Failure> {
    files::write_by(Some(name), |output| {
        writeln!(output, "{TITLE} {} {}", size.width(), size.height())?;
        for Change { place, pixel } in changes {
            let [r, g, b, a] = pixel.to_le_bytes();
            writeln!(output, "{place} {r} {g} {b} {a}")?;
        }
        Ok(())
    })
}

pub fn undo(options: &Options) -> Result<(), Failure> {
    let name = options.needed("list")?;
    let mut lines = files::lines(name)?;
    let mut picture = Picture::read(options, Samples::Stored)?;
    title(name, &lines.next().unwrap_or(Ok(String::new()))?, picture.size)?;
    let numbered = lines.enumerate().map(|(index, line)| change(&line?, &format!("{name}: line {}", index + 2)));
    let changes = numbered.collect::<Result<Vec<_>, Failure>>()?;
    rebuild(&mut picture.bytes, picture.size, &changes)?;
    drop(changes);
    picture.write(options, Samples::Stored)
}

/// Whether a list's first line is of a picture of this size.
fn title(name: &str, line: &str, size: Size) -> Result<(), Failure> {
    let sides = line.strip_prefix(TITLE).map(|sides| sides.split_whitespace().map(str::parse).collect::<Vec<_>>());
    let Some([Ok(w), Ok(h)]) = sides.as_deref() else {
        return usage(format!("{name}: line 1 is not '{TITLE} WIDTH HEIGHT'"));
    };
    if (*w, *h) != (size.width(), size.height()) {
        return usage(format!("{name} is of a picture {w} by {h}, and this is {} by {}", size.width(), size.height()));
    }
    Ok(())
}

/// The change that a line says.
fn change(line: &str, what: &str) -> Result<Change, Failure> {
    let words: Vec<_> = line.split_whitespace().collect();
    let [place, r, g, b, a] = words.as_slice() else {
        return usage(format!("{what} is not 'PLACE R G B A'"));
    };
    let byte = |text: &str| number::<u8>(text, what);
    let pixel = u32::from_le_bytes([byte(r)?, byte(g)?, byte(b)?, byte(a)?]);
    Ok(Change { place: number(place, what)?, pixel })
}
