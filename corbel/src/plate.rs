//! The commands plate list, pack, get and job, and report: plates read, made and worked on by the library.
use crate::diagnose::broken;
use crate::failure::{usage, Failure};
use crate::files::{self, room};
use crate::jobs;
use crate::mean;
use crate::numbers::{number, option};
use crate::options::Options;
use crate::picture::{Picture, Samples};
use corbelrush::{check, plate_add, plate_job, plate_label, plate_picture, plate_start};
use corbelrush::{Label, PlatePicture, PlateVersion, Refusal, Unit, MAX_PLATE_BYTES, SMALL_PLATE_BYTES};

const UNITS: [(&str, Unit); 2] = [("milliohm", Unit::Milliohm), ("microohm", Unit::Microohm)];

/// A refusal, with the rule that a refused plate breaks.
fn refused(refusal: Refusal, plate: &[u8]) -> Failure {
    let note = if refusal == Refusal::BrokenPlate { broken(plate) } else { None };
    Failure::Refused(refusal, note.unwrap_or_default())
}

/// The pictures of a plate, with their labels. Refusal: 10.
fn pictures(plate: &[u8]) -> Result<Vec<(PlatePicture, Option<Label>)>, Failure> {
    let mut found = Vec::new();
    loop {
        let index = found.len() as u32;
        match plate_picture(plate, index).and_then(|picture| Ok((picture, plate_label(plate, index)?))) {
            Ok(picture) => found.push(picture),
            Err(Refusal::NoPicture) => return Ok(found),
            Err(refusal) => return Err(refused(refusal, plate)),
        }
    }
}

/// What stands beside a picture, in words that follow others.
fn beside(label: Option<Label>) -> String {
    let name = |unit| UNITS.iter().find(|(_, known)| *known == unit).map_or("", |(name, _)| name);
    label.map_or(String::new(), |label| format!(", {}, sheet {}", name(label.unit), label.sheet))
}

pub fn list(options: &Options) -> Result<(), Failure> {
    let plate = files::read(options.file()?)?;
    let pictures = pictures(&plate)?;
    let mut text = format!("version {}: {} of at most 64 pictures, ", plate[0], pictures.len());
    text += &format!("{} bytes\n", plate.len());
    for (index, (picture, label)) in pictures.iter().enumerate() {
        let (size, range) = (picture.size, &picture.range);
        text += &format!("picture {index}: {} by {}, ", size.width(), size.height());
        text += &format!("{} bytes from {} on{}\n", range.len(), range.start, beside(*label));
    }
    files::write(options.value("o"), text.as_bytes())
}

pub fn get(options: &Options) -> Result<(), Failure> {
    let index = number(options.needed("index")?, "-index")?;
    let plate = files::read(options.file()?)?;
    let PlatePicture { size, range } = plate_picture(&plate, index).map_err(|refusal| refused(refusal, &plate))?;
    Picture { bytes: plate[range].to_vec(), size }.write(options, Samples::Straight)
}

pub fn job(options: &Options) -> Result<(), Failure> {
    jobs::deliver("plate job", options, |file| {
        let mut plate = files::read(file)?;
        let mut scratch = room(plate.len())?;
        plate_job(&mut plate, &mut scratch).map_err(|refusal| refused(refusal, &plate))?;
        Ok(plate)
    })
}

/// The values of an option that has one for all files, or one for each.
fn each<'a>(options: &'a Options, name: &str, files: usize) -> Result<Option<Vec<&'a str>>, Failure> {
    let Some(text) = options.value(name) else { return Ok(None) };
    let values: Vec<_> = text.split(',').collect();
    match values.len() {
        1 => Ok(Some(vec![values[0]; files])),
        count if count == files => Ok(Some(values)),
        count => {
            usage(format!("-{name} has {count} values for {files} pictures: one for all is taken, or one for each"))
        }
    }
}

/// The labels of so many pictures: none in version 1, which has no place for them.
fn labels(options: &Options, version: PlateVersion, files: usize) -> Result<Vec<Option<Label>>, Failure> {
    let (units, sheets) = (each(options, "units", files)?, each(options, "sheets", files)?);
    if version == PlateVersion::One {
        let given = units.is_some() || sheets.is_some();
        return if given { usage("version 1 has no units and no sheets") } else { Ok(vec![None; files]) };
    }
    let units = units.ok_or_else(|| Failure::Usage("-units is missing: milliohm or microohm".to_string()))?;
    let sheets = sheets.unwrap_or(vec!["0"; files]);
    let label = |(name, sheet): (&&str, &&str)| {
        let unit = UNITS.iter().find(|(unit, _)| unit == name).map(|(_, unit)| *unit);
        let unit = unit.ok_or_else(|| Failure::Usage(format!("-units: '{name}' is neither milliohm nor microohm")))?;
        Ok(Some(Label { unit, sheet: number(sheet, "-sheets")? }))
    };
    units.iter().zip(&sheets).map(label).collect()
}

pub fn pack(options: &Options) -> Result<(), Failure> {
    let version = PlateVersion::try_from(option(options, "version", 2)?)?;
    let samples = Samples::of(options, "from", Samples::Straight)?;
    let standard = ["-".to_string()];
    let named = if options.files.is_empty() { &standard } else { options.files.as_slice() };
    let labels = labels(options, version, named.len())?;
    let mut plate = room(if version == PlateVersion::Three { MAX_PLATE_BYTES } else { SMALL_PLATE_BYTES })?;
    let mut used = plate_start(&mut plate, version)?;
    for (name, label) in named.iter().zip(labels) {
        let file = files::read(Some(name.as_str()).filter(|name| *name != "-"))?;
        let picture = Picture::of_file(file, samples).map_err(|failure| failure.of(name))?;
        used = plate_add(&mut plate, used, &picture.bytes, picture.size, label)
            .map_err(|refusal| Failure::from(refusal).of(name))?;
    }
    files::write(options.value("o"), &plate[..used])
}

pub fn report(options: &Options) -> Result<(), Failure> {
    let plate = files::read(options.file()?)?;
    let mut text = String::new();
    for (index, (PlatePicture { size, range }, label)) in pictures(&plate)?.into_iter().enumerate() {
        let picture = Picture { bytes: plate[range].to_vec(), size };
        let found = check(&picture.bytes, size)?;
        let checked = found.map_or("premultiplied".to_string(), |place| format!("exceeds {}", picture.exceeds(place)));
        let (_, _, mean) = mean::of(&picture.bytes, size, mean::whole(size))?;
        text += &format!("picture {index}: {} by {}{}, ", size.width(), size.height(), beside(label));
        text += &format!("{checked}, mean alpha {mean} ({})\n", mean.decimal());
    }
    files::write(options.value("o"), text.as_bytes())
}
