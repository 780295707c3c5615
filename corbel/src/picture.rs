//! Pictures in image files (PAM): read and written by the library.
use crate::failure::{usage, Failure};
use crate::files::{self, room};
use crate::options::Options;
use corbelrush::{pam_read, pam_write, Size, PAM_HEADER};

/// The options of every command that reads or writes a picture.
pub const READS: &[&str] = &["from="];
pub const WRITES: &[&str] = &["to=", "o="];

/// What an image file's samples are.
#[derive(Clone, Copy, PartialEq)]
pub enum Samples {
    /// Colours that are not premultiplied, as netpbm has them.
    Straight,
    /// The picture's bytes as they stand, premultiplied.
    Stored,
}

impl Samples {
    /// Of the option of that name.
    pub fn of(options: &Options, name: &str, default: Samples) -> Result<Samples, Failure> {
        match options.value(name) {
            None => Ok(default),
            Some("straight") => Ok(Samples::Straight),
            Some("stored") => Ok(Samples::Stored),
            Some(other) => usage(format!("-{name} is straight or stored, and '{other}' is neither")),
        }
    }
}

/// A premultiplied picture, of exactly as many bytes as its size says.
pub struct Picture {
    pub bytes: Vec<u8>,
    pub size: Size,
}

impl Picture {
    /// Of a command's file or standard input.
    pub fn read(options: &Options, default: Samples) -> Result<Picture, Failure> {
        let samples = Samples::of(options, "from", default)?;
        Picture::of_file(files::read(options.file()?)?, samples)
    }

    /// Of the bytes of an image file.
    pub fn of_file(mut file: Vec<u8>, samples: Samples) -> Result<Picture, Failure> {
        let mut bytes = room(file.len())?;
        let size = pam_read(&file, &mut bytes).map_err(|refusal| Failure::Refused(refusal, hint(&file)))?;
        if samples == Samples::Stored {
            file.drain(..file.len() - size.bytes());
            return Ok(Picture { bytes: file, size });
        }
        bytes.truncate(size.bytes());
        Ok(Picture { bytes, size })
    }

    /// As a command's result.
    pub fn write(&self, options: &Options, default: Samples) -> Result<(), Failure> {
        let samples = Samples::of(options, "to", default)?;
        files::write(options.value("o"), &self.file(samples)?)
    }

    /// The bytes of its image file.
    pub fn file(&self, samples: Samples) -> Result<Vec<u8>, Failure> {
        let mut file = room(self.bytes.len() + PAM_HEADER)?;
        let length = match samples {
            Samples::Straight => pam_write(&self.bytes, self.size, &mut file),
            // A picture of nothing has the same header.
            Samples::Stored => pam_write(&room(self.bytes.len())?, self.size, &mut file),
        }
        .map_err(|placed| Failure::Refused(placed.refusal, self.exceeds(placed.at)))?;
        if samples == Samples::Stored {
            file[length - self.bytes.len()..length].copy_from_slice(&self.bytes);
        }
        file.truncate(length);
        Ok(file)
    }

    /// The column and the row of a place.
    pub fn at(&self, place: u64) -> (u64, u64) {
        let w = u64::from(self.size.width());
        (place % w, place / w)
    }

    /// The pixel at a place that lies inside.
    pub fn pixel(&self, place: u64) -> &[u8] {
        &self.bytes[4 * place as usize..][..4]
    }

    /// In words, of the pixel at a place.
    pub fn exceeds(&self, place: u64) -> String {
        let (x, y) = self.at(place);
        let [r, g, b, a] = *self.pixel(place) else { unreachable!() };
        format!("first at {x},{y}, where r {r}, g {g}, b {b} stand over a {a}")
    }
}

/// What helps where a file is refused as an image file.
fn hint(file: &[u8]) -> String {
    let starts = |front: &[u8]| file.starts_with(front);
    let text = if file.is_empty() {
        "it is empty"
    } else if starts(b"\x89PNG") {
        "it is a PNG file: pngtopam -alphapam reads it"
    } else if starts(b"P7") {
        "pamtopam writes a header in this spelling, pamdepth 255 the maximum, and \
         pamchannel -tupletype=RGB_ALPHA 0 1 2 3 the type"
    } else if file.len() > 1 && file[0] == b'P' && (b'1'..=b'6').contains(&file[1]) {
        "it has no alpha: pamtopng | pngtopam -alphapam adds it"
    } else {
        ""
    };
    text.to_string()
}
