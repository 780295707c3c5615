//! The plate file: its rules in every version, the picture and the label of an index, and the job.
use crate::blur::blur;
use crate::refusal;
use crate::LARGEST_SIDE;

/// The newest version that is known; all from 1 on are.
pub const NEWEST: u64 = 3;
/// The bytes before the table.
pub const HEAD: usize = 4;
pub const MOST_PICTURES: usize = 64;

/// The bytes that a plate may have: in the library 16 MiB from version 3 on.
pub const fn longest(version: u64) -> usize {
    if version < 3 {
        16384
    } else {
        16 << 20
    }
}

/// The largest side of a plate's picture. Before version 3 it shows in no answer: one more makes a body too long.
pub fn largest_side(version: u64) -> u32 {
    if version < 3 {
        4096
    } else {
        LARGEST_SIDE
    }
}

pub fn known(version: u64) -> bool {
    (1..=NEWEST).contains(&version)
}

/// The bytes of a table entry; from version 2 on it ends with unit and sheet number, two bytes each.
pub fn entry_size(version: u64) -> usize {
    if version == 1 {
        12
    } else {
        16
    }
}

/// A unit must be 1, milliohm, or 2, microohm; in version 1 there is none.
pub fn wrong_unit(version: u64, unit: u32) -> bool {
    version != 1 && unit != 1 && unit != 2
}

/// One table entry.
#[derive(Clone, Copy, Debug, Default, PartialEq)]
pub struct Picture {
    pub w: u32,
    pub h: u32,
    pub offset: u64,
    pub length: u64,
    /// Both 0 in version 1.
    pub unit: u32,
    pub sheet: u16,
}

fn number(plate: &[u8], at: usize, bytes: usize) -> Option<u64> {
    let part = plate.get(at..at + bytes)?;
    Some(part.iter().rev().fold(0, |value, byte| 256 * value + u64::from(*byte)))
}

fn entry(plate: &[u8], version: u64, i: usize) -> Option<Picture> {
    let at = HEAD + entry_size(version) * i;
    let label = |from: usize| if version == 1 { Some(0) } else { number(plate, from, 2) };
    Some(Picture {
        w: number(plate, at, 2)? as u32,
        h: number(plate, at + 2, 2)? as u32,
        offset: number(plate, at + 4, 4)?,
        length: number(plate, at + 8, 4)?,
        unit: label(at + 12)? as u32,
        sheet: label(at + 14)? as u16,
    })
}

/// The pictures of a plate that keeps every plate rule.
pub fn pictures(plate: &[u8]) -> Option<Vec<Picture>> {
    let version = number(plate, 0, 2)?;
    let count = number(plate, 2, 2)? as usize;
    if !known(version) || count > MOST_PICTURES || plate.len() > longest(version) {
        return None;
    }
    let mut pictures = Vec::new();
    let mut end = (HEAD + entry_size(version) * count) as u64;
    for i in 0..count {
        let picture = entry(plate, version, i)?;
        let fits = u128::from(picture.length) == refusal::bytes(picture.w, picture.h);
        let wide = refusal::sides(picture.w, picture.h) || picture.w.max(picture.h) > largest_side(version);
        if wide || !fits || picture.offset != end || wrong_unit(version, picture.unit) {
            return None;
        }
        end += picture.length;
        pictures.push(picture);
    }
    (end == plate.len() as u64).then_some(pictures)
}

/// Picture of a plate: 10, then 12.
pub fn picture(plate: &[u8], index: u32) -> (u32, Picture) {
    let Some(pictures) = pictures(plate) else { return (10, Picture::default()) };
    match pictures.get(index as usize) {
        Some(picture) => (0, *picture),
        None => (12, Picture::default()),
    }
}

/// Label of a plate's picture: 10, then 12. The number, unit and sheet.
pub fn label(plate: &[u8], index: u32) -> (u32, u32, u16) {
    let (number, picture) = picture(plate, index);
    (number, picture.unit, picture.sheet)
}

/// Plate job: 10, then 3. Blurs each body where it lies.
pub fn job(plate: &mut [u8], scratch: &mut [u8]) -> u32 {
    let Some(pictures) = pictures(plate) else { return 10 };
    let longest = pictures.iter().map(|p| p.length).max().unwrap_or(0);
    if (scratch.len() as u64) < longest {
        return 3;
    }
    for Picture { w, h, offset, length, .. } in pictures {
        let body = &mut plate[offset as usize..(offset + length) as usize];
        let answer = blur(body, w, h, scratch, &[0.25, 0.5, 0.25], 1, 1.0, 0);
        assert_eq!(answer, 0, "a plate's body is a picture");
    }
    0
}
