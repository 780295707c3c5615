//! Plate files: read, written, and the job over one.
use crate::refusal::answer;
use crate::{sys, Refusal, Size};
use std::ops::Range;

/// The version of a plate, which it keeps.
#[derive(Clone, Copy, Debug, PartialEq, Eq, Hash)]
#[repr(u32)]
pub enum PlateVersion {
    /// Pictures alone.
    One = 1,
    /// A unit and a sheet beside each picture.
    Two = 2,
    /// As 2, for larger scans.
    Three = 3,
}

impl TryFrom<u32> for PlateVersion {
    type Error = Refusal;

    /// By its number. Refusal: 10.
    fn try_from(number: u32) -> Result<PlateVersion, Refusal> {
        let versions = [PlateVersion::One, PlateVersion::Two, PlateVersion::Three];
        versions.into_iter().find(|version| *version as u32 == number).ok_or(Refusal::BrokenPlate)
    }
}

/// What a picture's resistances are in.
#[derive(Clone, Copy, Debug, PartialEq, Eq, Hash)]
#[repr(u32)]
pub enum Unit {
    /// 1/1000 ohm.
    Milliohm = 1,
    /// 1/1000000 ohm.
    Microohm = 2,
}

impl TryFrom<u32> for Unit {
    type Error = Refusal;

    /// By its number. Refusal: 10.
    fn try_from(number: u32) -> Result<Unit, Refusal> {
        let units = [Unit::Milliohm, Unit::Microohm];
        units.into_iter().find(|unit| *unit as u32 == number).ok_or(Refusal::BrokenPlate)
    }
}

/// What stands beside a picture in a plate of version 2 or 3.
#[derive(Clone, Copy, Debug, PartialEq, Eq, Hash)]
pub struct Label {
    /// What its resistances are in.
    pub unit: Unit,
    /// The number of its sheet.
    pub sheet: u16,
}

/// Where a picture of a plate lies.
#[derive(Clone, Debug, PartialEq, Eq, Hash)]
pub struct PlatePicture {
    /// Its sides.
    pub size: Size,
    /// Its bytes, in the plate.
    pub range: Range<usize>,
}

/// Where a picture of a plate lies, by its index counted from 0.
///
/// Refusals: 10, 12.
pub fn plate_picture(plate: &[u8], index: u32) -> Result<PlatePicture, Refusal> {
    let (mut w, mut h, mut offset, mut length) = (0, 0, 0, 0);
    answer(unsafe {
        let (bytes, count) = (plate.as_ptr(), plate.len());
        sys::corbelrush_plate_picture(bytes, count, index, &mut w, &mut h, &mut offset, &mut length)
    })?;
    let start = offset as usize;
    Ok(PlatePicture { size: Size { w, h }, range: start..start + length as usize })
}

/// What a plate names beside a picture, by its index counted from 0: nothing in version 1.
///
/// Refusals: 10, 12.
pub fn plate_label(plate: &[u8], index: u32) -> Result<Option<Label>, Refusal> {
    let (mut unit, mut sheet) = (0, 0);
    answer(unsafe { sys::corbelrush_plate_label(plate.as_ptr(), plate.len(), index, &mut unit, &mut sheet) })?;
    Ok(Unit::try_from(unit).ok().map(|unit| Label { unit, sheet }))
}

/// Blurs every picture of a plate where it lies. `scratch` is at least as long as the longest of them; one as long as the
/// plate is always enough.
///
/// Refusals: 10, 3.
pub fn plate_job(plate: &mut [u8], scratch: &mut [u8]) -> Result<(), Refusal> {
    answer(unsafe { sys::corbelrush_plate_job(plate.as_mut_ptr(), plate.len(), scratch.as_mut_ptr(), scratch.len()) })
}

/// Starts a plate of no pictures in the first bytes of `buffer`, and answers its length.
///
/// Refusal: 13.
///
/// ```
/// use corbelrush::{plate_add, plate_label, plate_picture, plate_start, Label, PlateVersion, Refusal, Size, Unit};
/// let mut buffer = [0; 100];
/// let mut used = plate_start(&mut buffer, PlateVersion::Two)?;
/// let label = Label { unit: Unit::Milliohm, sheet: 7 };
/// used = plate_add(&mut buffer, used, &[10, 20, 30, 255], Size::new(1, 1)?, Some(label))?;
/// let found = plate_picture(&buffer[..used], 0)?;
/// assert_eq!(buffer[found.range], [10, 20, 30, 255]);
/// assert_eq!(plate_label(&buffer[..used], 0)?, Some(label));
/// # Ok::<(), Refusal>(())
/// ```
pub fn plate_start(buffer: &mut [u8], version: PlateVersion) -> Result<usize, Refusal> {
    let mut used = 0;
    answer(unsafe { sys::corbelrush_plate_start(buffer.as_mut_ptr(), buffer.len(), version as u32, &mut used) })?;
    Ok(used as usize)
}

/// Adds a picture to the plate that the first `used` bytes of `buffer` are, and answers its new length. A plate of version 1
/// has no place for a label and ignores it; one of version 2 or 3 without it is refused as 10.
///
/// Refusals: 10, 2, 13.
pub fn plate_add(
    buffer: &mut [u8],
    used: usize,
    picture: &[u8],
    size: Size,
    label: Option<Label>,
) -> Result<usize, Refusal> {
    let (unit, sheet) = label.map_or((0, 0), |label| (label.unit as u32, label.sheet));
    let mut new_used = 0;
    answer(unsafe {
        sys::corbelrush_plate_add(
            buffer.as_mut_ptr(),
            buffer.len(),
            used as u64,
            picture.as_ptr(),
            picture.len(),
            size.w,
            size.h,
            unit,
            sheet,
            &mut new_used,
        )
    })?;
    Ok(new_used as usize)
}
