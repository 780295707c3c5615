//! Writing plates (requests 01, 05 and 11): an empty plate, and a plate with one picture more, each made anew as a whole file.
use crate::plate::{self, entry_size, known, longest, wrong_unit, Picture, HEAD, MOST_PICTURES};
use crate::refusal::{self, first};

/// A picture as a plate holds it.
#[derive(Clone, Debug, PartialEq)]
pub struct Scan {
    pub w: u32,
    pub h: u32,
    pub unit: u32,
    pub sheet: u16,
    pub body: Vec<u8>,
}

/// The scans of a plate, in table order.
pub fn scans(plate: &[u8]) -> Option<Vec<Scan>> {
    let body = |p: &Picture| plate[p.offset as usize..(p.offset + p.length) as usize].to_vec();
    let scan = |p: &Picture| Scan { w: p.w, h: p.h, unit: p.unit, sheet: p.sheet, body: body(p) };
    Some(plate::pictures(plate)?.iter().map(scan).collect())
}

/// The plate of these scans, whatever their number, lengths and units. Version 1 has no unit and sheet.
pub fn file(version: u16, scans: &[Scan]) -> Vec<u8> {
    let mut bytes = [version.to_le_bytes(), (scans.len() as u16).to_le_bytes()].concat();
    let mut offset = (HEAD + entry_size(version.into()) * scans.len()) as u32;
    for scan in scans {
        let length = scan.body.len() as u32;
        bytes.extend([(scan.w as u16).to_le_bytes(), (scan.h as u16).to_le_bytes()].concat());
        bytes.extend([offset.to_le_bytes(), length.to_le_bytes()].concat());
        if version != 1 {
            bytes.extend([(scan.unit as u16).to_le_bytes(), scan.sheet.to_le_bytes()].concat());
        }
        offset += length;
    }
    bytes.extend(scans.iter().flat_map(|scan| &scan.body));
    bytes
}

/// The stretch in use, where it lies inside the buffer.
pub fn in_use(buffer: &[u8], used: u64) -> Option<&[u8]> {
    buffer.get(..usize::try_from(used).ok()?)
}

/// Start: 10 for a version that is not known, then 13. The number, and the length in use.
pub fn start(buffer: &mut [u8], version: u32) -> (u32, u64) {
    let refused = first(&[(10, !known(version.into())), (13, buffer.len() < HEAD)]);
    if refused != 0 {
        return (refused, 0);
    }
    let new = file(version as u16, &[]);
    buffer[..new.len()].copy_from_slice(&new);
    (0, new.len() as u64)
}

/// The version of a plate, or of any bytes.
pub fn version(plate: &[u8]) -> u16 {
    plate.get(..2).map_or(0, |bytes| u16::from_le_bytes([bytes[0], bytes[1]]))
}

/// Add: 10, also for a wrong unit, then 1, 2, 13. The number, and the new length in use. Version 1 ignores unit and
/// sheet.
pub fn add(buffer: &mut [u8], used: u64, picture: &[u8], w: u32, h: u32, unit: u32, sheet: u16) -> (u32, u64) {
    let plate = in_use(buffer, used).unwrap_or_default();
    let (version, old) = (version(plate), scans(plate));
    let refused = first(&[
        (10, old.is_none() || wrong_unit(version.into(), unit)),
        (1, refusal::sides(w, h)),
        (2, refusal::length(picture, w, h)),
    ]);
    let (0, Some(mut scans)) = (refused, old) else { return (refused, 0) };
    scans.push(Scan { w, h, unit, sheet, body: picture.to_vec() });
    let new = file(version, &scans);
    if scans.len() > MOST_PICTURES || new.len() > longest(version.into()) || new.len() > buffer.len() {
        return (13, 0);
    }
    buffer[..new.len()].copy_from_slice(&new);
    (0, new.len() as u64)
}
