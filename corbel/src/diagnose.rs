//! Which rule a file breaks that the library refuses as a plate, and at which byte. The library has decided; this is read
//! off the file afterwards.

/// What a version fixes: the bytes of an entry, the largest side, and the most bytes of the whole.
struct Version {
    number: usize,
    entry: usize,
    side: usize,
    whole: usize,
}

const VERSIONS: [Version; 3] = [
    Version { number: 1, entry: 12, side: 4096, whole: 16384 },
    Version { number: 2, entry: 16, side: 4096, whole: 16384 },
    Version { number: 3, entry: 16, side: 16384, whole: 16777216 },
];

/// A little-endian number of that many bytes.
fn number(plate: &[u8], at: usize, bytes: usize) -> usize {
    plate[at..at + bytes].iter().rev().fold(0, |number, byte| 256 * number + usize::from(*byte))
}

/// The first rule that is broken, in the order of the file.
pub fn broken(plate: &[u8]) -> Option<String> {
    let length = plate.len();
    if length < 4 {
        return Some(format!("at byte {length}: the file ends before its version and its count, 4 bytes, do"));
    }
    let (version, count) = (number(plate, 0, 2), number(plate, 2, 2));
    let Some(version) = VERSIONS.iter().find(|known| known.number == version) else {
        return Some(format!("at byte 0: the version is {version}, and there are 1, 2 and 3"));
    };
    if count > corbelrush::MAX_PLATE_PICTURES as usize {
        return Some(format!("at byte 2: the count is {count}, and at most 64 pictures are allowed"));
    }
    let mut start = 4 + version.entry * count;
    if length < start {
        return Some(format!("at byte {length}: the file ends inside its table, which has {start} bytes"));
    }
    for index in 0..count {
        match entry(plate, version, index, start) {
            Ok(bytes) => start += bytes,
            Err(text) => return Some(text),
        }
    }
    ends(version, start, length)
}

/// The length of a picture whose entry obeys the rules and whose bytes start there.
fn entry(plate: &[u8], version: &Version, index: usize, start: usize) -> Result<usize, String> {
    let at = 4 + version.entry * index;
    let says = |place: usize, text: String| Err(format!("at byte {}: picture {index} {text}", at + place));
    let (w, h) = (number(plate, at, 2), number(plate, at + 2, 2));
    let (offset, length) = (number(plate, at + 4, 4), number(plate, at + 8, 4));
    let side = |side: usize| (1..=version.side).contains(&side);
    if !side(w) {
        return says(0, format!("is {w} wide, and version {} allows 1 to {}", version.number, version.side));
    }
    if !side(h) {
        return says(2, format!("is {h} high, and version {} allows 1 to {}", version.number, version.side));
    }
    if offset != start {
        return says(4, format!("has offset {offset}, and its bytes follow at {start}"));
    }
    if length != 4 * w * h {
        return says(8, format!("has length {length}, and {w} by {h} pixels are {} bytes", 4 * w * h));
    }
    if version.number > 1 && !(1..=2).contains(&number(plate, at + 12, 2)) {
        return says(12, format!("has unit {}, and there are 1, milliohm, and 2, microohm", number(plate, at + 12, 2)));
    }
    Ok(length)
}

/// What is wrong with the end, where the last picture ends at `start`.
fn ends(version: &Version, start: usize, length: usize) -> Option<String> {
    if length < start {
        Some(format!("at byte {length}: the file ends before its last picture does, at {start}"))
    } else if length > start {
        Some(format!("at byte {start}: something follows the last picture"))
    } else if length > version.whole {
        let most = version.whole;
        Some(format!("at byte {most}: the file has {length} bytes, and version {} allows {most}", version.number))
    } else {
        None
    }
}

#[cfg(test)]
mod tests {
    use super::broken;
    use corbelrush::{plate_picture, Refusal};

    /// A rule is named where the library refuses, and nowhere else.
    fn agree(plate: &[u8]) {
        let refused = plate_picture(plate, 0) == Err(Refusal::BrokenPlate);
        assert_eq!(refused, broken(plate).is_some(), "{plate:?}");
    }

    #[test]
    fn the_library_refuses_what_has_a_broken_rule() {
        let samples: [&[u8]; 3] = [
            include_bytes!("../../samples/plate.bin"),
            include_bytes!("../../samples/three.bin"),
            include_bytes!("../../samples/units.bin"),
        ];
        for sample in samples {
            for length in 0..=sample.len() {
                agree(&sample[..length]);
            }
            agree(&[sample, &[0]].concat());
            for place in 0..sample.len() {
                for byte in 0..=255 {
                    let mut plate = sample.to_vec();
                    plate[place] = byte;
                    agree(&plate);
                }
            }
        }
    }

    #[test]
    fn the_limits_of_a_version_are_kept() {
        for version in 1..=3 {
            for (w, h) in [(4096, 1), (1, 4097), (16384, 1), (16385, 1), (64, 64), (2048, 2048)] {
                let (entry, length) = (if version == 1 { 12 } else { 16 }, 4 * w * h);
                let mut plate = vec![version, 0, 1, 0];
                plate.extend((w as u16).to_le_bytes().into_iter().chain((h as u16).to_le_bytes()));
                plate.extend((4 + entry as u32).to_le_bytes().into_iter().chain((length as u32).to_le_bytes()));
                plate.extend([1, 0, 0, 0]);
                plate.truncate(4 + entry);
                plate.resize(4 + entry + length, 0);
                agree(&plate);
            }
        }
    }
}
