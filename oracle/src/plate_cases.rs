//! Cases of the functions that write plates, and of those that read plates of every version.
use crate::case::{Case, Entry};
use crate::inputs;
use crate::random::Random;
use rule::plate::{entry_size, longest, HEAD, NEWEST};
use rule::plate_write::version;

/// The bytes of a plate of version 1 or 2.
const LONGEST: usize = longest(2);
/// Versions, known and not, and some that 16 or 8 bits would take for a known one.
pub const VERSIONS: [u32; 12] = [0, 1, 2, 3, 4, 255, 257, 65535, 65536, 65537, 65538, u32::MAX];
pub const UNITS: [u32; 9] = [0, 1, 2, 3, 257, 65535, 65537, 65538, u32::MAX];
pub const SHEETS: [u16; 6] = [0, 1, 2, 255, 256, 65535];
/// How much longer the buffer is than the new plate needs.
const ROOMS: [i64; 8] = [-12, -5, -4, -1, 0, 1, 4, 64];

/// The bytes of a plate's table entry.
fn entry_of(plate: &[u8]) -> usize {
    entry_size(version(plate).into())
}

fn any_version(random: &mut Random) -> u16 {
    random.range(1, NEWEST as i64) as u16
}

fn random_bytes(random: &mut Random, length: usize) -> Vec<u8> {
    (0..length).map(|_| random.byte()).collect()
}

pub fn start(random: &mut Random, version: u32, length: usize) -> Case {
    Case { unit: version, ..Case::plain(Entry::PlateStart, random_bytes(random, length)) }
}

/// A plate in a buffer with `room` bytes more than it needs for a picture of w by h, which is added.
pub fn add(random: &mut Random, plate: Vec<u8>, w: u32, h: u32, room: i64) -> Case {
    let (used, other) = (plate.len(), inputs::picture(random, w, h));
    let length = (used + entry_of(&plate) + other.len()) as i64 + room;
    let mut buffer = plate;
    buffer.extend(random_bytes(random, (length as usize).saturating_sub(used)));
    let (unit, sheet) = (random.pick(&[1, 2]), random.pick(&SHEETS));
    Case { w, h, other, used: used as u64, unit, sheet, ..Case::plain(Entry::PlateAdd, buffer) }
}

fn side(random: &mut Random) -> u32 {
    random.range(1, 4) as u32
}

/// Equal pictures, none larger than 3 by 3, in any version.
pub fn small_plate(random: &mut Random, count: usize) -> Vec<u8> {
    let sides = (random.range(1, 3) as u32, random.range(1, 3) as u32);
    let version = any_version(random);
    inputs::plate_of(random, version, &vec![sides; count])
}

/// A function that reads a plate.
fn reading(random: &mut Random, entry: Entry, plate: Vec<u8>) -> Case {
    let count = u64::from(*plate.get(2).unwrap_or(&0));
    match entry {
        Entry::PlateJob => Case { scratch: plate.len(), ..Case::plain(entry, plate) },
        _ => Case { x: random.below(count + 1) as i32, ..Case::plain(entry, plate) },
    }
}

pub fn accepted(random: &mut Random, entry: Entry) -> Case {
    if entry == Entry::PlateStart {
        let (version, length) = (any_version(random), random.range(4, 40) as usize);
        return start(random, version.into(), length);
    }
    if entry == Entry::PlateLabel {
        let version = any_version(random);
        let plate = inputs::plate(random, version);
        let last = (i64::from(plate[2]) - 1).max(0);
        return Case { x: random.range(0, last) as i32, ..Case::plain(entry, plate) };
    }
    let count = random.pick(&[0, 1, 1, 2, 3, 5, 20, 63]);
    let (w, h, room) = (side(random), side(random), random.pick(&[0, 1, 4, 64]));
    let plate = small_plate(random, count);
    add(random, plate, w, h, room)
}

/// Makes a plate, or its length in use, wrong.
pub fn spoil_plate(random: &mut Random, case: &mut Case) {
    let length = case.picture.len() as u64;
    match random.below(5) {
        0 => case.used = random.pick(&[length + 1, (1 << 32) + case.used, 1 << 63, u64::MAX]),
        1 => case.used = random.pick(&[0, 1, 2, 3, case.used.saturating_sub(1), case.used + 1]),
        2 => {
            let at = random.below(HEAD as u64) as usize;
            spoil_byte(random, &mut case.picture, at);
        }
        3 => case.unit = random.pick(&UNITS),
        _ => spoil_entry(random, &mut case.picture),
    }
}

/// A byte of the table changed.
fn spoil_entry(random: &mut Random, plate: &mut [u8]) {
    let table = HEAD + entry_of(plate) * usize::from(*plate.get(2).unwrap_or(&0));
    let at = random.below(table as u64) as usize;
    spoil_byte(random, plate, at);
}

/// Makes a plate that is read a wrong one.
pub fn spoil_table(random: &mut Random, case: &mut Case) {
    let version = any_version(random);
    case.picture = inputs::bad_plate(random, version);
}

fn spoil_byte(random: &mut Random, bytes: &mut [u8], at: usize) {
    if let Some(byte) = bytes.get_mut(at) {
        *byte = byte.wrapping_add(random.pick(&[1, 255, 16, 128]));
    }
}

/// Takes away the room for one picture more.
pub fn spoil_room(random: &mut Random, case: &mut Case) {
    if case.entry == Entry::PlateStart {
        case.picture.truncate(random.below(HEAD as u64) as usize);
        return;
    }
    let whole = case.used as u128 + entry_of(&case.picture) as u128 + rule::refusal::bytes(case.w, case.h);
    match random.below(3) {
        0 => case.picture.truncate(case.used.min(1 << 20) as usize),
        1 => case.picture.truncate((whole - 1).min(1 << 20) as usize),
        _ => {
            case.picture = small_plate(random, 64);
            case.used = case.picture.len() as u64;
            case.picture.extend(vec![9; 200]);
        }
    }
}

/// Every version at every short length.
fn starts(random: &mut Random, take: &mut dyn FnMut(Case)) {
    for version in VERSIONS {
        for length in (0..9).chain([16, 100, LONGEST, LONGEST + 1]) {
            take(start(random, version, length));
        }
    }
}

/// Every count near a limit, with more room and less than is needed.
fn counts(random: &mut Random, take: &mut dyn FnMut(Case)) {
    for count in [0, 1, 2, 3, 5, 31, 62, 63, 64] {
        for room in ROOMS {
            let (w, h) = (side(random), side(random));
            let plate = small_plate(random, count);
            take(add(random, plate, w, h, room));
        }
    }
}

/// New plates of about the largest length: a long picture is there, or is added.
fn lengths(random: &mut Random, take: &mut dyn FnMut(Case)) {
    for whole in (LONGEST - 12..=LONGEST + 12).step_by(4) {
        for room in ROOMS.into_iter().chain([4000]) {
            let count = random.pick(&[0, 1, 3]);
            let plate = small_plate(random, count);
            let pixels = (whole - plate.len() - entry_of(&plate)) / 4;
            take(add(random, plate, 1, pixels as u32, room));
            let version = any_version(random);
            let pixels = (whole - HEAD - 2 * entry_size(version.into()) - 4) / 4;
            let plate = inputs::plate_of(random, version, &[(1, pixels as u32)]);
            take(add(random, plate, 1, 1, room));
        }
    }
}

/// Every length in use about the plate's own and the buffer's, and far ones.
fn used(random: &mut Random, take: &mut dyn FnMut(Case)) {
    for count in [0, 1, 2] {
        let plate = small_plate(random, count);
        let (own, case) = (plate.len() as u64, add(random, plate, 1, 2, 30));
        let length = case.picture.len() as u64;
        let far = [own + (1 << 16), own + (1 << 32), own + (1 << 63), u64::MAX, u64::MAX - 3];
        for used in (0..=own + 13).chain(length - 1..length + 3).chain(far) {
            take(Case { used, ..case.clone() });
        }
        // a plate that fills its buffer
        for used in [own - 1, own, own + 1, own + 12, u64::MAX] {
            let picture = case.picture[..own as usize].to_vec();
            take(Case { used, picture, ..case.clone() });
        }
    }
}

/// Buffers of a few bytes, which hold an empty plate or a part of one.
fn short_buffers(random: &mut Random, take: &mut dyn FnMut(Case)) {
    for (version, length) in (1..=NEWEST as u16).flat_map(|version| (0..26).map(move |length| (version, length))) {
        let plate = inputs::plate_of(random, version, &[]);
        let case = add(random, plate, 1, 1, 10);
        for used in [0, 1, 3, 4, 5, length, length + 1] {
            let picture = case.picture[..length as usize].to_vec();
            take(Case { used, picture, ..case.clone() });
        }
    }
}

/// Sides and lengths of the picture that wrap in 16, 32 or 64 bits, and those at the limit.
fn sides(random: &mut Random, take: &mut dyn FnMut(Case)) {
    let plate = small_plate(random, 1);
    let case = add(random, plate, 2, 1, 30);
    let large = [0, 1, 2, 4095, 4096, 4097, 16384, 16385, 65535, 65536, 65537, 65538, 1 << 30, 1 << 31, u32::MAX];
    for w in large {
        for h in large {
            for length in [0, 4, 8] {
                take(Case { w, h, other: random_bytes(random, length), ..case.clone() });
            }
        }
    }
    for length in 0..24 {
        take(Case { other: random_bytes(random, length), ..case.clone() });
    }
    for (w, h) in [(4096, 1), (1, 4096), (4096, 64), (64, 64)] {
        let plate = small_plate(random, 1);
        take(add(random, plate, w, h, 5));
    }
}

/// Every unit and sheet beside a picture that is added to a plate of every version, also where 1, 2 or 13 holds too.
fn labels(random: &mut Random, take: &mut dyn FnMut(Case)) {
    for version in 1..=NEWEST as u16 {
        let plate = inputs::plate_of(random, version, &[(1, 1), (2, 3)]);
        let case = add(random, plate, 1, 1, 20);
        for unit in UNITS {
            for sheet in SHEETS {
                take(Case { unit, sheet, ..case.clone() });
            }
            take(Case { unit, w: 0, ..case.clone() });
            take(Case { unit, h: 3, ..case.clone() });
            take(Case { unit, picture: case.picture[..case.used as usize].to_vec(), ..case.clone() });
        }
    }
}

const READERS: [Entry; 3] = [Entry::PlatePicture, Entry::PlateJob, Entry::PlateLabel];

/// Plates of every version to be read, right and wrong.
fn readings(random: &mut Random, take: &mut dyn FnMut(Case)) {
    for i in 0..600 {
        let (entry, version) = (READERS[i % 3], any_version(random));
        let plate = if i % 6 < 3 { inputs::plate(random, version) } else { inputs::bad_plate(random, version) };
        take(reading(random, entry, plate));
    }
}

/// Every unit in every entry of a plate; each version's table under another version; every version with no picture.
fn wrong_labels(random: &mut Random, take: &mut dyn FnMut(Case)) {
    let (head, entry) = (HEAD, entry_size(2));
    for reader in READERS {
        for (i, unit) in UNITS.iter().flat_map(|unit| [0, 1, 2].map(|i| (i, *unit as u16))) {
            let mut plate = inputs::plate_of(random, 2, &[(1, 1), (2, 1), (1, 2)]);
            plate[head + entry * i + 12..head + entry * i + 14].copy_from_slice(&unit.to_le_bytes());
            take(reading(random, reader, plate));
        }
        for (own, named) in (1..=NEWEST as u16).flat_map(|own| VERSIONS.map(|named| (own, named as u16))) {
            for count in [0, 1, 2] {
                let mut plate = inputs::plate_of(random, own, &vec![(2, 2); count]);
                plate[..2].copy_from_slice(&named.to_le_bytes());
                take(reading(random, reader, plate));
            }
        }
    }
}

/// All groups.
pub fn all(random: &mut Random, take: &mut dyn FnMut(Case)) {
    for group in [starts, counts, lengths, used, short_buffers, sides, labels, readings, wrong_labels] {
        group(random, take);
    }
}

/// Small ones to be stored.
pub fn stored(random: &mut Random) -> Vec<Case> {
    let mut cases: Vec<Case> = (0..6).map(|length| start(random, 1, length)).collect();
    cases.extend(VERSIONS.map(|version| start(random, version, 6)));
    for (count, w, h, room) in [(0, 1, 1, 0), (1, 2, 1, 4), (2, 1, 3, 0), (3, 2, 2, -1), (0, 3, 2, 1), (9, 1, 1, 2)] {
        let plate = small_plate(random, count);
        cases.push(add(random, plate, w, h, room));
    }
    let plate = small_plate(random, 1);
    let case = add(random, plate, 1, 2, 30);
    let (own, length) = (case.used, case.picture.len() as u64);
    for used in [0, 3, 4, own - 1, own + 1, length, length + 1, own + (1 << 32), u64::MAX] {
        cases.push(Case { used, ..case.clone() });
    }
    cases.push(Case { used: own + 1, picture: case.picture[..own as usize].to_vec(), ..case.clone() });
    for (w, h) in [(0, 1), (1, 4097), (1, 16385), (65537, 2), (1, 1), (1 << 30, 1)] {
        cases.push(Case { w, h, ..case.clone() });
    }
    // no room and another refusal too
    let full = Case { picture: case.picture[..own as usize].to_vec(), ..case.clone() };
    cases.extend([Case { h: 3, ..full.clone() }, Case { w: 0, ..full.clone() }, Case { w: 0, used: own + 1, ..full }]);
    cases.push(Case { unit: 65537, sheet: 65535, ..case });
    cases.extend(stored_labels(random));
    cases
}

/// Small plates of every version to be read, and pictures added with every unit.
fn stored_labels(random: &mut Random) -> Vec<Case> {
    let mut cases = Vec::new();
    for version in 1..=NEWEST as u16 {
        let plate = inputs::plate_of(random, version, &[(1, 1), (2, 1)]);
        for reader in [Entry::PlatePicture, Entry::PlateLabel] {
            cases.extend([0, 1, 2, -1].map(|x| Case { x, ..Case::plain(reader, plate.clone()) }));
        }
        cases.push(reading(random, Entry::PlateJob, plate.clone()));
        let case = add(random, plate, 1, 1, 6);
        cases.extend(UNITS.map(|unit| Case { unit, sheet: 258, ..case.clone() }));
        cases.push(Case { unit: 0, w: 0, ..case });
    }
    for (version, at, byte) in [
        (2, 32, 0),
        (2, 32, 3),
        (2, 33, 1),
        (2, 16, 4),
        (2, 0, 1),
        (1, 0, 2),
        (2, 0, 3),
        (3, 32, 3),
        (3, 0, 4),
        (1, 0, 3),
        (1, 1, 1),
    ] {
        let mut plate = inputs::plate_of(random, version, &[(1, 1), (2, 1)]);
        plate[at] = byte;
        cases.extend(READERS.map(|reader| reading(random, reader, plate.clone())));
    }
    cases
}
