//! Wrong ways to write a plate.
use super::{cases, changed, lawful, refused, told_apart, told_by_vectors, Wrong};
use crate::case::{Case, Entry, Outcome};
use crate::plate_cases;
use rule::plate::{entry_size, longest, wrong_unit, HEAD, MOST_PICTURES, NEWEST};
use rule::plate_write::{file, in_use, scans, version, Scan};
use rule::refusal;

/// The limits and the order of the checks.
pub struct Writer {
    pub most: usize,
    /// The bytes that a plate of a version may have.
    pub longest: fn(u64) -> usize,
    /// How many bytes of the buffer stay free.
    pub spare: usize,
    pub order: [u32; 4],
    /// Where the new picture goes, of the old ones' count.
    pub at: fn(usize) -> usize,
    /// Whether a version takes no such unit.
    pub wrong_unit: fn(u64, u32) -> bool,
    /// What is written of unit and sheet.
    pub label: fn(u32, u16) -> (u32, u16),
    /// The version that is written, of the plate's own and the new length.
    pub version: fn(u16, usize) -> u16,
    pub side: fn(u32) -> bool,
}

pub const RIGHT: Writer = Writer {
    most: MOST_PICTURES,
    longest,
    spare: 0,
    order: [10, 1, 2, 13],
    at: |count| count,
    wrong_unit,
    label: |unit, sheet| (unit, sheet),
    version: |version, _| version,
    side: refusal::side,
};

impl Writer {
    pub fn add(&self, case: &Case) -> Outcome {
        let plate = in_use(&case.picture, case.used).unwrap_or_default();
        let (version, mut new) = (version(plate), scans(plate).unwrap_or_default());
        let (unit, sheet) = (self.label)(case.unit, case.sheet);
        new.insert((self.at)(new.len()), Scan { w: case.w, h: case.h, unit, sheet, body: case.other.clone() });
        let whole = (plate.len() + entry_size(version.into())) as u128 + refusal::bytes(case.w, case.h);
        let holds = |number: &&u32| match number {
            10 => scans(plate).is_none() || (self.wrong_unit)(version.into(), case.unit),
            1 => (self.side)(case.w) || (self.side)(case.h),
            2 => refusal::length(&case.other, case.w, case.h),
            _ => {
                let room = case.picture.len().saturating_sub(self.spare) as u128;
                new.len() > self.most || whole > (self.longest)(version.into()) as u128 || whole > room
            }
        };
        if let Some(number) = self.order.iter().find(holds) {
            return refused(case, *number);
        }
        let mut outcome = refused(case, 0);
        let bytes = file((self.version)(version, whole as usize), &new);
        outcome.picture[..bytes.len()].copy_from_slice(&bytes);
        outcome.numbers[0] = bytes.len() as u64;
        outcome
    }
}

/// The bytes of a plate's table entry.
fn entry_of(plate: &[u8]) -> usize {
    entry_size(version(plate).into())
}

/// The offset of one of the old pictures stays as it was.
fn offset_kept(case: &Case, which: fn(usize) -> usize) -> Outcome {
    changed(case, 0, |outcome| {
        let old = usize::from(case.picture[2]);
        if old > 0 {
            let at = HEAD + entry_of(&case.picture) * which(old) + 4;
            outcome.picture[at..at + 4].copy_from_slice(&case.picture[at..at + 4]);
        }
    })
}

/// The bodies moved from the first byte on, over themselves.
fn front_to_back(case: &Case) -> Outcome {
    changed(case, 0, |outcome| {
        let mut bytes = case.picture.clone();
        let entry = entry_of(&bytes);
        let table = HEAD + entry * usize::from(case.picture[2]);
        for i in table..case.used as usize {
            bytes[i + entry] = bytes[i];
        }
        let moved = table + entry..case.used as usize + entry;
        outcome.picture[moved.clone()].copy_from_slice(&bytes[moved]);
    })
}

const ADDS: [Wrong; 28] = [
    ("the first offset kept", |case| offset_kept(case, |_| 0)),
    ("the last offset kept", |case| offset_kept(case, |old| old - 1)),
    ("bodies moved front to back", front_to_back),
    ("the whole buffer read as the plate", |case| lawful(&Case { used: case.picture.len() as u64, ..case.clone() })),
    ("the count written before 13", |case| changed(case, 13, |outcome| outcome.picture[2] += 1)),
    ("the rest cleared", |case| changed(case, 0, |outcome| outcome.picture[outcome.numbers[0] as usize..].fill(0))),
    ("65 pictures", |case| Writer { most: 65, ..RIGHT }.add(case)),
    ("63 pictures", |case| Writer { most: 63, ..RIGHT }.add(case)),
    ("16384 bytes refused", |case| Writer { longest: |version| longest(version) - 1, ..RIGHT }.add(case)),
    ("16388 bytes taken", |case| Writer { longest: |version| longest(version) + 4, ..RIGHT }.add(case)),
    ("a full buffer refused", |case| Writer { spare: 1, ..RIGHT }.add(case)),
    ("the length in use cut to 32 bits", |case| lawful(&Case { used: case.used as u32 as u64, ..case.clone() })),
    ("a length in use beyond the buffer held at it", |case| {
        lawful(&Case { used: case.used.min(case.picture.len() as u64), ..case.clone() })
    }),
    ("13 before 2", |case| Writer { order: [10, 1, 13, 2], ..RIGHT }.add(case)),
    ("13 before 10", |case| Writer { order: [13, 10, 1, 2], ..RIGHT }.add(case)),
    ("in number order", |case| Writer { order: [1, 2, 10, 13], ..RIGHT }.add(case)),
    ("2 before 1", |case| Writer { order: [10, 2, 1, 13], ..RIGHT }.add(case)),
    ("the new picture first", |case| Writer { at: |_| 0, ..RIGHT }.add(case)),
    ("the old length answered", |case| changed(case, 0, |outcome| outcome.numbers[0] = case.used)),
    ("the old length answered on 13", |case| changed(case, 13, |outcome| outcome.numbers[0] = case.used)),
    ("sides cut to 16 bits", |case| lawful(&Case { w: case.w as u16 as u32, h: case.h as u16 as u32, ..case.clone() })),
    ("the unit checked in version 1", |case| {
        Writer { wrong_unit: |_, unit| unit != 1 && unit != 2, ..RIGHT }.add(case)
    }),
    ("the unit not checked", |case| Writer { wrong_unit: |_, _| false, ..RIGHT }.add(case)),
    ("unit 3 taken", |case| Writer { wrong_unit: |v, unit| v != 1 && !(1..4).contains(&unit), ..RIGHT }.add(case)),
    ("the unit cut to 16 bits", |case| lawful(&Case { unit: case.unit as u16 as u32, ..case.clone() })),
    ("the sheet cut to 8 bits", |case| Writer { label: |unit, sheet| (unit, sheet % 256), ..RIGHT }.add(case)),
    ("unit and sheet exchanged", |case| Writer { label: |unit, sheet| (sheet.into(), unit as u16), ..RIGHT }.add(case)),
    ("a wrong unit found after 1, 2 and 13", |case| {
        let kind = Case { unit: 1, ..case.clone() };
        if lawful(&kind).answer != 0 {
            lawful(&kind)
        } else {
            lawful(case)
        }
    }),
];

/// How a plate is read.
pub struct Reader {
    pub newest: u16,
    pub entry_size: fn(u16) -> usize,
    /// Whether the unit of an entry is checked.
    pub checked: fn(usize) -> bool,
    /// The bytes that a plate of a version may have.
    pub longest: fn(u64) -> usize,
}

pub const RIGHT_READER: Reader =
    Reader { newest: NEWEST as u16, entry_size: |version| entry_size(version.into()), checked: |_| true, longest };

impl Reader {
    /// The place of each label of a plate that is taken.
    fn labels(&self, plate: &[u8]) -> Option<Vec<usize>> {
        let number = |at: usize, length: usize| {
            let bytes = plate.get(at..at + length)?;
            Some(bytes.iter().rev().fold(0, |value, byte| 256 * value + usize::from(*byte)))
        };
        let (version, count) = (number(0, 2)? as u16, number(2, 2)?);
        let size = (self.entry_size)(version);
        let mut end = HEAD + size * count;
        let mut taken = (1..=self.newest).contains(&version) && count <= MOST_PICTURES;
        taken &= plate.len() <= (self.longest)(version.into());
        for at in (0..count).map(|i| HEAD + size * i) {
            let (w, h) = (number(at, 2)? as u32, number(at + 2, 2)? as u32);
            let unit = if version == 1 { 1 } else { number(at + 12, 2)? as u32 };
            taken &= !refusal::sides(w, h) && number(at + 4, 4)? == end;
            taken &= number(at + 8, 4)? as u128 == refusal::bytes(w, h);
            taken &= !((self.checked)((at - HEAD) / size) && wrong_unit(version.into(), unit));
            end += number(at + 8, 4)?;
        }
        (taken && end == plate.len()).then(|| (0..count).map(|i| HEAD + size * i + 12).collect())
    }

    fn label(&self, case: &Case) -> Outcome {
        let plate = &case.picture;
        let Some(labels) = self.labels(plate) else { return refused(case, 10) };
        let Some(at) = labels.get(case.x as u32 as usize) else { return refused(case, 12) };
        let mut outcome = refused(case, 0);
        if version(plate) != 1 {
            let word = |at: usize| u64::from(u16::from_le_bytes([plate[at], plate[at + 1]]));
            outcome.numbers = [word(*at), word(at + 2), 0, 0];
        }
        outcome
    }

    /// A lookup or a job that takes other plates than the rule does: what it answers to them is wrong in any case.
    pub fn other_plates(&self, case: &Case) -> Outcome {
        let taken = self.labels(&case.picture).is_some();
        match (taken, lawful(case).answer == 10) {
            (false, false) => refused(case, 10),
            (true, true) => refused(case, 0),
            _ => lawful(case),
        }
    }
}

const LABELS: [Wrong; 13] = [
    ("version 4 taken", |case| Reader { newest: 4, ..RIGHT_READER }.label(case)),
    ("version 3 refused", |case| Reader { newest: 2, ..RIGHT_READER }.label(case)),
    ("entries of 12 bytes from version 2 on", |case| Reader { entry_size: |_| 12, ..RIGHT_READER }.label(case)),
    ("entries of 16 bytes in version 1", |case| Reader { entry_size: |_| 16, ..RIGHT_READER }.label(case)),
    ("units not checked", |case| Reader { checked: |_| false, ..RIGHT_READER }.label(case)),
    ("the first unit checked alone", |case| Reader { checked: |i| i == 0, ..RIGHT_READER }.label(case)),
    ("the first unit not checked", |case| Reader { checked: |i| i != 0, ..RIGHT_READER }.label(case)),
    ("the sheet cut to 8 bits", |case| changed(case, 0, |outcome| outcome.numbers[1] %= 256)),
    ("unit and sheet exchanged", |case| changed(case, 0, |outcome| outcome.numbers.swap(0, 1))),
    ("version 1 labelled 1", |case| changed(case, 0, |o| o.numbers[0] = o.numbers[0].max(1))),
    ("a unit answered on 10", |case| changed(case, 10, |outcome| outcome.numbers[0] = 7)),
    ("a sheet answered on 12", |case| changed(case, 12, |outcome| outcome.numbers[1] = 7)),
    ("the first label always", |case| {
        let first = Case { x: 0, ..case.clone() };
        if lawful(case).answer == 0 {
            lawful(&first)
        } else {
            lawful(case)
        }
    }),
];

/// Of the job and the lookup alike.
const PLATES: [Wrong; 5] = [
    ("version 4 taken", |case| Reader { newest: 4, ..RIGHT_READER }.other_plates(case)),
    ("version 3 refused", |case| Reader { newest: 2, ..RIGHT_READER }.other_plates(case)),
    ("entries of 12 bytes from version 2 on", |case| Reader { entry_size: |_| 12, ..RIGHT_READER }.other_plates(case)),
    ("units not checked", |case| Reader { checked: |_| false, ..RIGHT_READER }.other_plates(case)),
    ("the first unit checked alone", |case| Reader { checked: |i| i == 0, ..RIGHT_READER }.other_plates(case)),
];

const JOBS: [Wrong; 1] = [("the labels cleared", |case| {
    changed(case, 0, |outcome| {
        if version(&case.picture) != 1 {
            let labels = RIGHT_READER.labels(&case.picture).unwrap_or_default();
            labels.iter().for_each(|at| outcome.picture[*at..at + 4].fill(0));
        }
    })
})];

const STARTS: [Wrong; 6] = [
    ("the version cut to 16 bits", |case| lawful(&Case { unit: case.unit as u16 as u32, ..case.clone() })),
    ("any version", |case| changed(&Case { unit: 1, ..case.clone() }, 0, |o| o.picture[0] = case.unit as u8)),
    ("the rest cleared", |case| changed(case, 0, |outcome| outcome.picture[4..].fill(0))),
    ("the version written before 13", |case| {
        changed(case, 13, |outcome| outcome.picture.iter_mut().take(1).for_each(|byte| *byte = 1))
    }),
    ("a buffer of 4 bytes refused", |case| if case.picture.len() == 4 { refused(case, 13) } else { lawful(case) }),
    ("13 before 10", |case| if case.picture.len() < 4 { refused(case, 13) } else { lawful(case) }),
];

#[test]
fn writing() {
    let cases = cases(&[Entry::PlateStart, Entry::PlateAdd], plate_cases::all);
    for (case, outcome) in cases.iter().filter(|(case, _)| case.entry == Entry::PlateAdd) {
        assert_eq!(RIGHT.add(case), *outcome, "{case}");
    }
    told_apart(&cases, Entry::PlateAdd, &ADDS);
    told_apart(&cases, Entry::PlateStart, &STARTS);
}

#[test]
fn reading() {
    let cases = cases(&[Entry::PlateLabel], plate_cases::all);
    for (case, outcome) in cases.iter().filter(|(case, _)| case.entry == Entry::PlateLabel) {
        assert_eq!(RIGHT_READER.label(case), *outcome, "{case}");
    }
    told_apart(&cases, Entry::PlateLabel, &LABELS);
    told_apart(&cases, Entry::PlatePicture, &PLATES);
    told_apart(&cases, Entry::PlateJob, &PLATES);
    told_apart(&cases, Entry::PlateJob, &JOBS);
}

#[test]
fn stored() {
    told_by_vectors(Entry::PlateStart, &STARTS, &[]);
    told_by_vectors(
        Entry::PlateAdd,
        &ADDS,
        &["65 pictures", "63 pictures", "16384 bytes refused", "16388 bytes taken"],
    );
    told_by_vectors(Entry::PlateLabel, &LABELS, &[]);
    told_by_vectors(Entry::PlatePicture, &PLATES, &[]);
    told_by_vectors(Entry::PlateJob, &PLATES, &[]);
    told_by_vectors(Entry::PlateJob, &JOBS, &[]);
}
