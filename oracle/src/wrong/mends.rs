//! Wrong ways to mend and to rebuild.
use super::{cases, changed, lawful, refused, told_apart, told_by_vectors, Wrong};
use crate::case::{Case, Entry, Outcome};
use crate::mend_cases;
use rule::grading::exceeds;
use rule::refusal;

/// How a picture is mended.
struct Mender {
    order: [u32; 3],
    fails: fn(&[u8]) -> bool,
    lowered: fn([u8; 4]) -> [u8; 4],
    /// The list's entry, of place, old pixel and new.
    entry: fn(u64, [u8; 4], [u8; 4]) -> [u64; 2],
    /// Whether a list of some room is too short for a count.
    full: fn(usize, usize) -> bool,
    most: usize,
}

fn packed(pixel: [u8; 4]) -> u64 {
    u32::from_le_bytes(pixel).into()
}

const MENDER: Mender = Mender {
    order: [1, 2, 17],
    fails: exceeds,
    lowered: |p| p.map(|c| c.min(p[3])),
    entry: |place, old, _| [place, packed(old)],
    full: |room, count| room < count,
    most: usize::MAX,
};

impl Mender {
    fn mend(&self, case: &Case) -> Outcome {
        let found: Vec<(usize, [u8; 4])> = case
            .picture
            .chunks_exact(4)
            .enumerate()
            .filter(|(_, p)| (self.fails)(p))
            .map(|(place, p)| (place, p.try_into().unwrap()))
            .take(self.most)
            .collect();
        let holds = |number: &&u32| match number {
            1 => refusal::sides(case.w, case.h),
            2 => refusal::length(&case.picture, case.w, case.h),
            _ => (self.full)(case.list.len() / 2, found.len()),
        };
        if let Some(number) = self.order.iter().find(holds) {
            return refused(case, *number);
        }
        let mut outcome = refused(case, 0);
        for (i, (place, old)) in found.iter().enumerate() {
            let new = (self.lowered)(*old);
            outcome.picture[4 * place..4 * place + 4].copy_from_slice(&new);
            outcome.list[2 * i..2 * i + 2].copy_from_slice(&(self.entry)(*place as u64, *old, new));
        }
        outcome.numbers[0] = found.len() as u64;
        outcome
    }
}

fn lowers(case: &Case, lowered: fn([u8; 4]) -> [u8; 4]) -> Outcome {
    Mender { lowered, ..MENDER }.mend(case)
}

fn lists(case: &Case, entry: fn(u64, [u8; 4], [u8; 4]) -> [u64; 2]) -> Outcome {
    Mender { entry, ..MENDER }.mend(case)
}

/// What mending would give if the list had room.
fn with_room(case: &Case) -> Outcome {
    lawful(&Case { list: vec![0; case.picture.len() / 2], ..case.clone() })
}

const MENDS: [Wrong; 24] = [
    ("alpha raised", |case| lowers(case, |p| [p[0], p[1], p[2], *p.iter().max().unwrap()])),
    ("red kept", |case| lowers(case, |p| [p[0], p[1].min(p[3]), p[2].min(p[3]), p[3]])),
    ("green kept", |case| lowers(case, |p| [p[0].min(p[3]), p[1], p[2].min(p[3]), p[3]])),
    ("blue kept", |case| lowers(case, |p| [p[0].min(p[3]), p[1].min(p[3]), p[2], p[3]])),
    ("every channel at its alpha", |case| lowers(case, |p| [p[3]; 4])),
    ("premultiplied", |case| lowers(case, |p| p.map(|c| if c == p[3] { c } else { rule::pam::inward(c, p[3]) }))),
    ("stops at the first", |case| Mender { most: 1, ..MENDER }.mend(case)),
    ("lists every pixel", |case| Mender { fails: |_| true, ..MENDER }.mend(case)),
    ("equal fails", |case| Mender { fails: |p| p[..3].iter().any(|c| *c >= p[3]), ..MENDER }.mend(case)),
    ("blue unchecked", |case| Mender { fails: |p| p[0].max(p[1]) > p[3], ..MENDER }.mend(case)),
    ("lists the new pixel", |case| lists(case, |place, _, new| [place, packed(new)])),
    ("lists byte offsets", |case| lists(case, |place, old, _| [4 * place, packed(old)])),
    ("pixel before place", |case| lists(case, |place, old, _| [packed(old), place])),
    ("packed the other way", |case| lists(case, |place, old, _| [place, u32::from_be_bytes(old).into()])),
    ("in reverse", |case| {
        changed(case, 0, |outcome| {
            let found = 2 * outcome.numbers[0] as usize;
            let turned: Vec<u64> = outcome.list[..found].chunks(2).rev().flatten().copied().collect();
            outcome.list[..found].copy_from_slice(&turned);
        })
    }),
    ("exact room refused", |case| Mender { full: |room, count| room <= count, ..MENDER }.mend(case)),
    ("room for every pixel asked", |case| {
        let area = case.picture.len() / 4;
        if lawful(case).answer == 0 && case.list.len() / 2 < area {
            refused(case, 17)
        } else {
            lawful(case)
        }
    }),
    ("the list written on 17", |case| {
        changed(case, 17, |outcome| {
            let full = with_room(case);
            let room = outcome.list.len();
            outcome.list.copy_from_slice(&full.list[..room]);
        })
    }),
    ("the picture mended on 17", |case| changed(case, 17, |outcome| outcome.picture = with_room(case).picture)),
    ("the count answered on 17", |case| changed(case, 17, |outcome| outcome.numbers = with_room(case).numbers)),
    ("the rest of the list cleared", |case| {
        changed(case, 0, |outcome| outcome.list[2 * outcome.numbers[0] as usize..].fill(0))
    }),
    ("17 before 2", |case| Mender { order: [1, 17, 2], ..MENDER }.mend(case)),
    ("17 before 1", |case| Mender { order: [17, 1, 2], ..MENDER }.mend(case)),
    ("2 before 1", |case| Mender { order: [2, 1, 17], ..MENDER }.mend(case)),
];

/// How a picture is rebuilt.
struct Rebuilder {
    order: [u32; 3],
    /// Whether the places, the count of pixels after them, are wrong.
    wrong: fn(&[u64], u64) -> bool,
    /// The pixel put back, of the picture's and the listed one.
    put: fn([u8; 4], [u8; 4]) -> [u8; 4],
}

fn falls(places: &[u64]) -> bool {
    places.windows(2).any(|pair| pair[0] >= pair[1])
}

fn outside(places: &[u64], area: u64) -> bool {
    places.iter().any(|place| *place >= area)
}

const REBUILDER: Rebuilder = Rebuilder {
    order: [1, 2, 18],
    wrong: |places, area| outside(places, area) || falls(places),
    put: |_, listed| listed,
};

impl Rebuilder {
    /// Entries outside the picture are left out where the list is taken.
    fn rebuild(&self, case: &Case) -> Outcome {
        let places: Vec<u64> = case.list.iter().step_by(2).copied().collect();
        let holds = |number: &&u32| match number {
            1 => refusal::sides(case.w, case.h),
            2 => refusal::length(&case.picture, case.w, case.h),
            _ => (self.wrong)(&places, u64::from(case.w) * u64::from(case.h)),
        };
        if let Some(number) = self.order.iter().find(holds) {
            return refused(case, *number);
        }
        let mut outcome = refused(case, 0);
        for entry in case.list.chunks_exact(2) {
            let at = 4 * entry[0] as usize;
            if let Some(pixel) = outcome.picture.get_mut(at..at + 4) {
                let old: [u8; 4] = (&*pixel).try_into().unwrap();
                pixel.copy_from_slice(&(self.put)(old, (entry[1] as u32).to_le_bytes()));
            }
        }
        outcome
    }
}

fn judged(case: &Case, wrong: fn(&[u64], u64) -> bool) -> Outcome {
    Rebuilder { wrong, ..REBUILDER }.rebuild(case)
}

const REBUILDS: [Wrong; 17] = [
    ("equal places taken", |case| {
        judged(case, |places, area| outside(places, area) || places.windows(2).any(|pair| pair[0] > pair[1]))
    }),
    ("any order taken", |case| judged(case, outside)),
    ("places not checked", |case| judged(case, |places, _| falls(places))),
    ("the last place not checked", |case| {
        judged(case, |places, area| outside(&places[..places.len().saturating_sub(1)], area) || falls(places))
    }),
    ("the first place checked alone", |case| {
        judged(case, |places, area| outside(&places[..places.len().min(1)], area) || falls(places))
    }),
    ("the order of the last two not checked", |case| {
        judged(case, |places, area| outside(places, area) || falls(&places[..places.len().saturating_sub(1)]))
    }),
    ("the place after the last taken", |case| judged(case, |places, area| outside(places, area + 1) || falls(places))),
    ("the last place refused", |case| judged(case, |places, area| outside(places, area - 1) || falls(places))),
    ("no entries refused", |case| {
        judged(case, |places, area| places.is_empty() || outside(places, area) || falls(places))
    }),
    ("a place 0 refused", |case| {
        judged(case, |places, area| places.contains(&0) || outside(places, area) || falls(places))
    }),
    ("entries put back before 18 is found", |case| {
        changed(case, 18, |outcome| {
            let at = 4 * case.list[0] as usize;
            if let Some(pixel) = outcome.picture.get_mut(at..at + 4) {
                pixel.copy_from_slice(&(case.list[1] as u32).to_le_bytes());
            }
        })
    }),
    ("alpha not put back", |case| {
        Rebuilder { put: |old, listed| [listed[0], listed[1], listed[2], old[3]], ..REBUILDER }.rebuild(case)
    }),
    ("packed the other way", |case| {
        Rebuilder { put: |_, listed| [listed[3], listed[2], listed[1], listed[0]], ..REBUILDER }.rebuild(case)
    }),
    ("the first entry alone", |case| {
        let list = case.list[..case.list.len().min(2)].to_vec();
        changed(case, 0, |outcome| outcome.picture = lawful(&Case { list, ..case.clone() }).picture)
    }),
    ("18 before 1", |case| Rebuilder { order: [18, 1, 2], ..REBUILDER }.rebuild(case)),
    ("18 before 2", |case| Rebuilder { order: [1, 18, 2], ..REBUILDER }.rebuild(case)),
    ("2 before 1", |case| Rebuilder { order: [2, 1, 18], ..REBUILDER }.rebuild(case)),
];

#[test]
fn mending() {
    let cases = cases(&[Entry::Mend, Entry::Rebuild], mend_cases::all);
    for (case, outcome) in &cases {
        let model = if case.entry == Entry::Mend { MENDER.mend(case) } else { REBUILDER.rebuild(case) };
        assert_eq!(model, *outcome, "{case}");
    }
    told_apart(&cases, Entry::Mend, &MENDS);
    told_apart(&cases, Entry::Rebuild, &REBUILDS);
}

/// From list and mended picture the old one is rebuilt, and mending twice gives an empty second list.
#[test]
fn there_and_back() {
    for (case, outcome) in cases(&[Entry::Mend], mend_cases::all) {
        if case.entry == Entry::Mend && outcome.answer == 0 {
            let mended = Case { picture: outcome.picture.clone(), list: Vec::new(), ..case.clone() };
            let twice = lawful(&mended);
            assert_eq!((twice.answer, twice.numbers[0], &twice.picture), (0, 0, &outcome.picture));
            let list = outcome.list[..2 * outcome.numbers[0] as usize].to_vec();
            let back = lawful(&Case { entry: Entry::Rebuild, list, ..mended });
            assert_eq!((back.answer, back.picture), (0, case.picture));
        }
    }
}

#[test]
fn stored() {
    told_by_vectors(Entry::Mend, &MENDS, &[]);
    told_by_vectors(Entry::Rebuild, &REBUILDS, &[]);
}
