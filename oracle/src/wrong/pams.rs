//! Wrong ways to read and write image files.
use super::{cases, changed, lawful, refused, told_apart, told_by_vectors, Wrong};
use crate::case::{Case, Entry, Outcome};
use crate::pam_cases;
use rule::pam::{header, inward, outward, parsed, pixels};
use rule::{grading, refusal};

/// How a file that fits is brought in.
struct Importer {
    times: fn(u8, u8) -> u8,
    /// What a file is taken for.
    file: fn(&[u8]) -> Vec<u8>,
    /// Sides that no limit would refuse.
    any_sides: bool,
}

const IMPORTER: Importer = Importer { times: inward, file: |file| file.to_vec(), any_sides: false };

impl Importer {
    fn parsed<'a>(&self, file: &'a [u8]) -> Option<(u32, u32, &'a [u8])> {
        let Some((w, h)) = sides(file).filter(|_| self.any_sides) else { return parsed(file) };
        let body = file.strip_prefix(header(w as u32, h as u32).as_bytes())?;
        (body.len() as u64 == 4 * w * h).then_some((w as u32, h as u32, body))
    }

    fn read(&self, case: &Case) -> Outcome {
        let file = (self.file)(&case.other);
        let Some((w, h, body)) = self.parsed(&file) else { return refused(case, 15) };
        if case.picture.len() < body.len() {
            return refused(case, 3);
        }
        let mut outcome = refused(case, 0);
        outcome.picture[..body.len()].copy_from_slice(&pixels(body, self.times));
        outcome.numbers = [w.into(), h.into(), body.len() as u64, 0];
        outcome
    }
}

/// Where the header ends, which may be spelled in another way.
fn body(file: &[u8]) -> usize {
    let end = file.windows(6).position(|word| word == b"ENDHDR");
    end.map_or(file.len(), |at| (at + 7).min(file.len()))
}

/// The header's text changed, the body kept.
fn reworded(file: &[u8], change: impl Fn(String) -> String) -> Vec<u8> {
    let (head, rest) = file.split_at(body(file));
    let text: String = head.iter().map(|byte| char::from(*byte)).collect();
    change(text).chars().map(|letter| letter as u8).chain(rest.iter().copied()).collect()
}

/// The line of a name put right.
fn unchecked(file: &[u8], name: &str, right: &str) -> Vec<u8> {
    let line = |line: &str| if line.starts_with(name) { format!("{name} {right}\n") } else { line.to_string() };
    reworded(file, |text| text.split_inclusive('\n').map(line).collect())
}

/// Each number of the header changed.
fn renumbered(file: &[u8], change: fn(&str) -> String) -> Vec<u8> {
    let word = |word: &str| {
        if word.starts_with(['+', '0', '1', '2', '3', '4', '6', '9']) {
            change(word)
        } else {
            word.to_string()
        }
    };
    let line = |line: &str| line.split(' ').map(word).collect::<Vec<_>>().join(" ");
    reworded(file, |text| text.split('\n').map(line).collect::<Vec<_>>().join("\n"))
}

/// The sides named in a header of our spelling, of any size.
fn sides(file: &[u8]) -> Option<(u64, u64)> {
    let text = String::from_utf8_lossy(&file[..body(file)]).into_owned();
    let after =
        |name: &str| text.split('\n').find_map(|line| line.strip_prefix(name)).and_then(|n| n.parse::<u32>().ok());
    Some((after("WIDTH ")?.into(), after("HEIGHT ")?.into()))
}

/// The body cut or filled up to the length that the sides ask for.
fn fitted(file: &[u8], longer: bool, shorter: bool) -> Vec<u8> {
    let mut bytes = file.to_vec();
    if let Some((w, h)) = sides(file) {
        let whole = body(file) + (4 * w * h).min(1 << 20) as usize;
        if whole > bytes.len() && shorter || whole < bytes.len() && longer {
            bytes.resize(whole, 0);
        }
    }
    bytes
}

/// The last bits of a decimal number.
fn cut(number: &str, bits: u32) -> String {
    number.parse::<u128>().map_or(number.into(), |value| (value & ((1 << bits) - 1)).to_string())
}

fn taken_for(case: &Case, file: fn(&[u8]) -> Vec<u8>) -> Outcome {
    Importer { file, ..IMPORTER }.read(case)
}

fn times(case: &Case, times: fn(u8, u8) -> u8) -> Outcome {
    Importer { times, ..IMPORTER }.read(case)
}

const READS: [Wrong; 30] = [
    ("floor", |case| times(case, |c, a| (u32::from(c) * u32::from(a) / 255) as u8)),
    ("128 for 127", |case| times(case, |c, a| ((u32::from(c) * u32::from(a) + 128) / 255) as u8)),
    ("126 for 127", |case| times(case, |c, a| ((u32::from(c) * u32::from(a) + 126) / 255) as u8)),
    ("a 256th", |case| times(case, |c, a| ((u32::from(c) * u32::from(a) + 127) / 256) as u8)),
    ("not premultiplied", |case| times(case, |c, _| c)),
    ("alpha premultiplied too", |case| {
        changed(case, 0, |outcome| {
            let length = outcome.numbers[2] as usize;
            outcome.picture[..length].iter_mut().skip(3).step_by(4).for_each(|a| *a = inward(*a, *a));
        })
    }),
    ("sides exchanged", |case| changed(case, 0, |outcome| outcome.numbers.swap(0, 1))),
    ("more bytes taken", |case| taken_for(case, |file| fitted(file, true, false))),
    ("missing bytes taken as 0", |case| taken_for(case, |file| fitted(file, false, true))),
    ("sides of any size", |case| Importer { any_sides: true, ..IMPORTER }.read(case)),
    ("sides cut to 16 bits", |case| taken_for(case, |file| renumbered(file, |n| cut(n, 16)))),
    ("sides cut to 32 bits", |case| taken_for(case, |file| renumbered(file, |n| cut(n, 32)))),
    ("sides cut to 64 bits", |case| taken_for(case, |file| renumbered(file, |n| cut(n, 64)))),
    ("leading zeros taken", |case| taken_for(case, |file| renumbered(file, |n| n.trim_start_matches('0').into()))),
    ("a sign taken", |case| taken_for(case, |file| renumbered(file, |n| n.trim_start_matches('+').into()))),
    ("small letters taken", |case| taken_for(case, |file| reworded(file, |text| text.to_uppercase()))),
    ("carriage returns taken", |case| taken_for(case, |file| reworded(file, |text| text.replace('\r', "")))),
    ("tabs taken", |case| taken_for(case, |file| reworded(file, |text| text.replace('\t', " ")))),
    ("two spaces taken", |case| taken_for(case, |file| reworded(file, |text| text.replace("  ", " ")))),
    ("empty lines taken", |case| taken_for(case, |file| reworded(file, |text| text.replace("\n\n", "\n")))),
    ("comments taken", |case| taken_for(case, |file| reworded(file, |text| text.replace("# scan\n", "")))),
    ("any order taken", |case| {
        taken_for(case, |file| {
            reworded(file, |text| {
                let order = ["P7", "WIDTH", "HEIGHT", "DEPTH", "MAXVAL", "TUPLTYPE", "ENDHDR"];
                let place = |line: &str| order.iter().position(|name| line.starts_with(name));
                let mut lines: Vec<&str> = text.split_inclusive('\n').collect();
                lines.sort_by_key(|line| place(line));
                lines.concat()
            })
        })
    }),
    ("the depth not checked", |case| taken_for(case, |file| unchecked(file, "DEPTH", "4"))),
    ("the maximum not checked", |case| taken_for(case, |file| unchecked(file, "MAXVAL", "255"))),
    ("the type not checked", |case| taken_for(case, |file| unchecked(file, "TUPLTYPE", "RGB_ALPHA"))),
    ("any byte after ENDHDR", |case| {
        taken_for(case, |file| {
            let (mut bytes, at) = (file.to_vec(), body(file));
            bytes[..at].iter_mut().skip(60).rev().take(1).for_each(|byte| *byte = 10);
            bytes
        })
    }),
    ("3 before 15", |case| if case.picture.is_empty() { refused(case, 3) } else { lawful(case) }),
    ("sides answered on 3", |case| {
        changed(case, 3, |outcome| {
            let (w, h, _) = parsed(&case.other).expect("a file that fits");
            outcome.numbers = [w.into(), h.into(), 0, 0];
        })
    }),
    ("the rest cleared", |case| changed(case, 0, |outcome| outcome.picture[outcome.numbers[2] as usize..].fill(0))),
    ("as much as there is room for", |case| {
        changed(case, 3, |outcome| {
            let bytes = pixels(parsed(&case.other).expect("a file that fits").2, inward);
            let length = outcome.picture.len();
            outcome.picture.copy_from_slice(&bytes[..length]);
        })
    }),
];

/// How a picture is brought out.
struct Exporter {
    times: fn(u8, u8) -> u8,
    order: [u32; 4],
    /// Whether a pixel's channels exceed its alpha.
    exceeds: fn(&[u8]) -> bool,
    /// The length that an output needs, of header and body.
    needed: fn(usize, usize) -> usize,
}

const EXPORTER: Exporter = Exporter {
    times: outward,
    order: [1, 2, 16, 3],
    exceeds: |p| p[0] > p[3] || p[1] > p[3] || p[2] > p[3],
    needed: |head, body| head + body,
};

impl Exporter {
    fn write(&self, case: &Case) -> Outcome {
        let head = header(case.w, case.h).into_bytes();
        let body = refusal::bytes(case.w, case.h).min(1 << 40) as usize;
        let first = case.picture.chunks_exact(4).position(self.exceeds);
        let holds = |number: &&u32| match number {
            1 => refusal::sides(case.w, case.h),
            2 => refusal::length(&case.picture, case.w, case.h),
            16 => first.is_some(),
            _ => case.other.len() < (self.needed)(head.len(), body),
        };
        let mut outcome = refused(case, self.order.iter().find(holds).copied().unwrap_or(0));
        match outcome.answer {
            0 => {
                let new = [head, pixels(&case.picture, self.times)].concat();
                let length = new.len().min(outcome.other.len());
                outcome.other[..length].copy_from_slice(&new[..length]);
                outcome.numbers[0] = new.len() as u64;
            }
            16 => outcome.numbers[1] = first.unwrap_or(0) as u64,
            _ => (),
        }
        outcome
    }
}

fn out(case: &Case, times: fn(u8, u8) -> u8) -> Outcome {
    Exporter { times, ..EXPORTER }.write(case)
}

/// The division, with some number added before it.
fn divided(c: u8, a: u8, more: u32) -> u8 {
    (255 * u32::from(c) + more).checked_div(a.into()).unwrap_or(0).min(255) as u8
}

const WRITES: [Wrong; 21] = [
    ("floor", |case| out(case, |c, a| divided(c, a, 0))),
    ("half of a upward", |case| out(case, |c, a| divided(c, a, u32::from(a).div_ceil(2)))),
    ("half of a less one", |case| out(case, |c, a| divided(c, a, u32::from(a.saturating_sub(1)) / 2))),
    ("ceiling", |case| out(case, |c, a| divided(c, a, u32::from(a.saturating_sub(1))))),
    ("alpha 0 gives 255", |case| out(case, |c, a| if a == 0 { 255 } else { outward(c, a) })),
    ("not divided", |case| out(case, |c, _| c)),
    ("sides exchanged", |case| {
        changed(case, 0, |outcome| {
            let head = header(case.h, case.w);
            outcome.other[..head.len()].copy_from_slice(head.as_bytes());
        })
    }),
    ("alpha opaque", |case| {
        changed(case, 0, |outcome| {
            let from = outcome.numbers[0] as usize - case.picture.len();
            outcome.other[from..from + case.picture.len()].iter_mut().skip(3).step_by(4).for_each(|a| *a = 255);
        })
    }),
    ("red unchecked", |case| Exporter { exceeds: |p| p[1].max(p[2]) > p[3], ..EXPORTER }.write(case)),
    ("green unchecked", |case| Exporter { exceeds: |p| p[0].max(p[2]) > p[3], ..EXPORTER }.write(case)),
    ("blue unchecked", |case| Exporter { exceeds: |p| p[0].max(p[1]) > p[3], ..EXPORTER }.write(case)),
    ("equal is above", |case| Exporter { exceeds: |p| p[..3].iter().any(|c| *c >= p[3]), ..EXPORTER }.write(case)),
    ("the last place", |case| {
        changed(case, 16, |outcome| {
            let exceeds = |p: &[u8]| p[..3].iter().any(|c| *c > p[3]);
            outcome.numbers[1] = case.picture.chunks_exact(4).rposition(exceeds).unwrap_or(0) as u64;
        })
    }),
    ("the place in bytes", |case| changed(case, 16, |outcome| outcome.numbers[1] *= 4)),
    ("no place", |case| changed(case, 16, |outcome| outcome.numbers[1] = 0)),
    ("3 before 16", |case| Exporter { order: [1, 2, 3, 16], ..EXPORTER }.write(case)),
    ("16 before 2", |case| Exporter { order: [1, 16, 2, 3], ..EXPORTER }.write(case)),
    ("2 before 1", |case| Exporter { order: [2, 1, 16, 3], ..EXPORTER }.write(case)),
    ("room for the body alone", |case| Exporter { needed: |_, body| body, ..EXPORTER }.write(case)),
    ("the header written before 3", |case| {
        changed(case, 3, |outcome| {
            let head = header(case.w, case.h).into_bytes();
            outcome.other.iter_mut().zip(head).for_each(|(byte, new)| *byte = new);
        })
    }),
    ("the rest cleared", |case| changed(case, 0, |outcome| outcome.other[outcome.numbers[0] as usize..].fill(0))),
];

#[test]
fn files() {
    let cases = cases(&[Entry::PamRead, Entry::PamWrite], pam_cases::all);
    for (case, outcome) in &cases {
        let model = if case.entry == Entry::PamRead { IMPORTER.read(case) } else { EXPORTER.write(case) };
        assert_eq!(model, *outcome, "{case}");
    }
    told_apart(&cases, Entry::PamRead, &READS);
    told_apart(&cases, Entry::PamWrite, &WRITES);
}

/// What an accepted export writes is accepted on import, and gives the picture back; it passes the check.
#[test]
fn survives() {
    for (case, outcome) in cases(&[Entry::PamWrite], pam_cases::all) {
        if case.entry == Entry::PamWrite && outcome.answer == 0 {
            let other = outcome.other[..outcome.numbers[0] as usize].to_vec();
            let back = lawful(&Case { other, ..Case::plain(Entry::PamRead, vec![0; case.picture.len()]) });
            assert_eq!((back.answer, &back.picture), (0, &case.picture));
            assert_eq!(back.numbers[..2], [case.w.into(), case.h.into()]);
            assert_eq!(grading::check(&back.picture, case.w, case.h), (0, false, 0));
        }
    }
}

#[test]
fn stored() {
    told_by_vectors(Entry::PamRead, &READS, &[]);
    told_by_vectors(Entry::PamWrite, &WRITES, &[]);
}
