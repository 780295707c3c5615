//! The Rust's level passes by themselves, beside the model, and which outputs are stale.
use crate::faults::{Faults, InPlace};
use crate::random::Random;
use crate::rust::{edge_mode, published};
use crate::tally::MODES;
use filters::{Class, Filters, VARIANTS};
use rule::blur::Rounding;
use rule::edges::EDGES;
use rule::scheme::{Passes, Plane};
use vello_common::pixmap::Pixmap;

/// A level in the corner of a larger picture, as the Rust keeps it.
struct Level {
    w: usize,
    h: usize,
    full: (usize, usize),
    bytes: Vec<u8>,
}

impl Level {
    fn random(random: &mut Random, w: usize, h: usize) -> Level {
        let mut spare = || random.pick(&[0, 1, 2, 5]);
        let full = (w + spare(), h + spare());
        Level { w, h, full, bytes: (0..4 * full.0 * full.1).map(|_| random.byte()).collect() }
    }

    /// Channel 0 of the corner of w by h.
    fn corner(bytes: &[u8], full: usize, w: usize, h: usize) -> Plane<u8> {
        let values = (0..w * h).map(|i| bytes[4 * (i / w * full + i % w)]).collect();
        Plane { w, h, values }
    }
}

#[derive(Clone, Copy, PartialEq, Debug)]
enum Pass {
    Halving,
    Doubling,
}

/// What the Rust makes of a level.
fn by_rust(filters: &Filters, pass: Pass, level: &Level, edge: u32) -> Plane<u8> {
    let mut pixmap = Pixmap::from_bytes(level.full.0 as u16, level.full.1 as u16, &level.bytes);
    let act = if pass == Pass::Halving { filters.halve } else { filters.double };
    act(&mut pixmap, level.w as u16, level.h as u16, edge_mode(edge));
    let (w, h) = made(pass, level);
    Level::corner(&pixmap.to_bytes(), level.full.0, w, h)
}

/// The sides that a pass makes: a doubled line stops at the picture's side.
fn made(pass: Pass, level: &Level) -> (usize, usize) {
    match pass {
        Pass::Halving => (level.w.div_ceil(2), level.h.div_ceil(2)),
        Pass::Doubling => ((2 * level.w).min(level.full.0), (2 * level.h).min(level.full.1)),
    }
}

fn by_passes<P: Passes<Value = u8>>(passes: &P, pass: Pass, level: &Level) -> Plane<u8> {
    let plane = Level::corner(&level.bytes, level.full.0, level.w, level.h);
    // the model's line needs its last pixel's output even where the picture ends before it
    let (w, h) = (2 * level.w, 2 * level.h);
    match pass {
        Pass::Halving => plane.rows(|l| passes.halve(l)).columns(|l| passes.halve(l)),
        Pass::Doubling => {
            let doubled = plane.rows(|l| passes.double(l, w)).columns(|l| passes.double(l, h));
            let (w, h) = made(pass, level);
            let values = (0..w * h).map(|i| doubled.values[i / w * doubled.w + i % w]).collect();
            Plane { w, h, values }
        }
    }
}

/// Every variant's passes equal the model's, for every line length to 130 and some longer ones.
pub fn compare(rounds: usize) -> Result<u64, String> {
    let mut random = Random::new(2);
    let mut cases = 0;
    let lengths = (1..=130).chain([255, 256, 257, 1023, 4095, 4096]);
    for length in lengths {
        for round in 0..4 * rounds {
            let other = random.pick(&[1, 1, 2, 3, 4, 5]);
            let (w, h) = if round % 2 == 0 { (length, other) } else { (other, length) };
            let level = Level::random(&mut random, w, h);
            let (edge, pass) = (round / 2 % 4, random.pick(&[Pass::Halving, Pass::Doubling]));
            for filters in VARIANTS {
                let rounding = Rounding { weights: &[1.0], edge: EDGES[edge] };
                let model = InPlace { rounding, faults: Faults(&|class| filters.has(class)) };
                if by_passes(&model, pass, &level) != by_rust(filters, pass, &level, edge as u32) {
                    return Err(format!("{pass:?} {w} by {h} {} by {}", MODES[edge], filters.name));
                }
                cases += 1;
            }
        }
    }
    Ok(cases)
}

/// The outputs of a line of `length` that ever differ from the rule's, as a row and as a column.
fn stale(filters: &Filters, pass: Pass, length: usize, edge: usize, turned: bool) -> Vec<usize> {
    let mut random = Random::new(3);
    let mut outputs = Vec::new();
    for _ in 0..40 {
        let (w, h) = if turned { (1, length) } else { (length, 1) };
        let full = (2 * w, 2 * h);
        let bytes = (0..4 * full.0 * full.1).map(|_| random.byte()).collect();
        let level = Level { w, h, full, bytes };
        let lawful = by_passes(&Rounding { weights: &[1.0], edge: EDGES[edge] }, pass, &level);
        let found = by_rust(filters, pass, &level, edge as u32);
        for i in 0..lawful.values.len() {
            let line = if turned { i / lawful.w } else { i % lawful.w };
            if lawful.values[i] != found.values[i] && !outputs.contains(&line) {
                outputs.push(line);
            }
        }
    }
    outputs.sort();
    outputs
}

/// Prints, for each pass and mode, the lengths at which outputs are stale, and which outputs.
pub fn print_stale() {
    let Some(filters) = published() else { return };
    for (pass, class) in [(Pass::Halving, Class::Halving), (Pass::Doubling, Class::Doubling)] {
        for (edge, mode) in MODES.iter().enumerate() {
            let of = |length| {
                let row = stale(filters, pass, length, edge, false);
                let column = stale(filters, pass, length, edge, true);
                assert_eq!(row, column, "rows and columns alike");
                row
            };
            let found: Vec<String> = (1..=12).chain([4095, 4096]).map(|s| format!("{s}: {:?}", of(s))).collect();
            println!("{class:?} {mode}, stale outputs by length: {}", found.join(", "));
        }
    }
}
