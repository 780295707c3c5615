//! The smallest input found for each class of difference: what the rule says and what the Rust does.
use crate::case::{run, Case, Entry};
use crate::compare::Examiner;
use crate::faults::overflows;
use crate::generate;
use crate::library::RULE;
use crate::passes;
use crate::random::Random;
use crate::rust::{checks_overflow, picture, published};
use crate::shrink::shrink;
use filters::{Class, Filters, Scratch, CLASSES};

/// How large an input is: pixels, n, taps, bytes, offsets.
fn size(case: &Case) -> (u32, u32, usize, u64, f32) {
    let bytes = case.picture.iter().map(|b| u64::from(*b)).sum();
    (case.w * case.h, case.n, case.weights.len(), bytes, case.dx.abs() + case.dy.abs())
}

/// Only one class shows.
fn shows(case: &Case, class: Class) -> bool {
    match Examiner::new(&RULE).examine(case, false) {
        Ok(seen) => seen.classes == [class],
        Err(_) => false,
    }
}

/// The smallest of many shrunk starts; with `wide`, of those at least two pixels wide and high.
fn smallest(entry: Entry, class: Class, wide: bool) -> Option<Case> {
    let mut random = Random::new(5);
    let mut best: Option<Case> = None;
    let mut shown = |case: &Case| shows(case, class) && (!wide || case.w.min(case.h) > 1);
    for _ in 0..3000 {
        let case = generate::small(&mut random, entry);
        if shown(&case) {
            let case = shrink(case, &mut shown);
            if best.as_ref().is_none_or(|b| size(&case) < size(b)) {
                best = Some(case);
            }
        }
    }
    best
}

/// The pixels' four channels, shown as one number where they are alike.
fn pixels(bytes: &[u8]) -> String {
    let one = |p: &[u8]| if p[1..].iter().all(|c| *c == p[0]) { p[0].to_string() } else { format!("{p:?}") };
    bytes.chunks(4).map(one).collect::<Vec<_>>().join(" ")
}

fn print_case(filters: &Filters, class: Class, case: &Case) {
    let rust = picture(filters, case, &mut Scratch::default());
    println!("{class:?}: {case}");
    println!("    input {}", pixels(&case.picture));
    println!("    rule  {}", pixels(&run(&RULE, case).picture));
    println!("    Rust  {}", rust.map_or("panics".into(), |bytes| pixels(&bytes)));
    if overflows(case) {
        println!("    a coordinate overflows; overflow checks in this build: {}", checks_overflow());
    }
}

/// Lines under Wrap as a row and as a column: case C's 80, 0, 0, 0, and short ones.
fn print_wraps(filters: &Filters) {
    let lines: [(Class, &[u8], &[f32]); 4] = [
        (Class::Halving, &[2, 0, 0], &[1.0]),
        (Class::Halving, &[80, 0, 0, 0], &[1.0]),
        (Class::Halving, &[0, 80, 0, 0, 0], &[1.0]),
        (Class::Doubling, &[0, 0, 0, 0, 255], &[1.0, 1.0]),
    ];
    for (class, line, weights) in lines {
        let long = line.len() as u32;
        let bytes: Vec<u8> = line.iter().flat_map(|a| [0, 0, 0, *a]).collect();
        for (w, h) in [(long, 1), (1, long)] {
            let case = Case::new(Entry::Blur, w, h, bytes.clone());
            print_case(filters, class, &Case { weights: weights.to_vec(), n: 1, edge: 1, ..case });
        }
    }
}

/// Offsets around what the 16-bit cast keeps, on the row 1, 2, 3.
fn print_shifts(filters: &Filters) {
    let row: Vec<u8> = [1, 2, 3].into_iter().flat_map(|a| [0, 0, 0, a]).collect();
    let offsets = [-3.0, -4.0, -65536.0, -65537.0, -65538.0, -65539.0, -2147483648.0, -1e10];
    for dx in offsets.into_iter().chain([4.0, 65535.0, 65536.0, 65537.0, 65539.0, 131072.0, 2147483648.0]) {
        print_case(filters, Class::Clearing, &Case { dx, ..Case::new(Entry::Shift, 3, 1, row.clone()) });
    }
}

/// A shadow of alpha 1 in half a red, alone and under its original.
fn print_shadows(filters: &Filters) {
    let faint =
        Case { weights: vec![1.0], colour: [0.5, 0.0, 0.0, 1.0], ..Case::new(Entry::Shadow, 1, 1, vec![0, 0, 0, 1]) };
    for composite in [0, 1] {
        print_case(filters, Class::Flooring, &Case { composite, ..faint.clone() });
    }
}

/// What a decimation adds, on which the source says 3.0 in its header and 0.75 at its pass: one pixel of alpha 128 at
/// n = 1, where no pass rounds.
fn print_dots(filters: &Filters) {
    let (at, mut dot) = (8, vec![0; 64]);
    dot[4 * at + 3] = 128;
    for weights in [vec![1.0], vec![0.25, 0.5, 0.25]] {
        let case = Case { weights, n: 1, ..Case::new(Entry::Blur, 16, 1, dot.clone()) };
        let Some(bytes) = picture(filters, &case, &mut Scratch::default()) else { continue };
        let alphas: Vec<u64> = bytes.iter().skip(3).step_by(4).map(|a| u64::from(*a)).collect();
        let moment: u64 = alphas.iter().enumerate().map(|(x, a)| a * (x.abs_diff(at) as u64).pow(2)).sum();
        let report = rule::grading::spread(&case.weights, 1).1 as f64 / 131072.0;
        println!("a dot blurred: {case}\n    Rust  {alphas:?}");
        println!("    its second moment {} square pixels, the spread report {report}", moment as f64 / 128.0);
    }
}

/// Prints which outputs are stale, what a decimation adds, and the smallest inputs.
pub fn print() {
    let Some(filters) = published() else { return };
    print_dots(filters);
    passes::print_stale();
    print_wraps(filters);
    print_shifts(filters);
    print_shadows(filters);
    for class in CLASSES {
        for (entry, wide) in [Entry::Blur, Entry::Shift, Entry::Shadow].map(|e| [(e, false), (e, true)]).concat() {
            let Some(case) = smallest(entry, class, wide) else { continue };
            print_case(filters, class, &case);
        }
    }
}
