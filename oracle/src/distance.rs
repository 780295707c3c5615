//! How far the blur lies from the exact blur of demand 3, in steps; pictures that attain the bound.
use crate::case::{run, Case, Entry};
use crate::inputs::{numerators, on_grid};
use crate::library::under_test;
use crate::random::Random;
use crate::tally::MODES;
use rule::blur::Rounding;
use rule::edges::{Edge, EDGES};
use rule::exact::{self, scale};
use rule::scheme::{self, Plane};

const DEEPEST: u32 = 5;
const FILE: &str = concat!(env!("CARGO_MANIFEST_DIR"), "/attained.txt");

/// A line whose picture f(x) + f(y) lies far from its exact blur.
#[derive(Clone, Debug, PartialEq)]
pub struct Attained {
    n: u32,
    numerators: Vec<u64>,
    line: Vec<u8>,
}

/// The largest distance between a blurred plane and the exact blur, times `scale(n)`.
fn distance(blurred: &Plane<u8>, numerators: &[u64], edge: Edge, n: u32, plane: &Plane<u8>) -> u128 {
    let exact = exact::blur(numerators, edge, n, plane);
    let one = |(channel, whole): (&u8, &u128)| whole.abs_diff(u128::from(*channel) * scale(n));
    blurred.values.iter().zip(&exact.values).map(one).max().unwrap_or(0)
}

/// The distance of what the library under test makes of a plane, in four equal channels.
fn of_library(numerators: &[u64], edge: usize, n: u32, plane: &Plane<u8>) -> u128 {
    let bytes = plane.values.iter().flat_map(|v| [*v; 4]).collect();
    let picture = Case::new(Entry::Blur, plane.w as u32, plane.h as u32, bytes);
    let outcome = run(under_test(), &Case { weights: on_grid(numerators), n, edge: edge as u32, ..picture });
    let values = outcome.picture.iter().step_by(4).copied().collect();
    distance(&Plane { w: plane.w, h: plane.h, values }, numerators, EDGES[edge], n, plane)
}

fn steps(distance: u128, n: u32) -> f64 {
    distance as f64 / scale(n) as f64
}

/// A picture f(x) + f(y): every pass rounds f alone, so the distances of rows and columns add.
fn sum_plane(line: &[u8]) -> Plane<u8> {
    let side = line.len();
    let values = (0..side * side).map(|i| line[i % side] + line[i / side]).collect();
    Plane { w: side, h: side, values }
}

/// A line whose halving meets a half at every output and gives `halved`: each output fixes the sum
/// of two new pixels, three times the one and once the other.
fn unhalve(halved: &[i64], choice: &mut Random) -> Vec<i64> {
    let near = |i: usize| {
        // the line at position i lies a quarter from an output's centre
        let (x, other) = ((i as i64 - 1).div_euclid(2), if i % 2 == 1 { -1 } else { 1 });
        let at = |x: i64| halved[x.clamp(0, halved.len() as i64 - 1) as usize];
        (3 * at(x) + at(x + other) - 2) / 4
    };
    let mut line = vec![near(0) + choice.range(-2, 2), near(1)];
    for (x, output) in halved.iter().enumerate() {
        let rest = 8 * output - 4 - line[2 * x] - 3 * line[2 * x + 1];
        let third = (rest - near(2 * x + 3) + choice.range(0, 3)).div_euclid(3);
        line.extend([third, rest - 3 * third]);
    }
    line
}

/// Outputs of doubling that lie inside, with their distance from exact times 4^passes.
fn doubled(line: &[(i64, i64)], scale: i64) -> Vec<(i64, i64)> {
    let one = |far: (i64, i64), near: (i64, i64)| {
        let sum = far.0 + 3 * near.0;
        let value = (sum + 2).div_euclid(4);
        (value, scale * (4 * value - sum) + far.1 + 3 * near.1)
    };
    line.windows(2).flat_map(|pair| [one(pair[1], pair[0]), one(pair[0], pair[1])]).collect()
}

/// The three neighbours, each within `reach` of the next, whose n doublings lie furthest above exact.
fn best_coarse(n: u32, reach: i64) -> [i64; 3] {
    let mut best = (0, [0, 0, 0]);
    for a in -reach..=reach {
        for b in -reach..=reach {
            let coarse = [0, a, a + b];
            let mut line: Vec<(i64, i64)> = coarse.iter().map(|c| (*c, 0)).collect();
            for pass in 0..n {
                line = doubled(&line, 4_i64.pow(pass));
            }
            let furthest = line.iter().map(|(_, error)| *error).max().unwrap_or(0);
            let spread = |c: [i64; 3]| c.iter().max().unwrap() - c.iter().min().unwrap();
            if (furthest, -spread(coarse)) > (best.0, -spread(best.1)) {
                best = (furthest, coarse);
            }
        }
    }
    best.1
}

/// A line in which every halving and both taps of a half-and-half kernel meet a half, and n
/// doublings lie as far from exact as they can; what passes the range of 0 to 127 is cut.
fn construct(n: u32, reach: i64) -> Attained {
    let coarse = best_coarse(n, reach);
    let made = |turn: u64| {
        let mut choice = Random::new(turn);
        let mut line = vec![coarse[0] + choice.range(-3, 3)];
        for c in coarse {
            line.push(2 * c - 1 - line[line.len() - 1]);
        }
        for _ in 0..n {
            line = unhalve(&line, &mut choice);
        }
        line
    };
    let ends = |line: &[i64]| (*line.iter().min().unwrap(), *line.iter().max().unwrap());
    let range = |line: &[i64]| ends(line).1 - ends(line).0;
    let line = (0..20_000).map(made).min_by_key(|line| range(line)).expect("some turns");
    let (least, most) = ends(&line);
    let shift = 63 - (least + most) / 2;
    // one pixel before: at every level the first output that matters is output 1
    let line = [0].into_iter().chain(line.iter().map(|v| (v + shift).clamp(0, 127) as u8)).collect();
    Attained { n, numerators: vec![32768, 32768], line }
}

/// The distance of a line: half of its picture's.
fn along(a: &Attained) -> u128 {
    let line = Plane { w: a.line.len(), h: 1, values: a.line.clone() };
    let weights = on_grid(&a.numerators);
    let blurred = scheme::blur(&Rounding { weights: &weights, edge: Edge::Duplicate }, a.n, &line);
    distance(&blurred, &a.numerators, Edge::Duplicate, a.n, &line)
}

/// Small changes that do not lessen the distance of a line.
fn climb(random: &mut Random, mut start: Attained, tries: u32) -> Attained {
    let mut best = along(&start);
    for _ in 0..tries {
        let mut next = start.clone();
        for _ in 0..random.range(1, 3) {
            let at = random.below(next.line.len() as u64) as usize;
            next.line[at] = (i64::from(next.line[at]) + random.range(-3, 3)).clamp(0, 127) as u8;
        }
        let found = along(&next);
        if found >= best {
            (best, start) = (found, next);
        }
    }
    start
}

/// Patterns meant to be bad for a rounding blur.
fn pattern(random: &mut Random) -> Plane<u8> {
    let (w, h) = (random.range(1, 40) as usize, random.range(1, 40) as usize);
    let (kind, flat, slope) = (random.below(7), random.byte(), random.range(1, 9) as usize);
    let value = |random: &mut Random, i: usize| match (kind, i % w, i / w) {
        (0, ..) => random.byte(),
        (1, ..) => random.pick(&[0, 255]),
        (2, x, y) => ((x + y) % 2 * 255) as u8,
        (3, x, y) => (slope * x + 3 * y) as u8,
        (4, ..) => flat.saturating_add(random.below(3) as u8),
        (5, x, y) => ((x * slope / 2) % 128 + (y * slope / 2) % 128) as u8,
        _ => {
            if random.one_in(20) {
                255
            } else {
                0
            }
        }
    };
    let values = (0..w * h).map(|i| value(random, i)).collect();
    Plane { w, h, values }
}

/// Kernels on the grid whose numerators sum to at most 65536.
fn kernel(random: &mut Random) -> Vec<u64> {
    let taps = random.pick(&[1, 2, 2, 3, 3, 4, 5, 8, 13, 33]);
    let sum = if random.one_in(4) { random.below(65537) } else { 65536 };
    match (random.below(4), taps) {
        (0, 2) => vec![32768, 32768],
        (0, 3) => vec![16384, 32768, 16384],
        _ => numerators(random, taps, sum),
    }
}

/// The largest distance seen for each n and mode, times `scale(n)`.
type Largest = Vec<[u128; 4]>;

fn bound(n: u32) -> u128 {
    u128::from(2 * n + 1) * scale(n)
}

fn note(largest: &mut Largest, n: u32, edge: usize, found: u128) {
    let most = &mut largest[n as usize][edge];
    *most = found.max(*most);
}

fn text(a: &Attained) -> String {
    let list = |values: Vec<String>| values.join(" ");
    let numerators = list(a.numerators.iter().map(u64::to_string).collect());
    let line = list(a.line.iter().map(u8::to_string).collect());
    format!("{}; {numerators}; {line}\n", a.n)
}

fn parse(line: &str) -> Option<Attained> {
    let mut parts = line.split(';').map(|part| part.split_whitespace());
    let n = parts.next()?.next()?.parse().ok()?;
    let numerators = parts.next()?.map(|m| m.parse().ok()).collect::<Option<_>>()?;
    let line = parts.next()?.map(|v| v.parse().ok()).collect::<Option<_>>()?;
    Some(Attained { n, numerators, line })
}

/// The lines kept in attained.txt.
fn kept() -> Vec<Attained> {
    let file = std::fs::read_to_string(FILE).unwrap_or_default();
    file.lines().filter(|line| !line.starts_with('#')).filter_map(parse).collect()
}

/// Makes attained.txt anew.
pub fn attain() {
    let mut file = String::from(
        "# n; numerators over 65536; a line f. In the picture f(x) + f(y) the blur with n decimations lies as far\n\
         # from the exact blur as was found, in every edge mode. `cargo run --release -- distance` checks it.\n",
    );
    let mut random = Random::new(7);
    for n in 0..=DEEPEST {
        // a steeper start lies further away, where it keeps within the bytes
        let starts = [8, 14, 20, 30, 40].map(|reach| climb(&mut random, construct(n, reach), 500 << n));
        file += &text(starts.iter().rev().max_by_key(|a| along(a)).expect("some starts"));
    }
    std::fs::write(FILE, file).expect("attained.txt can be written");
}

/// The largest distances of the kept lines' pictures, in every mode.
fn of_kept() -> Largest {
    let mut largest = vec![[0; 4]; DEEPEST as usize + 1];
    for Attained { n, numerators, line } in kept() {
        for edge in 0..4 {
            note(&mut largest, n, edge, of_library(&numerators, edge, n, &sum_plane(&line)));
        }
    }
    largest
}

/// The largest distances of many other pictures.
fn of_patterns(pictures: u32) -> Largest {
    let mut random = Random::new(6);
    let mut largest = vec![[0; 4]; DEEPEST as usize + 1];
    for i in 0..pictures {
        let (plane, kernel) = (pattern(&mut random), kernel(&mut random));
        let (n, edge) = (i % (DEEPEST + 1), (i / (DEEPEST + 1) % 4) as usize);
        note(&mut largest, n, edge, of_library(&kernel, edge, n, &plane));
    }
    largest
}

/// Prints the largest distance in steps for each n and mode. Good where no distance passes 2n+1
/// and the kept lines attain that up to n = 2.
pub fn print(pictures: u32) -> bool {
    println!("largest distance in steps, by {}: kept lines, then {pictures} other pictures", under_test().name);
    println!("{:12}{}", "", [MODES, MODES].concat().iter().map(|mode| format!("{mode:>12}")).collect::<String>());
    let (lines, others) = (of_kept(), of_patterns(pictures));
    let mut good = true;
    for n in 0..=DEEPEST {
        let (line, other) = (lines[n as usize], others[n as usize]);
        let attained = line.iter().all(|found| *found == bound(n));
        let within = line.iter().chain(&other).all(|found| *found <= bound(n));
        let cells: String = line.iter().chain(&other).map(|found| format!("{:12.7}", steps(*found, n))).collect();
        let remark = if attained { " attained" } else { "" };
        println!("n {n} bound {:2}{cells}{remark}", 2 * n + 1);
        good &= within && (attained || n > 2);
    }
    good
}
