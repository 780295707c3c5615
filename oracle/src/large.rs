//! The largest picture, run by hand: every row of what the library makes of it is compared with the rules, which are
//! computed row by row from a picture that is a formula, so that none of their planes is as large; and what a pixel costs.
use crate::busy;
use crate::case::{call, Case, Entry, Part, Parts};
use crate::inputs::bell;
use crate::library::under_test;
use rule::blur::{to_channel, Rounding};
use rule::edges::{extend, EDGES};
use rule::scheme::{self, Passes, Plane};
use rule::shadow::{finished, premultiply};
use rule::shift::whole;
use std::collections::BTreeMap;
use std::rc::Rc;
use std::time::{Duration, Instant};

/// A pixel of the picture: noise on slopes that are as long as the picture, and different in each channel.
fn pixel(x: usize, y: usize) -> [u8; 4] {
    let mut z = (((x as u64) << 32) | y as u64).wrapping_mul(0x9E37_79B9_7F4A_7C15);
    z = (z ^ (z >> 29)).wrapping_mul(0xBF58_476D_1CE4_E5B9);
    let noise = (z ^ (z >> 32)).to_le_bytes();
    let slopes = [x >> 6, y >> 6, (x + y) >> 7, (x ^ y) >> 6];
    [0, 1, 2, 3].map(|c| ((u32::from(noise[c]) * (slopes[c] as u32 & 255) + 255) >> 8) as u8)
}

/// One line for each channel that is worked on.
type Lines = Rc<Vec<Vec<u8>>>;

/// The rows of something, each made once as long as rows near it are asked for.
struct Rows<'a> {
    make: Box<dyn Fn(usize) -> Vec<Vec<u8>> + 'a>,
    made: BTreeMap<usize, Lines>,
}

/// More than a kernel's reach.
const KEPT: usize = 40;

impl<'a> Rows<'a> {
    fn new(make: impl Fn(usize) -> Vec<Vec<u8>> + 'a) -> Rows<'a> {
        Rows { make: Box::new(make), made: BTreeMap::new() }
    }

    fn at(&mut self, y: usize) -> Lines {
        if self.made.len() > KEPT {
            self.made.retain(|made, _| made.abs_diff(y) < KEPT / 2);
        }
        let make = &self.make;
        self.made.entry(y).or_insert_with(|| Rc::new(make(y))).clone()
    }
}

/// What a column pass makes of the values of its rows, in the order of their coordinates.
fn weave(rows: &mut Rows, side: usize, rounding: &Rounding, from: &[i64], value: impl Fn(&[u8]) -> u8) -> Vec<Vec<u8>> {
    let lines: Vec<Option<Lines>> = from.iter().map(|c| extend(*c, side, rounding.edge).map(|y| rows.at(y))).collect();
    let shape = lines.iter().flatten().next().expect("one row lies inside").clone();
    let mut values = vec![0; lines.len()];
    let mut made = Vec::new();
    for channel in 0..shape.len() {
        let mut line = Vec::with_capacity(shape[channel].len());
        for x in 0..shape[channel].len() {
            for (value, lines) in values.iter_mut().zip(&lines) {
                *value = lines.as_ref().map_or(0, |lines| lines[channel][x]);
            }
            line.push(value(&values));
        }
        made.push(line);
    }
    made
}

/// The blurred rows of a square picture whose rows are `source`; `visit` is given them in order.
fn blurred(
    source: &dyn Fn(usize) -> Vec<Vec<u8>>,
    side: usize,
    rounding: &Rounding,
    n: u32,
    visit: &mut dyn FnMut(usize, Vec<Vec<u8>>),
) {
    let each = |lines: Vec<Vec<u8>>, pass: &dyn Fn(&[u8]) -> Vec<u8>| -> Vec<Vec<u8>> {
        lines.iter().map(|line| pass(line)).collect()
    };
    if n == 0 {
        let mut rows = Rows::new(|y| each(source(y), &|line| rounding.convolve(line)));
        let middle = rounding.weights.len() as i64 / 2;
        for y in 0..side {
            let from: Vec<i64> = (0..rounding.weights.len() as i64).map(|j| y as i64 + j - middle).collect();
            let sum = |values: &[u8]| {
                let add = |sum: f32, (value, weight): (&u8, &f32)| sum + f32::from(*value) * weight;
                to_channel(values.iter().zip(rounding.weights).fold(0.0, add))
            };
            visit(y, weave(&mut rows, side, rounding, &from, sum));
        }
        return;
    }
    let half = side.div_ceil(2);
    let mut rows = Rows::new(|y| each(source(y), &|line| rounding.halve(line)));
    let mut planes: Vec<Vec<u8>> = Vec::new();
    for y in 0..half as i64 {
        let mean =
            |p: &[u8]| ((u32::from(p[0]) + 3 * (u32::from(p[1]) + u32::from(p[2])) + u32::from(p[3]) + 4) / 8) as u8;
        let lines = weave(&mut rows, side, rounding, &[2 * y - 1, 2 * y, 2 * y + 1, 2 * y + 2], mean);
        planes.resize(lines.len(), Vec::new());
        planes.iter_mut().zip(lines).for_each(|(plane, line)| plane.extend(line));
    }
    let inner = |values: Vec<u8>| scheme::blur(rounding, n - 1, &Plane { w: half, h: half, values }).values;
    let planes: Vec<Vec<u8>> = planes.into_iter().map(inner).collect();
    let line = |y: usize| planes.iter().map(|plane| rounding.double(&plane[y * half..(y + 1) * half], side)).collect();
    let mut rows = Rows::new(line);
    for y in 0..side as i64 {
        let far = if y % 2 == 0 { y / 2 - 1 } else { y / 2 + 1 };
        let mean = |p: &[u8]| ((u32::from(p[0]) + 3 * u32::from(p[1]) + 2) / 4) as u8;
        visit(y as usize, weave(&mut rows, half, rounding, &[far, y / 2], mean));
    }
}

/// Rows of the picture moved by dx, dy: the channels from `first` on.
fn moved(side: usize, dx: i64, dy: i64, first: usize) -> impl Fn(usize) -> Vec<Vec<u8>> {
    move |y| {
        let inside = |c: i64| (0..side as i64).contains(&c);
        let from = |x: i64| {
            let (x, y) = (x - dx, y as i64 - dy);
            if inside(x) && inside(y) {
                pixel(x as usize, y as usize)
            } else {
                [0; 4]
            }
        };
        let pixels: Vec<[u8; 4]> = (0..side as i64).map(from).collect();
        (first..4).map(|c| pixels.iter().map(|p| p[c]).collect()).collect()
    }
}

/// Bytes one channel after the other, or the alphas alone of pixels without colour, as a row of a picture has them.
fn interleaved(lines: &[Vec<u8>]) -> Vec<u8> {
    let channel = |c: usize, x: usize| (c + lines.len()).checked_sub(4).map_or(0, |line| lines[line][x]);
    (0..lines[0].len()).flat_map(|x| [0, 1, 2, 3].map(|c| channel(c, x))).collect()
}

/// The rows that the rules make of the picture under a case.
fn expected(case: &Case, visit: &mut dyn FnMut(usize, Vec<u8>)) {
    let side = case.w as usize;
    let (dx, dy) = (whole(case.dx), whole(case.dy));
    let rounding = Rounding { weights: &case.weights, edge: EDGES[case.edge as usize] };
    match case.entry {
        Entry::Shift => {
            let rows = moved(side, dx, dy, 0);
            (0..side).for_each(|y| visit(y, interleaved(&rows(y))));
        }
        Entry::Blur => {
            blurred(&moved(side, 0, 0, 0), side, &rounding, case.n, &mut |y, lines| visit(y, interleaved(&lines)))
        }
        _ => {
            let original = moved(side, 0, 0, 0);
            blurred(&moved(side, dx, dy, 3), side, &rounding, case.n, &mut |y, lines| {
                let (row, copy) = (interleaved(&original(y)), interleaved(&lines));
                visit(y, finished(&row, &copy, case.colour, premultiply, case.composite != 0));
            });
        }
    }
}

extern "C" {
    /// The seconds and nanoseconds of a clock of the system.
    fn clock_gettime(clock: i32, time: *mut [i64; 2]) -> i32;
}

/// How long this process has had a processor: clock 2 of 64-bit Linux, which other work on the machine does not move.
fn processor() -> Duration {
    let mut time = [0; 2];
    // SAFETY: two words are lent, which is what the system writes.
    let answer = unsafe { clock_gettime(2, &mut time) };
    assert_eq!(answer, 0, "a clock");
    Duration::new(time[0] as u64, time[1] as u32)
}

/// The buffers of one call.
struct Buffers {
    picture: Vec<u8>,
    scratch: Vec<u8>,
    copy: Vec<u8>,
}

impl Buffers {
    fn new(case: &Case) -> Buffers {
        let (side, work) =
            (case.w as usize, |wanted: bool| if wanted { vec![1; 4 * (case.w * case.h) as usize] } else { Vec::new() });
        let mut picture = Vec::with_capacity(4 * side * side);
        (0..side * side).for_each(|i| picture.extend(pixel(i % side, i / side)));
        Buffers { picture, scratch: work(case.blurs()), copy: work(case.entry == Entry::Shadow) }
    }

    fn call(&mut self, case: &Case) -> Duration {
        let (scratch, copy) = (Part::from(&mut self.scratch), Part::from(&mut self.copy));
        let parts = Parts { picture: Part::from(&mut self.picture), scratch, copy, ..Parts::default() };
        let begun = processor();
        // SAFETY: no two buffers overlap.
        let (answer, _) = unsafe { call(under_test(), case, parts) };
        let time = processor() - begun;
        assert_eq!(answer, 0, "an accepted case");
        time
    }
}

/// FNV-1a over words of eight bytes.
fn hash(hash: u64, row: &[u8]) -> u64 {
    row.chunks(8).fold(hash, |hash, word| {
        let word = word.iter().rev().fold(0, |value, byte| value << 8 | u64::from(*byte));
        (hash ^ word).wrapping_mul(0x0000_0100_0000_01B3)
    })
}

/// The name and the case of each run.
fn runs(side: u32) -> Vec<(&'static str, Case)> {
    let plain = Case { w: side, h: side, weights: bell(5), ..Case::plain(Entry::Blur, Vec::new()) };
    let moved = Case { dx: side as f32 / 3.0, dy: -5.5, colour: [0.9, 0.5, 0.2, 0.8], ..plain.clone() };
    vec![
        ("blur n = 0, Mirror", Case { edge: 2, ..plain.clone() }),
        ("blur n = 1, Wrap", Case { n: 1, edge: 1, ..plain.clone() }),
        // one pixel is left at level 14, which None alone does not spread evenly
        ("blur n = 14, None", Case { n: 14, edge: 3, weights: vec![1.0], ..plain.clone() }),
        ("blur n = 14, Duplicate", Case { n: 14, ..plain.clone() }),
        ("blur n = 13, Mirror", Case { n: 13, edge: 2, ..plain }),
        ("shift", Case { entry: Entry::Shift, ..moved.clone() }),
        ("shadow n = 1, Mirror", Case { entry: Entry::Shadow, n: 1, edge: 2, ..moved.clone() }),
        ("shadow n = 0 with the original, Wrap", Case { entry: Entry::Shadow, edge: 1, composite: 1, ..moved }),
    ]
}

/// What one comparison saw.
#[derive(Default)]
struct Seen {
    rows: usize,
    /// x, y, channel, the rule's byte and the library's, of the first that differs.
    wrong: Option<(usize, usize, usize, u8, u8)>,
    /// Of the rules' picture and of the library's.
    hashes: [u64; 2],
    /// The least and the greatest byte of the picture.
    least: u8,
    greatest: u8,
}

impl Seen {
    fn row(&mut self, y: usize, right: &[u8], found: &[u8]) {
        self.rows += 1;
        self.hashes = [hash(self.hashes[0], right), hash(self.hashes[1], found)];
        self.least = right.iter().copied().fold(self.least, u8::min);
        self.greatest = right.iter().copied().fold(self.greatest, u8::max);
        if right != found && self.wrong.is_none() {
            let place = (0..right.len()).find(|i| right[*i] != found[*i]);
            self.wrong = place.map(|i| (i / 4, y, i % 4, right[i], found[i]));
        }
    }
}

/// One run: every row of the picture, and the work buffers.
fn compare_one(name: &str, case: &Case) -> bool {
    let mut buffers = Buffers::new(case);
    let time = buffers.call(case);
    let begun = Instant::now();
    let row = 4 * case.w as usize;
    let mut seen = Seen { hashes: [0xCBF2_9CE4_8422_2325; 2], least: 255, ..Seen::default() };
    expected(case, &mut |y, right| seen.row(y, &right, &buffers.picture[y * row..(y + 1) * row]));
    let cleared = buffers.scratch.iter().chain(&buffers.copy).all(|byte| *byte == 0);
    let good = seen.wrong.is_none() && cleared && seen.rows == case.h as usize && seen.hashes[0] == seen.hashes[1];
    println!("{name}: {}; {} rows, work cleared {cleared}", if good { "agrees" } else { "DIFFERS" }, seen.rows);
    if let Some(wrong) = seen.wrong {
        println!("    first at (x, y, channel, rule, library) {wrong:?}");
    }
    let [ours, theirs] = seen.hashes;
    let seconds = [time, begun.elapsed()].map(|time| format!("{:.1} s", time.as_secs_f64()));
    println!("    hashes {ours:016x} {theirs:016x}, bytes {} to {}, times {seconds:?}", seen.least, seen.greatest);
    good
}

/// The runs at this side whose names have a part of text in them.
pub fn compare(side: u32, part: &str) -> bool {
    println!("{}, {side} by {side}", under_test().name);
    let wanted = runs(side).into_iter().filter(|(name, _)| name.contains(part));
    wanted.filter(|(name, case)| !compare_one(name, case)).count() == 0
}

/// What a pixel costs where its four bytes are only copied: the best of some calls, in nanoseconds.
fn copied(side: u32, calls: u32) -> f64 {
    let pixels = side as usize * side as usize;
    let (from, mut to) = (vec![1u8; 4 * pixels], vec![2u8; 4 * pixels]);
    let call = |_| {
        let begun = Instant::now();
        to.copy_from_slice(std::hint::black_box(&from));
        std::hint::black_box(&to);
        begun.elapsed()
    };
    (0..calls).map(call).min().unwrap_or_default().as_nanos() as f64 / pixels as f64
}

/// The small picture that the largest is held against.
const SMALL: u32 = 256;

/// What a pixel of blur and shadow costs in a small picture and at the largest side, in one process: the best of some calls.
pub fn costs(side: u32) {
    println!("{}; ns of a processor a pixel, best call", under_test().name);
    let begun = busy::ticks();
    let thirteen = |side: u32| Case { w: side, h: side, weights: bell(13), ..Case::plain(Entry::Blur, Vec::new()) };
    let shadow = |side: u32| Case {
        entry: Entry::Shadow,
        n: 1,
        dx: 3.0,
        dy: -2.0,
        colour: [0.2, 0.4, 0.6, 0.8],
        ..thirteen(side)
    };
    let lines: [(&str, &dyn Fn(u32) -> Case); 7] = [
        ("blur n = 0, 5 taps", &|side| Case { weights: bell(5), ..thirteen(side) }),
        ("blur n = 0, 13 taps", &|side| thirteen(side)),
        ("blur n = 1, 13 taps", &|side| Case { n: 1, ..thirteen(side) }),
        ("blur n = 2, 13 taps", &|side| Case { n: 2, ..thirteen(side) }),
        ("blur n = 14, 13 taps", &|side| Case { n: 14, ..thirteen(side) }),
        ("shadow alone", &|side| shadow(side)),
        ("shadow with the original", &|side| Case { composite: 1, ..shadow(side) }),
    ];
    for (name, case) in lines {
        let best = |side: u32, calls: u32| {
            let case = case(side);
            let mut buffers = Buffers::new(&case);
            let times = (0..calls).map(|_| buffers.call(&case)).min().unwrap_or_default();
            times.as_nanos() as f64 / f64::from(side) / f64::from(side)
        };
        let before = best(SMALL, 40);
        let large = best(side, 3);
        let small = before.min(best(SMALL, 40));
        println!("{name}: {SMALL} square {small:.2}, {side} square {large:.2}, ratio {:.3}", large / small);
    }
    let (small, large) = (copied(SMALL, 400), copied(side, 3));
    println!("a copy of the bytes: {SMALL} square {small:.2}, {side} square {large:.2}, ratio {:.3}", large / small);
    println!("{}", busy::since(begun));
}
