//! Library and Rust side by side: same input, interleaved, best of several rounds.
//! Inside the library's time: clearing the work buffers. Inside the Rust's: the shadow's clone.
//! Outside both: putting the input back, the first allocation of work buffers.
use crate::bars;
use crate::busy;
use crate::case::{call, Case, Entry, Part, Parts};
use crate::inputs::bell;
use crate::library::{under_test, Library};
use crate::random::Random;
use crate::rust::{self, blur_of, published, shadow_of};
use crate::tally::MODES;
use filters::{Filters, Scratch};
use std::time::{Duration, Instant};
use vello_common::pixmap::Pixmap;

/// Small pictures are timed many at a time.
const PIXELS_A_ROUND: usize = 1 << 16;
const LEAST_ROUNDS: u32 = 3;
const MOST_ROUNDS: u32 = 25;
const TIME_A_LINE: Duration = Duration::from_millis(400);

/// A blur in whole numbers, and beside it, for the Rust, the blur with the same weights.
fn whole(numerators: Vec<u32>, edge: u32, plain: &Case) -> Case {
    let weights = numerators.iter().map(|m| *m as f32 / 65536.0).collect();
    Case { entry: Entry::BlurWhole, weights, numerators, edge, ..plain.clone() }
}

/// Numerators that sum to 65536.
fn numerators(taps: u32) -> Vec<u32> {
    let mut numerators = vec![65536 / taps; taps as usize];
    numerators[0] += 65536 % taps;
    numerators
}

/// The list: blurs by taps and n in each mode, in whole numbers too, shift, shadow with and without the original.
fn list(w: u32, h: u32) -> Vec<(String, Case)> {
    let mut random = Random::new(9);
    let plain = Case::new(Entry::Blur, w, h, (0..4 * w * h).map(|_| random.byte()).collect());
    let mut lines = Vec::new();
    for (edge, mode) in MODES.iter().enumerate() {
        for (n, taps) in [(0, 5), (0, 13), (0, 33), (1, 13), (2, 13), (4, 13)] {
            let case = Case { weights: bell(taps), n, edge: edge as u32, ..plain.clone() };
            lines.push((format!("blur n {n} taps {taps} {mode}"), case));
        }
        lines.push((format!("whole n 0 taps 13 {mode}"), whole(numerators(13), edge as u32, &plain)));
        lines.push((format!("whole n 0 of 0, 65536, 0 {mode}"), whole(vec![0, 65536, 0], edge as u32, &plain)));
    }
    let moved = Case { dx: 3.0, dy: -2.0, weights: bell(13), n: 1, colour: [0.2, 0.4, 0.6, 0.8], ..plain };
    let shift = Case { entry: Entry::Shift, ..moved.clone() };
    lines.push(("shift by half".into(), Case { dx: (w / 2) as f32, dy: (h / 2) as f32, ..shift.clone() }));
    lines.push(("shift".into(), shift));
    lines.push(("shadow alone".into(), Case { entry: Entry::Shadow, ..moved.clone() }));
    lines.push(("shadow with original".into(), Case { entry: Entry::Shadow, composite: 1, ..moved }));
    lines
}

/// Pictures of one round and the library's work buffers.
struct Ours {
    pictures: Vec<Vec<u8>>,
    scratch: Vec<u8>,
    copy: Vec<u8>,
}

impl Ours {
    fn new(case: &Case, count: usize) -> Ours {
        Ours {
            pictures: vec![case.picture.clone(); count],
            scratch: vec![1; case.picture.len()],
            copy: vec![1; case.picture.len()],
        }
    }

    fn round(&mut self, library: &Library, case: &Case) -> Duration {
        self.pictures.iter_mut().for_each(|p| p.copy_from_slice(&case.picture));
        let begun = Instant::now();
        for picture in &mut self.pictures {
            let (scratch, copy) = (Part::from(&mut self.scratch), Part::from(&mut self.copy));
            let parts = Parts { picture: picture.into(), scratch, copy, ..Parts::default() };
            // SAFETY: no two buffers overlap.
            let (answer, _) = unsafe { call(library, case, parts) };
            assert_eq!(answer, 0, "an accepted case");
        }
        begun.elapsed()
    }
}

/// Pictures of one round and the Rust's kept scratch.
struct Theirs {
    pictures: Vec<Pixmap>,
    scratch: Scratch,
}

impl Theirs {
    fn new(case: &Case, count: usize) -> Theirs {
        let one = Pixmap::from_bytes(case.w as u16, case.h as u16, &case.picture);
        let mut scratch = Scratch::default();
        if let Some(filters) = published().filter(|_| case.convolves()) {
            (filters.blur)(
                &blur_of(&Case { n: 0, weights: vec![1.0], ..case.clone() }),
                &mut one.clone(),
                &mut scratch,
            );
        }
        Theirs { pictures: vec![one; count], scratch }
    }

    fn round(&mut self, filters: &Filters, case: &Case) -> Duration {
        self.pictures.iter_mut().for_each(|p| p.copy_from_bytes(&case.picture));
        let (blur, shadow) = (blur_of(case), shadow_of(case));
        let begun = Instant::now();
        for pixmap in &mut self.pictures {
            match case.entry {
                Entry::Blur | Entry::BlurWhole => (filters.blur)(&blur, pixmap, &mut self.scratch),
                Entry::Shift => (filters.shift)(pixmap, case.dx, case.dy),
                _ => (filters.shadow)(&shadow, pixmap, &mut self.scratch),
            }
        }
        begun.elapsed()
    }
}

/// What one line measured, in nanoseconds a pixel.
pub struct Measured {
    pub ours: f64,
    pub theirs: Option<f64>,
    note: &'static str,
}

fn measure(library: &Library, case: &Case) -> Measured {
    let pixels = case.picture.len() / 4;
    let count = (PIXELS_A_ROUND / pixels).max(1);
    let (mut ours, mut theirs) = (Ours::new(case, count), Theirs::new(case, count));
    let [mut best_ours, mut best_theirs] = [Duration::MAX; 2];
    let begun = Instant::now();
    for round in 0..MOST_ROUNDS {
        if round >= LEAST_ROUNDS && begun.elapsed() > TIME_A_LINE {
            break;
        }
        best_ours = best_ours.min(ours.round(library, case));
        if let Some(filters) = published() {
            best_theirs = best_theirs.min(theirs.round(filters, case));
        }
    }
    let each = |time: Duration| time.as_nanos() as f64 / (count * pixels) as f64;
    Measured {
        ours: each(best_ours),
        theirs: published().map(|_| each(best_theirs)),
        note: outputs(case, &ours.pictures[count - 1], &theirs.pictures[count - 1]),
    }
}

/// Compares the outputs of the timed runs; a difference must be one that the mended Rust has not.
fn outputs(case: &Case, ours: &[u8], theirs: &Pixmap) -> &'static str {
    if published().is_none() {
        return "";
    }
    if ours == theirs.to_bytes() {
        return "same bytes";
    }
    let mended = rust::mended().and_then(|filters| rust::picture(filters, case, &mut Scratch::default()));
    assert!(mended.is_some_and(|bytes| bytes == ours), "the mended Rust must give the same bytes");
    "listed difference; mended Rust gives the same bytes"
}

const SIZES: [(u32, u32); 10] = [
    (16, 16),
    (64, 64),
    (256, 256),
    (1024, 1024),
    (4096, 1),
    (1, 4096),
    (3, 4096),
    (4096, 16),
    (16, 4096),
    (4096, 4096),
];

/// A line's name, its size and what it measured.
pub type Row = (String, (u32, u32), Measured);

/// Nanoseconds a pixel against size: ours, then the Rust's.
fn print_sizes(rows: &[Row]) {
    let sizes: Vec<(u32, u32)> = SIZES.into_iter().filter(|s| rows.iter().any(|(_, size, _)| size == s)).collect();
    let heads: String = sizes.iter().map(|(w, h)| format!("{:>18}", format!("{w}x{h}"))).collect();
    println!("ns a pixel{:22}{heads}", "");
    for (name, ..) in rows.iter().filter(|(_, size, _)| *size == sizes[0]) {
        let cell = |(_, _, m): &Row| format!("{:9.2}/{:8.2}", m.ours, m.theirs.unwrap_or(0.0));
        let cells: String = rows.iter().filter(|(n, ..)| n == name).map(cell).collect();
        println!("{name:32}{cells}");
    }
}

fn print_ratios(rows: &[Row]) {
    let ratio = |(name, (w, h), m): &Row| m.theirs.map(|theirs| (m.ours / theirs, format!("{name} {w}x{h}")));
    let ratios: Vec<(f64, String)> = rows.iter().filter_map(ratio).collect();
    if let Some((worst, name)) = ratios.iter().max_by(|a, b| a.0.total_cmp(&b.0)) {
        let logs: f64 = ratios.iter().map(|(ratio, _)| ratio.ln()).sum();
        println!("worst ratio {worst:.3}: {name}");
        println!("geometric mean {:.3} over {} lines", (logs / ratios.len() as f64).exp(), ratios.len());
    }
}

/// Runs the list at every size up to `largest`.
pub fn print(largest: u32) {
    let library = under_test();
    println!("{} beside the Rust as published; best of {LEAST_ROUNDS} to {MOST_ROUNDS} rounds", library.name);
    println!("inside the times: our clearing of work buffers, the Rust's clone in the shadow");
    println!("outside: putting the input back, the first allocation of work buffers and of the Rust's scratch");
    let begun = busy::ticks();
    let mut rows: Vec<Row> = Vec::new();
    for (w, h) in SIZES.into_iter().filter(|(w, h)| *w.max(h) <= largest) {
        for (name, case) in list(w, h) {
            let measured = measure(library, &case);
            let ratio = measured.theirs.map_or(String::new(), |theirs| format!("ratio {:7.3}", measured.ours / theirs));
            println!("{name:32} {:>10} {ratio} {}", format!("{w}x{h}"), measured.note);
            rows.push((name, (w, h), measured));
        }
    }
    print_sizes(&rows);
    print_ratios(&rows);
    bars::print(&rows);
    println!("{}", busy::since(begun));
}
