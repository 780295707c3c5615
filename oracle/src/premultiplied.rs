//! Premultiplied stays premultiplied (request 09): the law on every case that is run, and cases that try to break it.
use crate::case::{run, Case, Entry};
use crate::generate::{self, Take};
use crate::inputs;
use crate::library::Library;
use crate::random::Random;
use crate::whole_cases;
use rule::grading::exceeds;
use rule::MOST_TAPS;

/// The entries that the law is about.
pub const KEEPING: [Entry; 5] = [Entry::Blur, Entry::Shift, Entry::Shadow, Entry::BlurWhole, Entry::Recipes];

/// What a case shows: the law kept, or that a picture which exceeds before may exceed afterwards.
pub const ROWS: [&str; 2] = ["premultiplied kept", "exceeds before and after"];

/// No r, g or b above its alpha.
pub fn holds(picture: &[u8]) -> bool {
    !picture.chunks_exact(4).any(exceeds)
}

/// Whether the library's own check finds a pixel.
fn found(library: &Library, case: &Case, picture: Vec<u8>) -> bool {
    let check = Case { w: case.w, h: case.h, ..Case::plain(Entry::Check, picture) };
    run(library, &check).numbers[0] != 0
}

/// The row that a case shows, of those that the law is about; none where the law is broken. A refused call, which leaves
/// its picture, is a case too.
pub fn shown(library: &Library, case: &Case, after: &[u8]) -> Result<Option<&'static str>, ()> {
    if !KEEPING.contains(&case.entry) {
        return Ok(None);
    }
    match (holds(&case.picture), found(library, case, after.to_vec())) {
        (true, true) => Err(()),
        (true, false) => Ok(Some(ROWS[0])),
        (false, true) => Ok(Some(ROWS[1])),
        (false, false) => Ok(None),
    }
}

/// A picture with no channel above its alpha: channels at their alpha, just below it, at 0 and anywhere between.
pub fn picture(random: &mut Random, w: u32, h: u32) -> Vec<u8> {
    let kind = random.below(4);
    let pixel = |random: &mut Random| {
        let a = match kind {
            0 => random.pick(&[0, 255]),
            1 => random.pick(&[0, 1, 2, 3, 127, 128, 254, 255]),
            _ => random.byte(),
        };
        let mut channel = || match random.below(4) {
            0 | 1 => a,
            2 => a.saturating_sub(1),
            _ => random.below(u64::from(a) + 1) as u8,
        };
        [channel(), channel(), channel(), a]
    };
    (0..w * h).flat_map(|_| pixel(random)).collect()
}

/// Weights that lose bits, meet halves, vanish, or sum to much more than 1.
fn weights(random: &mut Random, taps: usize) -> Vec<f32> {
    let near = [1.0, 0.99999994, 0.9999999, 0.99999, 0.50000006, 0.49999997, 0.33333334];
    let tiny = [0.0, -0.0, 1e-45, 1.1754944e-38, 1e-20, 5.960_464_5e-8, 0.001953125];
    let kind = random.below(5);
    let mut one = || match kind {
        0 => random.pick(&near),
        1 => random.pick(&tiny),
        2 => random.pick(&[near[1], tiny[4], near[4], tiny[5]]),
        3 => random.share(),
        _ => random.share() / taps as f32,
    };
    (0..taps).map(|_| one()).collect()
}

/// Colours at 1 and just below it, and such as meet a half.
fn colour(random: &mut Random) -> [f32; 4] {
    [(); 4].map(|_| {
        let any = inputs::component(random);
        random.pick(&[1.0, 0.99999994, 0.998, 0.5, any, any])
    })
}

/// Premultiplied pictures under kernels that try to break the law, in every mode, and some that exceed.
pub fn all(random: &mut Random, take: Take) {
    for i in 0..480 {
        let (w, h) = (random.range(1, 9) as u32, random.range(1, 7) as u32);
        let (n, edge) = (random.pick(&[0, 0, 0, 1, 1, 2, 3, 14]), i % 4);
        let taps = random.pick(&[1, 2, 3, 3, 5, 8, MOST_TAPS]);
        let exceeding = i % 16 == 15;
        let picture = if exceeding { inputs::picture(random, w, h) } else { picture(random, w, h) };
        let case = generate::shadow(random, w, h, n, edge, taps);
        let strength = random.pick(&[1.0, 1.0, 1.0, 0.0]);
        let (weights, colour) = (weights(random, taps), colour(random));
        let case = Case { picture, weights, colour, strength, ..case };
        take(Case { entry: Entry::Blur, ..case.clone() });
        take(Case { entry: Entry::Shift, ..case.clone() });
        take(Case { composite: 0, ..case.clone() });
        take(Case { composite: 1, ..case.clone() });
        let numerators = whole_cases::kernel(random, taps);
        let whole = whole_cases::blur(random, w, h, n, edge, numerators);
        take(Case { picture: case.picture, ..whole });
    }
}

/// A pixel that exceeds, and what an entry then leaves: the law's premise is needed.
pub fn counterexamples() -> Vec<Case> {
    let plain = Case { w: 2, h: 1, weights: vec![1.0], ..Case::new(Entry::Blur, 2, 1, vec![1, 0, 0, 0, 9, 9, 9, 9]) };
    let shift = Case { entry: Entry::Shift, weights: Vec::new(), dx: 1.0, ..plain.clone() };
    let shadow = Case { entry: Entry::Shadow, composite: 1, ..plain.clone() };
    let whole = Case { entry: Entry::BlurWhole, weights: Vec::new(), numerators: vec![65536], ..plain.clone() };
    let list = Case { entry: Entry::Recipes, weights: Vec::new(), ..plain.clone() };
    vec![plain, shift, shadow, whole, list]
}
