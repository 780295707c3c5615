//! Cases of the whole-number profile (request 04).
use crate::case::{Case, Entry, Outcome};
use crate::generate::Take;
use crate::inputs;
use crate::random::Random;
use rule::{LARGEST_SIDE, MOST_DECIMATIONS, MOST_TAPS};

/// Kernels at the limits of the sum: taken up to 65536, and some that 16 or 32 bits would take.
pub fn limits() -> Vec<Vec<u32>> {
    let mut kernels = vec![
        vec![65536],
        vec![65535],
        vec![65537],
        vec![0, 65536, 0],
        vec![0, 0, 65536],
        vec![65536, 0],
        vec![65536, 65536],
        vec![65536, 1],
        vec![1, 65535],
        vec![32768, 32768],
        vec![32768, 32769],
        vec![32767, 32768],
        vec![1 << 31, 1 << 31],
        vec![1 << 31, 1 << 31, 65536],
        vec![u32::MAX],
        vec![u32::MAX, 1],
        vec![u32::MAX, 65537],
        vec![u32::MAX; MOST_TAPS],
        vec![131072],
        vec![65536 + 1000],
        vec![1986; MOST_TAPS],
        vec![1985; MOST_TAPS],
        vec![16384, 32768, 16384],
    ];
    kernels.extend([1, 2, 3, 16, 32, MOST_TAPS].map(|taps| vec![0; taps]));
    kernels.extend([2, 32].map(|taps| vec![65536 / taps as u32; taps]));
    kernels
}

/// Numerators of a sum that is accepted, most times of 65536 itself.
pub fn kernel(random: &mut Random, taps: usize) -> Vec<u32> {
    let less = random.below(65537);
    let sum = random.pick(&[65536, 65536, 65536, 65535, less]);
    inputs::numerators(random, taps, sum).iter().map(|m| *m as u32).collect()
}

/// A blur of a random picture.
pub fn blur(random: &mut Random, w: u32, h: u32, n: u32, edge: u32, numerators: Vec<u32>) -> Case {
    let case = Case { w, h, ..Case::plain(Entry::BlurWhole, inputs::picture(random, w, h)) };
    let scratch = case.picture.len() + random.pick(&[0, 0, 1, 64]);
    Case { scratch, n, edge, numerators, ..case }
}

pub fn accepted(random: &mut Random) -> Case {
    let (w, h) = (random.range(1, 6) as u32, random.range(1, 6) as u32);
    let (n, edge) = (random.below(u64::from(MOST_DECIMATIONS) + 1) as u32, random.below(4) as u32);
    let taps = random.range(1, MOST_TAPS as i64) as usize;
    let numerators = kernel(random, taps);
    blur(random, w, h, n, edge, numerators)
}

/// Makes the sum too large, where there is a numerator.
pub fn spoil_sum(random: &mut Random, case: &mut Case) {
    let sum: u32 = case.numerators.iter().sum();
    let last = case.numerators.len() as u64;
    if last > 0 {
        let more = random.pick(&[65537 - sum.min(65536), 65537, 1 << 31, u32::MAX - 65536]);
        case.numerators[random.below(last) as usize] += more;
    }
}

/// The float blur with these numerators' weights; every second 0 is a minus zero.
pub fn as_float(case: &Case) -> Case {
    let weight = |(j, m): (usize, &u32)| if *m == 0 && j % 2 == 1 { -0.0 } else { *m as f32 / 65536.0 };
    let weights = case.numerators.iter().enumerate().map(weight).collect();
    Case { entry: Entry::Blur, weights, numerators: Vec::new(), ..case.clone() }
}

/// With a sum of 65536 and any mode but None, no channel leaves what it had of least and greatest.
pub fn between(case: &Case, outcome: &Outcome) -> bool {
    let exact = case.numerators.iter().map(|m| u64::from(*m)).sum::<u64>() == 65536 && case.edge != 3;
    let channel = |bytes: &[u8], c: usize| -> (u8, u8) {
        let values = bytes.iter().skip(c).step_by(4).copied();
        (values.clone().min().unwrap_or(0), values.max().unwrap_or(0))
    };
    !exact
        || (0..4).all(|c| {
            let (before, after) = (channel(&case.picture, c), channel(&outcome.picture, c));
            before.0 <= after.0 && after.1 <= before.1
        })
}

/// Every kernel at a limit, in every mode, with no decimation and with one.
fn kernels(random: &mut Random, take: Take) {
    for (kernel, i) in limits().into_iter().flat_map(|kernel| (0..8).map(move |i| (kernel.clone(), i))) {
        let (w, h) = (random.range(1, 7) as u32, random.range(1, 7) as u32);
        take(blur(random, w, h, i / 4, i % 4, kernel));
    }
    for taps in 0..MOST_TAPS + 3 {
        let numerators = kernel(random, taps.max(1));
        let mut case = blur(random, 4, 3, 1, taps as u32 % 4, numerators);
        case.numerators.resize(taps, 0);
        take(case);
    }
}

/// Every size to 5 by 5, mode and n to 4, and the float blur of every fifth beside the Rust; then every n on small sides.
fn sizes(random: &mut Random, take: Take) {
    for i in 0..25 * 4 * 5 {
        let (w, h, edge, n) = (i % 5 + 1, i / 5 % 5 + 1, i / 25 % 4, i / 100);
        let taps = random.pick(&[1, 2, 3, 3, 4, 5, 8, 13, 32, 33]);
        let numerators = kernel(random, taps);
        let case = blur(random, w, h, n, edge, numerators);
        if i % 5 == 0 {
            take(as_float(&case));
        }
        take(case);
    }
    for n in 0..MOST_DECIMATIONS + 2 {
        for edge in 0..4 {
            let (w, h) = (random.range(1, 40) as u32, random.range(1, 20) as u32);
            let numerators = kernel(random, 3 + n as usize);
            take(blur(random, w, h, n, edge, numerators));
        }
    }
}

/// Rows about the lengths that strips and runs of lanes may have, and those of the largest length.
fn long(random: &mut Random, take: Take) {
    for w in [127, 128, 255, 256, 257, 300, 511, 512, 513, 700] {
        for (i, h) in [1, 2, 3, 7].into_iter().enumerate() {
            let taps = random.pick(&[1, 2, 5, 32, 33]);
            let numerators = kernel(random, taps);
            take(blur(random, w, h, i as u32 / 2, (w + i as u32) % 4, numerators.clone()));
            take(blur(random, h, w, i as u32 / 2, (w + i as u32) % 4, numerators));
        }
    }
    for (i, n) in [0, 1, MOST_DECIMATIONS].into_iter().enumerate() {
        for (w, h) in [(LARGEST_SIDE, 1), (1, LARGEST_SIDE)] {
            let numerators = kernel(random, 4 + i);
            take(blur(random, w, h, n, i as u32, numerators));
        }
    }
}

/// Pictures of about as many rows as are turned at once, 8192 pixels and what is left of the last row, and of twice as many.
fn bands(random: &mut Random, take: Take) {
    for (i, w) in [1, 2, 5, 16, 17, 64, 90, 128, 300].into_iter().enumerate() {
        let rows = 8192 / w + 1;
        for (edge, h) in [rows - 1, rows, rows + 1, 2 * rows + 1].into_iter().enumerate() {
            let taps = random.pick(&[11, 13, 33]);
            let numerators = kernel(random, taps);
            take(blur(random, w, h, i as u32 % 2, edge as u32, numerators));
        }
    }
}

/// Every byte under kernels that meet halves and come just below them, and bright pictures.
fn halves(random: &mut Random, take: Take) {
    let bytes: Vec<u8> = (0..256).flat_map(|i| [i as u8, 255 - i as u8, (i / 2) as u8, (i * 7) as u8]).collect();
    for half in [1, 64, 128, 257, 512, 8192, 16384, 32767, 32768, 32769, 49152, 65408, 65535] {
        for kernel in [vec![half], vec![half, 65536 - half], vec![half, 0, 65535 - half]] {
            for edge in [0, 3] {
                let case = blur(random, 256, 1, 0, edge, kernel.clone());
                take(Case { picture: bytes.clone(), ..case });
            }
        }
    }
    for taps in [1, 2, 5, 33] {
        let numerators = kernel(random, taps);
        let case = blur(random, 6, 4, 0, 1, numerators);
        take(Case { picture: vec![255; 96], ..case });
    }
}

/// All groups.
pub fn all(random: &mut Random, take: Take) {
    for group in [kernels, sizes, long, halves] {
        group(random, take);
    }
    bands(&mut Random::new(21), take);
}

/// Small ones to be stored.
pub fn stored(random: &mut Random) -> Vec<Case> {
    let mut cases = Vec::new();
    for (i, kernel) in limits().into_iter().enumerate() {
        let picture = (0..24).map(|_| random.byte()).collect();
        let case = blur(random, 3, 2, i as u32 % 3, i as u32 % 4, kernel);
        cases.push(Case { picture, scratch: 24 + i % 2, ..case });
    }
    for i in 0..16 {
        let (w, h) = (random.range(1, 6) as u32, random.range(1, 5) as u32);
        let taps = random.range(1, 6) as usize;
        let numerators = kernel(random, taps);
        cases.push(blur(random, w, h, i / 4, i % 4, numerators));
    }
    for n in [MOST_DECIMATIONS, MOST_DECIMATIONS + 1] {
        cases.push(blur(random, 2, 2, n, 1, vec![65537 - n % 2, 0]));
    }
    let row = |alphas: &[u8], numerators: &[u32]| Case {
        w: alphas.len() as u32,
        h: 1,
        numerators: numerators.to_vec(),
        scratch: 4 * alphas.len(),
        ..Case::plain(Entry::BlurWhole, alphas.iter().flat_map(|a| [0, 0, 0, *a]).collect())
    };
    // where the rounding of rows and columns apart matters, and the middle of an even count
    cases.extend([row(&[1, 0, 0], &[32768, 32768]), row(&[3, 1], &[32768]), row(&[1, 1], &[32767])]);
    cases.extend([row(&[90, 30, 0, 7], &[40000, 25536]), row(&[2, 5, 9], &[16384, 16384, 16384, 16384])]);
    cases
}
