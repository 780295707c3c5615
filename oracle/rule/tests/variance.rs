//! The spread report beside the passes: the exact blur of one pixel far from the edges, and its second moment about the
//! place where the pixel stood, in whole numbers.
use rule::blur::blur;
use rule::edges::{Edge, EDGES};
use rule::exact::{self, scale, Exact};
use rule::grading::{spread, units};
use rule::scheme::{Passes, Plane};
use rule::{MOST_DECIMATIONS, MOST_TAPS};

/// One tap, even counts, lopsided, sparse, and the most taps with all the weight at their ends.
const KERNELS: [&[u64]; 9] = [
    &[65536],
    &[16384, 32768, 16384],
    &[32768, 32768],
    &[65536, 0],
    &[1, 60000, 5535],
    &[0, 0, 65536],
    &[32768, 0, 0, 0, 32768],
    &[30000, 0, 0, 35536],
    &[32768, 0, 0, 0, 0, 0, 0, 0, 0, 0, 0, 0, 0, 0, 0, 0, 0, 0, 0, 0, 0, 0, 0, 0, 0, 0, 0, 0, 0, 0, 0, 0, 32768],
];

/// The next of a fixed run of numbers below `limit`.
fn next(state: &mut u64, limit: u64) -> u64 {
    *state = state.wrapping_mul(6364136223846793005).wrapping_add(1442695040888963407);
    (*state >> 33) % limit
}

/// Numerators that sum to 65536, one tap after the other taking a part of what is left; some are 0.
fn kernel(state: &mut u64) -> Vec<u64> {
    let mut taps = vec![0; next(state, MOST_TAPS as u64) as usize + 1];
    let (count, mut left) = (taps.len() as u64, 65536);
    while left > 0 {
        let part = 1 + next(state, left);
        taps[next(state, count) as usize] += part;
        left -= part;
    }
    taps
}

/// A line blurred exactly: whole numbers over 2^(5n+16).
fn blur_line(passes: &Exact, n: u32, line: &[u128]) -> Vec<u128> {
    if n == 0 {
        return passes.convolve(line);
    }
    passes.double(&blur_line(passes, n - 1, &passes.halve(line)), line.len())
}

/// The sum of value times squared distance from place `at`.
fn moment(values: impl Iterator<Item = u128>, at: usize) -> u128 {
    values.enumerate().map(|(x, v)| v * (x.abs_diff(at) as u128).pow(2)).sum()
}

/// The side of a picture in whose middle no pass reads an edge.
fn side(taps: usize, n: u32) -> usize {
    (taps + 8) << n
}

/// The report says what the passes make of one pixel in a line, wherever it lies in its level-n pixel.
fn check_line(numerators: &[u64], n: u32, edge: Edge, offset: usize) {
    let side = side(numerators.len(), n);
    let at = side / 2 + offset;
    let mut line = vec![0; side];
    line[at] = 1;
    let blurred = blur_line(&Exact { numerators, edge }, n, &line);
    assert_eq!(blurred.iter().sum::<u128>(), 1 << (5 * n + 16), "{numerators:?} {n} {edge:?} {offset}");
    // moment / 2^(5n+16) square pixels, each 131072 units
    let found = 2 * moment(blurred.into_iter(), at);
    assert_eq!(found, u128::from(units(numerators, n)) << (5 * n), "{numerators:?} {n} {edge:?} {offset}");
    if n <= MOST_DECIMATIONS {
        let weights: Vec<f32> = numerators.iter().map(|m| *m as f32 / 65536.0).collect();
        assert_eq!(spread(&weights, n), (0, units(numerators, n)));
    }
}

#[test]
fn lines_of_chosen_kernels() {
    for n in 0..=14 {
        for (i, numerators) in KERNELS.iter().enumerate() {
            let offsets = [(1 << n) / 3, 0, 1, (1 << n) - 1];
            for offset in &offsets[..if n < 9 { 4 } else { 1 }] {
                check_line(numerators, n, EDGES[(i + offset) % 4], *offset);
            }
        }
    }
}

#[test]
fn lines_of_other_kernels() {
    let mut state = 2;
    for turn in 0..1500 {
        let n = turn % 9;
        let numerators = kernel(&mut state);
        check_line(&numerators, n, EDGES[turn as usize / 9 % 4], next(&mut state, 1 << n) as usize);
    }
}

/// Along rows and along columns alike, in a picture.
#[test]
fn pictures() {
    for n in 0..=3 {
        for (numerators, edge) in KERNELS[..8].iter().flat_map(|k| EDGES.map(|edge| (k, edge))) {
            let side = side(numerators.len(), n);
            let (x, y) = (side / 2 + n as usize, side / 2 + 1);
            let mut plane = Plane { w: side, h: side, values: vec![0; side * side] };
            plane.values[y * side + x] = 1;
            let blurred = exact::blur(numerators, edge, n, &plane).values;
            let rows: Vec<u128> = blurred.chunks_exact(side).map(|row| row.iter().sum()).collect();
            let columns = (0..side).map(|x| blurred.iter().skip(x).step_by(side).sum());
            let whole = u128::from(units(numerators, n)) * scale(n);
            assert_eq!(131072 * moment(columns, x), whole, "{numerators:?} {n} {edge:?}");
            assert_eq!(131072 * moment(rows.into_iter(), y), whole, "{numerators:?} {n} {edge:?}");
        }
    }
}

/// One pixel of alpha 128 at n = 1: no pass rounds, so that the bytes themselves have the spread.
#[test]
fn a_dot_of_128() {
    let quarter = [4, 12, 24, 40, 36, 12];
    let wider = [1, 3, 8, 16, 22, 26, 24, 16, 9, 3];
    for (weights, first, bytes) in [(&[1.0][..], 5, &quarter[..]), (&[0.25, 0.5, 0.25], 3, &wider)] {
        let (mut picture, mut scratch) = ([0; 64], [0; 64]);
        picture[4 * 8 + 3] = 128;
        assert_eq!(blur(&mut picture, 16, 1, &mut scratch, weights, 1, 1.0, 0), 0);
        let alphas: Vec<u8> = picture.iter().skip(3).step_by(4).copied().collect();
        assert_eq!(&alphas[first..first + bytes.len()], bytes);
        let (number, units) = spread(weights, 1);
        assert_eq!((number, 131072 * moment(alphas.into_iter().map(u128::from), 8)), (0, 128 * u128::from(units)));
    }
}
