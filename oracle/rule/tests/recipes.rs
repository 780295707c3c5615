//! Lists of recipes made by hand, and the refusals in their order.
use rule::recipes::{recipes, Step, BLUR, SHADOW, SHIFT};
use rule::{blur, shadow, shift, MOST_TAPS};

const PLAIN: Step = Step {
    operation: BLUR,
    kernel: 0,
    taps: 3,
    n: 0,
    edge: 0,
    composite: 0,
    dx: 1.0,
    dy: 0.0,
    strength: 1.0,
    colour: [1.0, 0.5, 0.25, 0.75],
};
const SHIFTED: Step = Step { operation: SHIFT, ..PLAIN };
const CAST: Step = Step { operation: SHADOW, ..PLAIN };

/// One kernel of 1/4, 1/2, 1/4 and no share behind it, then `rest` weights.
fn table(rest: usize) -> Vec<f32> {
    let mut table = vec![0.25, 0.5, 0.25];
    table.resize(MOST_TAPS, f32::NAN);
    table.extend(vec![0.0; rest]);
    table
}

/// The number, the index and the picture that a list leaves; the work buffers end as they must.
fn run(picture: &[u8], w: u32, h: u32, steps: &[Step], table: &[f32]) -> (u32, u64, Vec<u8>) {
    let (mut left, length) = (picture.to_vec(), picture.len());
    let (mut scratch, mut copy) = (vec![7; length + 1], vec![8; length]);
    let (number, index) = recipes(&mut left, w, h, &mut scratch, &mut copy, steps, table);
    let (first, second) = if number == 0 { (0, 0) } else { (7, 8) };
    assert_eq!(scratch, [vec![first; length], vec![7]].concat());
    assert_eq!(copy, vec![second; length]);
    (number, index, left)
}

fn alphas(bytes: &[u8]) -> Vec<u8> {
    bytes.iter().flat_map(|a| [0, 0, 0, *a]).collect()
}

#[test]
fn worked_list() {
    let picture = alphas(&[255, 0]);
    assert_eq!(run(&picture, 2, 1, &[SHIFTED, PLAIN], &table(0)), (0, 0, alphas(&[64, 191])));
    assert_eq!(run(&picture, 2, 1, &[PLAIN, SHIFTED], &table(0)), (0, 0, alphas(&[0, 191])));
    assert_eq!(run(&picture, 2, 1, &[PLAIN, Step { operation: 3, ..PLAIN }], &table(0)), (19, 1, picture.clone()));
    assert_eq!(run(&picture, 2, 1, &[], &[]), (0, 0, picture));
}

#[test]
fn frame() {
    let bad = [Step { operation: 9, ..PLAIN }];
    let call = |w, length: usize, scratch: usize, copy: usize, steps: &[Step]| {
        recipes(&mut vec![3; length], w, 1, &mut vec![7; scratch], &mut vec![8; copy], steps, &table(0))
    };
    for steps in [&bad[..], &[], &[SHIFTED]] {
        assert_eq!(call(0, 0, 0, 0, steps), (1, 0));
        assert_eq!(call(2, 7, 0, 0, steps), (2, 0));
        assert_eq!(call(2, 8, 7, 8, steps), (3, 0));
        assert_eq!(call(2, 8, 8, 7, steps), (3, 0));
    }
}

#[test]
fn own_numbers() {
    let picture = alphas(&[255, 0]);
    let one = |step: Step| run(&picture, 2, 1, &[SHIFTED, step, CAST], &table(32)).0;
    assert_eq!(one(Step { kernel: 1, taps: 0, ..PLAIN }), 19);
    assert_eq!(one(Step { operation: 3, taps: 0, ..PLAIN }), 19);
    assert_eq!(one(Step { kernel: 1, taps: 0, n: 99, edge: 9, strength: f32::NAN, ..SHIFTED }), 0);
    assert_eq!([0, 34, u32::MAX].map(|taps| one(Step { taps, n: 15, ..PLAIN })), [4; 3]);
    assert_eq!([4, 33].map(|taps| one(Step { taps, n: 15, ..PLAIN })), [5; 2]);
    assert_eq!(one(Step { n: 15, strength: f32::NAN, ..PLAIN }), 6);
    assert_eq!(one(Step { strength: f32::NAN, edge: 4, ..PLAIN }), 7);
    assert_eq!(one(Step { dx: f32::NAN, colour: [2.0; 4], ..PLAIN }), 0);
    assert_eq!(one(Step { dy: f32::INFINITY, colour: [2.0; 4], ..CAST }), 7);
    assert_eq!(one(Step { edge: 4, colour: [2.0; 4], ..CAST }), 8);
    assert_eq!(one(Step { edge: 4, ..CAST }), 9);
}

/// The order of the list goes before that of the numbers.
#[test]
fn first_bad_recipe() {
    let (picture, edge, taps) = (alphas(&[255, 0]), Step { edge: 4, ..PLAIN }, Step { taps: 0, ..PLAIN });
    assert_eq!(run(&picture, 2, 1, &[PLAIN, edge, SHIFTED, taps], &table(0)), (9, 1, picture.clone()));
    assert_eq!(run(&picture, 2, 1, &[taps, PLAIN, edge], &table(0)), (4, 0, picture));
}

/// A list leaves what its single calls leave one after the other.
#[test]
fn as_single_calls() {
    let picture: Vec<u8> = (0..4 * 5 * 3).map(|i| (i * i % 253) as u8).collect();
    let (steps, table) = ([CAST, PLAIN, SHIFTED, Step { composite: 1, n: 1, ..CAST }], table(5));
    let (mut now, mut scratch, mut copy) = (picture.clone(), vec![0; 60], vec![0; 60]);
    let weights = &table[..3];
    for step in &steps {
        let recipe = shadow::Recipe { dx: 1.0, dy: 0.0, strength: 1.0, colour: step.colour };
        let number = match step.operation {
            BLUR => blur::blur(&mut now, 5, 3, &mut scratch, weights, step.n, 1.0, 0),
            SHIFT => shift::shift(&mut now, 5, 3, 1.0, 0.0),
            _ => {
                let original = step.composite != 0;
                shadow::shadow(&mut now, 5, 3, &mut scratch, &mut copy, weights, step.n, 0, recipe, original)
            }
        };
        assert_eq!(number, 0);
    }
    assert_eq!(run(&picture, 5, 3, &steps, &table), (0, 0, now));
}
