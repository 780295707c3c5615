//! Planes made by hand, there and back, and the refusals in their order.
use rule::planes::{blur_planes, from_planes, interleaved, planes, shadow_planes, shift_planes, to_planes};
use rule::shadow::{self, Recipe};
use rule::{blur, shift};

/// Two by one pixels, and their planes.
const PICTURE: [u8; 8] = [1, 2, 3, 4, 5, 6, 7, 8];
const PLANES: [u8; 8] = [1, 5, 2, 6, 3, 7, 4, 8];

#[test]
fn worked_picture() {
    let mut dst = [9; 10];
    assert_eq!(to_planes(&PICTURE, 2, 1, &mut dst), 0);
    assert_eq!((&dst[..8], &dst[8..]), (&PLANES[..], &[9, 9][..]));
    assert_eq!(from_planes(&PLANES, 2, 1, &mut dst), 0);
    assert_eq!((&dst[..8], &dst[8..]), (&PICTURE[..], &[9, 9][..]));
    let mut moved = PLANES;
    assert_eq!(shift_planes(&mut moved, 2, 1, 1.0, 0.0), 0);
    assert_eq!(moved, [0, 1, 0, 2, 0, 3, 0, 4]);
}

#[test]
fn there_and_back() {
    for area in [1, 2, 3, 10, 63, 64, 65] {
        let bytes: Vec<u8> = (0..4 * area).map(|i| (i * 7 % 251) as u8).collect();
        assert_eq!(interleaved(&planes(&bytes)), bytes);
        assert_eq!(planes(&interleaved(&bytes)), bytes);
        assert_eq!(area == 1, planes(&bytes) == bytes);
    }
}

#[test]
fn refused() {
    let mut dst = [9; 8];
    for convert in [to_planes, from_planes] {
        assert_eq!(convert(&[], 0, 3, &mut []), 1);
        assert_eq!(convert(&PICTURE, 1, 1, &mut []), 2);
        assert_eq!(convert(&PICTURE, 2, 1, &mut dst[..7]), 3);
        assert_eq!(dst, [9; 8]);
    }
}

/// What an operation does to planes is what it does to the picture, converted.
#[test]
fn as_on_pictures() {
    let picture: Vec<u8> = (0..4 * 5 * 3).map(|i| (i * i % 253) as u8).collect();
    let weights = [0.25, 0.5, 0.125];
    let recipe = Recipe { dx: 1.0, dy: -1.0, strength: 1.0, colour: [1.0, 0.5, 0.25, 0.75] };
    let work = [7; 62];
    for i in 0..16 {
        let (edge, n) = (i % 4, i / 4);
        let (mut whole, mut apart, mut scratch, mut copy) = (picture.clone(), planes(&picture), work, work);
        assert_eq!(blur::blur(&mut whole, 5, 3, &mut scratch, &weights, n, 1.0, edge), 0);
        assert_eq!(blur_planes(&mut apart, 5, 3, &mut copy, &weights, n, 1.0, edge), 0);
        assert_eq!((planes(&whole), scratch), (apart.clone(), copy));
        assert_eq!(shift::shift(&mut whole, 5, 3, 2.0, -1.0), shift_planes(&mut apart, 5, 3, 2.0, -1.0));
        assert_eq!(planes(&whole), apart);
        for composite in [false, true] {
            let (mut scratches, mut copies) = ([work; 2], [work; 2]);
            let [s, t] = &mut scratches;
            let [c, d] = &mut copies;
            assert_eq!(shadow::shadow(&mut whole, 5, 3, s, c, &weights, n, edge, recipe, composite), 0);
            assert_eq!(shadow_planes(&mut apart, 5, 3, t, d, &weights, n, edge, recipe, composite), 0);
            assert_eq!((planes(&whole), scratches[0], copies[0]), (apart.clone(), scratches[1], copies[1]));
        }
    }
}
