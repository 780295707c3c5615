//! The marked cases (rule 11) and the worked numbers of other rules.
use rule::blur::{blur, to_channel, Rounding};
use rule::edges::{extend, Edge};
use rule::grading::spread;
use rule::plate::job;
use rule::scheme::Passes;
use rule::shadow::{over, premultiply};
use rule::shift::{shift, whole};

fn passes(edge: Edge) -> Rounding<'static> {
    Rounding { weights: &[1.0], edge }
}

fn row(alphas: &[u8]) -> Vec<u8> {
    alphas.iter().flat_map(|a| [0, 0, 0, *a]).collect()
}

#[test]
fn a_edges() {
    assert_eq!(extend(5, 3, Edge::Mirror), Some(0));
    assert_eq!(extend(-4, 3, Edge::Mirror), Some(2));
    assert_eq!(extend(-4, 3, Edge::Wrap), Some(2));
    assert_eq!((extend(-1, 3, Edge::Mirror), extend(3, 3, Edge::Mirror)), (Some(0), Some(2)));
    assert_eq!(extend(3, 3, Edge::None), None);
}

#[test]
fn b_c_halving() {
    // samples 0, 0, 0, 255 stand at -1, 0, 1, 2 of output 0
    assert_eq!(passes(Edge::Duplicate).halve(&[0, 0, 255, 0])[0], 32);
    assert_eq!(passes(Edge::Duplicate).halve(&[255, 255, 255])[0], 255);
    assert_eq!(passes(Edge::Duplicate).halve(&[80, 0, 0, 0]), [40, 0]);
    assert_eq!(passes(Edge::None).halve(&[80, 0, 0, 0]), [30, 0]);
    assert_eq!(passes(Edge::Wrap).halve(&[80, 0, 0, 0]), [30, 10]);
}

#[test]
fn d_e_doubling_and_blur() {
    assert_eq!(passes(Edge::Duplicate).double(&[40, 0], 4), [40, 30, 10, 0]);
    let (mut picture, mut scratch) = (row(&[80, 0, 0, 0]), vec![7; 20]);
    assert_eq!(blur(&mut picture, 4, 1, &mut scratch, &[1.0], 1, 1.0, 0), 0);
    assert_eq!(picture, row(&[40, 30, 10, 0]));
    assert_eq!((&scratch[..16], &scratch[16..]), (&[0; 16][..], &[7; 4][..]));
}

#[test]
fn f_one_pixel() {
    for (edge, alpha) in [(3, 64), (0, 255)] {
        let mut picture = row(&[255]);
        assert_eq!(blur(&mut picture, 1, 1, &mut [9; 4], &[0.25, 0.5, 0.25], 0, 1.0, edge), 0);
        assert_eq!(picture, row(&[alpha]));
    }
}

#[test]
fn g_h_shift() {
    for (dx, moved) in [(1.0, [0, 1, 2]), (-4.0, [0, 0, 0]), (65536.0, [0, 0, 0])] {
        let mut picture = row(&[1, 2, 3]);
        assert_eq!(shift(&mut picture, 3, 1, dx, 0.0), 0);
        assert_eq!(picture, row(&moved));
    }
    assert_eq!((whole(0.5), whole(-0.5), whole(0.49999997)), (1, -1, 0));
}

#[test]
fn i_compositing() {
    assert_eq!((over(0, 100, 128), over(128, 255, 128)), (50, 255));
}

#[test]
fn faint_colours() {
    assert_eq!((premultiply(128, 1), premultiply(127, 1)), (1, 0));
    assert!((0..=255).all(|alpha| premultiply(255, alpha) == alpha && premultiply(0, alpha) == 0));
}

#[test]
fn rounding_just_below_a_half() {
    assert_eq!((to_channel(0.49999997), to_channel(0.5), to_channel(255.5)), (0, 1, 255));
}

#[test]
fn spread_of_a_quarter_a_half_a_quarter() {
    assert_eq!(spread(&[0.25, 0.5, 0.25], 0), (0, 65536));
    assert_eq!(spread(&[0.25, 0.5, 0.25], 1), (0, 458752));
}

#[test]
fn plate_of_one_pixel() {
    let file = [1, 0, 1, 0, 1, 0, 1, 0, 0x10, 0, 0, 0, 4, 0, 0, 0, 0x0A, 0x14, 0x1E, 0xFF];
    let mut plate = file;
    assert_eq!(job(&mut plate, &mut [5; 4]), 0);
    assert_eq!(plate, file);
}
