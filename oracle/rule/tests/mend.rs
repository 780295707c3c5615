//! The mender by hand.
use rule::grading::check;
use rule::mend::{mend, rebuild, Change};

/// Four pixels, of which the second and the fourth fail the check.
const OLD: [u8; 16] = [9, 9, 9, 9, 200, 3, 77, 50, 0, 0, 0, 0, 1, 2, 255, 0];
const MENDED: [u8; 16] = [9, 9, 9, 9, 50, 3, 50, 50, 0, 0, 0, 0, 0, 0, 0, 0];
const LIST: [Change; 2] = [Change { place: 1, pixel: 0x324D_03C8 }, Change { place: 3, pixel: 0x00FF_0201 }];
const REST: Change = Change { place: 7, pixel: 7 };

#[test]
fn mended_and_rebuilt() {
    for room in [2, 3] {
        let (mut picture, mut list) = (OLD, vec![REST; room]);
        assert_eq!(mend(&mut picture, 2, 2, &mut list), (0, 2));
        assert_eq!((picture, &list[..2], &list[2..]), (MENDED, &LIST[..], &vec![REST; room - 2][..]));
        assert_eq!(check(&picture, 2, 2), (0, false, 0));
        assert_eq!((mend(&mut picture, 2, 2, &mut []), picture), ((0, 0), MENDED));
        assert_eq!((rebuild(&mut picture, 2, 2, &list[..2]), picture), (0, OLD));
    }
}

#[test]
fn refusals_in_their_order() {
    let (mut picture, mut list) = (OLD, [REST]);
    assert_eq!(mend(&mut picture, 0, 2, &mut list), (1, 0));
    assert_eq!(mend(&mut picture, 2, 1, &mut list), (2, 0));
    assert_eq!(mend(&mut picture, 2, 2, &mut list), (17, 0));
    assert_eq!((picture, list), (OLD, [REST]));
    let [first, second] = LIST;
    assert_eq!(rebuild(&mut picture, 16385, 2, &[second, first]), 1);
    assert_eq!(rebuild(&mut picture, 1, 2, &[second, first]), 2);
    let far = |place| Change { place, pixel: 0 };
    for list in [
        vec![second, first],
        vec![first, first],
        vec![first, far(4)],
        vec![far(u32::MAX)],
        vec![far(0), far(2), far(1)],
    ] {
        assert_eq!((rebuild(&mut picture, 2, 2, &list), picture), (18, OLD));
    }
    assert_eq!((rebuild(&mut picture, 2, 2, &[]), picture), (0, OLD));
}

#[test]
fn every_channel_under_every_alpha() {
    let pixel = |i: u32| [i as u8, (i + 1) as u8, (i + 128) as u8, (i / 256) as u8];
    let old: Vec<u8> = (0..65536).flat_map(pixel).collect();
    let (mut picture, mut list) = (old.clone(), vec![REST; 65536]);
    let (number, count) = mend(&mut picture, 256, 256, &mut list);
    let failing = (0..65536).filter(|i| pixel(*i)[..3].iter().any(|c| *c > pixel(*i)[3])).count();
    assert_eq!((number, count), (0, failing as u64));
    assert!((0..65536).all(|i| (0..4).all(|c| picture[4 * i + c] == old[4 * i + c].min(old[4 * i + 3]))));
    assert_eq!((rebuild(&mut picture, 256, 256, &list[..failing]), picture), (0, old));
}
