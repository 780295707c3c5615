//! The whole-number profile on answers made by hand, and its refusals in their order.
use rule::whole::blur_whole;

/// A row of alphas blurred.
fn row(alphas: &[u8], numerators: &[u32], n: u32, edge: u32) -> Vec<u8> {
    let mut picture: Vec<u8> = alphas.iter().flat_map(|a| [0, 0, 0, *a]).collect();
    let mut scratch = vec![9; picture.len() + 1];
    assert_eq!(blur_whole(&mut picture, alphas.len() as u32, 1, &mut scratch, numerators, n, edge), 0);
    assert!(scratch[..picture.len()].iter().all(|byte| *byte == 0) && scratch[picture.len()] == 9);
    picture.iter().skip(3).step_by(4).copied().collect()
}

#[test]
fn by_hand() {
    // a column of one pixel meets the kernel too: under Duplicate the sum is 65536 there
    assert_eq!(row(&[80, 0, 0, 0], &[16384, 32768, 16384], 0, 0), [60, 20, 0, 0]);
    // one half and one half, the earlier tap at -1; 1·32768 + 32768 is a whole one
    assert_eq!(row(&[1, 0, 0], &[32768, 32768], 0, 0), [1, 1, 0]);
    assert_eq!(row(&[7, 200, 3], &[0, 65536, 0], 0, 2), [7, 200, 3]);
    assert_eq!(row(&[7, 200, 3], &[65536], 0, 3), [7, 200, 3]);
    assert_eq!(row(&[255, 255], &[0; 33], 2, 1), [0, 0]);
    // 255 · 65535 + 32768 is just below 256 · 65536
    assert_eq!(row(&[255], &[65535], 0, 0), [255]);
    // 2 · 16383 + 32768 is just below 65536, and 2 · 16384 + 32768 is not; then the column pass
    assert_eq!((row(&[2], &[16383], 0, 0), row(&[2], &[16384], 0, 0)), (vec![0], vec![0]));
    assert_eq!(row(&[255], &[16384, 32768, 16384], 0, 3), [64]);
}

#[test]
fn refusals_in_their_order() {
    let answer = |w, length, scratch, numerators: &[u32], n, edge| {
        let (mut picture, mut work) = (vec![3; length], vec![4; scratch]);
        let number = blur_whole(&mut picture, w, 1, &mut work, numerators, n, edge);
        let kept = picture.iter().all(|byte| *byte == 3) && work.iter().all(|byte| *byte == 4);
        assert!(kept || number == 0);
        number
    };
    assert_eq!(answer(0, 5, 3, &[], 15, 4), 1);
    assert_eq!(answer(1, 5, 3, &[], 15, 4), 2);
    assert_eq!(answer(1, 4, 3, &[u32::MAX; 34], 15, 4), 3);
    assert_eq!(answer(1, 4, 4, &[u32::MAX; 34], 15, 4), 4);
    for heavy in [&[65537][..], &[1 << 31, 1 << 31], &[u32::MAX; 33], &[65536, 1], &[u32::MAX, 65537]] {
        assert_eq!(answer(1, 4, 4, heavy, 15, 4), 14);
    }
    assert_eq!(answer(1, 4, 4, &[65536], 15, 4), 6);
    assert_eq!(answer(1, 4, 4, &[65536], 14, 4), 9);
    assert_eq!(answer(1, 4, 4, &[65536], 14, 3), 0);
}
