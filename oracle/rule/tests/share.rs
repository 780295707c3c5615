//! Shares made by hand, what they sum to, and the refusals in their order.
use rule::edges::EDGES;
use rule::exact;
use rule::scheme::Plane;
use rule::share::{Blur, Point};

fn blur(w: u32, h: u32, numerators: &[u32], n: u32, edge: u32) -> Blur<'_> {
    Blur { w, h, numerators, n, edge }
}

/// The listing as pairs.
fn listed(blur: Blur, out_place: u64) -> Vec<(u64, u64)> {
    blur.points(out_place).unwrap().iter().map(|point| (point.place, point.share)).collect()
}

#[test]
fn one_pixel() {
    for n in 0..4 {
        for edge in 0..3 {
            assert_eq!(listed(blur(1, 1, &[65536], n, edge), 0), [(0, 1 << (10 * n + 32))]);
            assert_eq!(listed(blur(1, 1, &[16384, 32768, 16384], n, edge), 0), [(0, 1 << (10 * n + 32))]);
        }
        // under None halving keeps 3 of 8 and doubling 3 of 4, along each axis
        assert_eq!(listed(blur(1, 1, &[65536], n, 3), 0), [(0, 81_u64.pow(n) << 32)]);
        assert_eq!(listed(blur(1, 1, &[0, 3, 9], n, 3), 0), [(0, 81_u64.pow(n) * 9)]);
        assert_eq!(listed(blur(1, 1, &[5, 0], n, 3), 0), []);
    }
}

#[test]
fn rows_by_hand() {
    let quarter = [16384, 32768, 16384];
    let row = |edge, out_place| listed(blur(3, 1, &quarter, 0, edge), out_place);
    assert_eq!(row(0, 0), [(0, 49152 << 16), (1, 16384 << 16)]);
    assert_eq!(row(1, 0), [(0, 32768 << 16), (1, 16384 << 16), (2, 16384 << 16)]);
    assert_eq!(row(2, 2), [(1, 16384 << 16), (2, 49152 << 16)]);
    // a column of one pixel keeps half of its weight
    assert_eq!(row(3, 2), [(1, 16384 << 15), (2, 32768 << 15)]);
    // the earlier tap of an even count lies before the output; the column of one pixel counts 3
    let two = blur(3, 1, &[1, 2], 0, 0);
    assert_eq!(listed(two, 1), [(0, 3), (1, 6)]);
    assert_eq!(listed(two, 0), [(0, 9)]);
    assert_eq!((two.share(1, 0), two.share(0, 1)), ((0, 3), (0, 0)));
    // two by two under Wrap: by axes 2 and 1, of the output itself and of the other
    assert_eq!(listed(blur(2, 2, &[1, 2], 0, 1), 1), [(0, 2), (1, 4), (2, 1), (3, 2)]);
    // halved 1 3 3 1 of 8, doubled 1 3 of 4: a row of two makes one, so that each input is half
    assert_eq!(listed(blur(2, 1, &[65536], 1, 0), 0), [(0, 1 << 41), (1, 1 << 41)]);
    assert_eq!(listed(blur(2, 1, &[65536], 1, 3), 1), [(0, 27 << 32), (1, 27 << 32)].map(|(p, s)| (p, 3 * s)));
}

/// Share times channel is the exact blur, and a kernel of 65536 loses nothing but under None.
#[test]
fn sums() {
    let kernels = [&[65536][..], &[1, 65535], &[9000, 3, 40000, 16533], &[0, 0, 0, 65536], &[5, 7, 11]];
    for (i, (w, h)) in [(1, 1), (2, 3), (5, 2), (7, 1), (1, 9), (4, 4)].into_iter().enumerate() {
        let values: Vec<u8> = (0..w * h).map(|v| (v * 37 + i * 11) as u8).collect();
        let picture = Plane { w, h, values };
        for (kernel, n) in kernels.into_iter().flat_map(|kernel| (0..4).map(move |n| (kernel, n))) {
            let numerators: Vec<u64> = kernel.iter().map(|m| u64::from(*m)).collect();
            for (edge, mode) in EDGES.into_iter().enumerate() {
                let right = exact::blur(&numerators, mode, n, &picture);
                for (out_place, right) in right.values.iter().enumerate() {
                    let points = listed(blur(w as u32, h as u32, kernel, n, edge as u32), out_place as u64);
                    let product =
                        |(place, share): &(u64, u64)| u128::from(*share) * u128::from(picture.values[*place as usize]);
                    assert_eq!(points.iter().map(product).sum::<u128>(), *right);
                    let whole: u128 = points.iter().map(|(_, share)| u128::from(*share)).sum();
                    if numerators.iter().sum::<u64>() == 65536 {
                        assert!(whole <= exact::scale(n) && (edge == 3 || whole == exact::scale(n)));
                    }
                    assert!(points.windows(2).all(|pair| pair[0].0 < pair[1].0));
                }
            }
        }
    }
}

#[test]
fn room() {
    let rest = Point { place: 7, share: 8 };
    let row = blur(3, 1, &[16384, 32768, 16384], 0, 0);
    for room in 0..5 {
        let mut list = vec![rest; room];
        let answer = row.shares(0, &mut list);
        if room < 2 {
            assert_eq!((answer, list), ((17, 0), vec![rest; room]));
        } else {
            assert_eq!((answer, &list[2..]), ((0, 2), &vec![rest; room - 2][..]));
            assert_eq!(list[..2], [Point { place: 0, share: 49152 << 16 }, Point { place: 1, share: 16384 << 16 }]);
        }
    }
    assert_eq!(blur(3, 1, &[0; 33], 3, 1).shares(2, &mut []), (0, 0));
}

#[test]
fn refusals_in_their_order() {
    let asked = |w, numerators: &[u32], n, edge, out_place, in_place| {
        let asked = blur(w, 2, numerators, n, edge);
        let mut list = [];
        if in_place == 0 {
            let expected = asked.share(out_place, 0).0;
            let listed = asked.shares(out_place, &mut list);
            assert_eq!(listed, (if expected == 0 { 17 } else { expected }, 0));
        }
        asked.share(out_place, in_place)
    };
    assert_eq!(asked(0, &[], 4, 4, 6, 0), (1, 0));
    assert_eq!(asked(16385, &[70000; 34], 4, 4, 1 << 40, 0), (1, 0));
    assert_eq!(asked(3, &[70000; 34], 4, 4, 6, 0), (4, 0));
    assert_eq!(asked(3, &[], 4, 4, 6, 0), (4, 0));
    assert_eq!(asked(3, &[65537], 4, 4, 6, 0), (9, 0));
    for n in [4, 14, 15, u32::MAX] {
        assert_eq!(asked(3, &[65537], n, 3, 6, 0), (21, 0));
    }
    for place in [6, 7, 1 << 32, (1 << 32) + 1, u64::MAX] {
        assert_eq!(asked(3, &[65537], 3, 3, place, 0), (22, 0));
        assert_eq!(asked(3, &[65537], 3, 3, 0, place), (22, 0));
    }
    for heavy in [&[65537][..], &[1 << 31, 1 << 31], &[u32::MAX; 33], &[65536, 1]] {
        assert_eq!(asked(3, heavy, 3, 3, 5, 0), (14, 0));
    }
    assert_eq!(asked(3, &[65536], 0, 3, 5, 5), (0, 1 << 32));
    assert_eq!(asked(3, &[65536], 0, 3, 5, 4), (0, 0));
    assert_eq!(asked(3, &[65536], 0, 3, 0, 0), (0, 1 << 32));
}
