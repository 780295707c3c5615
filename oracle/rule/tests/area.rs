//! Area sums made by hand, and the refusals in their order.
use rule::area::{box_sum, build, update};

/// Alphas 1 2 3 over 4 5 6, with colours that do not count.
fn picture() -> Vec<u8> {
    (1..7).flat_map(|a| [200, 100, 50, a]).collect()
}

const TABLE: [u32; 8] = [1, 3, 6, 5, 12, 21, 77, 78];

#[test]
fn built_and_asked() {
    let mut table = [70, 71, 72, 73, 74, 75, 77, 78];
    assert_eq!(build(&picture(), 3, 2, &mut table), 0);
    assert_eq!(table, TABLE);
    assert_eq!(box_sum(&TABLE, 3, 2, 0, 0, 3, 2), (0, 21));
    assert_eq!(box_sum(&TABLE, 3, 2, 1, 1, 2, 1), (0, 11));
    assert_eq!(box_sum(&TABLE, 3, 2, 2, 0, 1, 2), (0, 9));
    assert_eq!(box_sum(&TABLE, 3, 2, 1, 1, 1, 1), (0, 5));
    // a table that no picture has: 5 - 7 - 9 + 1, modulo 2^32
    assert_eq!(box_sum(&[1, 9, 7, 5], 2, 2, 1, 1, 1, 1), (0, (1 << 32) - 10));
}

#[test]
fn updated() {
    let mut table = TABLE;
    assert_eq!(update(&mut table, 3, 2, 1, 2, 0), 0);
    assert_eq!(table, [1, 1, 4, 5, 10, 19, 77, 78]);
    assert_eq!(update(&mut table, 3, 2, 5, 6, 255), 0);
    assert_eq!(table, [1, 1, 4, 5, 10, 268, 77, 78]);
    let mut one = [3, 9, 9, 9, 9, 9];
    assert_eq!(update(&mut one, 3, 1, 0, 4, 0), 0);
    assert_eq!(one, [u32::MAX, 5, 5, 9, 9, 9]);
}

#[test]
fn refusals_in_their_order() {
    let mut table = TABLE;
    assert_eq!(build(&[], 0, 2, &mut table[..0]), 1);
    assert_eq!(build(&picture()[1..], 3, 2, &mut table[..5]), 2);
    assert_eq!(build(&picture(), 3, 2, &mut table[..5]), 3);
    assert_eq!(box_sum(&table[..5], 16385, 2, 0, 0, 0, 0), (1, 0));
    assert_eq!(box_sum(&table[..5], 3, 2, 0, 0, 0, 0), (3, 0));
    for [x, y, wide, high] in [[0, 0, 0, 1], [0, 0, 1, 0], [0, 0, 4, 1], [3, 0, 1, 1], [0, 2, 1, 1], [1, 1, 1, 2]] {
        assert_eq!(box_sum(&table, 3, 2, x, y, wide, high), (20, 0));
    }
    assert_eq!(box_sum(&table, 3, 2, u32::MAX, 0, 2, 1), (20, 0));
    assert_eq!(box_sum(&table, 3, 2, 1, 0, u32::MAX, 1), (20, 0));
    assert_eq!(update(&mut table, 3, 0, 0, 0, 1), 1);
    assert_eq!(update(&mut table[..5], 3, 2, 6, 0, 1), 3);
    for place in [6, 7, 1 << 32, (1 << 32) + 1, u64::MAX] {
        assert_eq!(update(&mut table, 3, 2, place, 0, 1), 20);
    }
    assert_eq!(table, TABLE);
}
