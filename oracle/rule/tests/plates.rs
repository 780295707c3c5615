//! Plates written by hand, and what comes of adding pictures to an empty one.
use rule::plate::{job, label, picture};
use rule::plate_write::{add, start};

/// One pixel, as document 01 has it.
const ONE: [u8; 20] = [1, 0, 1, 0, 1, 0, 1, 0, 0x10, 0, 0, 0, 4, 0, 0, 0, 0x0A, 0x14, 0x1E, 0xFF];

#[rustfmt::skip]
const TWO: [u8; 40] = [
    1, 0, 2, 0,
    1, 0, 1, 0, 28, 0, 0, 0, 4, 0, 0, 0,
    2, 0, 1, 0, 32, 0, 0, 0, 8, 0, 0, 0,
    0x0A, 0x14, 0x1E, 0xFF,
    1, 2, 3, 4, 5, 6, 7, 8,
];

#[test]
fn started_and_added() {
    let mut buffer = [0xEE; 50];
    assert_eq!(start(&mut buffer, 1), (0, 4));
    assert_eq!((&buffer[..4], &buffer[4..]), (&[1, 0, 0, 0][..], &[0xEE; 46][..]));
    assert_eq!(add(&mut buffer, 4, &[0x0A, 0x14, 0x1E, 0xFF], 1, 1, 7, 7), (0, 20));
    assert_eq!((&buffer[..20], &buffer[20..]), (&ONE[..], &[0xEE; 30][..]));
    assert_eq!(add(&mut buffer, 20, &[1, 2, 3, 4, 5, 6, 7, 8], 2, 1, 0, 0), (0, 40));
    assert_eq!((&buffer[..40], &buffer[40..]), (&TWO[..], &[0xEE; 10][..]));
}

/// The answer, after which the buffer must be as it was.
fn refused(buffer: &[u8], used: u64, picture: &[u8], w: u32, h: u32) -> u32 {
    let mut lent = buffer.to_vec();
    let (number, length) = add(&mut lent, used, picture, w, h, 1, 1);
    assert_eq!((&lent[..], length), (buffer, 0));
    number
}

#[test]
fn refusals_in_their_order() {
    let room = [ONE.to_vec(), vec![0; 30]].concat();
    for used in [0, 3, 4, 19, 21, 50, 51, (1 << 32) + 20, u64::MAX] {
        assert_eq!(refused(&room, used, &[], 0, 0), 10);
    }
    assert_eq!(refused(&room, 20, &[], 0, 1), 1);
    assert_eq!(refused(&room, 20, &[], 1, 16385), 1);
    assert_eq!(refused(&ONE, 20, &[1, 2, 3], 1, 1), 2);
    assert_eq!(refused(&ONE, 20, &[1, 2, 3, 4], 1, 1), 13);
    assert_eq!(refused(&room[..35], 20, &[1, 2, 3, 4], 1, 1), 13);
    assert_eq!(add(&mut room[..36].to_vec(), 20, &[1, 2, 3, 4], 1, 1, 1, 1), (0, 36));
    for (version, length, number) in [(4, 9, 10), (0, 9, 10), (65537, 9, 10), (0, 3, 10), (1, 3, 13), (1, 0, 13)] {
        let mut buffer = vec![5; length];
        assert_eq!(start(&mut buffer, version), (number, 0));
        assert_eq!(buffer, vec![5; length]);
    }
}

#[test]
fn sixty_four_pictures_and_16384_bytes() {
    let mut buffer = vec![0; 20000];
    let mut used = start(&mut buffer, 1).1;
    for i in 0..64 {
        let (number, length) = add(&mut buffer, used, &[i, 0, 0, 0], 1, 1, 1, 1);
        assert_eq!((number, length), (0, used + 16));
        used = length;
    }
    assert_eq!(refused(&buffer, used, &[1, 2, 3, 4], 1, 1), 13);
    let plate = &mut buffer[..used as usize];
    assert!((0..64).all(|i| plate[picture(plate, i).1.offset as usize] == i as u8));
    assert_eq!(job(plate, &mut [0; 4]), 0);
    let empty = [vec![1, 0, 0, 0], vec![0; 20000]].concat();
    assert_eq!(add(&mut empty.clone(), 4, &[9; 16368], 1, 4092, 0, 0), (0, 16384));
    assert_eq!(refused(&empty, 4, &[9; 16372], 1, 4093), 13);
}

/// Version 2 by hand: one pixel in microohms of sheet 258, then two in milliohms of sheet 0.
#[rustfmt::skip]
const LABELLED: [u8; 48] = [
    2, 0, 2, 0,
    1, 0, 1, 0, 36, 0, 0, 0, 4, 0, 0, 0, 2, 0, 2, 1,
    2, 0, 1, 0, 40, 0, 0, 0, 8, 0, 0, 0, 1, 0, 0, 0,
    0x0A, 0x14, 0x1E, 0xFF,
    1, 2, 3, 4, 1, 2, 3, 4,
];

#[test]
fn labelled() {
    let mut buffer = [0xEE; 50];
    assert_eq!(start(&mut buffer, 2), (0, 4));
    assert_eq!(add(&mut buffer, 4, &LABELLED[36..40], 1, 1, 2, 258), (0, 24));
    assert_eq!(add(&mut buffer, 24, &LABELLED[40..], 2, 1, 1, 0), (0, 48));
    assert_eq!((&buffer[..48], &buffer[48..]), (&LABELLED[..], &[0xEE; 2][..]));
    assert_eq!([0, 1, 2].map(|i| label(&LABELLED, i)), [(0, 2, 258), (0, 1, 0), (12, 0, 0)]);
    let second = picture(&LABELLED, 1).1;
    assert_eq!((second.w, second.h, second.offset, second.length), (2, 1, 40, 8));
    // flat pictures stay under the job, and with them the whole plate
    let mut plate = LABELLED;
    assert_eq!(job(&mut plate, &mut [9; 8]), 0);
    assert_eq!(plate, LABELLED);
}

#[test]
fn version_1_has_no_label() {
    assert_eq!([0, 1].map(|i| label(&ONE, i)), [(0, 0, 0), (12, 0, 0)]);
    let added = |unit, sheet| {
        let mut buffer = [ONE.to_vec(), vec![0; 30]].concat();
        assert_eq!(add(&mut buffer, 20, &[1, 2, 3, 4, 5, 6, 7, 8], 2, 1, unit, sheet), (0, 40));
        buffer
    };
    assert_eq!(added(0, 0), added(u32::MAX, 65535));
    assert_eq!(added(1, 1)[..40], TWO);
}

#[test]
fn wrong_units_and_versions() {
    for (at, byte) in [(16, 0), (16, 3), (17, 1), (32, 3), (33, 1), (0, 1), (0, 4), (0, 0), (1, 1)] {
        let mut plate = LABELLED;
        plate[at] = byte;
        assert_eq!((label(&plate, 0), picture(&plate, 0).0, job(&mut plate, &mut [0; 9])), ((10, 0, 0), 10, 10));
    }
    let under_2 = [&[2], &ONE[1..]].concat();
    assert_eq!(label(&under_2, 0).0, 10);
    let room = [LABELLED.to_vec(), vec![0; 30]].concat();
    for unit in [0, 3, 257, 65537, u32::MAX] {
        assert_eq!(add(&mut room.clone(), 48, &[], 0, 0, unit, 0), (10, 0));
    }
    assert_eq!(add(&mut room.clone(), 48, &[], 0, 0, 2, 0), (1, 0));
}

/// Version 3 is version 2's layout: the same plate under another number.
#[test]
fn version_3_is_laid_out_as_version_2() {
    let mut buffer = [0xEE; 50];
    assert_eq!(start(&mut buffer, 3), (0, 4));
    assert_eq!(add(&mut buffer, 4, &LABELLED[36..40], 1, 1, 2, 258), (0, 24));
    assert_eq!(add(&mut buffer, 24, &LABELLED[40..], 2, 1, 1, 0), (0, 48));
    let third = [&[3], &LABELLED[1..]].concat();
    assert_eq!((&buffer[..48], &buffer[48..]), (&third[..], &[0xEE; 2][..]));
    assert_eq!([0, 1, 2].map(|i| label(&third, i)), [(0, 2, 258), (0, 1, 0), (12, 0, 0)]);
    assert_eq!(picture(&third, 1), picture(&LABELLED, 1));
}

/// 16384 by 1 takes 65536 bytes: in versions 1 and 2 there is no room, whatever the buffer. A wrong length comes before.
#[test]
fn sides_to_16384_in_version_3_alone() {
    for (version, entry) in [(1, 12), (2, 16), (3, 16)] {
        let empty = [vec![version, 0, 0, 0], vec![0; 70000]].concat();
        for (w, h) in [(16384, 1), (1, 16384), (4097, 1), (1, 4097)] {
            let body = vec![7; (4 * w * h) as usize];
            let (number, length) = add(&mut empty.clone(), 4, &body, w, h, 1, 1);
            let whole = (4 + entry + body.len()) as u64;
            assert_eq!((number, length), if version == 3 { (0, whole) } else { (13, 0) });
            assert_eq!(refused(&empty, 4, &body[1..], w, h), 2);
        }
        assert_eq!(refused(&empty, 4, &vec![7; 4 * 16385], 16385, 1), 1);
    }
}

/// Two pictures that fill a plate of 16 MiB, and one pixel more.
#[test]
fn sixteen_mebibytes() {
    let mut buffer = vec![0; (16 << 20) + 4];
    let used = start(&mut buffer, 3).1;
    let (number, used) = add(&mut buffer, used, &vec![5; 4 * 16384 * 255], 16384, 255, 1, 1);
    assert_eq!((number, used), (0, 20 + 4 * 16384 * 255));
    assert_eq!(add(&mut buffer.clone(), used, &vec![6; 4 * 16376], 16376, 1, 2, 2), (13, 0));
    assert_eq!(add(&mut buffer, used, &vec![6; 4 * 16375], 16375, 1, 2, 2), (0, 16 << 20));
    assert_eq!(label(&buffer[..16 << 20], 1), (0, 2, 2));
    assert_eq!(add(&mut buffer, 16 << 20, &[1, 2, 3, 4], 1, 1, 1, 1), (13, 0));
}
