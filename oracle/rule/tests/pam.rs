//! Image files by hand, and through Netpbm's own tools where they are installed.
use rule::pam::{inward, outward, parsed, read, write};
use std::io::Write;
use std::process::{Command, Stdio};

const HEADER: &[u8] = b"P7\nWIDTH 2\nHEIGHT 1\nDEPTH 4\nMAXVAL 255\nTUPLTYPE RGB_ALPHA\nENDHDR\n";

fn file(body: &[u8]) -> Vec<u8> {
    [HEADER, body].concat()
}

#[test]
fn channels() {
    assert_eq!(
        [(1, 2), (1, 3), (1, 7), (2, 3), (0, 0), (254, 255)].map(|(c, a)| outward(c, a)),
        [128, 85, 36, 170, 0, 254]
    );
    assert_eq!([(128, 1), (127, 1), (128, 2), (255, 77), (255, 0)].map(|(c, a)| inward(c, a)), [1, 0, 1, 77, 0]);
    assert!((0..=255).all(|a| (0..=a).all(|c| inward(outward(c, a), a) == c)));
    assert!((0..=255).all(|a| (0..=255).all(|c| inward(c, a) <= a)));
}

#[test]
fn there_and_back() {
    let picture = [1, 2, 0, 2, 9, 128, 255, 255];
    let mut lent = [0xEE; 80];
    assert_eq!(write(&picture, 2, 1, &mut lent), (0, 73, 0));
    assert_eq!((&lent[..73], &lent[73..]), (&file(&[128, 255, 0, 2, 9, 128, 255, 255])[..], &[0xEE; 7][..]));
    let mut back = [0xDD; 10];
    assert_eq!(read(&lent[..73], &mut back), (0, 2, 1, 8));
    assert_eq!((&back[..8], &back[8..]), (&picture[..], &[0xDD; 2][..]));
}

#[test]
fn every_channel_under_every_alpha() {
    let picture: Vec<u8> =
        (0..65536_u32).flat_map(|i| [i as u8, 0, 255, (i / 256) as u8].map(|c| c.min((i / 256) as u8))).collect();
    let mut lent = vec![0; 300_000];
    let (number, length, _) = write(&picture, 256, 256, &mut lent);
    let mut back = vec![1; picture.len()];
    assert_eq!((number, read(&lent[..length as usize], &mut back)), (0, (0, 256, 256, 262144)));
    assert_eq!(back, picture);
}

#[test]
fn files_that_do_not_fit() {
    let good = file(&[7; 8]);
    assert!(parsed(&good).is_some());
    assert!((0..good.len()).all(|length| parsed(&good[..length]).is_none()));
    let text = String::from_utf8(good.clone()).unwrap();
    for (old, new) in [
        ("P7\n", "P7\r\n"),
        ("P7", "P6"),
        ("WIDTH 2", "WIDTH 02"),
        ("WIDTH 2", "WIDTH +2"),
        ("WIDTH 2", "WIDTH  2"),
        ("WIDTH 2", "WIDTH\t2"),
        ("WIDTH 2", "WIDTH 2 "),
        ("WIDTH 2", "WIDTH "),
        ("WIDTH 2", "width 2"),
        ("WIDTH 2", "WIDTH 4294967298"),
        ("WIDTH 2\nHEIGHT 1", "HEIGHT 1\nWIDTH 2"),
        ("WIDTH 2\nHEIGHT 1", "WIDTH 1\nHEIGHT 1"),
        ("DEPTH", "# scan\nDEPTH"),
        ("MAXVAL 255", "MAXVAL 0255"),
        ("MAXVAL 255", "MAXVAL 65535"),
        ("RGB_ALPHA", "RGB"),
        ("ENDHDR\n", "ENDHDR\n\n"),
    ] {
        assert_eq!(text.matches(old).count(), 1, "{old}");
        let mut picture = [5; 9];
        assert_eq!(read(text.replace(old, new).as_bytes(), &mut picture), (15, 0, 0, 0), "{new}");
        assert_eq!(picture, [5; 9]);
    }
    let sized = |w: u32, h: u32, body: usize| {
        let text = format!("P7\nWIDTH {w}\nHEIGHT {h}\nDEPTH 4\nMAXVAL 255\nTUPLTYPE RGB_ALPHA\nENDHDR\n");
        [text.as_bytes(), &vec![0; body]].concat()
    };
    assert!([(16384, 1), (1, 16384)].iter().all(|(w, h)| parsed(&sized(*w, *h, 65536)).is_some()));
    assert!([(16385, 1), (1, 16385)].iter().all(|(w, h)| parsed(&sized(*w, *h, 65540)).is_none()));
    assert!([(0, 1), (1, 0), (0, 0)].iter().all(|(w, h)| parsed(&sized(*w, *h, 0)).is_none()));
}

#[test]
fn refusals_in_their_order() {
    let mut short = [5; 7];
    assert_eq!(read(&file(&[7; 8]), &mut short), (3, 0, 0, 0));
    assert_eq!(read(&file(&[7; 7]), &mut short), (15, 0, 0, 0));
    assert_eq!(short, [5; 7]);
    let mut lent = [5; 72];
    assert_eq!(write(&[], 0, 1, &mut lent), (1, 0, 0));
    assert_eq!(write(&[9; 7], 2, 1, &mut lent), (2, 0, 0));
    assert_eq!(write(&[1, 1, 1, 1, 1, 1, 2, 1], 2, 1, &mut lent), (16, 0, 1));
    assert_eq!(write(&[1, 2, 1, 1, 1, 1, 2, 1], 2, 1, &mut lent), (16, 0, 0));
    assert_eq!(write(&[9; 8], 2, 1, &mut lent), (3, 0, 0));
    assert_eq!(lent, [5; 72]);
    assert_eq!(write(&[9; 8], 2, 1, &mut [0; 73]), (0, 73, 0));
}

/// What a shell line answers to a file.
fn piped(line: &str, input: &[u8]) -> Vec<u8> {
    let mut shell =
        Command::new("sh").args(["-c", line]).stdin(Stdio::piped()).stdout(Stdio::piped()).spawn().expect("a shell");
    shell.stdin.take().unwrap().write_all(input).unwrap();
    shell.wait_with_output().unwrap().stdout
}

/// As a PNG and back again the file is the same, byte for byte.
#[test]
fn through_netpbm() {
    if piped("command -v pamtopng && command -v pngtopam && command -v pamfile", &[]).is_empty() {
        println!("skipped: Netpbm is not installed");
        return;
    }
    let good = file(&[128, 255, 0, 2, 9, 128, 255, 255]);
    assert_eq!(piped("pamtopng | pngtopam -alphapam", &good), good);
    let said = String::from_utf8(piped("pamfile", &good)).unwrap();
    assert!(said.contains("PAM, 2 by 1 by 4 maxval 255") && said.contains("RGB_ALPHA"), "{said}");
}
