//! The binding's names, words and limits beside those of the header for C.
use corbelrush::*;
use std::fs::read_to_string;

fn header() -> String {
    read_to_string(concat!(env!("CARGO_MANIFEST_DIR"), "/../../include/corbelrush.h")).unwrap()
}

/// The number that a macro stands for.
fn limit(header: &str, name: &str) -> u64 {
    let mut lines = header.lines().filter_map(|line| line.strip_prefix("#define CORBELRUSH_"));
    let line = lines.find(|line| line.split_whitespace().next() == Some(name)).expect(name);
    line.split_whitespace().nth(1).unwrap().parse().unwrap()
}

#[test]
fn the_same_words() {
    let header = header();
    let (_, function) = header.split_once("corbelrush_says(uint32_t number)").unwrap();
    let (list, _) = function.split_once("};").unwrap();
    let words: Vec<&str> = list.split('"').skip(1).step_by(2).collect();
    let ours: Vec<String> = Refusal::ALL.iter().map(Refusal::to_string).collect();
    assert_eq!(words[0], "done");
    assert_eq!(words[1..], ours);
    assert!(Refusal::ALL.iter().zip(1..).all(|(refusal, number)| refusal.number() == number));
}

#[test]
fn the_same_limits() {
    let header = header();
    let limits = [
        ("MAX_SIDE", MAX_SIDE.into()),
        ("MAX_TAPS", MAX_TAPS as u64),
        ("MAX_DECIMATIONS", MAX_DECIMATIONS.into()),
        ("MAX_SHARE_DECIMATIONS", MAX_SHARE_DECIMATIONS.into()),
        ("MAX_BOX", MAX_BOX.into()),
        ("MAX_PLATE_PICTURES", MAX_PLATE_PICTURES.into()),
        ("MAX_PLATE_BYTES", MAX_PLATE_BYTES as u64),
        ("SMALL_PLATE_BYTES", SMALL_PLATE_BYTES as u64),
        ("PAM_HEADER", PAM_HEADER as u64),
    ];
    for (name, value) in limits {
        assert_eq!(limit(&header, name), value, "{name}");
    }
    let version = ["MAJOR", "MINOR", "PATCH"].map(|part| limit(&header, &format!("VERSION_{part}")).to_string());
    assert_eq!(version.join("."), env!("CARGO_PKG_VERSION"));
}

/// Whether the header has the number under this name, spelt as C spells it.
fn numbered(header: &str, name: &str, number: u32) -> bool {
    let spelt = name.chars().fold(String::new(), |text, letter| match letter {
        'A'..='Z' if !text.is_empty() => text + "_" + &letter.to_string(),
        _ => text + &letter.to_uppercase().to_string(),
    });
    let constant = format!("CORBELRUSH_{spelt} = {number}");
    header.split_once(&constant).is_some_and(|(_, rest)| !rest.starts_with(|next: char| next.is_ascii_digit()))
}

#[test]
fn the_same_numbers() {
    let header = header();
    for refusal in Refusal::ALL {
        assert!(numbered(&header, &format!("{refusal:?}"), refusal.number()), "{refusal:?}");
    }
    for edge in [EdgeMode::Duplicate, EdgeMode::Wrap, EdgeMode::Mirror, EdgeMode::None] {
        assert!(numbered(&header, &format!("{edge:?}"), edge as u32), "{edge:?}");
    }
    for unit in [Unit::Milliohm, Unit::Microohm] {
        assert!(numbered(&header, &format!("{unit:?}"), unit as u32), "{unit:?}");
    }
}
