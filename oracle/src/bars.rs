//! The bars that the library is held to, each with the worst that a benchmark saw.
use crate::bench::Row;
use crate::tally::MODES;

/// What is asked for, the most that it may be, and what was seen.
type Bar = (&'static str, f64, Vec<f64>);

fn square(size: (u32, u32), sides: &[u32]) -> bool {
    size.0 == size.1 && sides.contains(&size.0)
}

/// The ratios of the lines that are kept.
fn ratios(rows: &[Row], keep: impl Fn(&str, (u32, u32)) -> bool) -> Vec<f64> {
    let kept = rows.iter().filter(|(name, size, _)| keep(name, *size));
    kept.filter_map(|(_, _, m)| m.theirs.map(|theirs| m.ours / theirs)).collect()
}

/// How much more a pixel of each line that is kept costs at 4096 square than at 256; of our time.
fn growth(rows: &[Row], keep: impl Fn(&str) -> bool) -> Vec<f64> {
    let at = |name: &str, side| rows.iter().find(|(n, s, _)| n == name && square(*s, &[side])).map(|(_, _, m)| m.ours);
    let kept = rows.iter().filter(|(name, ..)| keep(name));
    kept.filter_map(|(name, ..)| Some(at(name, 4096)? / at(name, 256)?)).collect()
}

/// How much more the dearest edge mode costs than the cheapest, for each kernel from 256 square on.
fn modes_apart(rows: &[Row]) -> Vec<f64> {
    let first = rows.iter().filter(|(name, size, _)| name.ends_with(MODES[0]) && square(*size, &[256, 1024, 4096]));
    let apart = |(name, size, _): &Row| {
        let stem = name.trim_end_matches(MODES[0]);
        let times = rows.iter().filter(|(n, s, _)| n.starts_with(stem) && s == size).map(|(_, _, m)| m.ours);
        times.clone().fold(0.0, f64::max) / times.fold(f64::MAX, f64::min)
    };
    first.map(apart).collect()
}

/// What is asked on x86-64 alone, where the Rust is slower beside the library than on Arm.
fn on_x86_64(rows: &[Row]) -> [Bar; 4] {
    let large = |stem: &str| ratios(rows, |name, size| name.starts_with(stem) && square(size, &[4096]));
    [
        ("5 taps at 4096 square", 0.12, large("blur n 0 taps 5")),
        ("every line but whole numbers", 0.25, ratios(rows, |name, _| !name.starts_with("whole"))),
        ("shadow alone at 4096 square", 0.08, large("shadow alone")),
        ("shadow with original at 4096 square", 0.05, large("shadow with original")),
    ]
}

pub fn print(rows: &[Row]) {
    let small = |size| square(size, &[16, 64]);
    let flat = ratios(rows, |name, size| name.starts_with("blur n 0") && square(size, &[1024, 4096]));
    let deep = ratios(rows, |name, size| name.starts_with("blur n 2") && square(size, &[4096]));
    let mut bars = vec![
        ("n = 0 at 1024 and 4096 square", 0.25, flat),
        ("n = 2 at 4096 square", 0.15, deep),
        (
            "in whole numbers at 1024 square",
            0.36,
            ratios(rows, |name, size| name.starts_with("whole") && square(size, &[1024])),
        ),
        ("shift", 0.50, ratios(rows, |name, _| name.starts_with("shift"))),
        (
            "shadow but for 16 and 64 square",
            0.30,
            ratios(rows, |name, size| name.starts_with("shadow") && !small(size)),
        ),
        (
            "everything but whole numbers at 16 and 64 square",
            0.60,
            ratios(rows, |name, size| !name.starts_with("whole") && small(size)),
        ),
        ("a pixel at 4096 square against 256", 1.2, growth(rows, |name| name != "shift by half")),
        ("that of a shift by half, at memory's speed", 1.2, growth(rows, |name| name == "shift by half")),
        ("the dearest edge mode against the cheapest", 1.1, modes_apart(rows)),
    ];
    if cfg!(target_arch = "x86_64") {
        bars.extend(on_x86_64(rows));
    }
    for (what, bar, seen) in bars {
        if let Some(worst) = seen.into_iter().max_by(f64::total_cmp) {
            println!("{what}: {worst:.3}, bar {bar}: {}", if worst <= bar { "met" } else { "MISSED" });
        }
    }
}
