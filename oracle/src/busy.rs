//! How much of the machine other programs take while something is timed.
use std::fs;

/// Ticks of the clock that the system counts: of all processors whatever they do, of all processors at work, and of this program.
#[derive(Clone, Copy)]
pub struct Ticks {
    all: u64,
    work: u64,
    own: u64,
}

/// The numbers of a line, from a place on.
fn numbers(line: &str, from: usize) -> Vec<u64> {
    line.split_whitespace().skip(from).map_while(|word| word.parse().ok()).collect()
}

/// The ticks of a program, from what the system says of it: behind its name, which may hold blanks, stand its state, ten
/// numbers, and its time in its own code and in the system's.
fn own(said: &str) -> Option<u64> {
    let times = numbers(said.rsplit_once(')')?.1, 11);
    Some(times.first()? + times.get(1)?)
}

/// The ticks so far, where the system tells them.
pub fn ticks() -> Option<Ticks> {
    let system = fs::read_to_string("/proc/stat").ok()?;
    let all = numbers(system.lines().next()?, 1);
    let own = own(&fs::read_to_string("/proc/self/stat").ok()?)?;
    let resting = all.get(3)? + all.get(4)?;
    let sum = all.iter().take(8).sum::<u64>();
    Some(Ticks { all: sum, work: sum - resting, own })
}

/// The share of the machine that others took between two looks.
fn others(before: Ticks, after: Ticks) -> f64 {
    let others = (after.work - before.work).saturating_sub(after.own - before.own);
    others as f64 / (after.all - before.all).max(1) as f64
}

/// A sentence on what others took since a look.
pub fn since(before: Option<Ticks>) -> String {
    match before.zip(ticks()).map(|(before, after)| others(before, after)) {
        None => "whether the machine was busy is not known".into(),
        Some(share) if share > 0.02 => {
            format!("BUSY: other programs took {:.0} % of the machine meanwhile", 100.0 * share)
        }
        Some(share) => format!("quiet: other programs took {:.1} % of the machine meanwhile", 100.0 * share),
    }
}

#[test]
fn shares() {
    let ticks = |all, work, own| Ticks { all, work, own };
    assert_eq!(others(ticks(100, 50, 10), ticks(300, 150, 60)), 0.25);
    assert_eq!(others(ticks(100, 50, 10), ticks(300, 150, 110)), 0.0);
    assert_eq!(others(ticks(100, 50, 10), ticks(100, 50, 11)), 0.0);
}

#[test]
fn times() {
    assert_eq!(own("9 (a) b) R 8 8 1 0 -1 4194304 85 0 0 0 70 5 3 2 20 0 1"), Some(75));
    assert_eq!(own("9 (a) R 8"), None);
}
