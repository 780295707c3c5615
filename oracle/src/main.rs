//! Runs the library beside the Rust. See NOTES.md.
mod area_cases;
mod bars;
mod bench;
mod busy;
mod case;
mod compare;
mod distance;
mod faults;
mod generate;
mod inputs;
mod large;
mod larger_cases;
mod library;
mod mend_cases;
mod pam_cases;
mod passes;
mod plane_cases;
mod plate_cases;
mod premultiplied;
mod random;
mod recipe_cases;
mod rust;
mod share_cases;
mod shrink;
mod smallest;
mod tally;
mod tracing;
mod vectors;
mod whole_cases;
#[cfg(test)]
mod wrong;

use case::Case;
use compare::Examiner;
use generate::Amount;
use std::process::ExitCode;
use std::time::Instant;

/// The failure with the smallest input that shows the same kind of difference.
fn report(library: &'static library::Library, case: Case, kind: &str) {
    let examine = |c: &Case| Examiner::new(library).examine(c, true).err();
    let smallest = shrink::shrink(case, &mut |c| examine(c).is_some_and(|d| d.kind == kind));
    println!("DIFFERENCE: {kind}\n    smallest input found: {smallest}");
    if let Some(difference) = examine(&smallest) {
        println!("    expected {}\n    found    {}", difference.expected, difference.found);
    }
}

/// Every case of `generate`, until one differs.
fn compare_cases(amount: Amount) -> bool {
    let library = library::under_test();
    let mut examiner = Examiner::new(library);
    let mut tally = tally::Tally::default();
    let mut failed: Option<(Case, String)> = None;
    generate::all(amount, &mut |case| {
        if failed.is_some() {
            return;
        }
        match examiner.examine(&case, tally.cases % 8 == 0) {
            Ok(seen) => tally.note(&case, &seen),
            Err(difference) => failed = Some((case, difference.kind)),
        }
    });
    tally.print();
    if let Some((case, kind)) = &failed {
        report(library, case.clone(), kind);
        return false;
    }
    let unseen = tally.unseen();
    unseen.iter().for_each(|row| println!("no case has shown this: {row}"));
    unseen.is_empty()
}

fn compare_passes(amount: Amount) -> bool {
    let answer = passes::compare(if amount == Amount::Quick { 2 } else { 20 });
    match &answer {
        Ok(cases) => println!("level passes {cases}"),
        Err(input) => println!("DIFFERENCE: level pass and model: {input}"),
    }
    answer.is_ok()
}

fn compare_areas(amount: Amount) -> bool {
    area_cases::compare(library::under_test(), if amount == Amount::Quick { 300 } else { 3000 })
}

fn compare_shares(amount: Amount) -> bool {
    share_cases::compare(library::under_test(), if amount == Amount::Quick { 1000 } else { 4000 })
}

fn compare_all(amount: Amount) -> bool {
    let begun = Instant::now();
    println!("library: {}; overflow checks: {}", library::under_test().name, rust::checks_overflow());
    let good = compare_cases(amount) && compare_passes(amount) && compare_areas(amount) && compare_shares(amount);
    let good = good && vectors::replay(library::under_test(), vectors::LISTS);
    println!("seconds {:.1}", begun.elapsed().as_secs_f64());
    good
}

fn replay_all() -> bool {
    [vectors::STORED, vectors::LISTS].map(|file| vectors::replay(library::under_test(), file)) == [true; 2]
}

/// Runs a command that only prints.
fn shown(print: impl FnOnce()) -> bool {
    print();
    true
}

const COMMANDS: &str =
    "quick | full | classes | vectors [FILE] | replay [FILE] | distance | attain | large [PART OF A NAME [SIDE]] | areas | costs | bench [LARGEST SIDE]";

fn main() -> ExitCode {
    rust::quiet_attempts();
    if rust::published().is_none() {
        println!("{}", compare::SKIPPED);
    }
    let arguments: Vec<String> = std::env::args().skip(1).collect();
    let arguments: Vec<&str> = arguments.iter().map(String::as_str).collect();
    let good = match arguments[..] {
        ["quick"] => compare_all(Amount::Quick),
        ["full"] => compare_all(Amount::Full),
        ["classes"] => shown(smallest::print),
        ["vectors"] => vectors::store_all(),
        ["vectors", file] => vectors::store(file, vectors::cases()),
        ["replay"] => replay_all(),
        ["replay", file] => vectors::replay(library::under_test(), file),
        ["distance"] => distance::print(60_000),
        ["attain"] => shown(distance::attain),
        ["large"] => large::compare(rule::LARGEST_SIDE, ""),
        ["large", part] => large::compare(rule::LARGEST_SIDE, part),
        ["large", part, side] => large::compare(side.parse().unwrap_or(rule::LARGEST_SIDE), part),
        ["areas"] => area_cases::large(library::under_test(), rule::LARGEST_SIDE),
        ["costs"] => shown(|| large::costs(rule::LARGEST_SIDE)),
        ["bench"] => shown(|| bench::print(rule::LARGEST_SIDE)),
        ["bench", largest] => shown(|| bench::print(largest.parse().unwrap_or(rule::LARGEST_SIDE))),
        _ => {
            println!("commands: {COMMANDS}");
            false
        }
    };
    if good {
        ExitCode::SUCCESS
    } else {
        ExitCode::FAILURE
    }
}
