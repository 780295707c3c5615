//! Counts of the cases run: per entry, class, mode, n and size band.
use crate::case::{Case, Entry, ENTRIES};
use crate::compare::Seen;
use crate::generate::numbers;
use crate::premultiplied;
use crate::recipe_cases;
use filters::{Class, CLASSES};
use std::collections::BTreeMap;

#[derive(Default)]
pub struct Tally {
    pub cases: u64,
    /// By row of the printed table, then by entry.
    counts: BTreeMap<String, BTreeMap<Entry, u64>>,
}

pub const MODES: [&str; 4] = ["Duplicate", "Wrap", "Mirror", "None"];

fn band(case: &Case) -> &'static str {
    match (case.w.max(case.h), case.w.min(case.h)) {
        (1, 1) => "1 by 1",
        (2..=9, 1..) => "sides to 9",
        (10..=1100, 1..=5) => "thin, to 1100",
        (10..=1100, 6..) => "wider, to 300",
        (4095..=4097, 1..) => "4095 to 4097",
        (16383..=16384, 1..) => "16383 or 16384",
        _ => "other",
    }
}

/// The row of an answer.
fn row(answer: u32) -> String {
    if answer == 0 {
        "answer done".into()
    } else {
        format!("answer {answer:2}")
    }
}

/// The row of the shadows whose colour the Rust floors: with the original, and without.
fn flooring(composited: bool) -> String {
    format!("class Flooring {}", if composited { "composited" } else { "alone" })
}

impl Tally {
    fn add(&mut self, row: String, entry: Entry) {
        *self.counts.entry(row).or_default().entry(entry).or_default() += 1;
    }

    pub fn note(&mut self, case: &Case, seen: &Seen) {
        self.cases += 1;
        let entry = case.entry;
        let answer = if entry == Entry::Sample { 0 } else { seen.answer };
        self.add(row(answer), entry);
        for class in &seen.classes {
            self.add(format!("class {class:?}"), entry);
        }
        if let Some(row) = seen.premultiplied {
            self.add(row.into(), entry);
        }
        if seen.classes.contains(&Class::Flooring) {
            self.add(flooring(case.composite != 0), entry);
        }
        if entry == Entry::Recipes {
            recipe_cases::rows(case, answer).into_iter().for_each(|row| self.add(row.into(), entry));
        }
        if !case.is_plate() && !matches!(entry, Entry::Spread | Entry::PamRead) {
            self.add(format!("size {}", band(case)), entry);
        }
        if answer == 0 && (case.convolves() || case.traces() || entry == Entry::Sample) {
            self.add(format!("mode {}", MODES[case.edge as usize % 4]), entry);
        }
        if answer == 0 && (case.convolves() || case.traces() || entry == Entry::Spread) {
            self.add(format!("n {:2}", case.n), entry);
            self.add(format!("taps {}", if case.taps().is_multiple_of(2) { "even" } else { "odd" }), entry);
        }
    }

    fn count(&self, row: &str, entry: Entry) -> u64 {
        self.counts.get(row).and_then(|by_entry| by_entry.get(&entry)).copied().unwrap_or(0)
    }

    /// The rows of classes, and the answers of entries, that no case has shown.
    pub fn unseen(&self) -> Vec<String> {
        let mut rows: Vec<String> = CLASSES.iter().map(|class| format!("class {class:?}")).collect();
        rows.extend([false, true].map(flooring));
        rows.retain(|row| !self.counts.contains_key(row));
        for entry in ENTRIES {
            // a sample answers its pixel, no number
            let refusals = if entry == Entry::Sample { &[] } else { numbers(entry) };
            let unseen = [0].iter().chain(refusals).filter(|answer| self.count(&row(**answer), entry) == 0);
            rows.extend(unseen.map(|answer| format!("{entry:?} {}", row(*answer))));
        }
        let kept = premultiplied::KEEPING.into_iter().flat_map(|entry| premultiplied::ROWS.map(|row| (entry, row)));
        for (entry, row) in kept.chain(recipe_cases::ROWS.map(|row| (Entry::Recipes, row))) {
            if self.count(row, entry) == 0 {
                rows.push(format!("{entry:?} {row}"));
            }
        }
        rows
    }

    pub fn print(&self) {
        let heads: String = ENTRIES.iter().map(|entry| format!("{:>14}", format!("{entry:?}"))).collect();
        println!("{:26}{heads}", "");
        for (row, by_entry) in &self.counts {
            let cell = |entry| by_entry.get(entry).map_or(String::new(), |count| count.to_string());
            let cells: String = ENTRIES.iter().map(|entry| format!("{:>14}", cell(entry))).collect();
            println!("{row:26}{cells}");
        }
        println!("cases {}", self.cases);
    }
}
