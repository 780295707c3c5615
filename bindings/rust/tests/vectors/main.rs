//! The stored vectors (crates/replay/stdin, and oracle/lists.txt for lists of recipes) through the binding.
mod call;
mod stored;

use call::{Call, Outcome};
use corbelrush::{Refusal, Worker};
use std::collections::BTreeSet;
use std::fs::read_to_string;
use stored::Vector;

/// What the vector says. A sample answers no number, so that its pixel stands there.
fn wanted(v: &Vector, made: &Outcome) -> Outcome {
    match v.entry {
        6 => Outcome { number: made.number, out: [v.answer.into(), 0, 0, 0], by: v.after.clone() },
        _ => Outcome { number: v.answer, out: v.out, by: v.after.clone() },
    }
}

#[test]
fn every_vector_through_the_binding() {
    let root = concat!(env!("CARGO_MANIFEST_DIR"), "/../..");
    let stored = |file| read_to_string(format!("{root}/{file}")).unwrap();
    let text = stored("crates/replay/stdin") + &stored("oracle/lists.txt");
    let (mut worker, mut entries, mut count) = (Worker::new(), BTreeSet::new(), 0);
    for line in text.lines() {
        let vector = stored::read(line);
        let made = Call::outcome(&vector, None);
        let wanted = wanted(&vector, &made);
        count += 1;
        assert_eq!(made, wanted, "vector {count}");
        // A worker has room, so that nothing is refused as 3 there.
        if wanted.number != Refusal::TooShort.number() {
            let kept = Call::outcome(&vector, Some(&mut worker));
            assert_eq!((kept.number, kept.out), (wanted.number, wanted.out), "vector {count}, with a worker");
            assert_eq!(kept.by.bytes, wanted.by.bytes, "vector {count}, with a worker");
            if let Some(listed) = Call::as_list(&vector, &mut worker) {
                assert_eq!(listed, (wanted.number, wanted.by.bytes), "vector {count}, as a list");
            }
        }
        entries.insert(vector.entry);
    }
    let functions =
        stored("include/corbelrush.h").lines().filter(|line| line.starts_with("uint32_t corbelrush_")).count();
    assert_eq!(entries.len(), functions, "a function has no vector");
    println!("{count} vectors of {functions} functions");
}
