//! Shares another way than the rule's: one axis at a time, from the output back to the inputs.
use crate::case::{Case, Entry, Outcome};
use rule::edges::{extend, Edge};
use rule::refusal;
use rule::whole::heavy;

/// How shares are traced and answered; `RIGHT` is as they should be.
pub struct Tracer {
    pub order: [u32; 7],
    pub most_decimations: u32,
    pub heavy: fn(&[u32]) -> bool,
    /// Whether the places of a call, the output's first, are outside an area.
    pub outside: fn(&[u64], u64) -> bool,
    /// The coarser level's side.
    pub coarser: fn(usize) -> usize,
    /// Where tap j of so many lies from the output.
    pub tap: fn(usize, usize) -> i64,
    /// What output x of a halved line is made of, and output x of a doubled one: coordinates and weights.
    pub halve: fn(i64) -> [(i64, u128); 4],
    pub double: fn(i64) -> [(i64, u128); 2],
    pub extend: fn(i64, usize, Edge) -> Option<usize>,
    /// Whether a list of some room is too short for a count, in a picture of an area.
    pub full: fn(usize, usize, u64) -> bool,
    /// The list's entries.
    pub listed: fn(&Tracer, &Case) -> Vec<[u64; 2]>,
}

pub const RIGHT: Tracer = Tracer {
    order: [1, 4, 9, 21, 22, 14, 17],
    most_decimations: 3,
    heavy,
    outside: |places, area| places.iter().any(|place| *place >= area),
    coarser: |side| side.div_ceil(2),
    tap: |taps, j| j as i64 - (taps / 2) as i64,
    halve: |x| [(2 * x - 1, 1), (2 * x, 3), (2 * x + 1, 3), (2 * x + 2, 1)],
    double: |x| [(x / 2, 3), (if x % 2 == 0 { x / 2 - 1 } else { x / 2 + 1 }, 1)],
    extend,
    full: |room, count, _| room < count,
    listed: Tracer::in_scan_order,
};

/// What each place of a line is worth to the output.
type Row = Vec<u128>;

/// The places of a row that are worth something.
pub fn worthy(row: &Row) -> Vec<usize> {
    (0..row.len()).filter(|i| row[*i] != 0).collect()
}

impl Tracer {
    /// One pass backwards: what is worth something of its outputs gives each of its taps a part.
    fn back(&self, row: &Row, side: usize, edge: Edge, taps: impl Fn(i64) -> Vec<(i64, u128)>) -> Row {
        let mut sources = vec![0; side];
        for x in worthy(row) {
            for (c, weight) in taps(x as i64) {
                if let Some(i) = (self.extend)(c, side, edge) {
                    sources[i] += row[x] * weight;
                }
            }
        }
        sources
    }

    /// What each place of a line is worth to its place `at`.
    pub fn axis(&self, case: &Case, edge: Edge, side: usize, at: usize) -> Row {
        let mut sides = vec![side];
        for level in 0..case.n as usize {
            sides.push((self.coarser)(sides[level]));
        }
        let mut row = vec![0; side];
        row[at] = 1;
        for finer in &sides[1..] {
            row = self.back(&row, *finer, edge, |x| (self.double)(x).to_vec());
        }
        let kernel = |x: i64| -> Vec<(i64, u128)> {
            let taps = case.numerators.len();
            (0..taps).map(|j| (x + (self.tap)(taps, j), case.numerators[j].into())).collect()
        };
        row = self.back(&row, row.len(), edge, kernel);
        for side in sides.iter().rev().skip(1) {
            row = self.back(&row, *side, edge, |x| (self.halve)(x).to_vec());
        }
        row
    }

    /// Both axes of a call's output.
    pub fn axes(&self, case: &Case) -> [Row; 2] {
        let (w, h, place) = (case.w as usize, case.h as usize, case.place as usize);
        let edge = Edge::of(case.edge).unwrap();
        [self.axis(case, edge, w, place % w), self.axis(case, edge, h, place / w)]
    }

    fn in_scan_order(&self, case: &Case) -> Vec<[u64; 2]> {
        let [across, down] = self.axes(case);
        let columns = worthy(&across);
        let point = |x: usize, y: usize| [(y * case.w as usize + x) as u64, (across[x] * down[y]) as u64];
        worthy(&down).into_iter().flat_map(|y| columns.iter().map(move |x| point(*x, y))).collect()
    }

    /// Whether a case can be traced at all, refused or not.
    fn can_trace(&self, case: &Case) -> bool {
        let inside = case.place < u64::from(case.w) * u64::from(case.h);
        !refusal::sides(case.w, case.h) && !refusal::edge(case.edge) && case.n < 6 && inside
    }

    /// How many points a listing has; 1 where nothing can be traced.
    pub fn count(&self, case: &Case) -> usize {
        if self.can_trace(case) {
            (self.listed)(self, case).len()
        } else {
            1
        }
    }

    fn refused(&self, case: &Case) -> u32 {
        let area = u64::from(case.w) * u64::from(case.h);
        let places = [case.place, case.second_place];
        let listing = case.entry == Entry::Shares;
        let holds = |number: &&u32| match number {
            1 => refusal::sides(case.w, case.h),
            4 => refusal::taps(&case.numerators),
            9 => refusal::edge(case.edge),
            21 => case.n > self.most_decimations,
            22 => (self.outside)(if listing { &places[..1] } else { &places }, area),
            14 => (self.heavy)(&case.numerators),
            _ => listing && (self.full)(case.list.len() / 2, self.count(case), area),
        };
        self.order.iter().find(holds).copied().unwrap_or(0)
    }

    /// The share of one input.
    pub fn share(&self, case: &Case) -> u64 {
        let [across, down] = self.axes(case);
        let (w, place) = (case.w as usize, case.second_place as usize);
        let outside = place >= w * case.h as usize;
        if outside {
            0
        } else {
            (across[place % w] * down[place / w]) as u64
        }
    }

    /// A call as this tracer answers it.
    pub fn answer(&self, case: &Case) -> Outcome {
        let mut outcome = untouched(case, self.refused(case));
        if outcome.answer != 0 || !self.can_trace(case) {
            return outcome;
        }
        if case.entry == Entry::Share {
            outcome.numbers[0] = self.share(case);
        } else {
            let points = (self.listed)(self, case);
            outcome.numbers[0] = points.len() as u64;
            outcome.list.iter_mut().zip(points.concat()).for_each(|(word, new)| *word = new);
        }
        outcome
    }
}

/// What a call with this number leaves that does nothing else.
pub fn untouched(case: &Case, answer: u32) -> Outcome {
    Outcome {
        answer,
        picture: Vec::new(),
        scratch: Vec::new(),
        copy: Vec::new(),
        list: case.list.clone(),
        other: Vec::new(),
        numbers: [0; 4],
        strayed: false,
    }
}
