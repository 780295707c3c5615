//! Stored vectors: cases and their outcomes as decimal numbers, one case a line. NOTES.md has the format.
use crate::area_cases;
use crate::case::{run, work, Case, Entry, Outcome, ENTRIES, FIRST};
use crate::compare::Examiner;
use crate::generate;
use crate::inputs;
use crate::larger_cases;
use crate::library::{Library, RULE};
use crate::mend_cases;
use crate::pam_cases;
use crate::plane_cases;
use crate::plate_cases;
use crate::random::Random;
use crate::recipe_cases;
use crate::share_cases;
use crate::whole_cases;

/// Where the vectors are stored: the input of the program that replays them.
pub const STORED: &str = concat!(env!("CARGO_MANIFEST_DIR"), "/../crates/replay/stdin");

/// Where lists of another length than eight are, which the proved program does not run: NOTES.md says why.
pub const LISTS: &str = concat!(env!("CARGO_MANIFEST_DIR"), "/lists.txt");

/// How many leading bytes of a work buffer are zero; the others must be as before.
fn zeroed(buffer: &[u8]) -> usize {
    buffer.iter().take_while(|byte| **byte == 0).count()
}

/// What a work buffer holds afterwards.
fn after(length: usize, zeroed: usize) -> Vec<u8> {
    (0..length).map(|i| if i < zeroed { 0 } else { work(i) }).collect()
}

/// A line in the making.
struct Line(Vec<u64>);

impl Line {
    /// The count, then the numbers.
    fn counted<T: Copy + Into<u64>>(&mut self, values: &[T]) {
        self.0.push(values.len() as u64);
        self.0.extend(values.iter().map(|value| (*value).into()));
    }

    /// As `counted`, then 0 where the call leaves the numbers as they are, else 1 and the numbers afterwards.
    fn lent<T: Copy + Into<u64> + PartialEq>(&mut self, before: &[T], after: &[T]) {
        self.counted(before);
        let changed = before != after;
        self.0.push(changed.into());
        self.0.extend(after.iter().filter(|_| changed).map(|value| (*value).into()));
    }
}

fn write(case: &Case, outcome: &Outcome) -> String {
    let bits = |v: f32| v.to_bits();
    let mut head = vec![case.entry as u32, case.w, case.h, case.n, case.edge];
    head.extend([case.strength, case.dx, case.dy].map(bits));
    head.extend(case.colour.map(bits));
    head.extend([case.composite, case.x as u32, case.y as u32, case.scratch as u32, case.copy as u32]);
    head.extend([case.unit, case.sheet.into()]);
    let mut line = Line(head.into_iter().map(u64::from).collect());
    line.0.extend([case.used, case.place, case.second_place]);
    line.0.extend([outcome.answer.into(), zeroed(&outcome.scratch) as u64, zeroed(&outcome.copy) as u64]);
    line.0.extend(outcome.numbers);
    let weights = case.weights.iter().map(|w| bits(*w));
    line.counted(&weights.chain(case.numerators.iter().copied()).collect::<Vec<u32>>());
    line.lent(&case.list, &outcome.list);
    line.lent(&case.picture, &outcome.picture);
    line.lent(&case.other, &outcome.other);
    let words: Vec<String> = line.0.iter().map(u64::to_string).collect();
    words.join(" ") + "\n"
}

/// The numbers of a line, taken in order.
struct Numbers<'a>(std::str::SplitWhitespace<'a>);

impl Numbers<'_> {
    /// A number that is not too large for its kind.
    fn next<T: TryFrom<u64>>(&mut self) -> T {
        let number: Option<u64> = self.0.next().and_then(|word| word.parse().ok());
        number.and_then(|number| T::try_from(number).ok()).expect("a number of its kind")
    }

    fn float(&mut self) -> f32 {
        f32::from_bits(self.next())
    }

    /// A coordinate, modulo 2^32.
    fn signed(&mut self) -> i32 {
        self.next::<u32>() as i32
    }

    fn some<T: TryFrom<u64>>(&mut self, count: usize) -> Vec<T> {
        (0..count).map(|_| self.next()).collect()
    }

    fn counted<T: TryFrom<u64>>(&mut self) -> Vec<T> {
        let count = self.next();
        self.some(count)
    }

    /// What a lent list or buffer holds before the call, and afterwards.
    fn lent<T: TryFrom<u64> + Copy>(&mut self) -> (Vec<T>, Vec<T>) {
        let before: Vec<T> = self.counted();
        let changed = self.next::<u64>() == 1;
        let after = if changed { self.some(before.len()) } else { before.clone() };
        (before, after)
    }
}

fn read(line: &str) -> (Case, Outcome) {
    let mut from = Numbers(line.split_whitespace());
    let number: u32 = from.next();
    let entry = ENTRIES.into_iter().find(|entry| *entry as u32 == number).expect("an entry");
    let mut case = Case::new(entry, from.next(), from.next(), Vec::new());
    (case.n, case.edge) = (from.next(), from.next());
    (case.strength, case.dx, case.dy) = (from.float(), from.float(), from.float());
    case.colour = [(); 4].map(|_| from.float());
    (case.composite, case.x, case.y) = (from.next(), from.signed(), from.signed());
    (case.scratch, case.copy) = (from.next(), from.next());
    (case.unit, case.sheet, case.used) = (from.next(), from.next(), from.next());
    (case.place, case.second_place) = (from.next(), from.next());
    let (answer, scratch, copy) = (from.next(), after(case.scratch, from.next()), after(case.copy, from.next()));
    let numbers = [(); 4].map(|_| from.next());
    if case.is_whole() {
        case.numerators = from.counted();
    } else {
        case.weights = from.counted().into_iter().map(f32::from_bits).collect();
    }
    let (list, picture, other);
    (case.list, list) = from.lent();
    (case.picture, picture) = from.lent();
    (case.other, other) = from.lent();
    (case, Outcome { answer, picture, scratch, copy, list, other, numbers, strayed: false })
}

/// Whatever the entry does not take, at its default.
pub fn tidy(case: Case) -> Case {
    let mut plain = Case { scratch: 0, copy: 0, ..Case::new(case.entry, case.w, case.h, case.picture.clone()) };
    if case.blurs() || case.entry == Entry::Spread {
        (plain.weights, plain.n) = (case.weights.clone(), case.n);
    }
    if case.blurs() || matches!(case.entry, Entry::View | Entry::Sample) {
        plain.edge = case.edge;
    }
    if case.blurs() {
        plain.strength = case.strength;
    }
    if case.shifts() {
        (plain.dx, plain.dy) = (case.dx, case.dy);
    }
    if case.blurs() || case.entry == Entry::PlateJob {
        plain.scratch = case.scratch;
    }
    match case.entry {
        Entry::Shadow | Entry::ShadowPlanes => {
            Case { copy: case.copy, colour: case.colour, composite: case.composite, ..plain }
        }
        Entry::Sample | Entry::PlatePicture => Case { x: case.x, y: case.y, ..plain },
        Entry::Spread => Case { w: 0, h: 0, picture: Vec::new(), ..plain },
        _ => plain,
    }
}

/// A picture of one row of alphas.
fn alphas(entry: Entry, row: &[u8]) -> Case {
    Case::new(entry, row.len() as u32, 1, row.iter().flat_map(|a| [0, 0, 0, *a]).collect())
}

/// The marked cases (rule 11), as far as an entry runs them, and the listed differences.
fn marked() -> Vec<Case> {
    let quarter = vec![0.25, 0.5, 0.25];
    let mut cases = Vec::new();
    for edge in 0..4 {
        cases.push(Case { weights: vec![1.0], n: 1, edge, ..alphas(Entry::Blur, &[80, 0, 0, 0]) });
        cases.push(Case { weights: quarter.clone(), edge, ..alphas(Entry::Blur, &[255]) });
        cases.push(Case { weights: vec![1.0, 1.0], n: 1, edge, ..alphas(Entry::Blur, &[0, 0, 0, 0, 255]) });
    }
    for dx in [1.0, -4.0, 0.5, -0.5, 65536.0, 65537.0, 2147483648.0] {
        cases.push(Case { dx, ..alphas(Entry::Shift, &[1, 2, 3]) });
    }
    let over = Case {
        weights: vec![1.0],
        colour: [100.0 / 255.0, 0.0, 0.0, 1.0],
        composite: 1,
        dx: 1.0,
        ..alphas(Entry::Shadow, &[255, 128])
    };
    cases.extend([Case { composite: 0, ..over.clone() }, over]);
    cases.extend(coloured());
    for n in [0, 1, 12, 13, 14, 15] {
        cases.push(Case { weights: quarter.clone(), n, ..alphas(Entry::Spread, &[]) });
    }
    let plate = vec![1, 0, 1, 0, 1, 0, 1, 0, 16, 0, 0, 0, 4, 0, 0, 0, 10, 20, 30, 255];
    cases.extend([Entry::PlateJob, Entry::PlatePicture].map(|entry| Case::new(entry, 0, 0, plate.clone())));
    cases.push(Case { scratch: 3, ..Case::new(Entry::PlateJob, 0, 0, plate) });
    cases
}

/// Shadows of faint and of strong alphas, alone and under the original; that of the row lies one pixel to the right.
fn coloured() -> Vec<Case> {
    let mut cases = Vec::new();
    for composite in [0, 1] {
        let plain =
            |row| Case { weights: vec![1.0], colour: [0.5, 0.25, 0.9, 1.0], composite, ..alphas(Entry::Shadow, row) };
        cases.extend([plain(&[1]), Case { dx: 1.0, ..plain(&[1, 2, 3, 127, 128, 254, 255]) }]);
    }
    cases
}

/// The cases of the first release's entries, and then those of each that came later.
pub fn cases() -> Vec<Case> {
    let mut cases = first_cases();
    let mut later = plate_cases::stored(&mut Random::new(10));
    later.extend(pam_cases::stored(&mut Random::new(12)));
    later.extend(mend_cases::stored(&mut Random::new(13)));
    later.extend(larger_cases::stored(&mut Random::new(14)));
    later.extend(whole_cases::stored(&mut Random::new(15)));
    later.extend(area_cases::stored(&mut Random::new(17)));
    later.extend(share_cases::stored(&mut Random::new(18)));
    later.extend(plane_cases::stored(&mut Random::new(21)));
    later.extend(recipe_cases::stored(&mut Random::new(22)));
    generate::refusals(&mut Random::new(11), &ENTRIES[9..], 1, 2, &mut |case| later.push(case));
    cases.extend(later.into_iter().filter(is_short));
    cases.extend(plane_cases::wide(&mut Random::new(23)));
    cases
}

/// Some hundreds of small cases of every entry of the first release.
fn first_cases() -> Vec<Case> {
    let mut random = Random::new(8);
    let mut cases = marked();
    for i in 0..128 {
        let (edge, n, taps) = (i % 4, i / 4 % 4, random.range(1, 5) as usize);
        let (w, h) = (random.range(1, 6) as u32, random.range(1, 5) as u32);
        cases.push(generate::blur(&mut random, w, h, n, edge, taps));
        if i % 2 == 0 {
            cases.push(generate::shadow(&mut random, w.min(4), h.min(3), i / 8 % 4, i / 2 % 4, taps));
        }
    }
    for (w, h, taps) in [(1, 1, 33), (7, 1, 33), (1, 9, 32), (2, 3, 16), (17, 1, 3), (1, 17, 2)] {
        for (edge, n) in [0, 1, 2, 14].into_iter().enumerate() {
            cases.push(generate::blur(&mut random, w, h, n, edge as u32, taps));
        }
    }
    for (dx, dy) in inputs::OFFSETS.iter().zip(inputs::OFFSETS.iter().rev()) {
        cases.push(generate::shift(&mut random, 3, 2, *dx, 0.0));
        cases.push(generate::shift(&mut random, 2, 3, *dx, *dy));
    }
    for entry in &FIRST[3..] {
        cases.extend((0..12).map(|_| generate::accepted(&mut random, *entry)));
    }
    generate::refusals(&mut random, FIRST, 2, 2, &mut |case| cases.push(case));
    cases.extend(border_shifts(&mut random));
    cases.into_iter().map(tidy).filter(is_small).collect()
}

/// Every limit of the shift's arithmetic along y alone, and every whole offset that reaches one past the border.
fn border_shifts(random: &mut Random) -> Vec<Case> {
    let mut cases: Vec<Case> = inputs::OFFSETS.map(|dy| generate::shift(random, 3, 2, 0.0, dy)).into();
    for i in 0..63 {
        let (dx, dy) = (i % 9 - 4, i / 9 - 3);
        cases.push(generate::shift(random, 3, 2, dx as f32, dy as f32));
    }
    cases
}

/// What fits the buffers of the crate `replay`, which have 2048 bytes, and makes a short line.
fn is_small(case: &Case) -> bool {
    let bytes = case.picture.len();
    case.scratch.max(case.copy) <= 512 && (bytes < 150 || case.is_plate() && bytes < 400)
}

/// The same for the entries that came later.
fn is_short(case: &Case) -> bool {
    let numbers = 2 * (case.picture.len() + case.other.len() + case.list.len());
    [case.picture.len(), case.other.len(), case.scratch, case.copy].iter().all(|length| *length <= 512) && numbers < 900
}

/// Writes all vectors, lists of another length to a file of their own.
pub fn store_all() -> bool {
    let is_list = |case: &Case| case.entry == Entry::Recipes && case.list.len() != 8 * recipe_cases::WORDS;
    let (lists, others) = cases().into_iter().partition(is_list);
    store(STORED, others) && store(LISTS, lists)
}

/// Writes vectors; each was compared with the Rust first.
pub fn store(file: &str, cases: Vec<Case>) -> bool {
    let mut examiner = Examiner::new(&RULE);
    let agree = cases.iter().all(|case| examiner.examine(case, true).is_ok());
    let text: String = cases.iter().map(|case| write(case, &run(&RULE, case))).collect();
    let back = text.lines().map(read).zip(&cases).all(|((_, outcome), case)| outcome == run(&RULE, case));
    let written = std::fs::write(file, &text).is_ok();
    println!("{} cases, {} bytes; agree {agree}, read back {back}, written {written}", cases.len(), text.len());
    agree && back && written
}

/// Runs the stored vectors.
pub fn replay(library: &Library, file: &str) -> bool {
    let Ok(text) = std::fs::read_to_string(file) else {
        println!("{file} cannot be read");
        return false;
    };
    let mut failed = 0;
    for (number, line) in text.lines().enumerate() {
        let (case, outcome) = read(line);
        if run(library, &case) != outcome {
            println!("line {}: {case}", number + 1);
            failed += 1;
        }
    }
    println!("{} vectors, {failed} failed, by {}", text.lines().count(), library.name);
    failed == 0
}
