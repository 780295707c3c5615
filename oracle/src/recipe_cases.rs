//! Cases of lists of recipes (request 10). The list holds 13 words a recipe, and the weights are the table of kernels.
use crate::case::{run, work, Case, Entry, Outcome};
use crate::generate::{longer, Take};
use crate::inputs::{self, NOT_FINITE, NO_SHARE};
use crate::library::Library;
use crate::premultiplied;
use crate::random::Random;
use rule::recipes::{Step, BLUR, SHADOW, SHIFT};
use rule::{LARGEST_SIDE, MOST_DECIMATIONS, MOST_TAPS};

/// How many words a recipe has.
pub const WORDS: usize = 13;

/// The numbers that are a recipe's own, in the order of its checks.
const OWN: [u32; 7] = [19, 4, 5, 6, 7, 8, 9];

fn words(step: &Step) -> [u64; WORDS] {
    let Step { operation, kernel, taps, n, edge, composite, dx, dy, strength, colour: [r, g, b, a] } = *step;
    let [dx, dy, strength, r, g, b, a] = [dx, dy, strength, r, g, b, a].map(f32::to_bits);
    [operation, kernel, taps, n, edge, composite, dx, dy, strength, r, g, b, a].map(u64::from)
}

/// The recipes of a case.
pub fn steps(case: &Case) -> Vec<Step> {
    let step = |words: &[u64]| {
        let word = |i: usize| words[i] as u32;
        let float = |i: usize| f32::from_bits(word(i));
        Step {
            operation: word(0),
            kernel: word(1),
            taps: word(2),
            n: word(3),
            edge: word(4),
            composite: word(5),
            dx: float(6),
            dy: float(7),
            strength: float(8),
            colour: [9, 10, 11, 12].map(float),
        }
    };
    case.list.chunks_exact(WORDS).map(step).collect()
}

pub fn with_steps(case: Case, steps: &[Step]) -> Case {
    Case { list: steps.iter().flat_map(words).collect(), ..case }
}

/// Kernels, and how many of the first weights of each are good; those after them are not, and no recipe may read them.
struct Kernels {
    table: Vec<f32>,
    good: Vec<u32>,
}

fn kernels(random: &mut Random, count: usize, rest: usize) -> Kernels {
    let (mut table, mut good) = (Vec::new(), Vec::new());
    for _ in 0..count {
        let taps = random.pick(&[1, 2, 3, 3, 4, 5, 8, MOST_TAPS - 1, MOST_TAPS]);
        table.extend(inputs::weights(random, taps));
        table.extend((taps..MOST_TAPS).map(|_| random.pick(&NO_SHARE)));
        good.push(taps as u32);
    }
    table.extend((0..rest).map(|_| random.share()));
    Kernels { table, good }
}

/// A good recipe. What its operation does not name may hold anything.
fn step(random: &mut Random, w: u32, h: u32, kernels: &Kernels, operation: u32) -> Step {
    let count = kernels.good.len() as u32;
    let wild = random.one_in(2);
    let mut any = |named: bool| if wild && !named { random.pick(&[f32::NAN, f32::INFINITY, -1.0, 7.5]) } else { 0.5 };
    let strangers = [any(operation != BLUR), any(operation != SHIFT), any(operation == SHADOW)];
    let far = random.pick(&[0, 4, 15, 34, count, u32::MAX]);
    let plain = Step {
        operation,
        kernel: if wild { far } else { 0 },
        taps: if wild { far } else { 0 },
        n: if wild { far } else { 0 },
        edge: if wild { far } else { 0 },
        composite: random.pick(&[0, 1, 1, 256, u32::MAX]),
        dx: strangers[0],
        dy: strangers[0],
        strength: strangers[1],
        colour: [strangers[2]; 4],
    };
    let moved = Step { dx: inputs::offset(random, w), dy: inputs::offset(random, h), ..plain };
    if operation == SHIFT {
        return moved;
    }
    let kernel = random.below(count.into()) as u32;
    let blurred = Step {
        kernel,
        taps: random.range(1, kernels.good[kernel as usize].into()) as u32,
        n: random.pick(&[0, 0, 0, 1, 1, 2, 3, MOST_DECIMATIONS]),
        edge: random.below(4) as u32,
        strength: inputs::strength(random),
        ..if operation == BLUR { plain } else { moved }
    };
    if operation == BLUR {
        return blurred;
    }
    Step { colour: [(); 4].map(|_| inputs::component(random)), ..blurred }
}

/// A list that is done, of these operations.
fn chain(random: &mut Random, w: u32, h: u32, operations: &[u32]) -> Case {
    let (count, rest) = (random.range(1, 3) as usize, random.pick(&[0, 0, 1, MOST_TAPS - 1]));
    let kernels = kernels(random, count, rest);
    let steps: Vec<Step> = operations.iter().map(|operation| step(random, w, h, &kernels, *operation)).collect();
    let case = Case::new(Entry::Recipes, w, h, inputs::picture(random, w, h));
    let (scratch, copy) = (longer(random, case.picture.len()), longer(random, case.picture.len()));
    with_steps(Case { scratch, copy, weights: kernels.table, ..case }, &steps)
}

fn operations(random: &mut Random, count: usize) -> Vec<u32> {
    (0..count).map(|_| random.below(3) as u32).collect()
}

pub fn accepted(random: &mut Random) -> Case {
    let (w, h, count) = (random.range(1, 6) as u32, random.range(1, 6) as u32, random.below(5) as usize);
    let operations = operations(random, count);
    chain(random, w, h, &operations)
}

/// A number that is not finite, where the operation names it.
fn spoil_number(random: &mut Random, step: &mut Step) {
    let bad = random.pick(&NOT_FINITE);
    match (step.operation, random.below(3)) {
        (BLUR, _) | (SHADOW, 0) => step.strength = bad,
        (_, 1) => step.dx = bad,
        _ => step.dy = bad,
    }
}

/// Makes the condition of a recipe's own number hold of recipe i, which becomes a blur or a shadow where it must be one.
fn spoil_step(random: &mut Random, case: &mut Case, i: usize, number: u32) {
    let mut all = steps(case);
    let count = (case.weights.len() / MOST_TAPS) as u32;
    let step = &mut all[i];
    let fits = match number {
        7 | 19 => true,
        8 => step.operation == SHADOW,
        _ => step.operation != SHIFT,
    };
    if !fits && step.operation <= SHADOW {
        let kernels = Kernels { table: Vec::new(), good: vec![1; count as usize] };
        *step = self::step(random, case.w.clamp(1, 9), case.h.clamp(1, 9), &kernels, SHADOW);
    }
    match number {
        4 => step.taps = random.pick(&[0, 0, 34, 35, 256, 65537, u32::MAX]),
        5 => {
            let taps = (step.taps as usize).clamp(1, MOST_TAPS);
            let at = MOST_TAPS * step.kernel as usize + random.pick(&[0, taps - 1, taps / 2]);
            if let Some(weight) = case.weights.get_mut(at) {
                *weight = random.pick(&NO_SHARE);
            }
        }
        6 => step.n = random.pick(&[MOST_DECIMATIONS + 1, 64, u32::MAX]),
        7 => spoil_number(random, step),
        8 => step.colour[random.below(4) as usize] = random.pick(&NO_SHARE),
        9 => step.edge = random.pick(&[4, 5, 255, u32::MAX]),
        _ if step.operation != SHIFT && random.one_in(2) => {
            step.kernel = random.pick(&[count, count + 1, 130_150_525, u32::MAX])
        }
        _ => step.operation = random.pick(&[3, 4, 256, 65537, u32::MAX]),
    }
    *case = with_steps(case.clone(), &all);
}

/// The same of any recipe of the list, which gets one where it is empty.
pub fn spoil(random: &mut Random, case: &mut Case, number: u32) {
    let mut all = steps(case);
    if all.is_empty() {
        all.push(Step { operation: SHIFT, ..plain_step() });
        *case = with_steps(case.clone(), &all);
    }
    let at = random.below(all.len() as u64) as usize;
    spoil_step(random, case, at, number);
}

/// A blur of the first kernel's first weight.
fn plain_step() -> Step {
    let colour = [0.0, 0.0, 0.0, 1.0];
    Step { operation: BLUR, kernel: 0, taps: 1, n: 0, edge: 0, composite: 0, dx: 0.0, dy: 0.0, strength: 1.0, colour }
}

/// Lists of 0 to 8 recipes, of every operation; each list of three; long ones.
fn lists(random: &mut Random, take: Take) {
    for i in 0..720 {
        let (w, h) = (random.range(1, 9) as u32, random.range(1, 9) as u32);
        let operations = operations(random, i % 9);
        take(chain(random, w, h, &operations));
    }
    for i in 0..27 * 8 {
        let (w, h) = (random.range(1, 7) as u32, random.range(1, 7) as u32);
        take(chain(random, w, h, &[i % 3, i / 3 % 3, i / 9 % 3]));
    }
    for (count, w, h) in
        [(20, 5, 4), (39, 3, 2), (100, 2, 2), (300, 1, 1), (8, 70, 3), (8, 2, 90), (3, LARGEST_SIDE, 1)]
    {
        let operations = operations(random, count);
        take(chain(random, w, h, &operations));
    }
}

/// A list of 3 recipes to some, each with a kernel of its own, and two of its places in their order.
fn apart(random: &mut Random, most: i64) -> (Case, usize, usize) {
    let count = random.range(3, most) as usize;
    let kernels = kernels(random, count, 5);
    let all: Vec<Step> = (0..count)
        .map(|i| {
            let any = step(random, 4, 3, &kernels, BLUR);
            let operation = random.pick(&[BLUR, SHADOW]);
            let made = step(random, 4, 3, &kernels, operation);
            Step { kernel: i as u32, taps: any.taps.min(kernels.good[i]), ..made }
        })
        .collect();
    let case = Case { weights: kernels.table, ..Case::new(Entry::Recipes, 4, 3, inputs::picture(random, 4, 3)) };
    let first = random.below(count as u64 - 1) as usize;
    (with_steps(case, &all), first, random.range(first as i64 + 1, count as i64 - 1) as usize)
}

/// Two bad recipes of different numbers, in both orders; and one recipe that is bad twice.
fn bad_pairs(random: &mut Random, take: Take) {
    for (first, second) in OWN.into_iter().flat_map(|a| OWN.map(|b| (a, b))) {
        for _ in 0..8 {
            let (mut case, i, j) = apart(random, 8);
            spoil_step(random, &mut case, i, first);
            spoil_step(random, &mut case, j, second);
            take(case);
            let (mut case, i, _) = apart(random, 8);
            spoil_step(random, &mut case, i, first);
            spoil_step(random, &mut case, i, second);
            take(case);
        }
    }
}

/// Tables of no kernel to three, with a shorter rest behind them, and kernel indices at and past the limit; a shift takes
/// any. 33 times the last but one is 29 modulo 2^32.
fn tables(random: &mut Random, take: Take) {
    for i in 0..4 * 4 * 3 {
        let (count, rest, operation) = (i % 4, [0, 1, 20, MOST_TAPS - 1][i / 4 % 4], i as u32 / 16);
        let table = kernels(random, count, rest).table;
        let count = count as u32;
        for kernel in [0, 1, 2, count.saturating_sub(1), count, count + 1, 33, 130_150_525, u32::MAX] {
            let case = Case { weights: table.clone(), ..chain(random, 3, 2, &[]) };
            let step = Step { operation, kernel, dx: 1.0, ..plain_step() };
            take(with_steps(case.clone(), &[step]));
            take(with_steps(case, &[Step { operation: SHIFT, dy: 1.0, ..step }, step]));
        }
    }
}

/// Every tap count to 36 and far ones, by kernels whose later weights are not good, and by such as end the table.
fn taps(random: &mut Random, take: Take) {
    for taps in (0..=36).chain([64, 66, 100, 256, 65536, 65537, 1 << 31, u32::MAX]) {
        for (operation, kernel) in [(BLUR, 0), (BLUR, 1), (SHADOW, 0), (SHADOW, 1), (SHIFT, 9)] {
            let mut table = inputs::weights(random, 2 * MOST_TAPS);
            let end = MOST_TAPS * kernel as usize + taps.min(99) as usize;
            table.iter_mut().skip(end).for_each(|weight| *weight = f32::NAN);
            let case = Case { weights: table, ..chain(random, 4, 3, &[]) };
            let step = Step { operation, kernel, taps, n: taps % 3, edge: taps % 4, dx: 1.0, ..plain_step() };
            take(with_steps(case.clone(), &[step]));
            take(with_steps(case, &[Step { operation: SHIFT, kernel: 7, ..step }, step, step]));
        }
    }
}

/// Sides, lengths and work buffers that are wrong, of empty lists, of shifts alone and of bad recipes too.
fn frames(random: &mut Random, take: Take) {
    let bad = Step { operation: 3, ..plain_step() };
    let lists = [vec![], vec![Step { operation: SHIFT, dx: 1.0, ..plain_step() }; 2], vec![plain_step()], vec![bad]];
    let large = [0, 1, 2, LARGEST_SIDE + 1, 65536, 1 << 31, u32::MAX];
    for (list, (w, h)) in lists
        .iter()
        .flat_map(|list| large.map(|w| (w, 2)).into_iter().chain(large.map(|h| (2, h))).map(move |sides| (list, sides)))
    {
        for length in [0, 8, 16] {
            let picture = (0..length).map(|_| random.byte()).collect();
            let case = Case { weights: vec![1.0; MOST_TAPS], ..Case::new(Entry::Recipes, w, h, picture) };
            take(with_steps(case, list));
        }
    }
    for (list, i) in lists.iter().flat_map(|list| (0..36).map(move |i| (list, i))) {
        let (scratch, copy) = ([0, 1, 23, 24, 25, 88][i % 6], [0, 1, 23, 24, 25, 88][i / 6]);
        let case = Case { scratch, copy, weights: vec![1.0; MOST_TAPS], ..chain(random, 3, 2, &[]) };
        take(with_steps(case, list));
    }
}

/// Blurs that leave the picture, and numbers that say whether the original is composited.
fn kept(random: &mut Random, take: Take) {
    for strength in [0.0, -0.0, -1.0, f32::MIN, 1e-45, f32::MAX, f32::NAN, f32::INFINITY] {
        for (operation, composite) in [(BLUR, 0), (BLUR, 1), (SHADOW, 0), (SHADOW, 1), (SHADOW, 256), (SHADOW, 1 << 31)]
        {
            let case = Case { weights: vec![0.25; MOST_TAPS], ..chain(random, 4, 3, &[]) };
            let step = Step { operation, taps: 3, strength, composite, dx: 1.0, ..plain_step() };
            take(with_steps(case.clone(), &[step]));
            take(with_steps(case, &[step, Step { operation: SHIFT, ..step }, step]));
        }
    }
}

/// Lists on pictures that pass the check.
fn premultiplied_lists(random: &mut Random, take: Take) {
    for i in 0..180 {
        let (w, h) = (random.range(1, 7) as u32, random.range(1, 6) as u32);
        let operations = operations(random, i % 9);
        let picture = premultiplied::picture(random, w, h);
        take(Case { picture, ..chain(random, w, h, &operations) });
    }
}

/// All groups.
pub fn all(random: &mut Random, take: Take) {
    for group in [lists, bad_pairs, tables, taps, frames, kept, premultiplied_lists] {
        group(random, take);
    }
}

/// A list of three on 3 by 2 pixels in which two recipes are bad, or one twice.
fn bad_pair(random: &mut Random, first: u32, second: u32, twice: bool) -> Case {
    let (mut case, i, j) = apart(random, 3);
    spoil_step(random, &mut case, i, first);
    spoil_step(random, &mut case, if twice { i } else { j }, second);
    Case { picture: case.picture[..24].to_vec(), w: 3, h: 2, scratch: 24, copy: 25, ..case }
}

/// Small ones to be stored.
pub fn stored(random: &mut Random) -> Vec<Case> {
    let mut cases = Vec::new();
    for i in 0..27 {
        let (w, h) = (random.range(1, 4) as u32, random.range(1, 4) as u32);
        cases.push(chain(random, w, h, &[i % 3, i / 3 % 3, i / 9 % 3]));
    }
    for count in (0..9).chain(0..9) {
        let operations = operations(random, count);
        cases.push(chain(random, 3, 2, &operations));
    }
    for (first, second) in OWN.into_iter().flat_map(|a| OWN.map(|b| (a, b))).filter(|(a, b)| a != b) {
        cases.push(bad_pair(random, first, second, (first + second) % 3 == 0));
    }
    for group in [tables, taps, frames, kept] {
        let mut turn = 0;
        group(random, &mut |case| {
            turn += 1;
            if turn % 17 == 0 && case.list.len() <= 2 * WORDS {
                cases.push(case);
            }
        });
    }
    cases.extend(limits(random));
    cases.extend(eights(random));
    // those pairs that are of one recipe above, of two
    let mut random = Random::new(23);
    let pairs = OWN.into_iter().flat_map(|a| OWN.map(|b| (a, b))).filter(|(a, b)| a != b && (a + b) % 3 == 0);
    cases.extend(pairs.map(|(first, second)| bad_pair(&mut random, first, second, false)));
    cases.retain(|case| case.weights.len() <= 3 * MOST_TAPS + 32);
    cases
}

/// Lists of eight, which the proved program runs: done, with one bad recipe and with two, and with a frame that is wrong.
fn eights(random: &mut Random) -> Vec<Case> {
    let mut cases: Vec<Case> = (0..24)
        .map(|i| {
            let operations = operations(random, 8);
            chain(random, i % 3 + 1, i / 3 % 3 + 1, &operations)
        })
        .collect();
    for (first, second) in OWN.into_iter().flat_map(|a| [(a, a), (a, 9), (19, a)]) {
        let operations = operations(random, 8);
        let mut case = chain(random, 2, 2, &operations);
        spoil(random, &mut case, first);
        if first != second {
            spoil(random, &mut case, second);
        }
        cases.push(case);
    }
    let whole = chain(random, 3, 2, &[BLUR, SHIFT, SHADOW, SHIFT, BLUR, SHADOW, SHIFT, BLUR]);
    let short = [(23, 24), (24, 23), (24, 24), (25, 26), (0, 0)];
    cases.extend(short.map(|(scratch, copy)| Case { scratch, copy, ..whole.clone() }));
    cases.extend([(0, 2), (3, 0), (2, 2), (3, 16385)].map(|(w, h)| Case { w, h, ..whole.clone() }));
    cases
}

/// Limits that a short draw may miss: kernel indices, tap counts and operations past 16 and 32 bits, and empty lists.
fn limits(random: &mut Random) -> Vec<Case> {
    let kernels = kernels(random, 1, MOST_TAPS - 1);
    let plain = Case { weights: kernels.table, scratch: 25, copy: 24, ..chain(random, 3, 2, &[]) };
    let mut cases = vec![plain.clone(), Case { scratch: 23, ..plain.clone() }, Case { copy: 23, ..plain.clone() }];
    for step in [BLUR, SHADOW].map(|operation| Step { operation, dx: 1.0, ..plain_step() }) {
        let kernel = [0, 1, 130_150_525, u32::MAX].map(|kernel| Step { kernel, ..step });
        let taps = [0, 34, 65537, u32::MAX].map(|taps| Step { taps, ..step });
        let named = [3, 65537, u32::MAX].map(|operation| Step { operation, ..step });
        let bad = kernel.into_iter().chain(taps).chain(named);
        cases.extend(bad.map(|bad| with_steps(plain.clone(), &[Step { operation: SHIFT, ..bad }, step, bad])));
    }
    cases
}

/// The single call that a recipe names, on the picture of a case; none for one that is 19. More taps than a kernel has are
/// weights of 0.
fn single(case: &Case, step: &Step) -> Option<Case> {
    let Step { n, edge, composite, dx, dy, strength, colour, .. } = *step;
    let whole = Case { list: Vec::new(), weights: Vec::new(), ..case.clone() };
    if step.operation == SHIFT {
        return Some(Case { entry: Entry::Shift, dx, dy, ..whole });
    }
    let entry = match step.operation {
        BLUR => Entry::Blur,
        SHADOW => Entry::Shadow,
        _ => return None,
    };
    let mut weights = case.weights.chunks_exact(MOST_TAPS).nth(step.kernel as usize)?.to_vec();
    weights.resize(step.taps.min(100) as usize, 0.0);
    Some(Case { entry, weights, n, edge, composite, dx, dy, strength, colour, ..whole })
}

/// What the library's single functions, called one by one, make of a list: first a shadow for the frame's numbers, then every
/// recipe on the picture as it is for its own number, and then one after the other.
pub fn one_by_one(library: &Library, case: &Case) -> Outcome {
    let frame = Case { entry: Entry::Shadow, list: Vec::new(), weights: vec![1.0], ..case.clone() };
    let refused = |answer, index| {
        let left = |length: usize| (0..length).map(work).collect();
        Outcome {
            answer,
            picture: case.picture.clone(),
            scratch: left(case.scratch),
            copy: left(case.copy),
            list: case.list.clone(),
            other: Vec::new(),
            numbers: [index, 0, 0, 0],
            strayed: false,
        }
    };
    let framed = run(library, &frame);
    if framed.answer != 0 {
        return refused(framed.answer, 0);
    }
    let steps = steps(case);
    let number = |step: &Step| single(case, step).map_or(19, |single| run(library, &single).answer);
    if let Some((answer, index)) = steps.iter().map(number).zip(0..).find(|(answer, _)| *answer != 0) {
        return refused(answer, index);
    }
    let mut now = case.clone();
    for step in &steps {
        now.picture = run(library, &single(&now, step).expect("a good recipe")).picture;
    }
    Outcome { picture: now.picture, list: case.list.clone(), numbers: [0; 4], ..framed }
}

/// The rows of the printed table that a list is counted in.
pub const ROWS: [&str; 9] = [
    "list of none",
    "list of 1 to 4",
    "list of 5 to 8",
    "list of more",
    "list, later bad, smaller",
    "list, later bad, larger",
    "list, rest of the table",
    "list, shift of no kernel",
    "list, unread no share",
];

/// Those that a case is counted in.
pub fn rows(case: &Case, answer: u32) -> Vec<&'static str> {
    let steps = steps(case);
    let mut rows = vec![match steps.len() {
        0 => ROWS[0],
        1..=4 => ROWS[1],
        5..=8 => ROWS[2],
        _ => ROWS[3],
    }];
    let kernels = case.weights.len() / MOST_TAPS;
    if answer > 3 {
        let later: Vec<u32> =
            steps.iter().map(|step| step.refused(&case.weights)).filter(|number| *number != 0).collect();
        rows.extend(later.iter().any(|number| *number < answer).then_some(ROWS[4]));
        rows.extend(later.iter().any(|number| *number > answer).then_some(ROWS[5]));
    }
    if answer == 0 {
        let unread = |step: &Step| {
            let kernel = case.weights.chunks_exact(MOST_TAPS).nth(step.kernel as usize).unwrap_or(&[]);
            step.operation != SHIFT && rule::refusal::weights(&kernel[step.weights(&case.weights).len()..])
        };
        let stray = |step: &Step| step.operation == SHIFT && step.kernel as usize >= kernels;
        rows.extend((!case.weights.len().is_multiple_of(MOST_TAPS)).then_some(ROWS[6]));
        rows.extend(steps.iter().any(stray).then_some(ROWS[7]));
        rows.extend(steps.iter().any(unread).then_some(ROWS[8]));
    }
    rows
}
