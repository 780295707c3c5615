//! Chains: operations that are saved as a text, a line each, and run as one list of recipes.
use crate::failure::Failure;
use crate::files::{self, room};
use crate::filter::Work;
use crate::options::Options;
use crate::picture::Picture;
use crate::step::{self, Blurring, Shadowing, Step};
use corbelrush::{recipes, Recipe, MAX_TAPS};

/// A chain, with the file and the lines that it was read from.
pub struct Chain {
    name: String,
    lines: Vec<usize>,
    steps: Vec<Step>,
}

impl Chain {
    /// Of a text: an operation and its options in each line; a line that is empty or begins with # says nothing.
    pub fn read(name: &str) -> Result<Chain, Failure> {
        let mut chain = Chain { name: name.to_string(), lines: Vec::new(), steps: Vec::new() };
        for (index, line) in files::lines(name)?.enumerate() {
            let words: Vec<String> = line?.split_whitespace().map(str::to_string).collect();
            if words.first().is_some_and(|word| !word.starts_with('#')) {
                let step = read_step(&words).map_err(|failure| failure.of(&format!("{name}: line {}", index + 1)))?;
                chain.steps.push(step);
                chain.lines.push(index + 1);
            }
        }
        Ok(chain)
    }
}

impl Work for Chain {
    /// All recipes are checked before the first runs.
    fn run(&self, picture: &mut Picture) -> Result<(), Failure> {
        let (list, table): (Vec<_>, Vec<_>) = self.steps.iter().zip(0..).map(|(step, row)| recipe(step, row)).unzip();
        let Picture { bytes, size } = picture;
        let (mut scratch, mut copy) = (room(bytes.len())?, room(bytes.len())?);
        recipes(bytes, *size, &mut scratch, &mut copy, &list, &table).map_err(|placed| {
            let line = self.lines[placed.at as usize];
            Failure::Refused(placed.refusal, format!("at line {line} of {}", self.name))
        })
    }

    fn saved(&self) -> String {
        self.steps.iter().map(saved).collect()
    }
}

/// The operation of a line's words.
fn read_step(words: &[String]) -> Result<Step, Failure> {
    let name = words[0].as_str();
    let options = Options::read(&words[1..], &[step::known(name)])?;
    match options.files.first() {
        Some(other) => Err(Failure::Usage(format!("'{other}' is no option"))),
        None => Step::read(name, &options),
    }
}

/// A step's line. Numbers are written with as many digits as bring the same binary32 back.
pub fn saved(step: &Step) -> String {
    match step {
        Step::Blur(how) => format!("blur {}\n", blur_options(how)),
        Step::Shift(dx, dy) => format!("shift -dx={dx} -dy={dy}\n"),
        Step::Shadow(Shadowing { blur, dx, dy, colour: [red, green, blue, alpha], alone }) => {
            let (blur, alone) = (blur_options(blur), if *alone { " -alone" } else { "" });
            format!("shadow {blur} -dx={dx} -dy={dy} -colour={red},{green},{blue},{alpha}{alone}\n")
        }
    }
}

fn blur_options(how: &Blurring) -> String {
    let weights: Vec<_> = how.weights.iter().map(f32::to_string).collect();
    let edge = step::edge_name(how.edge);
    format!("-weights={} -n={} -edge={edge} -strength={}", weights.join(","), how.n, how.strength)
}

/// A step as a recipe, and the row of the table that its kernel stands in.
fn recipe(step: &Step, row: u32) -> (Recipe, [f32; MAX_TAPS]) {
    match step {
        Step::Blur(how) => blur_recipe(how, row),
        Step::Shift(dx, dy) => (Recipe::shift(*dx, *dy), [0.0; MAX_TAPS]),
        Step::Shadow(how) => {
            let (blur, kernel) = blur_recipe(&how.blur, row);
            let ([red, green, blue, alpha], composite) = (how.colour, u32::from(!how.alone));
            let (dx, dy) = (how.dx, how.dy);
            (Recipe { operation: 2, composite, dx, dy, red, green, blue, alpha, ..blur }, kernel)
        }
    }
}

/// Weights past the row's end are left out of it, and refused by their number.
fn blur_recipe(how: &Blurring, row: u32) -> (Recipe, [f32; MAX_TAPS]) {
    let mut kernel = [0.0; MAX_TAPS];
    kernel.iter_mut().zip(&how.weights).for_each(|(tap, weight)| *tap = *weight);
    let (taps, edge) = (how.weights.len() as u32, how.edge as u32);
    (Recipe { kernel: row, taps, n: how.n, edge, strength: how.strength, ..Recipe::default() }, kernel)
}
