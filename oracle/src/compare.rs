//! One case examined: library, rules, mended Rust, published Rust and the models of its faults.
use crate::case::{run, Case, Entry, Outcome};
use crate::faults::{self, Faults};
use crate::library::{Library, RULE};
use crate::plane_cases;
use crate::premultiplied;
use crate::recipe_cases;
use crate::rust;
use crate::share_cases;
use crate::whole_cases;
use filters::{Class, Scratch, CLASSES, VARIANTS};

/// What may not happen, with both sides.
#[derive(Clone, Debug, PartialEq)]
pub struct Difference {
    pub kind: String,
    pub expected: String,
    pub found: String,
}

/// What an agreeing case showed.
pub struct Seen {
    pub answer: u32,
    /// The classes that change this case's picture, and Overflow where a coordinate overflows.
    pub classes: Vec<Class>,
    /// What it shows of request 09's law.
    pub premultiplied: Option<&'static str>,
}

pub struct Examiner {
    library: &'static Library,
    /// Kept from case to case, as the Rust keeps them.
    scratches: Vec<Scratch>,
}

fn agree<T: PartialEq + std::fmt::Debug>(kind: &str, expected: &T, found: &T) -> Result<(), Difference> {
    if expected == found {
        return Ok(());
    }
    Err(Difference { kind: kind.into(), expected: format!("{expected:?}"), found: format!("{found:?}") })
}

impl Examiner {
    pub fn new(library: &'static Library) -> Examiner {
        Examiner { library, scratches: VARIANTS.iter().map(|_| Scratch::default()).collect() }
    }

    /// Every comparison of one case; `thorough` also runs each class mended alone.
    pub fn examine(&mut self, case: &Case, thorough: bool) -> Result<Seen, Difference> {
        let lawful = run(&RULE, case);
        agree("the rules strayed", &false, &lawful.strayed)?;
        agree(&format!("library and rules, answer {}", lawful.answer), &lawful, &run(self.library, case))?;
        if lawful.answer == 0 && case.entry == Entry::BlurWhole {
            agree("whole-number blur and float blur", &lawful, &run(self.library, &whole_cases::as_float(case)))?;
            agree("least and greatest", &true, &whole_cases::between(case, &lawful))?;
        }
        agree("planes and picture", &lawful, &plane_cases::by_picture(self.library, case, &lawful))?;
        if case.entry == Entry::Recipes {
            agree("list and single calls", &lawful, &recipe_cases::one_by_one(self.library, case))?;
        }
        agree("shares of a whole", &true, &share_cases::loses_nothing(case, &lawful))?;
        let law = premultiplied::shown(self.library, case, &lawful.picture);
        agree("premultiplied afterwards", &true, &law.is_ok())?;
        let mut seen = Seen { answer: lawful.answer, classes: Vec::new(), premultiplied: law.ok().flatten() };
        if lawful.answer == 0 && rust::has(case.entry) {
            self.beside_rust(case, &lawful, thorough)?;
            seen.classes = classes(case, &lawful)?;
        }
        Ok(seen)
    }

    /// Each variant of the Rust equals the model with the faults that it still has.
    fn beside_rust(&mut self, case: &Case, lawful: &Outcome, thorough: bool) -> Result<(), Difference> {
        for (filters, scratch) in VARIANTS.iter().zip(&mut self.scratches) {
            let name = filters.name;
            if !thorough && name != "published" && name != "mended" {
                continue;
            }
            let found = rust::picture(filters, case, scratch);
            if name == "mended" {
                agree("mended Rust and library", &Some(lawful.picture.clone()), &found)?;
            } else {
                let model = faults::picture(case, Faults(&|class| filters.has(class)));
                agree(&format!("{name} Rust and model"), &model, &found)?;
            }
        }
        Ok(())
    }
}

/// The classes that a case shows: those whose mending, one after the other, changes the picture.
fn classes(case: &Case, lawful: &Outcome) -> Result<Vec<Class>, Difference> {
    let mut shown = Vec::new();
    let mut picture = faults::picture(case, faults::ALL);
    if picture.as_ref() != Some(&lawful.picture) {
        for mended in CLASSES {
            let next = faults::picture(case, Faults(&|class| class > mended));
            if next != picture {
                shown.push(mended);
            }
            picture = next;
        }
        agree("model without faults and rules", &Some(&lawful.picture), &picture.as_ref())?;
    }
    if faults::overflows(case) && !shown.contains(&Class::Overflow) {
        shown.push(Class::Overflow);
    }
    Ok(shown)
}

/// What to say where the Rust is not at hand.
pub const SKIPPED: &str =
    "comparison with the Rust skipped: set VELLO_SRC to the folder that holds vello_cpu 0.3.0's src/";
