//! The Rust run on a case that the rules accept.
use crate::case::{Case, Entry};
use filters::{Filters, Scratch, VARIANTS};
use std::cell::Cell;
use std::hint::black_box;
use std::panic::{catch_unwind, set_hook, take_hook, AssertUnwindSafe};
use std::sync::OnceLock;
use vello_common::color::AlphaColor;
use vello_common::filter::drop_shadow::DropShadow;
use vello_common::filter::gaussian_blur::GaussianBlur;
use vello_common::filter::MAX_KERNEL_SIZE;
use vello_common::filter_effects::EdgeMode;
use vello_common::pixmap::Pixmap;

/// The Rust as published, where its source is at hand.
pub fn published() -> Option<&'static Filters> {
    VARIANTS.iter().copied().find(|f| f.name == "published")
}

/// The Rust with every listed difference mended.
pub fn mended() -> Option<&'static Filters> {
    VARIANTS.iter().copied().find(|f| f.name == "mended")
}

pub fn edge_mode(edge: u32) -> EdgeMode {
    [EdgeMode::Duplicate, EdgeMode::Wrap, EdgeMode::Mirror, EdgeMode::None][edge as usize]
}

fn kernel(weights: &[f32]) -> [f32; MAX_KERNEL_SIZE] {
    let mut kernel = [0.0; MAX_KERNEL_SIZE];
    kernel[..weights.len()].copy_from_slice(weights);
    kernel
}

pub fn blur_of(case: &Case) -> GaussianBlur {
    GaussianBlur {
        std_deviation: case.strength,
        n_decimations: case.n as usize,
        kernel: kernel(&case.weights),
        kernel_size: case.weights.len() as u8,
        edge_mode: edge_mode(case.edge),
    }
}

pub fn shadow_of(case: &Case) -> DropShadow {
    DropShadow {
        dx: case.dx,
        dy: case.dy,
        std_deviation: case.strength,
        n_decimations: case.n as usize,
        kernel: kernel(&case.weights),
        kernel_size: case.weights.len() as u8,
        color: AlphaColor::new(case.colour),
        edge_mode: edge_mode(case.edge),
        composite_original: case.composite != 0,
    }
}

/// The plate job's blur of each body where it lies.
fn job(filters: &Filters, plate: &[u8], scratch: &mut Scratch) -> Vec<u8> {
    let mut answer = plate.to_vec();
    for body in rule::plate::pictures(plate).expect("an accepted plate") {
        let part = &mut answer[body.offset as usize..(body.offset + body.length) as usize];
        let case =
            Case { weights: vec![0.25, 0.5, 0.25], n: 1, ..Case::new(Entry::Blur, body.w, body.h, part.to_vec()) };
        part.copy_from_slice(&run(filters, &case, scratch));
    }
    answer
}

/// The picture afterwards.
fn run(filters: &Filters, case: &Case, scratch: &mut Scratch) -> Vec<u8> {
    if case.entry == Entry::PlateJob {
        return job(filters, &case.picture, scratch);
    }
    let mut pixmap = Pixmap::from_bytes(case.w as u16, case.h as u16, &case.picture);
    match case.entry {
        Entry::Blur => (filters.blur)(&blur_of(case), &mut pixmap, scratch),
        Entry::Shift => (filters.shift)(&mut pixmap, case.dx, case.dy),
        Entry::Shadow => (filters.shadow)(&shadow_of(case), &mut pixmap, scratch),
        _ => unreachable!("the Rust has no such entry"),
    }
    pixmap.to_bytes()
}

/// The entries that the Rust has too.
pub fn has(entry: Entry) -> bool {
    matches!(entry, Entry::Blur | Entry::Shift | Entry::Shadow | Entry::PlateJob)
}

thread_local! {
    static QUIET: Cell<bool> = const { Cell::new(false) };
}

/// A panic inside `attempt` is an answer and prints nothing.
pub fn quiet_attempts() {
    let loud = take_hook();
    set_hook(Box::new(move |info| {
        if !QUIET.get() {
            loud(info);
        }
    }));
}

/// What `act` answers, or none where it panics.
fn attempt<T>(act: impl FnOnce() -> T) -> Option<T> {
    QUIET.set(true);
    let answer = catch_unwind(AssertUnwindSafe(act));
    QUIET.set(false);
    answer.ok()
}

/// The picture afterwards, or none where the Rust panics.
pub fn picture(filters: &Filters, case: &Case, scratch: &mut Scratch) -> Option<Vec<u8>> {
    attempt(|| run(filters, case, scratch))
}

/// Whether this build panics when whole numbers overflow.
pub fn checks_overflow() -> bool {
    static CHECKS: OnceLock<bool> = OnceLock::new();
    *CHECKS.get_or_init(|| attempt(|| black_box(u8::MAX) + black_box(1)).is_none())
}
