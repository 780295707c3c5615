//! The rules of docs/RULES.md, written plainly: what every entry answers and does to lent bytes.
pub mod area;
pub mod blur;
pub mod edges;
pub mod exact;
pub mod grading;
pub mod mend;
pub mod pam;
pub mod planes;
pub mod plate;
pub mod plate_write;
pub mod recipes;
pub mod refusal;
pub mod scheme;
pub mod shadow;
pub mod share;
pub mod shift;
pub mod whole;

pub const LARGEST_SIDE: u32 = 16384;
pub const MOST_TAPS: usize = 33;
pub const MOST_DECIMATIONS: u32 = 14;
