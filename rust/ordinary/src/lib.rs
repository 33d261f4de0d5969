//! Settlement routines and their numbered base, in plain Rust.
//!
//! Written from the paper (document 01) and the requests after it (document 02)
//! alone, and from nothing of the proved code, so that the two can be held
//! against each other. Sentences in quotation marks are the paper's, or those of
//! the request that is named. Everything is numbered from 1, as there.
//!
//! The converter counts once per stage: each stage is one pass that writes its
//! records and notes where every first-level record went, and one pass that
//! sends the jumps there.

#![forbid(unsafe_code)]

mod check;
mod convert;
mod listing;
mod machine;
mod nesting;
pub mod notation;
mod record;
mod refusal;
mod relative;
mod second_level;
mod stages;
mod text;

pub use check::converted_length;
pub use convert::convert;
pub use listing::{list, listing, printed};
pub use machine::{run_base, run_routine, step_base, step_routine, Ran, State, Status, STACK};
pub use record::{bytes_of, kind, own, records_of, Record, RECORD};
pub use refusal::{Reason, Refusal};
pub use relative::{to_absolute, to_relative};
pub use text::{name_list, read_text, write_text};

/// "A routine has 0 to 512 records."
pub const ROUTINE_LIMIT: usize = 512;
/// "A base or relative base 0 to 4,096", and so the greatest converted length.
pub const BASE_LIMIT: usize = 4_096;
/// The greatest number a jump, a call or a stack entry may hold.
pub const NUMBER_LIMIT: u16 = 9_999;

/// The checks of a routine: how many records it has, or the first refusal.
pub fn check_routine(routine: &[u8]) -> Result<usize, Refusal> {
    check::check_routine(routine).map(|records| records.len())
}

/// The checks of a base.
pub fn check_base(base: &[u8]) -> Result<usize, Refusal> {
    check::check_base(base).map(|records| records.len())
}

/// The checks of a relative base.
pub fn check_relative(relative: &[u8]) -> Result<usize, Refusal> {
    check::check_relative(relative).map(|records| records.len())
}
