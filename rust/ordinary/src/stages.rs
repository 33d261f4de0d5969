//! "How a routine is lowered": the four stages.

pub mod calls;
pub mod conditionals;
pub mod labels;
pub mod loops;

use crate::record::Record;

/// "Every stage is done for every routine, in this order."
pub fn lowered(routine: &[Record]) -> Vec<Record> {
    let without_labels = labels::lower(routine);
    let without_calls = calls::lower(&without_labels);
    let without_loops = loops::lower(&without_calls);
    conditionals::lower(&without_loops)
}
