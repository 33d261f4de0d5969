//! The machine stack that each call of the proved library needs, recursion
//! included.
//!
//! A call is made on a stack of its own, with pages below it that nobody may touch.
//! The stack is painted before, and what has lost its paint after was used.

#![deny(unsafe_code)]

mod calls;
mod guarded;
mod inputs;

pub use calls::{Call, CALLS};
pub use guarded::Guarded;
pub use inputs::Input;

/// More than any call needs.
const PLENTY: usize = 1 << 20;

/// What a call needs at most, and the input it needs that for.
pub struct Most {
    /// Bytes.
    pub bytes: usize,
    /// The input.
    pub input: Input,
}

/// Makes a call with each of its inputs; answers the most that it needed.
pub fn most(call: &Call) -> Option<Most> {
    let mut stack = Guarded::new(PLENTY)?;
    let mut most: Option<Most> = None;
    for input in (call.inputs)() {
        let bytes = stack.used_by(call.ready(&input));
        if most.as_ref().is_none_or(|most| bytes > most.bytes) {
            most = Some(Most { bytes, input });
        }
    }
    most
}
