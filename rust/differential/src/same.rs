//! Both sides' answers as the numbers of the C functions, and their comparison.

use std::fmt::Debug;

use ordinary::notation::written;
use ordinary::{records_of, Refusal};
use quadrilhel::c;

use crate::lent::Lent;

/// What a case came to: a refusal's number or 0, and a status or 0.
#[derive(Clone, Copy, Debug)]
pub struct Seen {
    /// The refusal's number, 0 if accepted.
    pub refusal: u32,
    /// The status, 0 where there is none.
    pub status: u32,
}

impl Seen {
    /// A case without a status.
    pub fn verdict(verdict: c::Verdict) -> Seen {
        Seen {
            refusal: verdict.refusal,
            status: 0,
        }
    }

    /// A run or a step.
    pub fn ran(ran: c::Ran) -> Seen {
        Seen {
            refusal: ran.refusal,
            status: ran.status,
        }
    }
}

/// What the library must answer where plain Rust answers this.
pub fn verdict(plain: Result<usize, Refusal>) -> c::Verdict {
    match plain {
        Ok(count) => c::Verdict {
            refusal: 0,
            place: 0,
            count: count as u32,
        },
        Err(why) => c::Verdict {
            refusal: why.number(),
            place: why.place as u32,
            count: 0,
        },
    }
}

/// What the library must answer where plain Rust answers this; a refused call
/// hands back `refused_state` and has done nothing.
pub fn ran(plain: Result<ordinary::Ran, Refusal>, refused_state: c::State) -> c::Ran {
    match plain {
        Ok(ran) => c::Ran {
            refusal: 0,
            place: 0,
            status: ran.status as u32,
            state: library_state(ran.state),
            steps: ran.steps,
            replies: ran.replies,
            actions: ran.actions,
        },
        Err(why) => c::Ran {
            refusal: why.number(),
            place: why.place as u32,
            status: 0,
            state: refused_state,
            steps: 0,
            replies: 0,
            actions: 0,
        },
    }
}

/// The same state for the library.
pub fn library_state(state: ordinary::State) -> c::State {
    c::State {
        at: state.at,
        depth: state.depth,
        entries: state.entries,
    }
}

/// Number and place, as the wrapper's `Result` gives them.
pub fn of_wrapper<T>(answer: Result<T, quadrilhel::Refusal>) -> Result<T, (u32, u32)> {
    answer.map_err(|why| (why.number(), why.place()))
}

/// Number and place, as plain Rust's `Result` gives them.
pub fn of_plain<T>(answer: Result<T, Refusal>) -> Result<T, (u32, u32)> {
    answer.map_err(|why| (why.number(), why.place as u32))
}

/// An error that shows both, if they differ.
pub fn same<T: PartialEq + Debug>(what: &str, library: T, plain: T) -> Result<(), String> {
    if library == plain {
        return Ok(());
    }
    Err(format!(
        "{what} differs\n  library:    {library:?}\n  plain Rust: {plain:?}"
    ))
}

/// An error that shows the first byte in which two buffers differ.
pub fn same_bytes(what: &str, library: &Lent, plain: &Lent) -> Result<(), String> {
    match library.first_difference(plain) {
        None => Ok(()),
        Some((at, library_byte, plain_byte)) => Err(format!(
            "{what} of {} bytes differs at offset {at}\n  library:    {library_byte}\n  \
             plain Rust: {plain_byte}",
            plain.size()
        )),
    }
}

/// Adds the program to an error, written out and as bytes.
pub fn with_program(error: String, program: &[u8]) -> String {
    let records = records_of(program);
    let shown = &records[..records.len().min(60)];
    let bytes: Vec<String> = program.iter().map(|b| format!("{b:02x}")).collect();
    let bytes = bytes[..bytes.len().min(480)].concat();
    format!(
        "{error}\n  program of {} bytes: {}\n  its bytes: {bytes}",
        program.len(),
        written(shown)
    )
}

/// Adds a text and a list of names to an error.
pub fn with_text(error: String, text: &[u8], names: &[u8]) -> String {
    let shown = |bytes: &[u8]| bytes[..bytes.len().min(480)].escape_ascii().to_string();
    format!(
        "{error}\n  text of {} bytes: {}\n  names, {} bytes: {}",
        text.len(),
        shown(text),
        names.len(),
        shown(names)
    )
}
