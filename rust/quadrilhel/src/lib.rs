//! Safe Rust over the proved Quadrilhel library.
//!
//! A routine, a base or a relative base is a slice of bytes, eight to a record.
//! Every call takes any bytes and answers a value or one [`Refusal`]. Nothing
//! here panics and nothing but the lent buffers is written to. What each call
//! answers, on every input, is proved of the library below; this crate only
//! passes slices in and gives names to the numbers that come out.
//!
//! ```
//! // ##2 alone: a jump to a record that is not there.
//! let routine = [4, 0, 2, 0, 0, 0, 0, 0];
//! let base = quadrilhel::converted(&routine)?;
//! assert_eq!(base, [4, 0, 0, 0, 0, 0, 0, 0]);
//!
//! let refusal = quadrilhel::check_routine(&[11, 0, 0, 0, 0, 0, 0, 0]).unwrap_err();
//! assert_eq!((refusal.number(), refusal.place()), (5, 1));
//! println!("{refusal}");
//! # Ok::<(), quadrilhel::Refusal>(())
//! ```

#![deny(unsafe_code)]

pub mod c;
mod machine;
mod needs;
mod refusal;
mod text;

pub use c::State;
pub use machine::{run_base, run_routine, step_base, step_routine, Ran, Status};
pub use needs::STACK_NEEDS;
pub use refusal::Refusal;
pub use text::{as_text, read_text, typed, write_text, BadName, Mistyped, Names};

/// Bytes in a record.
pub const RECORD: usize = 8;
/// The most records that a routine may have.
pub const ROUTINE_LIMIT: usize = 512;
/// The most records that a base or relative base may have.
pub const BASE_LIMIT: usize = 4_096;
/// A buffer of this many bytes has room for every base and relative base.
pub const BASE_BYTES: usize = RECORD * BASE_LIMIT;
/// A buffer of this many bytes has room for every listing: its first line is at
/// most `length 512 4096`, and no other is longer than `4096 -topeq(512)`.
pub const LISTING_BYTES: usize = 16 + 18 * BASE_LIMIT;

/// Bytes in an entry of a list of names, and the longest that a name may be.
pub const NAME_BYTES: usize = 16;
/// The most entries that a list of names may have.
pub const NAME_LIMIT: usize = 999;
/// A buffer of this many bytes has room for every text that is written: `; ` between
/// two, and no instruction is longer than a sign, a name of 16 and `{*`.
pub const TEXT_BYTES: usize = 19 * ROUTINE_LIMIT + 2 * (ROUTINE_LIMIT - 1);

/// Checks a routine (refusals 1 to 7 and 14) and answers how many records it has.
pub fn check_routine(routine: &[u8]) -> Result<usize, Refusal> {
    count(c::check_routine(routine))
}

/// Checks a base (refusals 1 to 4) and answers how many records it has.
pub fn check_base(base: &[u8]) -> Result<usize, Refusal> {
    count(c::check_base(base))
}

/// Checks a relative base (refusals 1 to 4) and answers how many records it has.
pub fn check_relative(relative: &[u8]) -> Result<usize, Refusal> {
    count(c::check_relative(relative))
}

/// Converts a routine and answers how many records the base has.
///
/// They stand in the first eight bytes per record of `out`; the rest of `out` is
/// as it was and `work` is all zero. Each of the two buffers needs eight bytes
/// per converted record; [`BASE_BYTES`] are always enough. A refused call writes
/// to neither.
pub fn convert(routine: &[u8], out: &mut [u8], work: &mut [u8]) -> Result<usize, Refusal> {
    count(c::convert(routine, out, work))
}

/// Converts a routine and answers the bytes of its base.
pub fn converted(routine: &[u8]) -> Result<Vec<u8>, Refusal> {
    let mut work = vec![0; BASE_BYTES];
    filled(BASE_BYTES, RECORD, |out| convert(routine, out, &mut work))
}

/// Translates a base to relative jumps and answers how many records there are.
///
/// `out` needs the size of `base`. A refused call does not write to it.
pub fn to_relative(base: &[u8], out: &mut [u8]) -> Result<usize, Refusal> {
    count(c::to_relative(base, out))
}

/// Translates a relative base to absolute jumps and answers how many records
/// there are.
///
/// `out` needs the size of `relative`. A refused call does not write to it.
pub fn to_absolute(relative: &[u8], out: &mut [u8]) -> Result<usize, Refusal> {
    count(c::to_absolute(relative, out))
}

/// Puts the listing of a routine into `text` and answers its length in bytes.
///
/// [`LISTING_BYTES`] are always enough room. A refused call does not write.
pub fn list(routine: &[u8], text: &mut [u8]) -> Result<usize, Refusal> {
    count(c::list(routine, text))
}

/// The listing of a routine.
pub fn listing(routine: &[u8]) -> Result<String, Refusal> {
    let text = filled(LISTING_BYTES, 1, |text| list(routine, text))?;
    // The library writes ASCII only, so nothing is lost here.
    Ok(String::from_utf8_lossy(&text).into_owned())
}

/// The part of a fresh buffer that a call filled; `size` is the bytes in each of
/// the things that the call counts.
fn filled(
    room: usize,
    size: usize,
    call: impl FnOnce(&mut [u8]) -> Result<usize, Refusal>,
) -> Result<Vec<u8>, Refusal> {
    let mut buffer = vec![0; room];
    let count = call(&mut buffer)?;
    buffer.truncate(size.saturating_mul(count));
    Ok(buffer)
}

fn count(verdict: c::Verdict) -> Result<usize, Refusal> {
    match Refusal::from_numbers(verdict.refusal, verdict.place) {
        Some(refusal) => Err(refusal),
        None => Ok(verdict.count as usize),
    }
}
