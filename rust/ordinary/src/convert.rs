//! The conversion and its two lent buffers.

use crate::check::{check_routine, converted_length};
use crate::record::{write_records, RECORD};
use crate::refusal::{Reason, Refusal};
use crate::stages::lowered;

/// Converts a routine into `out` and answers the number of base records.
///
/// "A refused call writes to no lent buffer [...]. A conversion that succeeds
/// fills the first 8 bytes per record of the output, keeps the rest, and leaves
/// the working buffer all zero": all of it, also past the bytes needed. This
/// converter has room of its own and only asks for the working buffer because
/// the paper does.
pub fn convert(routine: &[u8], out: &mut [u8], work: &mut [u8]) -> Result<usize, Refusal> {
    let source = check_routine(routine)?;
    let needed = RECORD * converted_length(&source);
    if out.len() < needed || work.len() < needed {
        return Err(Refusal::whole(Reason::Room));
    }
    let base = lowered(&source);
    write_records(&base, out);
    work.fill(0);
    Ok(base.len())
}
