//! The text that the listing program prints.

use std::fmt::Write;

use crate::check::check_routine;
use crate::notation::instruction;
use crate::record::numbered;
use crate::refusal::{Reason, Refusal};
use crate::stages::lowered;

/// "It prints `length`, source count and converted count, then one line per base
/// record: number and instruction." Every line ends with a line feed.
pub fn listing(routine: &[u8]) -> Result<String, Refusal> {
    let source = check_routine(routine)?;
    let base = lowered(&source);
    let mut text = format!("length {} {}\n", source.len(), base.len());
    for (number, record) in numbered(&base) {
        // Writing to a String cannot fail.
        let _ = writeln!(text, "{number} {}", instruction(record));
    }
    Ok(text)
}

/// Puts the listing into a lent buffer and answers its length in bytes. A buffer
/// that cannot take the whole text is refused as room, and nothing is written.
pub fn list(routine: &[u8], text: &mut [u8]) -> Result<usize, Refusal> {
    let listing = listing(routine)?;
    match text.get_mut(..listing.len()) {
        Some(part) => part.copy_from_slice(listing.as_bytes()),
        None => return Err(Refusal::whole(Reason::Room)),
    }
    Ok(listing.len())
}

/// What the program prints: the listing, or "only `refused`, number, place".
pub fn printed(routine: &[u8]) -> String {
    listing(routine)
        .unwrap_or_else(|refusal| format!("refused {} {}\n", refusal.number(), refusal.place))
}
