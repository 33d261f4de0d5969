//! Refusals 1 to 7 and 14, in the paper's order; "14 label [...], after 5 and before
//! 6" (request C-13).

use crate::nesting::misfit;
use crate::record::{kind, own, Record, RECORD};
use crate::refusal::{Reason, Refusal};
use crate::stages::labels::Labels;
use crate::{BASE_LIMIT, NUMBER_LIMIT, ROUTINE_LIMIT};

/// How a record stands to a notation: "3 first within it".
enum Fit {
    Good,
    WrongKind,
    WrongField,
}

impl Fit {
    fn of_fields(fields_are_right: bool) -> Fit {
        if fields_are_right {
            Fit::Good
        } else {
            Fit::WrongField
        }
    }
}

/// Checks 1 to 5, 14, 6 and 7 of a routine; answers its records.
pub fn check_routine(bytes: &[u8]) -> Result<Vec<Record>, Refusal> {
    let records = routine_records(bytes)?;
    if let Some(place) = misfit(&records) {
        return Err(Refusal::at(Reason::Nesting, place));
    }
    if let Some(place) = Labels::of(&records).lowest_lost_goto(&records) {
        return Err(Refusal::at(Reason::Label, place));
    }
    if let Some(place) = lowest_bad_skip(&records) {
        return Err(Refusal::at(Reason::Skip, place));
    }
    if converted_length(&records) > BASE_LIMIT {
        return Err(Refusal::whole(Reason::Growth));
    }
    Ok(records)
}

/// Checks 1 to 4 of a routine; answers its records.
pub fn routine_records(bytes: &[u8]) -> Result<Vec<Record>, Refusal> {
    check_records(bytes, ROUTINE_LIMIT, fit_in_routine)
}

/// Checks 1 to 4 of a base; answers its records.
pub fn check_base(bytes: &[u8]) -> Result<Vec<Record>, Refusal> {
    check_records(bytes, BASE_LIMIT, fit_in_base)
}

/// Checks 1 to 4 of a relative base; answers its records.
pub fn check_relative(bytes: &[u8]) -> Result<Vec<Record>, Refusal> {
    check_records(bytes, BASE_LIMIT, fit_in_relative)
}

/// "1, 2; then the lowest record with fault 3 or 4."
fn check_records(
    bytes: &[u8],
    limit: usize,
    fit: fn(Record) -> Fit,
) -> Result<Vec<Record>, Refusal> {
    let (whole, rest) = bytes.as_chunks::<RECORD>();
    if !rest.is_empty() {
        return Err(Refusal::whole(Reason::Ragged));
    }
    if whole.len() > limit {
        return Err(Refusal::whole(Reason::Long));
    }
    let mut records = Vec::with_capacity(whole.len());
    for (place, bytes) in (1..).zip(whole) {
        let record = Record::read(bytes);
        match fit(record) {
            Fit::WrongKind => return Err(Refusal::at(Reason::Kind, place)),
            _ if !zeros_are_zero(bytes) => return Err(Refusal::at(Reason::Kind, place)),
            Fit::WrongField => return Err(Refusal::at(Reason::Field, place)),
            Fit::Good => records.push(record),
        }
    }
    Ok(records)
}

/// "Bytes 1, 6 and 7 are zero."
fn zeros_are_zero(bytes: &[u8; RECORD]) -> bool {
    bytes[1] == 0 && bytes[6] == 0 && bytes[7] == 0
}

/// An outside action's number or a label: 1..999.
fn is_name(number: u16) -> bool {
    (1..=999).contains(&number)
}

/// A number that a jump, call or stack entry may hold: 0..9,999.
fn is_number(number: u16) -> bool {
    number <= NUMBER_LIMIT
}

/// The sixteen rows of the paper's table; "An unlisted field is zero."
fn fit_in_routine(Record { kind, x, y }: Record) -> Fit {
    use kind::*;
    Fit::of_fields(match kind {
        ACTION | YES_TEST | NO_TEST => is_name(x) && y == 0,
        JUMP | CALL => is_number(x) && y == 0,
        LABEL | GOTO => is_name(x) && y == 0,
        CHAINED_GOTO => is_name(x) && is_name(y),
        YES_BLOCK | NO_BLOCK | YES_LOOP | NO_LOOP => is_name(x) && y == 0,
        SEPARATOR | END | LOOP_END | RETURN => x == 0 && y == 0,
        _ => return Fit::WrongKind,
    })
}

/// "A base holds kinds 1 to 4 only."
fn fit_in_base(record: Record) -> Fit {
    match record.kind {
        kind::ACTION | kind::YES_TEST | kind::NO_TEST => fit_of_base_action(record),
        kind::JUMP => Fit::of_fields(is_number(record.x) && record.y == 0),
        _ => Fit::WrongKind,
    }
}

/// "A relative base holds kinds 1 to 3 as in a base, and 17 [...], 18 [...], 19 (stop)."
fn fit_in_relative(record: Record) -> Fit {
    match record.kind {
        kind::ACTION | kind::YES_TEST | kind::NO_TEST => fit_of_base_action(record),
        kind::FORWARD | kind::BACKWARD => Fit::of_fields(is_number(record.x) && record.y == 0),
        kind::STOP => Fit::of_fields(record.x == 0 && record.y == 0),
        _ => Fit::WrongKind,
    }
}

/// "y is 0..9,999 for 1001 and 1003, and zero otherwise."
fn fit_of_base_action(Record { x, y, .. }: Record) -> Fit {
    Fit::of_fields(match x {
        own::PUSH | own::COMPARE => is_number(y),
        own::POP => y == 0,
        _ => is_name(x) && y == 0,
    })
}

/// Kinds that add one place in the base.
fn adds_one(kind: u8) -> bool {
    use kind::*;
    matches!(kind, YES_BLOCK | NO_BLOCK | YES_LOOP | NO_LOOP | CALL)
}

/// "A plain test (kind 2 or 3) may not stand directly before a kind that adds
/// places": the lowest test that does.
fn lowest_bad_skip(records: &[Record]) -> Option<usize> {
    let bad = |pair: &[Record]| {
        matches!(pair[0].kind, kind::YES_TEST | kind::NO_TEST)
            && (adds_one(pair[1].kind) || pair[1].kind == kind::RETURN)
    };
    records.windows(2).position(bad).map(|before| before + 1)
}

/// "Converted length: n, plus one for each record of kind 8, 9, 12, 13 or 15,
/// plus 6n for each ##R."
pub fn converted_length(records: &[Record]) -> usize {
    let n = records.len();
    let ones = records.iter().filter(|r| adds_one(r.kind)).count();
    let returns = records.iter().filter(|r| r.kind == kind::RETURN).count();
    n + ones + 6 * n * returns
}
