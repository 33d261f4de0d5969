//! Records to text.

use crate::check::routine_records;
use crate::record::{kind, numbered, Record};
use crate::refusal::{Reason, Refusal};
use crate::text::names::{entries, proper, Name};

/// Writes a routine as text and answers its length in bytes: "instructions joined by
/// `; `, labels as L1, L2 and so on, no leading zeros, `!` for ##0." Refusals: 1 to
/// 4 of a routine; "13 at 0 for such a list, else at the first record whose action
/// has no proper name in it, then 8."
pub fn write_text(routine: &[u8], names: &[u8], text: &mut [u8]) -> Result<usize, Refusal> {
    let records = routine_records(routine)?;
    let list = entries(names)?;
    let mut length = 0;
    for (i, record) in numbered(&records) {
        let name = action_name(record, list).ok_or(Refusal::at(Reason::Name, i))?;
        if i > 1 {
            length += 2;
        }
        instruction(record, name, |part| length += part.len());
    }
    let Some(text) = text.get_mut(..length) else {
        return Err(Refusal::whole(Reason::Room));
    };
    let mut rest = text;
    let mut put = |part: &[u8]| {
        if let Some((place, behind)) = std::mem::take(&mut rest).split_at_mut_checked(part.len()) {
            place.copy_from_slice(part);
            rest = behind;
        }
    };
    for (i, record) in numbered(&records) {
        if i > 1 {
            put(b"; ");
        }
        instruction(record, action_name(record, list).unwrap_or(b""), &mut put);
    }
    Ok(length)
}

/// The name of a record's action: nothing to write if it has no action, and none if
/// the list has no proper name for it.
fn action_name(record: Record, list: &[Name]) -> Option<&[u8]> {
    use kind::*;
    match record.kind {
        ACTION | YES_TEST | NO_TEST | YES_BLOCK | NO_BLOCK | YES_LOOP | NO_LOOP => {
            proper(list.get(usize::from(record.x).checked_sub(1)?)?)
        }
        _ => Some(b""),
    }
}

/// Puts an instruction, part by part.
fn instruction(Record { kind, x, y }: Record, name: &[u8], mut put: impl FnMut(&[u8])) {
    use kind::*;
    let before: &[u8] = match kind {
        YES_TEST | YES_BLOCK | YES_LOOP => b"+",
        NO_TEST | NO_BLOCK | NO_LOOP => b"-",
        JUMP if x == 0 => b"!",
        JUMP => b"##",
        LABEL => b"[L",
        GOTO | CHAINED_GOTO => b"##[L",
        SEPARATOR => b"}{",
        END => b"}",
        LOOP_END => b"*}",
        CALL => b"R##",
        RETURN => b"##R",
        _ => b"",
    };
    put(before);
    put(name);
    match kind {
        YES_BLOCK | NO_BLOCK => put(b"{"),
        YES_LOOP | NO_LOOP => put(b"{*"),
        CALL => number(x, &mut put),
        JUMP if x != 0 => number(x, &mut put),
        LABEL | GOTO | CHAINED_GOTO => {
            number(x, &mut put);
            put(b"]");
        }
        _ => {}
    }
    if kind == CHAINED_GOTO {
        put(b"[L");
        number(y, &mut put);
        put(b"]");
    }
}

/// A number of up to five digits, "no leading zeros".
fn number(number: u16, put: &mut impl FnMut(&[u8])) {
    let mut digits = [b'0'; 5];
    let (mut rest, mut from) = (number, digits.len());
    loop {
        from -= 1;
        digits[from] = b'0' + (rest % 10) as u8;
        rest /= 10;
        if rest == 0 {
            return put(&digits[from..]);
        }
    }
}
