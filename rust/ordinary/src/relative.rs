//! "Relative jumps (2.2)", both ways.

use crate::check::{check_base, check_relative};
use crate::record::{kind, numbered, write_records, Record, RECORD};
use crate::refusal::{Reason, Refusal};
use crate::NUMBER_LIMIT;

/// Translates a base to relative jumps and answers the number of records.
pub fn to_relative(base: &[u8], out: &mut [u8]) -> Result<usize, Refusal> {
    let given = check_base(base)?;
    let relative: Vec<Record> = numbered(&given).map(relative_record).collect();
    fill(&relative, out)
}

/// Translates a relative base to absolute jumps and answers the number of records.
pub fn to_absolute(relative: &[u8], out: &mut [u8]) -> Result<usize, Refusal> {
    let given = check_relative(relative)?;
    let absolute = numbered(&given)
        .map(absolute_record)
        .collect::<Result<Vec<Record>, Refusal>>()?;
    fill(&absolute, out)
}

/// "Translation between absolute and relative checks 8 on its output only."
fn fill(records: &[Record], out: &mut [u8]) -> Result<usize, Refusal> {
    if out.len() < RECORD * records.len() {
        return Err(Refusal::whole(Reason::Room));
    }
    write_records(records, out);
    Ok(records.len())
}

/// "At i, ##0 becomes stop [...]; other ##k becomes forward k-i if k >= i, else
/// backward i-k."
fn relative_record((i, record): (usize, Record)) -> Record {
    if record.kind != kind::JUMP {
        return record;
    }
    let i = i as u16;
    match record.x {
        0 => Record::new(kind::STOP, 0, 0),
        k if k >= i => Record::new(kind::FORWARD, k - i, 0),
        k => Record::new(kind::BACKWARD, i - k, 0),
    }
}

/// "Forward k becomes ##(k+i); backward k becomes ##(i-k) if k < i, else ##0;
/// stop becomes ##0."
fn absolute_record((i, record): (usize, Record)) -> Result<Record, Refusal> {
    let k = usize::from(record.x);
    match record.kind {
        kind::FORWARD if k + i > usize::from(NUMBER_LIMIT) => Err(Refusal::at(Reason::Far, i)),
        kind::FORWARD => Ok(Record::jump(k + i)),
        kind::BACKWARD => Ok(Record::jump(i.saturating_sub(k))),
        kind::STOP => Ok(Record::jump(0)),
        _ => Ok(record),
    }
}
