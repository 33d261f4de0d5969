//! "A body is a run of items, and a conditional item holds one or two bodies."

use crate::record::{kind, numbered, Record};

/// What an open item still waits for.
enum Open {
    /// A conditional before its separator, if it has one.
    FirstArm,
    /// A conditional after its separator.
    SecondArm,
    Loop,
}

/// The place of refusal 5, if these records are not one body: "the first
/// separator or end that does not fit the innermost open item (a second
/// separator doesn't fit); if none, the lowest opener never closed."
pub fn misfit(records: &[Record]) -> Option<usize> {
    use kind::*;
    let mut open: Vec<(usize, Open)> = Vec::new();
    for (i, record) in numbered(records) {
        match record.kind {
            YES_BLOCK | NO_BLOCK => open.push((i, Open::FirstArm)),
            YES_LOOP | NO_LOOP => open.push((i, Open::Loop)),
            SEPARATOR => match open.last_mut() {
                Some((_, arm @ Open::FirstArm)) => *arm = Open::SecondArm,
                _ => return Some(i),
            },
            END => match open.pop() {
                Some((_, Open::FirstArm | Open::SecondArm)) => {}
                _ => return Some(i),
            },
            LOOP_END => match open.pop() {
                Some((_, Open::Loop)) => {}
                _ => return Some(i),
            },
            _ => {}
        }
    }
    open.first().map(|&(lowest, _)| lowest)
}

/// The partner of every record of a well-built sequence, found in one pass.
///
/// | record | partner |
/// |---|---|
/// | conditional's header | its separator, or its end if it has no separator |
/// | separator | its end |
/// | loop's header | its end |
/// | loop's end | its header |
///
/// 0 for every other record. The partner of record i stands at index i, and
/// index 0 belongs to no record. Pairs wait on a list that grows as deep as the
/// records nest: "the chain nests as deep as the routine is long."
pub fn partners(records: &[Record]) -> Vec<usize> {
    use kind::*;
    let mut partner = vec![0; records.len() + 1];
    // The opener of each open item or, once it is read, its separator.
    let mut open: Vec<usize> = Vec::new();
    for (i, record) in numbered(records) {
        match record.kind {
            YES_BLOCK | NO_BLOCK | YES_LOOP | NO_LOOP => open.push(i),
            SEPARATOR => {
                if let Some(latest) = open.last_mut() {
                    partner[*latest] = i;
                    *latest = i;
                }
            }
            END => {
                if let Some(latest) = open.pop() {
                    partner[latest] = i;
                }
            }
            LOOP_END => {
                if let Some(header) = open.pop() {
                    partner[header] = i;
                    partner[i] = header;
                }
            }
            _ => {}
        }
    }
    partner
}
