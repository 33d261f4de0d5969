//! Gotos with a target, and gotos that lead nowhere.

use ordinary::{kind, records_of, Record};

use crate::random::Random;
use crate::routines::{is_adding, near_growth_limit, well_built};

/// The index of the first label like this, from an index on.
fn found(records: &[Record], from: usize, label: u16) -> Option<usize> {
    let is_it = |record: &Record| record.kind == kind::LABEL && record.x == label;
    let at = records[from..].iter().position(is_it)?;
    Some(from + at)
}

/// Whether a record of these is a goto that leads nowhere.
pub fn is_lost(records: &[Record], record: Record) -> bool {
    let first = || found(records, 0, record.x);
    match record.kind {
        kind::GOTO => first().is_none(),
        kind::CHAINED_GOTO => first()
            .and_then(|at| found(records, at + 1, record.y))
            .is_none(),
        _ => false,
    }
}

/// Sends every lost goto to a label that is there, or makes it one. A label more
/// leaves every other goto a target.
pub fn give_targets(random: &mut Random, records: &mut [Record]) {
    for at in 0..records.len() {
        if is_lost(records, records[at]) {
            records[at] = sent_to_a_label(random, records, records[at]);
        }
    }
}

fn sent_to_a_label(random: &mut Random, records: &[Record], goto: Record) -> Record {
    let is_label = |record: &&Record| record.kind == kind::LABEL;
    let labels: Vec<Record> = records.iter().filter(is_label).copied().collect();
    if labels.is_empty() {
        return Record::new(kind::LABEL, goto.x, 0);
    }
    let first = random.one_of(&labels).x;
    let leftmost = found(&labels, 0, first).unwrap_or(0);
    let behind = &labels[leftmost + 1..];
    if goto.kind == kind::GOTO || behind.is_empty() {
        return Record::new(kind::GOTO, first, 0);
    }
    Record::new(kind::CHAINED_GOTO, first, random.one_of(behind).x)
}

/// A routine with one to three lost gotos, at times with a fault of nesting, a bad
/// skip or too great a length beside them.
pub fn astray(random: &mut Random, size: usize) -> Vec<Record> {
    let mut records = if random.once_in(30) {
        records_of(&near_growth_limit(random))
    } else {
        well_built(random, size)
    };
    for _ in 0..1 + random.below(3) {
        put_lost(random, &mut records);
    }
    match random.below(6) {
        0 => put_bad_skip(random, &mut records),
        1 => put(random, &mut records, Record::new(kind::END, 0, 0)),
        _ => {}
    }
    records
}

/// Labels that no well-built routine has; some differ from those that it has in one
/// byte alone.
const STRANGE: [u16; 9] = [4, 17, 200, 254, 257, 258, 259, 511, 769];

/// Puts in a goto without its label; or a chained one without either or one of its
/// two, with both in the wrong order, or with one that would have to be both.
fn put_lost(random: &mut Random, records: &mut Vec<Record>) {
    let s = random.one_of(&STRANGE);
    let t = random.one_of(&[250, 251, 997]);
    let chained = Record::new(kind::CHAINED_GOTO, s, t);
    let (goto, labels): (Record, &[u16]) = match random.below(6) {
        0 => (Record::new(kind::GOTO, s, 0), &[]),
        1 => (chained, &[]),
        2 => (chained, &[s]),
        3 => (chained, &[t]),
        4 => (chained, &[t, s]),
        _ => (Record::new(kind::CHAINED_GOTO, s, s), &[s]),
    };
    let mut before = records.len();
    for &label in labels.iter().rev() {
        before = random.upto(before);
        records.insert(before, Record::new(kind::LABEL, label, 0));
    }
    put(random, records, goto);
}

/// Puts a plain test before a record that adds places, if there is one.
fn put_bad_skip(random: &mut Random, records: &mut Vec<Record>) {
    let adding: Vec<usize> = (0..records.len())
        .filter(|&at| is_adding(records[at].kind))
        .collect();
    if !adding.is_empty() {
        let test = random.one_of(&[kind::YES_TEST, kind::NO_TEST]);
        records.insert(random.one_of(&adding), Record::new(test, 1, 0));
    }
}

fn put(random: &mut Random, records: &mut Vec<Record>, record: Record) {
    let at = random.upto(records.len());
    records.insert(at, record);
}

#[cfg(test)]
mod tests {
    use std::collections::BTreeMap;

    use ordinary::{bytes_of, check_routine, Reason};

    use super::*;

    /// The number of a routine's refusal without its lost gotos, 0 if it has none.
    fn otherwise(records: &[Record]) -> u32 {
        let ended = |&record: &Record| match is_lost(records, record) {
            true => Record::jump(0),
            false => record,
        };
        let ended: Vec<Record> = records.iter().map(ended).collect();
        check_routine(&bytes_of(&ended)).map_or_else(|why| why.number(), |_| 0)
    }

    #[test]
    fn lost_gotos_come_alone_and_beside_other_faults() {
        let mut met: BTreeMap<(u32, u32), u32> = BTreeMap::new();
        for case in 0..3_000 {
            let random = &mut Random::of_case(9, 9, case);
            let size = random.upto(if case % 10 == 0 { 400 } else { 20 });
            let records = astray(random, size);
            let Err(why) = check_routine(&bytes_of(&records)) else {
                continue;
            };
            if why.reason == Reason::Label {
                let lowest = records.iter().position(|&r| is_lost(&records, r));
                assert_eq!(lowest.map(|at| at + 1), Some(why.place));
            }
            *met.entry((why.number(), otherwise(&records))).or_default() += 1;
        }
        for (pair, least) in [
            ((14, 0), 1_500),
            ((14, 6), 100),
            ((14, 7), 20),
            ((5, 5), 300),
        ] {
            let times = met.get(&pair).copied().unwrap_or(0);
            assert!(times >= least, "{pair:?} {times} times: {met:?}");
        }
    }

    #[test]
    fn every_goto_is_given_a_target() {
        let (mut single, mut chained) = (0, 0);
        for case in 0..3_000 {
            let random = &mut Random::of_case(8, 8, case);
            let size = random.upto(40);
            let records = well_built(random, size);
            assert!(!records.iter().any(|&record| is_lost(&records, record)));
            let of = |kind: u8| records.iter().filter(|record| record.kind == kind).count();
            single += of(kind::GOTO);
            chained += of(kind::CHAINED_GOTO);
        }
        assert!(single > 1_000 && chained > 1_000, "{single}, {chained}");
    }
}
