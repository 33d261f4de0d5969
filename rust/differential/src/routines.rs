//! Routines that are well-built by construction, and some that nearly are.

use ordinary::{bytes_of, kind, Record, BASE_LIMIT};

use crate::gotos::give_targets;
use crate::random::Random;

/// What an open item may take next.
#[derive(Clone, Copy, PartialEq)]
enum Open {
    FirstArm,
    SecondArm,
    Loop,
}

/// How often a routine opens and closes items, and how many returns it may have.
struct Style {
    opens: usize,
    closes: usize,
    returns: usize,
}

impl Style {
    fn any(random: &mut Random, size: usize) -> Style {
        // Each return adds 6n places, so few are allowed where n is great.
        let allowed = BASE_LIMIT / (6 * size + 1);
        Style {
            opens: random.one_of(&[0, 10, 25, 60, 90]),
            closes: random.one_of(&[10, 25, 50]),
            returns: match random.below(4) {
                0 => 0,
                1 => allowed,
                2 => allowed.min(2),
                _ => random.upto(allowed + 1),
            },
        }
    }
}

/// A routine of this many records: one body, every goto with a target, and no plain
/// test before a kind that adds places.
pub fn well_built(random: &mut Random, size: usize) -> Vec<Record> {
    let mut style = Style::any(random, size);
    let mut open: Vec<Open> = Vec::new();
    let mut records: Vec<Record> = Vec::with_capacity(size);
    while records.len() < size {
        let left = size - records.len();
        let after_test = records.last().is_some_and(|r| is_test(r.kind));
        let record = if left == open.len() {
            close(&mut open)
        } else if !after_test && left == 1 && random.percent(30) {
            // Pushes n + 1, on which a return must end without a pop.
            Record::new(kind::CALL, near(random, size), 0)
        } else if !after_test && left >= open.len() + 2 && random.percent(style.opens) {
            opener(random, &mut open)
        } else if !open.is_empty() && random.percent(style.closes) {
            separate_or_close(random, &mut open)
        } else {
            item_alone(random, &mut style, size, after_test)
        };
        records.push(record);
    }
    give_targets(random, &mut records);
    records
}

/// Whether a kind adds places in the base.
pub fn is_adding(kind: u8) -> bool {
    matches!(kind, 8 | 9 | 12 | 13 | 15 | 16)
}

fn is_test(kind: u8) -> bool {
    kind == kind::YES_TEST || kind == kind::NO_TEST
}

fn opener(random: &mut Random, open: &mut Vec<Open>) -> Record {
    let (kinds, item) = if random.percent(60) {
        ([kind::YES_BLOCK, kind::NO_BLOCK], Open::FirstArm)
    } else {
        ([kind::YES_LOOP, kind::NO_LOOP], Open::Loop)
    };
    open.push(item);
    Record::new(random.one_of(&kinds), action(random), 0)
}

fn separate_or_close(random: &mut Random, open: &mut Vec<Open>) -> Record {
    match open.last_mut() {
        Some(arm @ Open::FirstArm) if random.percent(60) => {
            *arm = Open::SecondArm;
            Record::new(kind::SEPARATOR, 0, 0)
        }
        _ => close(open),
    }
}

fn close(open: &mut Vec<Open>) -> Record {
    match open.pop() {
        Some(Open::Loop) => Record::new(kind::LOOP_END, 0, 0),
        _ => Record::new(kind::END, 0, 0),
    }
}

/// A record that is an item alone; after a test, one that adds no places.
fn item_alone(random: &mut Random, style: &mut Style, size: usize, after_test: bool) -> Record {
    match random.below(if after_test { 13 } else { 17 }) {
        0..=2 => Record::new(kind::ACTION, action(random), 0),
        3..=4 => Record::new(kind::YES_TEST, action(random), 0),
        5..=6 => Record::new(kind::NO_TEST, action(random), 0),
        7..=8 => Record::new(kind::JUMP, near(random, size), 0),
        9..=10 => Record::new(kind::LABEL, label(random), 0),
        11 => Record::new(kind::GOTO, label(random), 0),
        12 => Record::new(kind::CHAINED_GOTO, label(random), label(random)),
        13..=14 if style.returns > 0 => {
            style.returns -= 1;
            Record::new(kind::RETURN, 0, 0)
        }
        _ => Record::new(kind::CALL, near(random, size), 0),
    }
}

/// An outside action, often one of a few.
pub fn action(random: &mut Random) -> u16 {
    match random.below(10) {
        0 => random.one_of(&[1, 255, 256, 257, 998, 999]),
        1 => 1 + random.below(999) as u16,
        _ => 1 + random.below(9) as u16,
    }
}

/// A label out of few, so that gotos find one and labels repeat.
fn label(random: &mut Random) -> u16 {
    match random.below(12) {
        0 => random.one_of(&[1, 255, 256, 998, 999]),
        _ => 1 + random.below(3) as u16,
    }
}

/// A number for a jump or a stack entry: mostly a place among `size` records or
/// just past them.
pub fn near(random: &mut Random, size: usize) -> u16 {
    let edges = [0, 1, 255, 256, 999, 1_001, 4_096, 4_097, 9_998, 9_999];
    let number = match random.below(12) {
        0 => random.one_of(&edges),
        1 => random.upto(9_999),
        2 => size + random.upto(2),
        _ => random.upto(size + 1),
    };
    number.min(9_999) as u16
}

/// Brackets with no care for whether they fit, and little else.
pub fn brackets(random: &mut Random) -> Vec<u8> {
    let longest = if random.once_in(40) { 512 } else { 9 };
    let size = random.upto(longest);
    let opening = random.one_of(&[20, 50, 80]);
    let record = |random: &mut Random| {
        if random.percent(opening) {
            Record::new(random.one_of(&[8, 9, 12, 13]), 1, 0)
        } else {
            let kind = random.one_of(&[kind::SEPARATOR, kind::END, kind::END, kind::LOOP_END]);
            Record::new(kind, 0, 0)
        }
    };
    bytes_of(&(0..size).map(|_| record(random)).collect::<Vec<Record>>())
}

/// A routine of returns, calls and actions whose converted length is 4,096, or
/// one more or less.
pub fn near_growth_limit(random: &mut Random) -> Vec<u8> {
    let returns = 1 + random.below(8);
    // n + calls + 6n * returns = wanted, with at most n - returns calls.
    let wanted = BASE_LIMIT - 1 + random.below(3);
    let size = (wanted / (6 * returns + 1)).min(512);
    let calls = (wanted - size - 6 * size * returns).min(size - returns);
    let mut records = vec![Record::new(kind::ACTION, 1, 0); size];
    records[..returns].fill(Record::new(kind::RETURN, 0, 0));
    for record in &mut records[returns..returns + calls] {
        *record = Record::new(kind::CALL, near(random, size), 0);
    }
    for at in (1..size).rev() {
        records.swap(at, random.upto(at));
    }
    bytes_of(&records)
}

#[cfg(test)]
mod tests {
    use super::*;
    use ordinary::{check_routine, Reason};

    #[test]
    fn well_built_routines_are_accepted_or_grow_too_long() {
        let mut accepted = 0;
        let mut seen = [0; 17];
        for case in 0..3_000 {
            let random = &mut Random::of_case(5, 5, case);
            let size = random.upto(if case % 10 == 0 { 512 } else { 40 });
            let routine = well_built(random, size);
            assert_eq!(routine.len(), size);
            match check_routine(&bytes_of(&routine)) {
                Ok(_) => accepted += 1,
                Err(why) => assert_eq!(why.reason, Reason::Growth),
            }
            routine
                .iter()
                .for_each(|record| seen[usize::from(record.kind)] += 1);
        }
        assert!(accepted > 2_400, "{accepted}");
        assert!(seen[1..].iter().all(|&count| count > 500), "{seen:?}");
    }

    #[test]
    fn the_growth_limit_is_met_from_both_sides() {
        let mut lengths = std::collections::BTreeSet::new();
        for case in 0..200 {
            let routine = near_growth_limit(&mut Random::of_case(6, 6, case));
            lengths.insert(ordinary::converted_length(&ordinary::records_of(&routine)));
        }
        assert!([4_095, 4_096, 4_097]
            .iter()
            .all(|length| lengths.contains(length)));
    }
}
