//! Bytes for every notation: right, nearly right, and raw.

use ordinary::{bytes_of, kind, own, Record, BASE_LIMIT, RECORD};

use crate::gotos::astray;
use crate::random::Random;
use crate::routines::{near, well_built};

/// How many records: mostly few, now and then as many as a routine may have and
/// a little over.
pub fn some_size(random: &mut Random) -> usize {
    match random.below(600) {
        0..=1 => random.upto(520),
        2..=19 => random.upto(200),
        20..=109 => random.upto(80),
        110..=299 => random.upto(24),
        _ => random.upto(8),
    }
}

/// Any bytes to offer as a routine.
pub fn any_routine(random: &mut Random) -> Vec<u8> {
    match random.below(2_000) {
        0 => crate::routines::near_growth_limit(random),
        1..=4 => too_long(random, 512),
        5..=199 => raw(random),
        200..=299 => crate::routines::brackets(random),
        300..=399 => {
            let size = some_size(random).min(500);
            bytes_of(&astray(random, size))
        }
        400..=1_249 => sound_routine(random),
        _ => {
            let mut bytes = sound_routine(random);
            damage(random, &mut bytes);
            bytes
        }
    }
}

/// A routine that is well-built by construction. Its converted length may still
/// be too great.
pub fn sound_routine(random: &mut Random) -> Vec<u8> {
    let size = some_size(random).min(512);
    bytes_of(&well_built(random, size))
}

/// Any bytes to offer as a base.
pub fn any_base(random: &mut Random) -> Vec<u8> {
    offered(random, sound_base)
}

/// Any bytes to offer as a relative base.
pub fn any_relative(random: &mut Random) -> Vec<u8> {
    offered(random, sound_relative)
}

fn offered(random: &mut Random, sound: fn(&mut Random) -> Vec<u8>) -> Vec<u8> {
    match random.below(2_000) {
        0..=1 => too_long(random, BASE_LIMIT),
        2..=200 => raw(random),
        201..=1_199 => sound(random),
        _ => {
            let mut bytes = sound(random);
            damage(random, &mut bytes);
            bytes
        }
    }
}

/// A base, at times one that a routine was converted to.
pub fn sound_base(random: &mut Random) -> Vec<u8> {
    if random.percent(30) {
        let mut out = vec![0; RECORD * BASE_LIMIT];
        let size = random.upto(12);
        let routine = bytes_of(&well_built(random, size));
        let mut work = vec![0; out.len()];
        let count = ordinary::convert(&routine, &mut out, &mut work).unwrap_or(0);
        out.truncate(RECORD * count);
        return out;
    }
    let size = base_size(random);
    let records: Vec<Record> = (0..size).map(|_| base_record(random, size)).collect();
    bytes_of(&records)
}

/// A relative base; some of its jumps lead too far.
pub fn sound_relative(random: &mut Random) -> Vec<u8> {
    let size = base_size(random);
    let one = |number| relative_record(random, size, number);
    bytes_of(&(1..=size).map(one).collect::<Vec<Record>>())
}

fn base_size(random: &mut Random) -> usize {
    if random.once_in(2_000) {
        return BASE_LIMIT - random.upto(3);
    }
    some_size(random)
}

fn base_record(random: &mut Random, size: usize) -> Record {
    if random.percent(30) {
        return Record::new(kind::JUMP, near(random, size), 0);
    }
    base_action(random, size)
}

fn base_action(random: &mut Random, size: usize) -> Record {
    let kind = random.one_of(&[kind::ACTION, kind::YES_TEST, kind::NO_TEST]);
    match random.below(10) {
        0..=1 => Record::new(kind, own::PUSH, near(random, size)),
        2 => Record::new(kind, own::POP, 0),
        3..=4 => Record::new(kind, own::COMPARE, near(random, size)),
        _ => Record::new(kind, crate::routines::action(random), 0),
    }
}

fn relative_record(random: &mut Random, size: usize, number: usize) -> Record {
    let far = 9_999 - number as u16;
    match random.below(10) {
        0..=2 => Record::new(kind::FORWARD, near(random, size), 0),
        3..=4 => Record::new(kind::BACKWARD, near(random, size), 0),
        5 => Record::new(kind::STOP, 0, 0),
        6 if random.percent(20) => Record::new(kind::FORWARD, far + random.upto(1) as u16, 0),
        _ => base_action(random, size),
    }
}

/// Bytes that were made with no notation in mind.
fn raw(random: &mut Random) -> Vec<u8> {
    let longest = if random.once_in(50) { 4_200 } else { 60 };
    let mut length = random.upto(longest);
    if random.percent(70) {
        length -= length % RECORD;
    }
    match random.below(3) {
        0 => (0..length).map(|_| random.byte()).collect(),
        1 => (0..length).map(|_| random.below(21) as u8).collect(),
        // Bare records, with a number here and there.
        _ => (0..length)
            .map(|at| match at % RECORD {
                0 => random.below(21) as u8,
                2 => random.below(3) as u8,
                _ => 0,
            })
            .collect(),
    }
}

/// A record or a few bytes more than allowed, good or bad.
fn too_long(random: &mut Random, limit: usize) -> Vec<u8> {
    let extra = 1 + random.upto(16);
    let mut bytes = bytes_of(&vec![Record::new(kind::ACTION, 1, 0); limit]);
    bytes.extend((0..extra).map(|_| random.byte()));
    bytes
}

/// Spoils a program in one to three places.
pub fn damage(random: &mut Random, bytes: &mut Vec<u8>) {
    for _ in 0..1 + random.below(3) {
        damage_once(random, bytes);
    }
}

const EDGES: [u16; 14] = [
    0, 1, 998, 999, 1_000, 1_001, 1_002, 1_003, 1_004, 9_998, 9_999, 10_000, 32_768, 65_535,
];

fn damage_once(random: &mut Random, bytes: &mut Vec<u8>) {
    if random.once_in(12) {
        return make_ragged(random, bytes);
    }
    let records = bytes.len() / RECORD;
    if records == 0 || random.percent(20) {
        return insert(random, bytes);
    }
    let record = RECORD * random.below(records);
    let other = RECORD * random.below(records);
    let edge = random.one_of(&EDGES).to_le_bytes();
    match random.below(9) {
        0 => bytes[record + random.below(RECORD)] = random.byte(),
        1 => bytes[record] = random.below(21) as u8,
        2 => bytes[record + 2..record + 4].copy_from_slice(&edge),
        3 => bytes[record + 4..record + 6].copy_from_slice(&edge),
        4 => bytes[record + random.one_of(&[1, 6, 7])] = random.byte(),
        5..=6 => drop(bytes.drain(record..record + RECORD)),
        7 => bytes.copy_within(record..record + RECORD, other),
        _ => (0..RECORD).for_each(|byte| bytes.swap(record + byte, other + byte)),
    }
}

fn make_ragged(random: &mut Random, bytes: &mut Vec<u8>) {
    let amount = 1 + random.below(7);
    if random.percent(50) {
        bytes.truncate(bytes.len().saturating_sub(amount));
    } else {
        bytes.extend((0..amount).map(|_| random.byte()));
    }
}

/// Puts in a record of any routine kind, most often a bracket or a plain test.
fn insert(random: &mut Random, bytes: &mut Vec<u8>) {
    let kind = if random.percent(60) {
        random.one_of(&[2, 3, 8, 10, 11, 12, 14])
    } else {
        1 + random.below(16) as u8
    };
    let x = match kind {
        kind::SEPARATOR | kind::END | kind::LOOP_END | kind::RETURN => 0,
        _ => 1,
    };
    let y = u16::from(kind == kind::CHAINED_GOTO);
    let at = RECORD * random.upto(bytes.len() / RECORD);
    bytes.splice(at..at, Record::new(kind, x, y).bytes());
}
