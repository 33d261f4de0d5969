//! Large routines of a known shape, for times and measurements.

#![forbid(unsafe_code)]

use ordinary::{bytes_of, kind, name_list, notation, Record, BASE_LIMIT, RECORD};

/// The records of a sequence in the paper's written form; none if it is not one.
pub fn seq(text: &str) -> Vec<Record> {
    notation::records(text).unwrap_or_default()
}

/// A sequence in the paper's written form, so many times over.
pub fn repeated(text: &str, times: usize) -> Vec<Record> {
    seq(text).repeat(times)
}

/// So many openers, then as many closers.
pub fn nested(opener: &str, closer: &str, times: usize) -> Vec<Record> {
    let mut routine = repeated(opener, times);
    routine.extend(repeated(closer, times));
    routine
}

/// So many records, the last a return and the others calls.
pub fn calls_and_a_return(count: u16) -> Vec<Record> {
    let call = |to| Record::new(kind::CALL, to, 0);
    let mut routine: Vec<Record> = (1..count).map(|i| call(i * 7 % count + 1)).collect();
    routine.push(Record::new(kind::RETURN, 0, 0));
    routine
}

/// 310 records that become 4,096: 2 returns, 66 calls and 242 plain actions, calls
/// and returns spread out.
pub fn grown_to_the_limit() -> Vec<Record> {
    let mut routine = repeated("a1", 310);
    for i in 0..66 {
        routine[4 * i] = Record::new(kind::CALL, 310 - 4 * i as u16, 0);
    }
    routine[101] = Record::new(kind::RETURN, 0, 0);
    routine[309] = Record::new(kind::RETURN, 0, 0);
    routine
}

/// 512 records of every kind, to be typed: actions from 1 to 999 spread over the list
/// of names, and 60 labels with gotos.
pub fn named() -> Vec<Record> {
    let action = |at: usize| 1 + (at * 389 % 999) as u16;
    let label = |at: usize| 1 + (at / 8 % 60) as u16;
    let record = |at: usize| match at % 8 {
        0 => Record::new(kind::YES_BLOCK, action(at), 0),
        1 => Record::new(kind::ACTION, action(at), 0),
        2 => Record::new(kind::LABEL, label(at), 0),
        3 => Record::new(kind::SEPARATOR, 0, 0),
        4 => Record::new(kind::CHAINED_GOTO, label(at), 1 + label(at) % 60),
        5 => Record::new(kind::END, 0, 0),
        6 => Record::new(kind::NO_TEST, action(at), 0),
        _ => Record::new(kind::JUMP, (at % 513) as u16, 0),
    };
    (0..512).map(record).collect()
}

/// A full list of names, of 3 to 14 letters and digits.
pub fn most_names() -> Vec<u8> {
    let name = |number: usize| match number % 3 {
        0 => format!("a{number:02}"),
        1 => format!("settle{number}"),
        _ => format!("takeReading{number}"),
    };
    let names: Vec<String> = (1..=999).map(name).collect();
    name_list(&names.iter().map(String::as_str).collect::<Vec<_>>())
}

/// The base of a routine, by plain Rust; none if it is refused.
pub fn base_of(routine: &[Record]) -> Vec<u8> {
    let mut out = vec![0; RECORD * BASE_LIMIT];
    let mut work = out.clone();
    let count = ordinary::convert(&bytes_of(routine), &mut out, &mut work).unwrap_or(0);
    out.truncate(RECORD * count);
    out
}
