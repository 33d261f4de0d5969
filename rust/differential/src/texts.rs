//! Typed routines and lists of names: right, nearly right, and raw.

use ordinary::{kind, name_list, Record};

use crate::programs::{any_routine, some_size};
use crate::random::Random;
use crate::routines::well_built;

/// Names that lists are made of and texts use, the longest of 16 letters.
const NAMES: [&str; 14] = [
    "take",
    "x",
    "R",
    "a",
    "log",
    "three",
    "queue",
    "A1",
    "42",
    "tak",
    "abcdefghijklmnop",
    "RR",
    "Take",
    "0",
];
/// Bytes that texts are made of, blanks and the brackets among them.
const ALPHABET: &[u8] = b"+-*#[]{}!;R \t\n\rax019takelog";
const BLANKS: [&str; 8] = ["", "", "", "", " ", "\n", "\t ", " \r\n  "];

/// A list of names: of proper ones more often than not; at times with one that is
/// not proper, with repeats, full, too long or ragged.
pub fn any_list(random: &mut Random) -> Vec<u8> {
    let size = random.upto(NAMES.len());
    let mut names: Vec<String> = (0..size)
        .map(|_| random.one_of(&NAMES).to_string())
        .collect();
    if random.once_in(3) {
        names.sort();
        names.dedup();
    }
    match random.below(40) {
        0 => names.extend((names.len()..999).map(|number| format!("n{number}"))),
        1 => names.extend((names.len()..1_000).map(|number| format!("n{number}"))),
        _ => {}
    }
    let names: Vec<&str> = names.iter().map(String::as_str).collect();
    let mut list = name_list(&names);
    if !list.is_empty() && random.once_in(6) {
        let at = random.below(list.len());
        list[at] = random.one_of(&[0, b'x', b' ', b'_', 128, 255]);
    }
    if random.once_in(30) {
        list.extend(vec![b'x'; 1 + random.below(15)]);
    }
    list
}

/// Any bytes to offer as a text.
pub fn any_text(random: &mut Random, list: &[u8]) -> Vec<u8> {
    if random.once_in(400) {
        return many_labels(random);
    }
    match random.below(40) {
        0 => {
            let length = random.upto(30);
            (0..length).map(|_| random.byte()).collect()
        }
        1..=5 => {
            let length = random.upto(30);
            (0..length).map(|_| random.one_of(ALPHABET)).collect()
        }
        6..=21 => sound_text(random, list),
        _ => {
            let mut text = sound_text(random, list);
            for _ in 0..1 + random.below(2) {
                damage(random, &mut text);
            }
            text
        }
    }
}

/// A routine to be written with a list: one whose actions mostly have a name there.
pub fn any_named_routine(random: &mut Random, list: &[u8]) -> Vec<u8> {
    let mut routine = any_routine(random);
    let entries = list.len() / 16;
    if entries > 0 && !random.once_in(8) {
        let (records, _) = routine.as_chunks_mut();
        for stored in records {
            let record = Record::read(stored);
            if has_action(record.kind) && record.bytes() == *stored && record.y == 0 {
                let x = 1 + random.below(entries) as u16;
                *stored = Record { x, ..record }.bytes();
            }
        }
    }
    routine
}

/// A routine as a clerk might type it, with the list's names where it has some.
fn sound_text(random: &mut Random, list: &[u8]) -> Vec<u8> {
    let size = match random.below(300) {
        0 => 513,
        1 => 512,
        _ => some_size(random).min(512),
    };
    let labels = random.one_of(&[3, 3, 20, 400, 2_000]);
    let mut text = random.one_of(&BLANKS).to_string();
    for (at, record) in well_built(random, size).into_iter().enumerate() {
        if at > 0 {
            text.push(';');
            text += random.one_of(&BLANKS);
        }
        text += &typed(random, record, list, labels);
        text += random.one_of(&BLANKS);
    }
    text.into_bytes()
}

/// About a thousand labels, all different but for one at times.
fn many_labels(random: &mut Random) -> Vec<u8> {
    let goto = |number: usize| format!("##[s{number}][t{number}]");
    let mut gotos: Vec<String> = (1..=499).map(goto).collect();
    gotos.push("[s500]".to_string());
    let last = ["[s500]", "##[t7]", "[s501]", "##[s500][t500]", "##[s501"];
    gotos.push(random.one_of(&last).to_string());
    gotos.join("; ").into_bytes()
}

fn typed(random: &mut Random, record: Record, list: &[u8], labels: usize) -> String {
    use kind::*;
    let mut label = || format!("[{}]", random.below(labels));
    match record.kind {
        LABEL => return label(),
        GOTO => return format!("##{}", label()),
        CHAINED_GOTO => return format!("##{}{}", label(), label()),
        _ => {}
    }
    let name = some_name(random, list);
    match record.kind {
        ACTION => name,
        YES_TEST => format!("+{name}"),
        NO_TEST => format!("-{name}"),
        YES_BLOCK => format!("+{name}{{"),
        NO_BLOCK => format!("-{name}{{"),
        YES_LOOP => format!("+{name}{{*"),
        NO_LOOP => format!("-{name}{{*"),
        SEPARATOR => "}{".to_string(),
        END => "}".to_string(),
        LOOP_END => "*}".to_string(),
        RETURN => "##R".to_string(),
        JUMP if record.x == 0 && random.percent(50) => "!".to_string(),
        JUMP => format!("##{}", digits(random, record.x)),
        _ => format!("R##{}", digits(random, record.x)),
    }
}

/// A number, at times with zeros in front.
fn digits(random: &mut Random, number: u16) -> String {
    match random.below(8) {
        0 => format!("{number:04}"),
        1 => format!("{number:02}"),
        _ => number.to_string(),
    }
}

/// Mostly a name of the list; its zeros and what stands behind them are left out.
fn some_name(random: &mut Random, list: &[u8]) -> String {
    let (entries, _) = list.as_chunks::<16>();
    if entries.is_empty() || random.once_in(200) {
        return random.one_of(&NAMES).to_string();
    }
    let entry = random.one_of(entries);
    let name = entry.iter().take_while(|byte| byte.is_ascii_alphanumeric());
    match name.map(|&byte| char::from(byte)).collect::<String>() {
        name if name.is_empty() => "x".to_string(),
        name => name,
    }
}

/// Changes, removes or adds a byte.
fn damage(random: &mut Random, text: &mut Vec<u8>) {
    let byte = if random.once_in(10) {
        random.byte()
    } else {
        random.one_of(ALPHABET)
    };
    let at = random.upto(text.len());
    match random.below(3) {
        0 if at < text.len() => text[at] = byte,
        1 if at < text.len() => {
            text.remove(at);
        }
        _ => text.insert(at, byte),
    }
}

fn has_action(kind: u8) -> bool {
    use kind::*;
    matches!(
        kind,
        ACTION | YES_TEST | NO_TEST | YES_BLOCK | NO_BLOCK | YES_LOOP | NO_LOOP
    )
}

#[cfg(test)]
mod tests {
    use std::collections::BTreeSet;

    use ordinary::{read_text, write_text, Refusal, RECORD};

    use super::*;
    use crate::lent::size_around;

    /// Number, and whether there is a place; 0 if accepted.
    type Met = BTreeSet<(u32, bool)>;

    fn met(met: &mut Met, answer: Result<usize, Refusal>) {
        met.insert(answer.map_or_else(|why| (why.number(), why.place > 0), |_| (0, false)));
    }

    #[test]
    fn every_refusal_turns_up() {
        let (mut reader, mut writer) = (Met::new(), Met::new());
        let (mut accepted, mut thousandth) = (0, 0);
        for case in 0..20_000 {
            let mut random = Random::of_case(7, 0, case);
            let list = any_list(&mut random);
            let text = any_text(&mut random, &list);
            let mut out = vec![0; RECORD * 600];
            let count = read_text(&text, &list, &mut out);
            accepted += u32::from(count.is_ok_and(|count| count > 0));
            thousandth +=
                u32::from(count.is_err_and(|why| why.number() == 13 && why.place > 7_000));
            let size = size_around(&mut random, RECORD * count.unwrap_or(0));
            met(
                &mut reader,
                read_text(&text, &list, &mut out[..size.min(4_800)]),
            );
            let routine = any_named_routine(&mut random, &list);
            let mut text = vec![0; 1 << 14];
            let count = write_text(&routine, &list, &mut text);
            let size = size_around(&mut random, count.unwrap_or(0));
            met(&mut writer, write_text(&routine, &list, &mut text[..size]));
        }
        let of_lists = [(0, false), (13, false), (13, true), (8, false)];
        let of_texts = [(2, false), (12, true)];
        let of_routines = [(1, false), (2, false), (3, true), (4, true)];
        let all = |more: &[(u32, bool)]| of_lists.iter().chain(more).copied().collect::<Met>();
        assert_eq!(reader, all(&of_texts));
        assert_eq!(writer, all(&of_routines));
        assert!(thousandth > 10, "{thousandth} thousandth labels");
        assert!(accepted > 4_000, "{accepted} texts with instructions");
    }
}
