//! Records in the paper's written form, for listings, tests and messages.
//!
//! Relative jumps are written `#k` (forward), `\#k` (backward) and `stop`, so
//! that every instruction of the three notations has a form of its own.

use crate::record::{bytes_of, kind, own, Record};

/// How a record is written. One that no notation knows shows its bare numbers.
pub fn instruction(record: Record) -> String {
    use kind::*;
    let Record { kind, x, y } = record;
    match kind {
        ACTION | YES_TEST | NO_TEST => signed_action(record),
        JUMP => format!("##{x}"),
        LABEL => format!("[{x}]"),
        GOTO => format!("##[{x}]"),
        CHAINED_GOTO => format!("##[{x}][{y}]"),
        YES_BLOCK | NO_BLOCK => format!("{}{{", signed_action(record)),
        SEPARATOR => "}{".to_string(),
        END => "}".to_string(),
        YES_LOOP | NO_LOOP => format!("{}{{*", signed_action(record)),
        LOOP_END => "*}".to_string(),
        CALL => format!("R##{x}"),
        RETURN => "##R".to_string(),
        FORWARD => format!("#{x}"),
        BACKWARD => format!("\\#{x}"),
        STOP => "stop".to_string(),
        _ => format!("?({kind} {x} {y})"),
    }
}

/// "Push, pop and compare print as `push(y)`, `pop` and `topeq(y)` with the sign
/// of kind 2 or 3 in front."
fn signed_action(Record { kind, x, y }: Record) -> String {
    use kind::*;
    let sign = match kind {
        YES_TEST | YES_BLOCK | YES_LOOP => "+",
        NO_TEST | NO_BLOCK | NO_LOOP => "-",
        _ => "",
    };
    match x {
        own::PUSH => format!("{sign}push({y})"),
        own::POP => format!("{sign}pop"),
        own::COMPARE => format!("{sign}topeq({y})"),
        _ => format!("{sign}a{x}"),
    }
}

/// A sequence as the paper writes it, parted by `; `.
pub fn written(records: &[Record]) -> String {
    let words: Vec<String> = records.iter().copied().map(instruction).collect();
    words.join("; ")
}

/// The bytes of a sequence written so, or nothing if a word of it is no
/// instruction. Ranges are not looked at: that is what the checks are for.
pub fn bytes(text: &str) -> Option<Vec<u8>> {
    records(text).map(|records| bytes_of(&records))
}

/// The records of a sequence written so.
pub fn records(text: &str) -> Option<Vec<Record>> {
    if text.trim().is_empty() {
        return Some(Vec::new());
    }
    text.split(';').map(|word| read(word.trim())).collect()
}

fn read(word: &str) -> Option<Record> {
    let bare = |kind| Some(Record::new(kind, 0, 0));
    match word {
        "}{" => bare(kind::SEPARATOR),
        "}" => bare(kind::END),
        "*}" => bare(kind::LOOP_END),
        "##R" => bare(kind::RETURN),
        "stop" => bare(kind::STOP),
        _ => read_label(word)
            .or_else(|| read_jump(word))
            .or_else(|| read_action(word)),
    }
}

/// `[s]`, `##[s]` and `##[s][t]`.
fn read_label(word: &str) -> Option<Record> {
    let inner = word.strip_suffix(']')?;
    if let Some(label) = inner.strip_prefix('[') {
        return Some(Record::new(kind::LABEL, label.parse().ok()?, 0));
    }
    let target = inner.strip_prefix("##[")?;
    match target.split_once("][") {
        None => Some(Record::new(kind::GOTO, target.parse().ok()?, 0)),
        Some((s, t)) => Some(Record::new(
            kind::CHAINED_GOTO,
            s.parse().ok()?,
            t.parse().ok()?,
        )),
    }
}

/// `R##k`, `##k`, `\#k` and `#k`.
fn read_jump(word: &str) -> Option<Record> {
    let forms = [
        ("R##", kind::CALL),
        ("##", kind::JUMP),
        ("\\#", kind::BACKWARD),
        ("#", kind::FORWARD),
    ];
    let (number, kind) = forms
        .iter()
        .find_map(|&(before, kind)| Some((word.strip_prefix(before)?, kind)))?;
    Some(Record::new(kind, number.parse().ok()?, 0))
}

/// An action with its sign and bracket.
fn read_action(word: &str) -> Option<Record> {
    let (sign, rest) = match word.split_at_checked(1)? {
        (sign @ ("+" | "-"), rest) => (sign, rest),
        _ => ("", word),
    };
    let (action, bracket) = match rest.find('{') {
        Some(from) => rest.split_at(from),
        None => (rest, ""),
    };
    let kind = match (sign, bracket) {
        ("", "") => kind::ACTION,
        ("+", "") => kind::YES_TEST,
        ("-", "") => kind::NO_TEST,
        ("+", "{") => kind::YES_BLOCK,
        ("-", "{") => kind::NO_BLOCK,
        ("+", "{*") => kind::YES_LOOP,
        ("-", "{*") => kind::NO_LOOP,
        _ => return None,
    };
    let (x, y) = read_action_name(action)?;
    Some(Record::new(kind, x, y))
}

/// `a5`, `push(5)`, `pop` or `topeq(5)`, as x and y.
fn read_action_name(name: &str) -> Option<(u16, u16)> {
    if name == "pop" {
        return Some((own::POP, 0));
    }
    let in_brackets = |before: &str| name.strip_prefix(before)?.strip_suffix(')');
    if let Some(y) = in_brackets("push(") {
        return Some((own::PUSH, y.parse().ok()?));
    }
    if let Some(y) = in_brackets("topeq(") {
        return Some((own::COMPARE, y.parse().ok()?));
    }
    Some((name.strip_prefix('a')?.parse().ok()?, 0))
}

#[cfg(test)]
mod tests {
    use super::*;

    #[test]
    fn every_kind_is_read_as_it_is_written() {
        let text = "a1; +a2; -a999; ##0; ##9999; [5]; ##[5]; ##[5][6]; +a1{; -a2{; }{; }; \
                    +a3{*; -a4{*; *}; R##7; ##R; #3; \\#4; stop; push(3); +pop; -topeq(9999); \
                    +topeq(1){";
        let read = records(text).expect("every word is an instruction");
        assert_eq!(written(&read), text);
    }

    #[test]
    fn other_words_are_no_instruction() {
        for word in ["b1", "a", "##", "a1{", "+a1{**", "[x]", "a70000", "}}", "é"] {
            assert_eq!(records(word), None, "{word}");
        }
        assert_eq!(records(" "), Some(Vec::new()));
    }
}
