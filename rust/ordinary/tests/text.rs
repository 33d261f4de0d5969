//! Typed routines: the request's own words and the cases decided for it.

use ordinary::notation::{bytes, written};
use ordinary::{
    kind, name_list, read_text, records_of, write_text, Reason, Record, Refusal, RECORD,
};

/// The list that the decided cases are about.
const LIST: [&str; 3] = ["take", "x", "R"];

/// What a text is read as, in the paper's written form, or number and place.
fn read_with(text: &[u8], list: &[u8]) -> Result<String, (u32, usize)> {
    let mut out = [0xAA; RECORD * 600];
    let before = out;
    match read_text(text, list, &mut out) {
        Ok(count) => {
            let (read, rest) = out.split_at(RECORD * count);
            assert!(rest.iter().all(|&byte| byte == 0xAA), "the rest moved");
            Ok(written(&records_of(read)))
        }
        Err(why) => {
            assert_eq!(out, before, "a refused call wrote");
            Err((why.number(), why.place))
        }
    }
}

fn read(text: &str) -> Result<String, (u32, usize)> {
    read_with(text.as_bytes(), &name_list(&LIST))
}

fn is_read_as(text: &str, records: &str) {
    assert_eq!(read(text), Ok(records.to_string()), "{text}");
}

fn is_refused(text: &str, number: u32, place: usize) {
    assert_eq!(read(text), Err((number, place)), "{text}");
}

/// A routine as text, or number and place.
fn write_with(routine: &[u8], list: &[u8]) -> Result<String, (u32, usize)> {
    let mut text = [0xAA; 10_000];
    let before = text;
    match write_text(routine, list, &mut text) {
        Ok(count) => {
            let (text, rest) = text.split_at(count);
            assert!(rest.iter().all(|&byte| byte == 0xAA), "the rest moved");
            Ok(String::from_utf8(text.to_vec()).expect("ASCII"))
        }
        Err(why) => {
            assert_eq!(text, before, "a refused call wrote");
            Err((why.number(), why.place))
        }
    }
}

fn seq(text: &str) -> Vec<u8> {
    bytes(text).unwrap_or_else(|| panic!("not a sequence: {text}"))
}

fn is_written_as(records: &str, text: &str) {
    let list = name_list(&LIST);
    assert_eq!(write_with(&seq(records), &list), Ok(text.to_string()));
}

#[test]
fn every_instruction_is_read() {
    is_read_as(
        "take; +x; -R; ##7; ##0; !; [s]; ##[s]; ##[t][s]; +x{; -x{; }{; }; +x{*; -x{*; *}; R##9; ##R",
        "a1; +a2; -a3; ##7; ##0; ##0; [1]; ##[1]; ##[2][1]; +a2{; -a2{; }{; }; +a2{*; -a2{*; *}; \
         R##9; ##R",
    );
    is_read_as("##9999; ##0007; R##0; R##0012", "##9999; ##7; R##0; R##12");
}

#[test]
fn blanks_are_free_around_instructions_and_nowhere_else() {
    is_read_as("\t\r\n take \n;\r\tx ", "a1; a2");
    is_read_as("take;x", "a1; a2");
    is_refused("+ x", 12, 2);
    is_refused("+x {", 12, 4);
    is_refused("} {", 12, 3);
    is_refused("take x", 12, 6);
    is_refused("## 1", 12, 3);
    is_refused("# #1", 12, 2);
    is_refused("[ s]", 12, 2);
    is_refused("##[s] [t]", 12, 7);
    is_refused("+x{ *", 12, 5);
    is_refused("take\u{b};x", 12, 5);
}

#[test]
fn text_without_instructions_is_the_empty_routine() {
    is_read_as("", "");
    is_read_as(" \t\r\n", "");
    assert_eq!(read_text(b"", &[], &mut []), Ok(0));
}

#[test]
fn a_semicolon_stands_only_between_two() {
    is_refused(";take", 12, 1);
    is_refused(" ; ", 12, 2);
    is_refused("take;", 12, 6);
    is_refused("take; ", 12, 7);
    is_refused("take;;x", 12, 6);
    is_refused(";", 12, 1);
}

#[test]
fn names() {
    is_refused("tak$", 13, 1);
    is_refused("take$", 12, 5);
    is_refused("tak;$", 13, 1);
    is_refused("take$;tak", 12, 5);
    is_refused("abcdefghijklmnop", 13, 1);
    is_refused("abcdefghijklmnopq", 12, 17);
    is_refused("+abcdefghijklmnopq", 12, 18);
    is_refused("[abcdefghijklmnopq", 12, 18);
    is_refused("12", 13, 1);
    is_refused("take;+tak{", 13, 7);
    is_refused("+Take", 13, 2);
    is_refused("take{", 12, 5);
    is_refused("take*", 12, 5);
    let long = name_list(&["abcdefghijklmnop"]);
    assert_eq!(
        read_with(b"abcdefghijklmnop;-abcdefghijklmnop{*", &long),
        Ok("a1; -a1{*".to_string())
    );
}

#[test]
fn an_r_is_a_name_unless_a_call_goes_on() {
    is_read_as("R", "a3");
    is_read_as("+R{", "+a3{");
    is_read_as("R;R##1", "a3; R##1");
    is_refused("R#", 12, 3);
    is_refused("R#x", 12, 3);
    is_refused("R##R", 12, 4);
    is_refused("R ##1", 12, 3);
    is_refused("Rx##1", 13, 1);
    is_refused("+R##1", 12, 3);
    let without = name_list(&["take", "x"]);
    assert_eq!(read_with(b"R#", &without), Err((12, 3)));
    assert_eq!(read_with(b"R$", &without), Err((13, 1)));
    assert_eq!(read_with(b"R", &without), Err((13, 1)));
    assert_eq!(read_with(b"R ##1", &without), Err((13, 1)));
    assert_eq!(read_with(b"R##1", &without), Ok("R##1".to_string()));
    assert_eq!(read_with(b"+R##1", &without), Err((13, 2)));
}

#[test]
fn jumps_and_brackets() {
    is_refused("##Rx", 12, 4);
    is_refused("##R1", 12, 4);
    is_refused("##1x", 12, 4);
    is_refused("##00007", 12, 7);
    is_refused("##10000", 12, 7);
    is_refused("R##12345", 12, 8);
    is_refused("##r", 12, 3);
    is_refused("###", 12, 3);
    is_refused("[]", 12, 2);
    is_refused("##[s][]", 12, 7);
    is_refused("##[s][t][u]", 12, 9);
    is_refused("}{}", 12, 3);
    is_refused("!!", 12, 2);
    is_refused("*{", 12, 2);
    is_refused("{", 12, 1);
    is_refused("]", 12, 1);
}

#[test]
fn text_that_stops_short() {
    for text in [
        "+", "-", "*", "#", "##", "[", "[s", "##[", "##[s", "##[s][", "##[s][t", "R#", "R##",
    ] {
        is_refused(text, 12, text.len() + 1);
    }
}

#[test]
fn bytes_that_no_text_has() {
    for byte in (0..=255).filter(|byte| !b"+-*#[}!;\t\n\r ".contains(byte)) {
        let text = [b' ', byte];
        let expected = if byte.is_ascii_alphanumeric() {
            match byte {
                b'x' => Ok("a2".to_string()),
                b'R' => Ok("a3".to_string()),
                _ => Err((13, 2)),
            }
        } else {
            Err((12, 2))
        };
        assert_eq!(read_with(&text, &name_list(&LIST)), expected, "{byte}");
    }
}

#[test]
fn labels_are_numbered_by_first_appearance() {
    is_read_as("##[b][a];[a];[b]", "##[1][2]; [2]; [1]");
    is_read_as("[a];[ab];[A];take;[take]", "[1]; [2]; [3]; a1; [4]");
    is_read_as("[7];[007];##[7]", "[1]; [2]; ##[1]");
}

/// 999 labels, three to two instructions, and what stands behind them.
fn many_labels(behind: &str) -> String {
    let mut text = String::new();
    for first in (1..=999).step_by(2) {
        text += &format!("##[n{first}][n{}]; ", (first + 1).min(999));
    }
    text + behind
}

#[test]
fn the_thousandth_label() {
    let known = many_labels("##[n999]");
    assert_eq!(records_read(&known), Ok(501));
    for behind in ["[new]", "##[new]", "[new$", "##[n1][new", "[new"] {
        let text = many_labels(behind);
        let place = text.rfind("new").expect("it is there") + 1;
        assert_eq!(records_read(&text), Err((13, place)), "{behind}");
    }
    let text = many_labels("[abcdefghijklmnopq]");
    let place = text.rfind('q').expect("it is there") + 1;
    assert_eq!(records_read(&text), Err((12, place)));
}

fn records_read(text: &str) -> Result<usize, (u32, usize)> {
    let mut out = vec![0; RECORD * 512];
    let answer = read_text(text.as_bytes(), &name_list(&LIST), &mut out);
    answer.map_err(|why| (why.number(), why.place))
}

#[test]
fn lists_of_names() {
    let refused = Err(Refusal {
        reason: Reason::Name,
        place: 0,
    });
    let names: Vec<String> = (1..=1_000).map(|number| format!("n{number}")).collect();
    let names: Vec<&str> = names.iter().map(String::as_str).collect();
    let most = name_list(&names[..999]);
    assert_eq!(most.len(), 15_984);
    assert_eq!(read_with(b"n999;-n1", &most), Ok("a999; -a1".to_string()));
    let mut ragged = most.clone();
    ragged.push(0);
    for list in [&ragged[..], &name_list(&names), &[0; 15]] {
        assert_eq!(read_text(b"$", list, &mut []), refused);
        assert_eq!(write_text(&seq("a1"), list, &mut []), refused);
    }
    assert_eq!(read_with(b"take", &[]), Err((13, 1)));
    assert_eq!(read_with(b"!", &[]), Ok("##0".to_string()));
}

#[test]
fn entries_that_are_no_names_and_entries_that_repeat() {
    let mut list = name_list(&["take", "take", "x", "", "a b", "y"]);
    list[5] = b'x';
    // The first entry is now `take`, a zero and an `x`: no name.
    assert_eq!(read_with(b"take", &list), Ok("a2".to_string()));
    assert_eq!(read_with(b"x;y", &list), Ok("a3; a6".to_string()));
    for (routine, place) in [("a1", 1), ("a3; a4", 2), ("a2; a5", 2), ("a6; a7", 2)] {
        assert_eq!(
            write_with(&seq(routine), &list),
            Err((13, place)),
            "{routine}"
        );
    }
    let repeats = name_list(&["take", "x", "take"]);
    assert_eq!(read_with(b"take", &repeats), Ok("a1".to_string()));
    assert_eq!(
        write_with(&seq("a3; a1"), &repeats),
        Ok("take; take".to_string())
    );
}

#[test]
fn more_than_512_instructions() {
    let text = |times: usize| vec!["!"; times].join(";");
    assert_eq!(records_read(&text(512)), Ok(512));
    assert_eq!(records_read(&text(513)), Err((2, 0)));
    // 12 and 13 of the whole text come before 2, and 2 before 8.
    assert_eq!(records_read(&(text(513) + ";tak")), Err((13, 1_027)));
    assert_eq!(records_read(&(text(600) + "$")), Err((12, 1_200)));
    let list = name_list(&LIST);
    let refused = |reason| Err(Refusal { reason, place: 0 });
    let long = text(513);
    assert_eq!(
        read_text(long.as_bytes(), &list, &mut []),
        refused(Reason::Long)
    );
    let mut out = [0; 15];
    assert_eq!(read_text(b"!;!", &list, &mut out), refused(Reason::Room));
    assert_eq!(read_text(b"!;!", &list, &mut [0; 16]), Ok(2));
    let megabyte = " ".repeat(1 << 20) + "take";
    assert_eq!(records_read(&megabyte), Ok(1));
}

#[test]
fn every_record_is_written() {
    is_written_as(
        "a1; +a2; -a3; ##7; ##0; [1]; ##[9]; ##[12][999]; +a2{; -a2{; }{; }; +a2{*; -a2{*; *}; R##0; \
         R##9999; ##R",
        "take; +x; -R; ##7; !; [L1]; ##[L9]; ##[L12][L999]; +x{; -x{; }{; }; +x{*; -x{*; *}; R##0; \
         R##9999; ##R",
    );
    is_written_as("", "");
    is_written_as("}; *}; +a2{", "}; *}; +x{");
    // Whether a label is there is not looked at, in reading either.
    is_written_as("##[7]", "##[L7]");
    is_read_as("##[seven][five]", "##[1][2]");
}

#[test]
fn refusals_of_the_writer() {
    let list = name_list(&LIST);
    let ragged = [1; 15];
    let bad_field = Record::new(kind::ACTION, 1_000, 0).bytes();
    let bad_kind = Record::new(17, 1, 0).bytes();
    assert_eq!(write_with(&[0; 7], &ragged), Err((1, 0)));
    assert_eq!(write_with(&[0; RECORD * 513], &ragged), Err((2, 0)));
    assert_eq!(write_with(&bad_kind, &ragged), Err((3, 1)));
    assert_eq!(write_with(&bad_field, &ragged), Err((4, 1)));
    assert_eq!(write_with(&seq("a4"), &ragged), Err((13, 0)));
    assert_eq!(write_with(&seq("a1; -a4{; a5"), &list), Err((13, 2)));
    assert_eq!(write_with(&seq("a1"), &[]), Err((13, 1)));
    let refused = |reason, place| Err(Refusal { reason, place });
    let routine = seq("a1; ##0");
    assert_eq!(
        write_text(&routine, &list, &mut [0; 6]),
        refused(Reason::Room, 0)
    );
    assert_eq!(write_text(&routine, &list, &mut [0; 7]), Ok(7));
    assert_eq!(
        write_text(&seq("a9; a1"), &list, &mut []),
        refused(Reason::Name, 1)
    );
}

/// "Writing what the reader produced and reading it again gives the same records."
#[test]
fn there_and_back() {
    let list = name_list(&LIST);
    let texts = [
        "",
        "+take{; +x{; R; }{; x; }; }{; x; }; take",
        "##[seven][five];[five];take;[seven];##[nine];[five];x;##[five]",
        "-take{*; R##6; *}; R##8; !; x; ##R; R; ##R",
        "+x;##4;-take;R;##0009;##0000",
    ];
    for text in texts {
        let mut records = vec![0; RECORD * 512];
        let count = read_text(text.as_bytes(), &list, &mut records).expect(text);
        records.truncate(RECORD * count);
        let again = write_with(&records, &list).expect(text);
        assert_eq!(read(&again), Ok(written(&records_of(&records))), "{text}");
    }
    assert_eq!(
        write_with(&seq("+a1{; a2; }{; ##0; }"), &list),
        Ok("+take{; x; }{; !; }".to_string())
    );
}

/// Every string over these bytes, up to a length.
fn strings(alphabet: &str, longest: usize) -> Vec<String> {
    let mut all = vec![String::new()];
    let mut last = all.clone();
    for _ in 0..longest {
        let longer = |text: &String| {
            let with = |letter: char| format!("{text}{letter}");
            alphabet.chars().map(with).collect::<Vec<String>>()
        };
        last = last.iter().flat_map(longer).collect();
        all.extend(last.clone());
    }
    all
}

/// "The first byte that no text could have there": what stands before it can be
/// completed to a text, and with it that can no longer be done. Whatever can be
/// completed can be so by one of a few endings.
#[test]
fn the_place_is_the_first_byte_that_no_text_could_have_there() {
    let endings = ["", "x", "1", "#1", "x]", "]", "}"];
    let names = strings("xR1", 5);
    let list = name_list(&names[1..].iter().map(String::as_str).collect::<Vec<_>>());
    let mut out = [0; RECORD * 8];
    let mut answer = |text: &str| read_text(text.as_bytes(), &list, &mut out);
    let mut refused = 0;
    for start in ["", "##[x]", "##[x", "+x", "R#", "x;", "*"] {
        for text in strings("xR1+#[]{}*;! ", 3) {
            let text = format!("{start}{text}");
            let Err(why) = answer(&text) else { continue };
            assert_eq!(why.reason, Reason::Text, "{text}");
            let before = &text[..why.place - 1];
            let mut completed = |part: &str| {
                let texts = endings.map(|ending| format!("{part}{ending}"));
                texts.iter().any(|text| answer(text).is_ok())
            };
            assert!(completed(before), "{text} at {}", why.place);
            if let Some(with) = text.get(..why.place) {
                assert!(!completed(with), "{text} at {}", why.place);
            }
            refused += 1;
        }
    }
    assert!(refused > 10_000, "{refused}");
}
