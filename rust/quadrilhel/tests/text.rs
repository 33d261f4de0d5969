//! Typed routines through the wrapper: the request's cases, and what is no text.

use quadrilhel::{
    as_text, converted, read_text, typed, write_text, Mistyped, Names, Refusal, RECORD,
    ROUTINE_LIMIT, TEXT_BYTES,
};

fn names(names: &[&str]) -> Names {
    Names::of(names).expect("different proper names")
}

fn list() -> Names {
    names(&["take", "x", "R"])
}

/// Number and place of the refusal of a text, with the list of the request's cases.
fn refused(text: impl AsRef<[u8]>) -> (u32, u32) {
    let why = typed(text, &list()).expect_err("refused").refusal;
    (why.number(), why.place())
}

fn records(text: &str) -> usize {
    typed(text, &list()).expect("a text").len() / RECORD
}

#[test]
fn a_typed_routine_there_and_back() {
    let names = names(&["three", "take", "log"]);
    let routine = typed("+three{;\n  take;\n}; log\n", &names).expect("a text");
    let bytes = [8, 0, 1, 0, 0, 0, 0, 0, 1, 0, 2, 0, 0, 0, 0, 0];
    assert_eq!(routine[..16], bytes);
    assert_eq!(converted(&routine).map(|base| base.len() / RECORD), Ok(5));
    let text = as_text(&routine, &names).expect("named");
    assert_eq!(text, "+three{; take; }; log");
    assert_eq!(typed(&text, &names), Ok(routine));
}

#[test]
fn labels_are_numbered_as_they_come_and_written_so() {
    // The second label stands before the first: for check_routine, not for the reader.
    let routine = typed("##[out][in]; [in]; !; [out]", &list()).expect("a text");
    let text = as_text(&routine, &list()).expect("named");
    assert_eq!(text, "##[L1][L2]; [L2]; !; [L1]");
    assert_eq!(typed(&text, &list()), Ok(routine));
}

#[test]
fn the_place_of_a_mistake() {
    for (text, place) in [
        ("tak$", (13, 1)),
        ("take$", (12, 5)),
        ("R#", (12, 3)),
        ("Rx##1", (13, 1)),
        (";take", (12, 1)),
        ("take;", (12, 6)),
        ("take;;x", (12, 6)),
        ("##00007", (12, 7)),
        ("[]", (12, 2)),
        ("+ x", (12, 2)),
    ] {
        assert_eq!(refused(text), place, "{text}");
    }
    let mistyped = typed("take;\n+x{;\n  tak;\n}", &list()).expect_err("no tak");
    let expected = Mistyped {
        refusal: Refusal::Name { byte: 14 },
        line: 3,
        column: 3,
    };
    assert_eq!(mistyped, expected);
    let said = mistyped.to_string();
    assert!(
        said.starts_with("line 3, column 3: the name at byte 14"),
        "{said}"
    );
}

#[test]
fn texts_without_instructions() {
    for text in ["", " ", "\n\r\t ", &" ".repeat(1 << 20)] {
        assert_eq!(records(text), 0);
    }
    assert_eq!(read_text(&[], &[], &mut []), Ok(0));
    assert_eq!(write_text(&[], &[], &mut []), Ok(0));
}

#[test]
fn bytes_that_stand_nowhere() {
    for byte in [0].into_iter().chain(128..=255) {
        assert_eq!(refused([byte]), (12, 1), "{byte}");
        assert_eq!(refused([b'x', byte]), (12, 2), "{byte}");
        assert_eq!(refused([b'[', b's', byte]), (12, 3), "{byte}");
        assert_eq!(refused([b'#', b'#', b'1', byte]), (12, 4), "{byte}");
    }
}

#[test]
fn the_longest_names_and_numbers() {
    let longest = "abcdefghijklmnop";
    let one = names(&[longest]);
    let routine = typed(format!("-{longest}{{*; [{longest}]; *}}"), &one).expect("a text");
    assert_eq!(routine.len(), 3 * RECORD);
    let mut text = vec![0; TEXT_BYTES];
    let all: Vec<u8> = routine[..RECORD].repeat(ROUTINE_LIMIT);
    assert_eq!(write_text(&all, one.as_bytes(), &mut text), Ok(TEXT_BYTES));
    assert_eq!(
        write_text(&all, one.as_bytes(), &mut text[1..]),
        Err(Refusal::Room)
    );
    assert_eq!(refused(longest), (13, 1));
    assert_eq!(refused("abcdefghijklmnopq"), (12, 17));
    assert_eq!(refused("[abcdefghijklmnopq]"), (12, 18));
    assert_eq!(records("##9999; R##0000"), 2);
    assert_eq!(refused("##10000"), (12, 7));
    assert_eq!(refused("R##00000"), (12, 8));
}

#[test]
fn many_instructions_and_many_labels() {
    let jumps = |count: usize| vec!["!"; count].join(";");
    assert_eq!(records(&jumps(512)), 512);
    assert_eq!(refused(jumps(513)), (2, 0));
    assert_eq!(refused(jumps(513) + ";tak"), (13, 1_027));
    // Two labels an instruction, so that there is room for a thousand.
    let goto = |number: usize| format!("##[s{number}][t{number}]");
    let gotos: Vec<String> = (0..499).map(goto).collect();
    let text = gotos.join(";") + ";[last]";
    assert_eq!(records(&text), 500);
    assert_eq!(records(&(text.clone() + ";##[last][s7]")), 501);
    let place = text.len() as u32 + 3;
    assert_eq!(refused(text + ";[more]"), (13, place));
}

#[test]
fn a_megabyte() {
    let take = "take;".repeat(209_715);
    assert_eq!(refused(&take), (12, take.len() as u32 + 1));
    assert_eq!(refused(take + "take"), (2, 0));
    assert_eq!(refused("a".repeat(1 << 20)), (12, 17));
    assert_eq!(refused(" ".repeat(1 << 20) + ";"), (12, (1 << 20) + 1));
    assert_eq!(records(&("\n".repeat(1 << 20) + "take")), 1);
    let routine = vec![1; 1 << 20];
    let long = write_text(&routine, list().as_bytes(), &mut []);
    assert_eq!(long, Err(Refusal::Long));
}

#[test]
fn lists_of_names() {
    let many: Vec<String> = (1..=1_000).map(|number| format!("n{number}")).collect();
    let most: Vec<&str> = many[..999].iter().map(String::as_str).collect();
    let most = names(&most);
    let action = typed("n999", &most).expect("in the list");
    assert_eq!(action, [1, 0, 231, 3, 0, 0, 0, 0]);
    assert_eq!(as_text(&action, &most).as_deref(), Ok("n999"));
    let mut ragged = most.as_bytes().to_vec();
    ragged.push(b'x');
    assert_eq!(ragged.len(), 15_985);
    let mut long = most.as_bytes().to_vec();
    long.extend(b"n1000\0\0\0\0\0\0\0\0\0\0\0");
    for list in [&ragged[..], &long, &ragged[..15]] {
        assert_eq!(read_text(b"$", list, &mut []), Err(Refusal::Names));
        assert_eq!(write_text(&action, list, &mut []), Err(Refusal::Names));
    }
    let empty = Names::default();
    assert_eq!(typed("!", &empty).map(|routine| routine.len()), Ok(8));
    let mistyped = typed("take", &empty).expect_err("no names");
    assert_eq!(mistyped.refusal, Refusal::Name { byte: 1 });
    let unnamed = as_text(&action, &empty);
    assert_eq!(unnamed, Err(Refusal::Unnamed { record: 1 }));
}

#[test]
fn entries_that_are_no_names() {
    // A blank inside, a letter behind a zero, nothing at all; then a repeat.
    let mut list = b"a b\0\0\0\0\0\0\0\0\0\0\0\0\0take\0x\0\0\0\0\0\0\0\0\0\0".to_vec();
    list.extend([0; 16]);
    list.extend(b"take\0\0\0\0\0\0\0\0\0\0\0\0".repeat(2));
    let mut out = [0; 8];
    assert_eq!(read_text(b"take", &list, &mut out), Ok(1));
    assert_eq!(out[2], 4);
    assert_eq!(
        read_text(b"a", &list, &mut out),
        Err(Refusal::Name { byte: 1 })
    );
    let mut text = [b'-'; 6];
    for (action, written) in [(1, None), (2, None), (3, None), (4, Some(4)), (5, Some(4))] {
        let routine = [1, 0, action, 0, 0, 0, 0, 0];
        let expected = written.ok_or(Refusal::Unnamed { record: 1 });
        assert_eq!(write_text(&routine, &list, &mut text), expected, "{action}");
    }
    assert_eq!(&text, b"take--");
}

#[test]
fn a_refused_call_writes_nothing() {
    let list = list();
    let mut out = [7; 15];
    assert_eq!(
        read_text(b"x; x", list.as_bytes(), &mut out),
        Err(Refusal::Room)
    );
    assert_eq!(out, [7; 15]);
    let routine = typed("x; take", &list).expect("a text");
    let mut text = [7; 6];
    assert_eq!(
        write_text(&routine, list.as_bytes(), &mut text),
        Err(Refusal::Room)
    );
    assert_eq!(text, [7; 6]);
    assert_eq!(write_text(&[1; 7], &[1], &mut text), Err(Refusal::Ragged));
}
