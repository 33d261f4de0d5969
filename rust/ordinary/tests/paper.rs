//! The paper's own cases: "Checked by hand", the listing, "Errors that look
//! right", and the edges of its ranges.

use ordinary::notation::{bytes, records, written};
use ordinary::{
    bytes_of, check_base, check_relative, check_routine, convert, kind, list, listing, printed,
    records_of, run_base, run_routine, step_base, step_routine, to_absolute, to_relative, Ran,
    Reason, Record, Refusal, State, Status,
};

/// The bytes of a sequence in the paper's written form.
fn seq(text: &str) -> Vec<u8> {
    bytes(text).unwrap_or_else(|| panic!("not a sequence: {text}"))
}

fn refused(reason: Reason, place: usize) -> Refusal {
    Refusal { reason, place }
}

/// The base of a routine, with buffers far larger than it needs.
fn base_of(routine: &[u8]) -> Result<Vec<u8>, Refusal> {
    let (mut out, mut work) = (vec![0xAA; 40_000], vec![0xBB; 40_000]);
    let count = convert(routine, &mut out, &mut work)?;
    assert!(work.iter().all(|&byte| byte == 0), "work is not all zero");
    assert!(
        out[8 * count..].iter().all(|&byte| byte == 0xAA),
        "the rest of out moved"
    );
    out.truncate(8 * count);
    Ok(out)
}

fn written_base(text: &str) -> String {
    let base = base_of(&seq(text)).unwrap_or_else(|why| panic!("{text} refused: {why:?}"));
    written(&records_of(&base))
}

/// A run's answer, with the numbers of the actions it logged.
fn logged(ran: Ran, log: &[u8]) -> (Ran, Vec<u16>) {
    let used = &log[..2 * ran.actions as usize];
    let actions = used
        .chunks(2)
        .map(|pair| u16::from_le_bytes([pair[0], pair[1]]));
    (ran, actions.collect())
}

fn run_of_routine(text: &str, replies: &[u8], budget: u64) -> (Ran, Vec<u16>) {
    let mut log = [0xCC; 400];
    let ran = run_routine(&seq(text), replies, &mut log, budget).expect("accepted");
    logged(ran, &log)
}

fn run_of_its_base(text: &str, replies: &[u8], budget: u64) -> (Ran, Vec<u16>) {
    let mut log = [0xCC; 400];
    let base = base_of(&seq(text)).expect("accepted");
    let ran = run_base(&base, replies, &mut log, budget).expect("accepted");
    logged(ran, &log)
}

// Checked by hand

#[test]
fn empty_routine() {
    assert_eq!(base_of(&[]), Ok(vec![]));
    let (ran, log) = run_of_routine("", &[], 10);
    assert_eq!((ran.status, ran.steps, ran.state.at), (Status::Ended, 0, 0));
    assert!(log.is_empty());
    assert_eq!(printed(&[]), "length 0 0\n");
    // Status 1 is tried before 5.
    assert_eq!(run_of_routine("", &[], 0).0.status, Status::Ended);
}

#[test]
fn a_jump_to_itself_runs_to_any_budget() {
    for budget in [0, 1, 2, 1_000, 65_537] {
        let (ran, log) = run_of_routine("##1", &[1, 0], budget);
        assert_eq!((ran.status, ran.steps), (Status::BudgetSpent, budget));
        assert_eq!((ran.replies, ran.actions, log.len()), (0, 0, 0));
    }
}

#[test]
fn a_jump_past_the_end_becomes_zero() {
    assert_eq!(written_base("##2"), "##0");
}

#[test]
fn labels_and_gotos() {
    assert_eq!(written_base("[5]; a1; ##[5]"), "##2; a1; ##1");
    assert_eq!(written_base("##[5][5]; [5]; a1; [5]"), "##4; ##3; a1; ##0");
    assert_eq!(
        written_base("##[5][6]; [6]; [5]; [6]"),
        "##4; ##3; ##4; ##0"
    );
    assert_eq!(written_base("a1; [5]; [5]; ##[5]"), "a1; ##3; ##4; ##2");
}

// Gotos to nowhere (request C-13)

/// The refusal that every call that checks a routine gives, with nothing written.
fn refused_everywhere(text: &str) -> Refusal {
    let routine = seq(text);
    let why = check_routine(&routine).expect_err(text);
    let state = State::fresh(1);
    let mut lent = [7; 8 * 64];
    let mut work = lent;
    assert_eq!(convert(&routine, &mut lent, &mut work), Err(why), "{text}");
    assert_eq!(list(&routine, &mut lent), Err(why), "{text}");
    assert_eq!(run_routine(&routine, &[], &mut lent, 9), Err(why), "{text}");
    let stepped = step_routine(&routine, &[], &mut lent, state);
    assert_eq!(stepped, Err(why), "{text}");
    assert_eq!((lent, work), ([7; 512], [7; 512]), "{text}");
    why
}

#[test]
fn a_goto_to_nowhere_is_turned_away() {
    for (text, place) in [
        ("##[5][5]; [5]; a1", 1),
        ("##[7]", 1),
        ("##[7]; [6]; [5]", 1),
        ("##[5][6]; [6]; [5]", 1),
        ("##[5][7]; [7]; [5]", 1),
        ("[5]; ##[5]; ##[5][6]", 3),
        ("[6]; ##[5][6]; [6]", 2),
        ("[1]; ##[1]; ##[2]; ##[1][1]; ##[3]", 3),
        // Reached or not, inside a block or not.
        ("##0; a1; ##[9]", 3),
        ("+a1{; ##[9]; }{; [8]; }", 2),
        // A goto, a chained goto and an action are no labels.
        ("a5; ##[5]; ##[6][5]; ##5", 2),
    ] {
        assert_eq!(refused_everywhere(text), refused(Reason::Label, place));
    }
    for text in [
        "##[5][5]; [5]; [5]",
        "[5]; ##[5][6]; [6]",
        "+a1{; ##[9]; }{; [9]; }",
        "[999]; ##[999]",
    ] {
        assert!(check_routine(&seq(text)).is_ok(), "{text}");
    }
}

#[test]
fn a_goto_to_nowhere_comes_after_nesting_and_before_skip() {
    let both = refused_everywhere("##[7]; }");
    assert_eq!(both, refused(Reason::Nesting, 2));
    let both = refused_everywhere("+a1; R##1; ##[7]");
    assert_eq!(both, refused(Reason::Label, 3));
    let mut grown = records("##R").unwrap().repeat(511);
    grown.extend(records("##[7]").unwrap());
    assert_eq!(
        check_routine(&bytes_of(&grown)),
        Err(refused(Reason::Label, 512))
    );
    let mut field = seq("##[7]; a1");
    field[10] = 0;
    assert_eq!(check_routine(&field), Err(refused(Reason::Field, 2)));
    // Before 8, 9 and 10.
    let lost = seq("##[7]");
    let label = refused(Reason::Label, 1);
    assert_eq!(convert(&lost, &mut [], &mut []), Err(label));
    assert_eq!(run_routine(&lost, &[2], &mut [], 1), Err(label));
    let unsound = State::fresh(2);
    assert_eq!(step_routine(&lost, &[], &mut [], unsound), Err(label));
}

#[test]
fn a_test_at_the_end() {
    let (ran, log) = run_of_routine("+a1; a2", &[0], 100);
    assert_eq!((ran.status, ran.steps, log), (Status::Ended, 1, vec![1]));
}

#[test]
fn a_test_before_an_adding_kind() {
    let call = seq("+a1; R##1");
    assert_eq!(check_routine(&call), Err(refused(Reason::Skip, 1)));
    assert_eq!(base_of(&seq("R##1; +a1")).map(|base| base.len()), Ok(24));
    for after in [
        "+a2{; }",
        "-a2{; }",
        "+a2{*; *}",
        "-a2{*; *}",
        "R##1",
        "##R",
    ] {
        let text = format!("a1; -a7; {after}");
        assert_eq!(
            check_routine(&seq(&text)),
            Err(refused(Reason::Skip, 2)),
            "{text}"
        );
        assert!(check_routine(&seq(&format!("-a7; a1; {after}"))).is_ok());
    }
    // The lowest such test is named; kinds that add nothing may follow a test.
    let two = seq("+a1; a2; -a3; R##1; +a4; ##R");
    assert_eq!(check_routine(&two), Err(refused(Reason::Skip, 3)));
    assert!(check_routine(&seq("+a1{; +a2; }{; -a3; }; +a4; +a5; [1]; -a6; ##[1]")).is_ok());
    assert!(check_routine(&seq("+a1{*; +a2; *}")).is_ok());
}

#[test]
fn nesting() {
    let cases = [
        ("}{", 1),
        ("}", 1),
        ("*}", 1),
        ("+a1{; +a2{*; }", 3),
        ("+a1{; }{; }{; }", 3),
        ("+a1{*; }{; *}", 2),
        ("+a1{*; }", 2),
        ("+a1{; *}", 2),
        ("a1; +a1{; +a2{*; *}", 2),
        ("+a1{; }; +a1{*; +a2{; +a3{", 3),
        ("+a1{; }; }", 3),
        ("+a1{; +a2{; }{; }; }{; }; *}", 7),
    ];
    for (text, place) in cases {
        let verdict = check_routine(&seq(text)).map(|_| ());
        assert_eq!(verdict, Err(refused(Reason::Nesting, place)), "{text}");
    }
    assert!(check_routine(&seq("+a1{; -a2{*; +a3{; }{; }; *}; }{; -a4{; }; }")).is_ok());
}

#[test]
fn nesting_of_any_depth() {
    let openers = bytes_of(&[Record::new(kind::YES_BLOCK, 1, 0); 512]);
    assert_eq!(check_routine(&openers), Err(refused(Reason::Nesting, 1)));
    let mut nested = records("+a1{").unwrap().repeat(256);
    nested.extend(records("}").unwrap().repeat(256));
    assert_eq!(
        base_of(&bytes_of(&nested)).map(|base| base.len() / 8),
        Ok(768)
    );
}

// A block with one arm (request C-12)

/// Runs a routine and its base on these replies: both end, and do the same.
fn both_log(text: &str, replies: &[u8], steps: [u64; 2], actions: &[u16]) {
    let (source, source_log) = run_of_routine(text, replies, 1_000);
    let (base, base_log) = run_of_its_base(text, replies, 1_000);
    assert_eq!([source.status, base.status], [Status::Ended; 2], "{text}");
    assert_eq!([source.steps, base.steps], steps, "{text} {replies:?}");
    assert_eq!(source.replies, base.replies, "{text} {replies:?}");
    assert_eq!(source_log, actions, "{text} {replies:?}");
    assert_eq!(base_log, actions, "{text} {replies:?}");
}

#[test]
fn a_block_with_one_arm_goes_on_behind_it() {
    let text = "+a1{; a2; }; a3";
    assert_eq!(written_base(text), "-a1; ##5; a2; ##5; a3");
    both_log(text, &[0, 1], [2, 3], &[1, 3]);
    both_log(text, &[1, 1, 1], [4, 4], &[1, 2, 3]);
    let exchanged = "-a1{; a2; }; a3";
    assert_eq!(written_base(exchanged), "+a1; ##5; a2; ##5; a3");
    both_log(exchanged, &[1, 1], [2, 3], &[1, 3]);
    both_log(exchanged, &[0, 1, 1], [4, 4], &[1, 2, 3]);
}

#[test]
fn blocks_with_one_arm_in_one_another() {
    let text = "+a1{; +a2{; a3; }; a4; }; a5";
    let base = "-a1; ##9; -a2; ##7; a3; ##7; a4; ##9; a5";
    assert_eq!(written_base(text), base);
    both_log(text, &[0, 1], [2, 3], &[1, 5]);
    both_log(text, &[1, 0, 1, 1], [5, 6], &[1, 2, 4, 5]);
    both_log(text, &[1; 5], [7, 7], &[1, 2, 3, 4, 5]);
    // One arm within the second of two, and in a loop.
    let text = "-a9{*; +a1{; a2; }{; +a3{; a4; }; }; *}; a5";
    both_log(
        text,
        &[0, 0, 0, 0, 0, 1, 1, 1, 1],
        [14, 18],
        &[9, 1, 3, 9, 1, 3, 4, 9, 5],
    );
}

#[test]
fn a_block_with_one_arm_at_the_end() {
    let text = "a1; +a2{; a3; }";
    assert_eq!(written_base(text), "a1; -a2; ##0; a3; ##0");
    both_log(text, &[1, 0], [2, 3], &[1, 2]);
    both_log(text, &[1, 1, 1], [4, 4], &[1, 2, 3]);
    // Two that end together: the inner one's } passes to the outer one's.
    let text = "+a1{; +a2{; }; }";
    assert_eq!(written_base(text), "-a1; ##0; -a2; ##6; ##6; ##0");
    both_log(text, &[1, 0], [3, 4], &[1, 2]);
}

#[test]
fn lengths_are_the_records_and_one_for_each_header() {
    for (text, length) in [
        ("+a1{; }", 3),
        ("+a1{; a2; }; a3", 5),
        ("+a1{; a2; }{; }; a3", 6),
        ("+a1{; +a2{; a3; }; a4; }; a5", 9),
    ] {
        let base = base_of(&seq(text)).map(|base| base.len() / 8);
        assert_eq!(base, Ok(length), "{text}");
    }
}

const CALLER: &str = "R##4; a1; ##0; a2; ##R";

#[test]
fn a_call_and_a_return() {
    assert_eq!(base_of(&seq(CALLER)).map(|base| base.len()), Ok(8 * 36));
    let (source, source_log) = run_of_routine(CALLER, &[1, 1], 1_000);
    assert_eq!((source.status, source.steps), (Status::Ended, 5));
    assert_eq!(source_log, [2, 1]);
    let (base, base_log) = run_of_its_base(CALLER, &[1, 1], 1_000);
    assert_eq!((base.status, base.steps), (Status::Ended, 14));
    assert_eq!(base_log, [2, 1]);
}

#[test]
fn the_base_of_a_call_and_a_return() {
    // Worked out on paper, stage by stage.
    let expected = [
        "push(2); ##5; a1; ##0; a2",
        "-topeq(5); ##11; pop; ##6; ##0",
        "-topeq(4); ##16; pop; ##5; ##36",
        "-topeq(3); ##21; pop; ##4; ##35",
        "-topeq(2); ##26; pop; ##3; ##34",
        "-topeq(1); ##31; pop; ##1; ##33",
        "##0; ##33; ##34; ##35; ##36; ##0",
    ];
    assert_eq!(written_base(CALLER), expected.join("; "));
}

#[test]
fn calls_without_end_fill_the_stack() {
    let (source, _) = run_of_routine("R##1", &[], 1_000);
    assert_eq!((source.status, source.steps), (Status::StackFull, 96));
    assert_eq!((source.state.at, source.state.depth), (1, 96));
    assert_eq!(source.state.entries, [2; 96]);
    let (base, _) = run_of_its_base("R##1", &[], 1_000);
    assert_eq!((base.status, base.steps), (Status::StackFull, 192));
    assert_eq!(base.state.entries, [2; 96]);
    // Budget before stack: 5 is tried before 4.
    assert_eq!(
        run_of_routine("R##1", &[], 96).0.status,
        Status::BudgetSpent
    );
}

fn grown(calls: usize) -> Vec<u8> {
    let mut records = vec![Record::new(kind::RETURN, 0, 0); 2];
    records.extend(vec![Record::new(kind::CALL, 3, 0); calls]);
    records.extend(vec![Record::new(kind::ACTION, 9, 0); 308 - calls]);
    bytes_of(&records)
}

#[test]
fn growth() {
    assert_eq!(base_of(&grown(66)).map(|base| base.len() / 8), Ok(4_096));
    assert_eq!(base_of(&grown(67)), Err(refused(Reason::Growth, 0)));
    let mut records = vec![Record::new(kind::CALL, 512, 0); 511];
    records.push(Record::new(kind::RETURN, 0, 0));
    assert_eq!(
        base_of(&bytes_of(&records)).map(|base| base.len() / 8),
        Ok(4_095)
    );
    let returns = bytes_of(&[Record::new(kind::RETURN, 0, 0); 512]);
    assert_eq!(base_of(&returns), Err(refused(Reason::Growth, 0)));
}

#[test]
fn relative_jumps() {
    let mut out = [0; 24];
    assert_eq!(to_relative(&seq("##3; a1; +a2"), &mut out), Ok(3));
    assert_eq!(written(&records_of(&out)), "#2; a1; +a2");
    let far = seq("#9999");
    assert_eq!(to_absolute(&far, &mut out), Err(refused(Reason::Far, 1)));
    // 11 comes before 8.
    assert_eq!(to_absolute(&far, &mut []), Err(refused(Reason::Far, 1)));
    assert_eq!(to_absolute(&seq("a1; #9997"), &mut out), Ok(2));
    assert_eq!(written(&records_of(&out[..16])), "a1; ##9999");
    assert_eq!(to_absolute(&seq("\\#1; \\#1; \\#9999"), &mut out), Ok(3));
    assert_eq!(written(&records_of(&out)), "##0; ##1; ##0");
    assert_eq!(to_relative(&seq("##1; ##1; ##0"), &mut out), Ok(3));
    assert_eq!(written(&records_of(&out)), "#0; \\#1; stop");
    assert_eq!(to_absolute(&seq("stop; #0; pop"), &mut out), Ok(3));
    assert_eq!(written(&records_of(&out)), "##0; ##2; pop");
}

#[test]
fn absolute_to_relative_and_back_gives_the_same_bytes() {
    let base = seq("##9999; +push(9999); ##2; ##3; -pop; ##0; topeq(0); a999; ##4096; ##1");
    let mut relative = vec![0; base.len()];
    let mut back = vec![0; base.len()];
    assert_eq!(to_relative(&base, &mut relative), Ok(10));
    assert_eq!(to_absolute(&relative, &mut back), Ok(10));
    assert_eq!(back, base);
}

// The listing

const LISTED: &str = "-a5{*; a6; +a7{; a8; }{; a9; }; *}; a10";

#[test]
fn the_listing_example() {
    let expected = "length 9 11\n1 +a5\n2 ##11\n3 a6\n4 -a7\n5 ##8\n6 a8\n7 ##10\n8 a9\n9 ##10\n\
                    10 ##1\n11 a10\n";
    assert_eq!(printed(&seq(LISTED)), expected);
    assert_eq!(printed(&seq("a1; }")), "refused 5 2\n");
    assert_eq!(printed(&[0; 4_097]), "refused 1 0\n");
    assert_eq!(printed(&[0; 4_104]), "refused 2 0\n");
    assert!(listing(&seq("R##1"))
        .unwrap()
        .ends_with("1 push(2)\n2 ##1\n"));
}

#[test]
fn a_listing_needs_room_for_all_of_it() {
    let length = listing(&seq(LISTED)).unwrap().len();
    let mut text = vec![7; length - 1];
    assert_eq!(list(&seq(LISTED), &mut text), Err(refused(Reason::Room, 0)));
    assert!(text.iter().all(|&byte| byte == 7));
    let mut text = vec![7; length + 1];
    assert_eq!(list(&seq(LISTED), &mut text), Ok(length));
    assert_eq!(text[length], 7);
}

// Errors that look right

#[test]
fn pushed_numbers_stay_source_numbers() {
    // The block and the first call put places in before the second call.
    let text = "+a1{; }{; }; R##7; R##7; ##0; a2; ##R";
    let base = written_base(text);
    assert!(
        base.contains("push(5)") && base.contains("push(6)"),
        "{base}"
    );
    let (ran, log) = run_of_its_base(text, &[1, 1, 1], 1_000);
    assert_eq!((ran.status, log), (Status::Ended, vec![1, 2, 2]));
}

#[test]
fn the_chain_nests_as_deep_as_the_routine_is_long() {
    let mut source = records("R##511").unwrap();
    source.extend(records("a1").unwrap().repeat(508));
    source.extend(records("##0; a2; ##R").unwrap());
    let source = bytes_of(&source);
    let mut log = [0; 4];
    let base = base_of(&source).unwrap();
    let ran = run_base(&base, &[1, 1, 1], &mut log, 100_000).unwrap();
    assert_eq!((ran.status, ran.state.depth), (Status::LogFull, 0));
    assert_eq!(log, [2, 0, 1, 0]);
}

#[test]
fn a_return_that_finds_n_plus_one_ends_without_a_pop() {
    let text = "##3; ##R; R##2";
    let (source, _) = run_of_routine(text, &[], 1_000);
    assert_eq!(
        (source.status, source.steps, source.state.depth),
        (Status::Ended, 3, 1)
    );
    assert_eq!(source.state.entries[0], 4);
    let (base, _) = run_of_its_base(text, &[], 1_000);
    assert_eq!((base.status, base.state), (source.status, source.state));
    let (empty, _) = run_of_routine("##R", &[], 1_000);
    assert_eq!(
        (empty.status, empty.steps, empty.state),
        (Status::Ended, 1, State::fresh(0))
    );
}

// Steps, statuses and their order

#[test]
fn statuses_are_tried_in_order() {
    let routine = seq("a258; a2");
    let mut log = [9; 5];
    let ran = run_routine(&routine, &[1], &mut log, 1).unwrap();
    assert_eq!(ran.status, Status::BudgetSpent);
    let ran = run_routine(&routine, &[1], &mut log, 2).unwrap();
    assert_eq!(
        (ran.status, ran.steps, ran.state.at),
        (Status::NoReply, 1, 2)
    );
    assert_eq!(log, [2, 1, 9, 9, 9]);
    let ran = run_routine(&routine, &[1, 1], &mut log[..3], 9).unwrap();
    assert_eq!(
        (ran.status, ran.steps, ran.replies),
        (Status::LogFull, 1, 1)
    );
    let ran = run_routine(&routine, &[], &mut [], 9).unwrap();
    assert_eq!(
        (ran.status, ran.steps, ran.state.at),
        (Status::NoReply, 0, 1)
    );
    let ran = run_routine(&routine, &[1, 1], &mut log, u64::MAX).unwrap();
    assert_eq!((ran.status, ran.steps, ran.state.at), (Status::Ended, 2, 0));
}

#[test]
fn one_step_of_each_kind() {
    let cases: [(&str, u32, &[u8], u32); 34] = [
        ("a1; a1", 1, &[0], 2),
        ("a1; a1", 2, &[1], 0),
        ("+a1; a1; a1", 1, &[1], 2),
        ("+a1; a1; a1", 1, &[0], 3),
        ("-a1; a1; a1", 1, &[1], 3),
        ("-a1; a1; a1", 1, &[0], 2),
        ("##2; a1", 1, &[], 2),
        ("##3; a1", 1, &[], 0),
        ("##0; a1", 1, &[], 0),
        ("[3]; a1", 1, &[], 2),
        ("a1; [3]", 2, &[], 0),
        ("##[3]; [4]; [3]", 1, &[], 3),
        ("[3]; a1; ##[3]", 3, &[], 1),
        ("##[3][4]; [4]; [3]; [4]", 1, &[], 4),
        ("+a1{; a1; }{; a2; }", 1, &[1], 2),
        ("+a1{; a1; }{; a2; }", 1, &[0], 4),
        ("-a1{; a1; }{; a2; }", 1, &[1], 4),
        ("-a1{; a1; }{; a2; }; a3", 1, &[0], 2),
        ("-a1{; a1; }{; a2; }; a3", 3, &[], 6),
        ("-a1{; a1; }{; a2; }; a3", 5, &[], 6),
        ("+a1{; a1; }; a3", 1, &[1], 2),
        ("+a1{; a1; }; a3", 1, &[0], 4),
        ("-a1{; a1; }; a3", 1, &[1], 4),
        ("+a1{; a1; }; a3", 3, &[], 4),
        ("a1; +a1{; a1; }", 2, &[0], 0),
        ("a1; +a1{; a1; }", 4, &[], 0),
        ("+a1{*; a1; *}; a3", 1, &[1], 2),
        ("+a1{*; a1; *}; a3", 1, &[0], 4),
        ("-a1{*; a1; *}; a3", 1, &[1], 4),
        ("-a1{*; a1; *}; a3", 1, &[0], 2),
        ("-a1{*; a1; *}; a3", 3, &[], 1),
        ("-a1{*; *}", 1, &[1], 0),
        ("R##2; a1", 1, &[], 2),
        ("a1; R##9", 2, &[], 0),
    ];
    for (text, at, replies, next) in cases {
        let mut log = [0; 2];
        let ran = step_routine(&seq(text), replies, &mut log, State::fresh(at)).unwrap();
        let status = if next == 0 {
            Status::Ended
        } else {
            Status::BudgetSpent
        };
        assert_eq!(
            (ran.state.at, ran.steps, ran.status),
            (next, 1, status),
            "{text} at {at}"
        );
        assert_eq!(ran.replies, replies.len() as u64, "{text} at {at}");
    }
}

#[test]
fn steps_of_the_counter_stack() {
    let mut one = State::fresh(1);
    one.depth = 1;
    one.entries[0] = 7;
    let mut two = one;
    two.depth = 2;
    two.entries[1] = 5;
    let empty = State::fresh(1);
    let cases = [
        ("push(5); a1; a1", one, 2, two),
        ("+push(5); a1; a1", one, 2, two),
        ("-push(5); a1; a1", one, 3, two),
        ("+pop; a1; a1", one, 2, empty),
        ("-pop; a1; a1", one, 3, empty),
        ("+pop; a1; a1", empty, 3, empty),
        ("pop; a1; a1", empty, 2, empty),
        ("+topeq(7); a1; a1", one, 2, one),
        ("+topeq(8); a1; a1", one, 3, one),
        ("+topeq(0); a1; a1", empty, 3, empty),
        ("-topeq(0); a1; a1", empty, 2, empty),
        ("topeq(5); a1; a1", two, 2, two),
    ];
    for (text, state, at, stack) in cases {
        let ran = step_base(&seq(text), &[], &mut [], state).unwrap();
        assert_eq!(ran.state, State { at, ..stack }, "{text}");
        assert_eq!((ran.steps, ran.replies, ran.actions), (1, 0, 0), "{text}");
    }
}

#[test]
fn a_return_pops_only_a_place_of_the_routine() {
    let routine = seq("a1; ##R; a2");
    for (top, at, depth) in [(1, 1, 0), (3, 3, 0), (4, 0, 1), (0, 0, 1), (9_999, 0, 1)] {
        let mut state = State::fresh(2);
        state.depth = 1;
        state.entries[0] = top;
        let ran = step_routine(&routine, &[], &mut [], state).unwrap();
        assert_eq!((ran.state.at, ran.state.depth), (at, depth), "top {top}");
        assert_eq!(ran.state.entries[0], if depth == 0 { 0 } else { top });
    }
}

#[test]
fn unsound_states() {
    let fault = Err(refused(Reason::State, 0));
    let routine = seq("a1; a2");
    let sound = State::fresh(2);
    let mut unused = sound;
    unused.entries[95] = 1;
    let mut large = sound;
    large.depth = 1;
    large.entries[0] = 10_000;
    let states = [
        State { at: 3, ..sound },
        State {
            at: u32::MAX,
            ..sound
        },
        State { depth: 97, ..sound },
        State {
            depth: u32::MAX,
            ..sound
        },
        unused,
        large,
    ];
    for state in states {
        assert_eq!(step_routine(&routine, &[], &mut [], state), fault);
        assert_eq!(step_base(&routine, &[], &mut [], state), fault);
    }
    // 9 is tried before 10.
    let reply = Err(refused(Reason::Reply, 2));
    assert_eq!(step_base(&routine, &[1, 2], &mut [], states[0]), reply);
    let full = State {
        depth: 96,
        entries: [9_999; 96],
        at: 0,
    };
    assert_eq!(
        step_base(&routine, &[], &mut [], full).unwrap().status,
        Status::Ended
    );
}

#[test]
fn reply_bytes_are_all_looked_at() {
    let fault = Err(refused(Reason::Reply, 4));
    assert_eq!(run_routine(&[], &[0, 1, 0, 2, 3], &mut [], 0), fault);
    assert_eq!(run_base(&[], &[0, 1, 0, 255], &mut [], 0), fault);
    let nesting = Err(refused(Reason::Nesting, 1));
    assert_eq!(run_routine(&seq("}"), &[2], &mut [], 0), nesting);
}

// Bytes, ranges and rooms

#[test]
fn odd_sizes() {
    for length in 1..=4_100 {
        if length % 8 != 0 {
            assert_eq!(
                check_routine(&vec![255; length]),
                Err(refused(Reason::Ragged, 0))
            );
        }
    }
    assert_eq!(check_routine(&[0; 4_096]), Err(refused(Reason::Kind, 1)));
    assert_eq!(check_routine(&[0; 4_104]), Err(refused(Reason::Long, 0)));
    assert_eq!(
        check_base(&vec![0; 32_769]),
        Err(refused(Reason::Ragged, 0))
    );
    assert_eq!(check_base(&vec![0; 32_776]), Err(refused(Reason::Long, 0)));
    assert_eq!(
        check_relative(&vec![0; 32_776]),
        Err(refused(Reason::Long, 0))
    );
    let full = bytes_of(&vec![Record::new(kind::ACTION, 1, 0); 4_096]);
    assert_eq!(check_base(&full), Ok(4_096));
}

#[test]
fn bytes_that_must_be_zero() {
    for byte in [1, 6, 7] {
        let mut routine = seq("a1; a2");
        routine[8 + byte] = 1;
        // 3 comes first within a record.
        routine[8 + 2] = 0;
        assert_eq!(check_routine(&routine), Err(refused(Reason::Kind, 2)));
        routine[2] = 0;
        assert_eq!(check_routine(&routine), Err(refused(Reason::Field, 1)));
    }
}

type Check = fn(&[u8]) -> Result<usize, Refusal>;

/// Which of these values a field may have, by trying each alone.
fn accepted(check: Check, record: impl Fn(u16) -> Record) -> Vec<u16> {
    let values = [
        0, 1, 2, 999, 1_000, 1_001, 1_002, 1_003, 1_004, 9_999, 10_000, 65_535,
    ];
    let good = |&value: &u16| check(&bytes_of(&[record(value)])) != Err(refused(Reason::Field, 1));
    values.into_iter().filter(good).collect()
}

#[test]
fn ranges_of_a_routine() {
    let numbers = [0, 1, 2, 999, 1_000, 1_001, 1_002, 1_003, 1_004, 9_999];
    for kind in 1..=16 {
        let fields_y = if kind == kind::CHAINED_GOTO { 1 } else { 0 };
        let x = accepted(check_routine, |x| Record::new(kind, x, fields_y));
        let listed: &[u16] = match kind {
            4 | 15 => &numbers,
            10 | 11 | 14 | 16 => &[0],
            _ => &[1, 2, 999],
        };
        assert_eq!(x, listed, "x of kind {kind}");
        let good_x = listed[listed.len() - 1];
        let y = accepted(check_routine, |y| Record::new(kind, good_x, y));
        let listed: &[u16] = if kind == kind::CHAINED_GOTO {
            &[1, 2, 999]
        } else {
            &[0]
        };
        assert_eq!(y, listed, "y of kind {kind}");
    }
    for kind in [0, 17, 18, 19, 20, 255] {
        let alone = bytes_of(&[Record::new(kind, 0, 0)]);
        assert_eq!(check_routine(&alone), Err(refused(Reason::Kind, 1)));
    }
}

#[test]
fn ranges_of_the_bases() {
    let numbers = [0, 1, 2, 999, 1_000, 1_001, 1_002, 1_003, 1_004, 9_999];
    for check in [check_base as Check, check_relative as Check] {
        for kind in 1..=3 {
            let x = accepted(check, |x| Record::new(kind, x, 0));
            assert_eq!(x, [1, 2, 999, 1_001, 1_002, 1_003]);
            for (action, listed) in [
                (1_001, &numbers[..]),
                (1_002, &[0]),
                (1_003, &numbers),
                (5, &[0]),
            ] {
                assert_eq!(accepted(check, |y| Record::new(kind, action, y)), listed);
            }
        }
    }
    assert_eq!(accepted(check_base, |x| Record::new(4, x, 0)), numbers);
    assert_eq!(accepted(check_base, |y| Record::new(4, 1, y)), [0]);
    for kind in [17, 18] {
        assert_eq!(
            accepted(check_relative, |x| Record::new(kind, x, 0)),
            numbers
        );
        assert_eq!(accepted(check_relative, |y| Record::new(kind, 1, y)), [0]);
    }
    assert_eq!(accepted(check_relative, |x| Record::new(19, x, 0)), [0]);
    assert_eq!(accepted(check_relative, |y| Record::new(19, 0, y)), [0]);
    for kind in 5..=20 {
        let alone = bytes_of(&[Record::new(kind, 0, 0)]);
        assert_eq!(check_base(&alone), Err(refused(Reason::Kind, 1)), "{kind}");
    }
    for kind in (4..=16).chain([0, 20, 255]) {
        let alone = bytes_of(&[Record::new(kind, 0, 0)]);
        assert_eq!(
            check_relative(&alone),
            Err(refused(Reason::Kind, 1)),
            "{kind}"
        );
    }
}

#[test]
fn a_refused_call_writes_to_no_lent_buffer() {
    let routine = seq(LISTED);
    for (out_size, work_size) in [(87, 88), (88, 87), (0, 88), (88, 0)] {
        let (mut out, mut work) = (vec![1; out_size], vec![2; work_size]);
        let answer = convert(&routine, &mut out, &mut work);
        assert_eq!(answer, Err(refused(Reason::Room, 0)));
        assert!(out.iter().all(|&b| b == 1) && work.iter().all(|&b| b == 2));
    }
    assert_eq!(convert(&routine, &mut [1; 88], &mut [2; 88]), Ok(11));
    let mut out = [1; 23];
    assert_eq!(
        to_relative(&seq("a1; a1; a1"), &mut out),
        Err(refused(Reason::Room, 0))
    );
    assert_eq!(
        to_absolute(&seq("a1; a1; a1"), &mut out),
        Err(refused(Reason::Room, 0))
    );
    assert_eq!(out, [1; 23]);
}
