//! The paper's table of cases, through the wrapper.

use quadrilhel::{
    check_routine, converted, listing, run_base, run_routine, step_routine, to_absolute,
    to_relative, Refusal, State, Status,
};

/// Records of kind and x; y is zero in all of these cases.
fn bytes(records: &[(u8, u16)]) -> Vec<u8> {
    let record = |&(kind, x): &(u8, u16)| {
        let [low, high] = x.to_le_bytes();
        [kind, 0, low, high, 0, 0, 0, 0]
    };
    records.iter().flat_map(record).collect()
}

/// `-a5{*; a6; +a7{; a8; }{; a9; }; *}; a10`
fn listed() -> Vec<u8> {
    let records = [
        (13, 5),
        (1, 6),
        (8, 7),
        (1, 8),
        (10, 0),
        (1, 9),
        (11, 0),
        (14, 0),
        (1, 10),
    ];
    bytes(&records)
}

/// `R##4; a1; ##0; a2; ##R`
fn caller() -> Vec<u8> {
    bytes(&[(15, 4), (1, 1), (4, 0), (1, 2), (16, 0)])
}

#[test]
fn the_listing_example() {
    let text = "length 9 11\n1 +a5\n2 ##11\n3 a6\n4 -a7\n5 ##8\n6 a8\n7 ##10\n8 a9\n9 ##10\n\
                10 ##1\n11 a10\n";
    assert_eq!(listing(&listed()), Ok(text.to_string()));
}

#[test]
fn a_call_and_a_return() {
    let mut log = [0; 10];
    let ran = run_routine(&caller(), &[1, 1], &mut log, u64::MAX).unwrap();
    assert_eq!((ran.status, ran.steps), (Status::Ended, 5));
    assert_eq!(ran.logged(&log).collect::<Vec<_>>(), [2, 1]);
    let base = converted(&caller()).unwrap();
    assert_eq!(base.len(), 8 * 36);
    let ran = run_base(&base, &[1, 1], &mut log, u64::MAX).unwrap();
    assert_eq!((ran.status, ran.steps), (Status::Ended, 14));
    assert_eq!(ran.logged(&log).collect::<Vec<_>>(), [2, 1]);
}

#[test]
fn calls_without_end_fill_the_stack() {
    let routine = bytes(&[(15, 1)]);
    let ran = run_routine(&routine, &[], &mut [], u64::MAX).unwrap();
    assert_eq!((ran.status, ran.steps), (Status::StackFull, 96));
    assert_eq!(ran.state.in_use(), [2; 96]);
    let ran = run_base(&converted(&routine).unwrap(), &[], &mut [], u64::MAX).unwrap();
    assert_eq!((ran.status, ran.steps), (Status::StackFull, 192));
}

#[test]
fn small_cases() {
    assert_eq!(converted(&[]), Ok(vec![]));
    assert_eq!(converted(&bytes(&[(4, 2)])), Ok(bytes(&[(4, 0)])));
    let labels = bytes(&[(5, 5), (1, 1), (6, 5)]);
    assert_eq!(converted(&labels), Ok(bytes(&[(4, 2), (1, 1), (4, 1)])));
    assert_eq!(
        check_routine(&bytes(&[(2, 1), (15, 1)])),
        Err(Refusal::Skip { record: 1 })
    );
    assert_eq!(
        converted(&bytes(&[(15, 1), (2, 1)])).map(|base| base.len()),
        Ok(24)
    );
    assert_eq!(
        check_routine(&bytes(&[(10, 0)])),
        Err(Refusal::Nesting { record: 1 })
    );
    let crossed = bytes(&[(8, 1), (12, 2), (11, 0)]);
    assert_eq!(check_routine(&crossed), Err(Refusal::Nesting { record: 3 }));
    assert_eq!(check_routine(&[1; 7]), Err(Refusal::Ragged));
}

#[test]
fn a_goto_to_nowhere() {
    let lost = Refusal::Label { record: 2 };
    let routine = bytes(&[(5, 4), (6, 5)]);
    assert_eq!(check_routine(&routine), Err(lost));
    assert_eq!(converted(&routine), Err(lost));
    assert_eq!(listing(&routine), Err(lost));
    assert_eq!(run_routine(&routine, &[], &mut [], 9), Err(lost));
    let stepped = step_routine(&routine, &[], &mut [], State::start(2));
    assert_eq!(stepped, Err(lost));
    // ##[5][5]; [5]; a1, and the same with a second [5].
    let mut chained = bytes(&[(7, 5), (5, 5), (1, 1)]);
    chained[4] = 5;
    assert_eq!(converted(&chained), Err(Refusal::Label { record: 1 }));
    chained.extend(bytes(&[(5, 5)]));
    let base = bytes(&[(4, 4), (4, 3), (1, 1), (4, 0)]);
    assert_eq!(converted(&chained), Ok(base));
    // After 5, before 6.
    let nesting = bytes(&[(6, 5), (11, 0)]);
    assert_eq!(check_routine(&nesting), Err(Refusal::Nesting { record: 2 }));
    let skip = bytes(&[(2, 1), (15, 1), (6, 5)]);
    assert_eq!(check_routine(&skip), Err(Refusal::Label { record: 3 }));
}

#[test]
fn relative_jumps() {
    let base = bytes(&[(4, 3), (1, 1), (2, 2)]);
    let mut out = vec![0; 24];
    assert_eq!(to_relative(&base, &mut out), Ok(3));
    assert_eq!(out, bytes(&[(17, 2), (1, 1), (2, 2)]));
    let mut back = vec![0; 24];
    assert_eq!(to_absolute(&out, &mut back), Ok(3));
    assert_eq!(back, base);
    let far = to_absolute(&bytes(&[(17, 9_999)]), &mut out);
    assert_eq!(far, Err(Refusal::Far { record: 1 }));
    assert_eq!(to_relative(&base, &mut out[..23]), Err(Refusal::Room));
}

#[test]
fn steps_make_up_a_run() {
    let (routine, replies) = (listed(), [0, 1, 1, 1, 0, 0, 1, 0, 1, 1]);
    let mut whole_log = [0; 40];
    let whole = run_routine(&routine, &replies, &mut whole_log, u64::MAX).unwrap();
    let mut state = State::start(9);
    let (mut steps, mut used, mut log) = (0, 0, Vec::new());
    while state.at != 0 {
        let mut part = [0; 2];
        let ran = step_routine(&routine, &replies[used..], &mut part, state).unwrap();
        log.extend(ran.logged(&part));
        state = ran.state;
        steps += ran.steps;
        used += ran.replies as usize;
    }
    assert_eq!(
        (state, steps, used as u64),
        (whole.state, whole.steps, whole.replies)
    );
    assert_eq!(log, whole.logged(&whole_log).collect::<Vec<_>>());
}

#[test]
fn a_refused_step_leaves_the_state_with_the_caller() {
    let unsound = State::fresh(10);
    let refused = step_routine(&listed(), &[], &mut [], unsound);
    assert_eq!(refused, Err(Refusal::State));
    let reply = step_routine(&listed(), &[0, 2], &mut [], unsound);
    assert_eq!(reply, Err(Refusal::Reply { byte: 2 }));
}
