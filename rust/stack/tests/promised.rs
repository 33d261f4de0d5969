//! The stack that is promised suffices, and what is measured is what is needed.

use std::process::{Command, ExitStatus};

use quadrilhel::STACK_NEEDS;
use stack::{most, Call, CALLS};

/// The call with all its inputs on so many bytes, in a process of its own.
fn on(bytes: usize, name: &str) -> ExitStatus {
    let mut command = Command::new(env!("CARGO_BIN_EXE_stack"));
    let status = command.args(["on", &bytes.to_string(), name]).status();
    status.expect("the program stands beside the test")
}

#[test]
fn every_call_is_promised_a_stack_once() {
    let promised = STACK_NEEDS.map(|(name, _)| name);
    assert_eq!(promised, CALLS.map(|call| call.name));
}

#[test]
fn the_promised_stack_suffices() {
    for (name, bytes) in STACK_NEEDS {
        assert!(on(bytes, name).success(), "{name} needs more than {bytes}");
    }
}

/// A stack as long as the measured one will do, and one that is shorter by less
/// than a page ends the process: so the paint shows what is needed.
#[test]
fn the_measured_stack_is_needed() {
    for name in ["qh_check_routine", "qh_run_base", "qh_step_base"] {
        let call = Call::named(name).expect("a call");
        let most = most(call).expect("a stack").bytes.next_multiple_of(16);
        assert!(on(most, name).success(), "{name}: {most}");
        let status = on(most - 64, name);
        assert_eq!(status.code(), None, "{name}: {}", most - 64);
    }
}

#[test]
fn the_readme_has_the_same_numbers() {
    let readme = include_str!("../../README.md");
    for (name, bytes) in STACK_NEEDS {
        let row = format!("| `{name}` | {bytes} |");
        assert!(readme.contains(&row), "README.md has no row {row}");
    }
}

/// The header has them with commas, two columns to a line.
#[test]
fn the_header_has_the_same_numbers() {
    let header = include_str!("../../../include/quadrilhel.h");
    for (name, bytes) in STACK_NEEDS {
        let number = format!("{},{:03}", bytes / 1000, bytes % 1000);
        let said = header.lines().any(|line| {
            let words: Vec<&str> = line.split_whitespace().collect();
            words.windows(2).any(|two| two == [name, &number])
        });
        assert!(said, "quadrilhel.h does not say {name} {number}");
    }
}
