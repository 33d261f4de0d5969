//! The proved library and the plain Rust one, timed on the same inputs.
//!
//! `bench` prints a table of times, `bench NAME ..` the rows of those names,
//! `bench names` the names, and `bench one NAME SIDE COUNT` makes one side's call
//! COUNT times and nothing else, for a tool that counts instructions.

#![forbid(unsafe_code)]

mod cases;
mod timing;

use std::env;
use std::process::ExitCode;

use cases::{all_cases, Case, Side};

const USAGE: &str = "usage: bench [NAME ..] | bench names | bench one NAME proved|ordinary COUNT";

fn main() -> ExitCode {
    let arguments: Vec<String> = env::args().skip(1).collect();
    let arguments: Vec<&str> = arguments.iter().map(String::as_str).collect();
    let done = match arguments[..] {
        [] => table(all_cases()),
        ["names"] => names(),
        ["one", name, side, count] => one(name, side, count),
        _ => arguments
            .iter()
            .map(|name| find(name))
            .collect::<Result<Vec<Case>, String>>()
            .and_then(table),
    };
    match done {
        Ok(()) => ExitCode::SUCCESS,
        Err(why) => {
            eprintln!("{why}");
            ExitCode::FAILURE
        }
    }
}

fn names() -> Result<(), String> {
    for case in all_cases() {
        println!("{}", case.name);
    }
    Ok(())
}

fn one(name: &str, side: &str, count: &str) -> Result<(), String> {
    let side = match side {
        "proved" => Side::Proved,
        "ordinary" => Side::Ordinary,
        _ => return Err(USAGE.to_string()),
    };
    let count: u32 = count.parse().map_err(|_| USAGE.to_string())?;
    let mut case = find(name)?;
    for _ in 0..count {
        case.call(side);
    }
    Ok(())
}

fn find(name: &str) -> Result<Case, String> {
    let found = all_cases().into_iter().find(|case| case.name == name);
    found.ok_or_else(|| format!("no case {name}: see `bench names`\n{USAGE}"))
}

const METHOD: &str = "\
Both sides get the same bytes and the same buffers, in one process, taking turns.
A sample is so many calls that it lasts about half a millisecond. Times are of each
side's fastest sample, divided by its calls, and so is the ratio; beside it stands
the median of the samples' own ratios, with its quartiles. Quartiles far apart tell
of a busy machine, which the fastest samples bear best. Samples are taken at 32
depths of the machine stack, since how a frame lies may change what a call costs.
Buffers are made once for each case and are not cleared between calls: `convert` is
lent 32,768 bytes for its output and as many to work in, and clears the latter
itself, as it must; runs write over the log of the run before. Checks are part of
every call.
";

fn table(cases: Vec<Case>) -> Result<(), String> {
    if cfg!(debug_assertions) {
        return Err(
            "times mean nothing in a debug build: use `cargo run --release -p bench`".into(),
        );
    }
    println!("{METHOD}");
    println!(
        "| Case | Done in a call | Proved, us | Ordinary, us | Proved / ordinary | Median | Quartiles |"
    );
    println!("|---|---|---:|---:|---:|---:|---|");
    for mut case in cases {
        let done = case.agreed()?;
        let times = timing::measure(&mut case);
        println!(
            "| {}: {} | {done} | {:.3} | {:.3} | {:.2} | {:.2} | {:.2} to {:.2} |",
            case.name,
            case.what,
            times.proved,
            times.ordinary,
            times.ratio,
            times.median,
            times.lower,
            times.upper
        );
    }
    Ok(())
}
