//! `stack` prints the machine stack that each exported call needs, as a Markdown
//! table; `stack NAME ..` the rows of those calls. `stack on BYTES NAME` makes a
//! call with all its inputs on a stack of that size and ends in silence, or is
//! ended by the system if the stack is too short.

#![forbid(unsafe_code)]

use std::env;
use std::process::ExitCode;

use quadrilhel::STACK_NEEDS;
use stack::{most, Call, Guarded, CALLS};

const USAGE: &str = "usage: stack [NAME ..] | stack on BYTES NAME";

fn main() -> ExitCode {
    let arguments: Vec<String> = env::args().skip(1).collect();
    let arguments: Vec<&str> = arguments.iter().map(String::as_str).collect();
    let done = match arguments[..] {
        [] => table(&CALLS.iter().collect::<Vec<_>>()),
        ["on", bytes, name] => on(bytes, name),
        _ => arguments
            .iter()
            .map(|name| find(name))
            .collect::<Result<Vec<_>, _>>()
            .and_then(|calls| table(&calls)),
    };
    match done {
        Ok(()) => ExitCode::SUCCESS,
        Err(why) => {
            eprintln!("{why}");
            ExitCode::FAILURE
        }
    }
}

fn find(name: &str) -> Result<&'static Call, String> {
    Call::named(name).ok_or_else(|| format!("no call {name}\n{USAGE}"))
}

fn table(calls: &[&Call]) -> Result<(), String> {
    println!("| Call | Needs at most, bytes | Promised, bytes | Needed most on |");
    println!("|---|---:|---:|---|");
    for call in calls {
        let most = most(call).ok_or("the system gives no stack")?;
        let promised = STACK_NEEDS.iter().find(|(name, _)| *name == call.name);
        let promised = promised.map_or("none".to_string(), |(_, bytes)| bytes.to_string());
        println!(
            "| `{}` | {} | {promised} | {} |",
            call.name, most.bytes, most.input.name
        );
    }
    Ok(())
}

fn on(bytes: &str, name: &str) -> Result<(), String> {
    let bytes = bytes.parse().map_err(|_| USAGE.to_string())?;
    let call = find(name)?;
    let mut stack = Guarded::new(bytes).ok_or("the system gives no stack")?;
    for input in (call.inputs)() {
        stack.run(call.ready(&input));
    }
    Ok(())
}
