//! A million inputs and more, the same for the library and for plain Rust.
//!
//! Deterministic. `DIFFERENTIAL_SEED` sets another seed and `DIFFERENTIAL_TIMES`
//! multiplies the number of inputs, for a longer search.

use std::collections::{BTreeMap, BTreeSet};
use std::env;
use std::process::ExitCode;
use std::time::Instant;

use differential::areas::{Area, AREAS};
use differential::random::Random;

/// How often each refusal (0 for none) and each status turned up in an area.
#[derive(Default)]
struct Tally {
    refusals: BTreeMap<u32, u64>,
    statuses: BTreeMap<u32, u64>,
}

fn count_of(counts: &BTreeMap<u32, u64>, number: u32) -> u64 {
    counts.get(&number).copied().unwrap_or(0)
}

fn main() -> ExitCode {
    let seed = number_from("DIFFERENTIAL_SEED", 20_260_711);
    let times = number_from("DIFFERENTIAL_TIMES", 1);
    println!("\nlibrary against plain Rust, seed {seed}");
    let mut tallies = Vec::new();
    let mut faults = Vec::new();
    let started = Instant::now();
    for (index, area) in AREAS.iter().enumerate() {
        let (tally, fault) = compare(area, index as u64, seed, times);
        faults.extend(fault.or_else(|| not_met(area, &tally)));
        tallies.push(tally);
    }
    print_refusals(&tallies);
    print_statuses(&tallies);
    let inputs: u64 = tallies
        .iter()
        .flat_map(|tally| tally.refusals.values())
        .sum();
    let seconds = started.elapsed().as_secs_f64();
    println!(
        "\n{inputs} inputs in {seconds:.1} s, {} differences",
        faults.len()
    );
    for fault in &faults {
        println!("\n{fault}");
    }
    if faults.is_empty() {
        ExitCode::SUCCESS
    } else {
        ExitCode::FAILURE
    }
}

fn number_from(variable: &str, otherwise: u64) -> u64 {
    let set = env::var(variable).ok();
    set.and_then(|text| text.parse().ok()).unwrap_or(otherwise)
}

/// All cases of an area, up to the first difference.
fn compare(area: &Area, index: u64, seed: u64, times: u64) -> (Tally, Option<String>) {
    let mut tally = Tally::default();
    for case in 0..area.cases * times {
        match (area.compare_once)(&mut Random::of_case(seed, index, case)) {
            Ok(seen) => {
                *tally.refusals.entry(seen.refusal).or_default() += 1;
                *tally.statuses.entry(seen.status).or_default() += 1;
            }
            Err(error) => {
                let fault = format!("{}, case {case}: {error}", area.name);
                return (tally, Some(fault));
            }
        }
    }
    (tally, None)
}

/// A refusal or status that should have turned up and did not.
fn not_met(area: &Area, tally: &Tally) -> Option<String> {
    let missing = |wanted: &[u32], counts: &BTreeMap<u32, u64>| -> Vec<u32> {
        let absent = |&&number: &&u32| count_of(counts, number) == 0;
        wanted.iter().filter(absent).copied().collect()
    };
    let refusals = missing(area.refusals, &tally.refusals);
    let statuses = missing(area.statuses, &tally.statuses);
    if refusals.is_empty() && statuses.is_empty() && count_of(&tally.refusals, 0) > 0 {
        return None;
    }
    Some(format!(
        "{}: no input met refusals {refusals:?}, statuses {statuses:?}",
        area.name
    ))
}

fn print_refusals(tallies: &[Tally]) {
    println!("\nby refusal (- where the call has none)\n");
    let all: BTreeSet<u32> = AREAS
        .iter()
        .flat_map(|area| area.refusals)
        .copied()
        .collect();
    let names = all.iter().map(u32::to_string);
    print_row("call", ["accepted".to_string()].into_iter().chain(names));
    for (area, tally) in AREAS.iter().zip(tallies) {
        let shown = |&number: &u32| {
            let possible = number == 0 || area.refusals.contains(&number);
            shown_count(possible, count_of(&tally.refusals, number))
        };
        print_row(area.name, [0].iter().chain(&all).map(shown));
    }
}

fn print_statuses(tallies: &[Tally]) {
    println!("\nby status\n");
    let names = ["1 ended", "2 reply", "3 log", "4 stack", "5 budget"];
    print_row("call", names.map(String::from).into_iter());
    let machines = AREAS.iter().zip(tallies);
    for (area, tally) in machines.filter(|(area, _)| !area.statuses.is_empty()) {
        let shown = |number| shown_count(true, count_of(&tally.statuses, number));
        print_row(area.name, (1..=5).map(shown));
    }
}

fn shown_count(possible: bool, count: u64) -> String {
    if possible || count > 0 {
        count.to_string()
    } else {
        "-".to_string()
    }
}

fn print_row(name: &str, cells: impl Iterator<Item = String>) {
    let cells: Vec<String> = cells.map(|cell| format!("{cell:>8}")).collect();
    println!("{name:16} {}", cells.join(" "));
}
