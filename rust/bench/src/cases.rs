//! What is timed.

use std::hint::black_box;

use ordinary::{bytes_of, Record, BASE_LIMIT, RECORD, ROUTINE_LIMIT};
use quadrilhel::TEXT_BYTES;
use shapes::{
    base_of, calls_and_a_return, grown_to_the_limit, most_names, named, nested, repeated, seq,
};

/// Steps of a long run.
const LONG: u64 = 100_000;
/// Steps of a short one.
const SHORT: u64 = 10;

/// A routine of ten records: two blocks, one in the other, and a jump to the start so
/// that it goes on.
const ROUND: &str = "+a1{; +a2{; a3; }{; a4; }; }{; a4; }; ##1";
/// A base of ten records that goes round.
const TEN: &str = "+a1; ##4; a2; -a3; ##7; a4; a5; ##9; a6; ##1";
/// A call and a return, over and over.
const CALLS: &str = "R##3; ##1; ##R";
/// Three loops in one another, over and over.
const LOOPS: &str = "+a1{*; a2; -a3{*; a4; +a5{*; a6; *}; *}; *}; ##1";

/// Whose call it is.
#[derive(Clone, Copy)]
pub enum Side {
    Proved,
    Ordinary,
}

/// A call with its input and the buffers it is lent.
pub struct Case {
    pub name: &'static str,
    pub what: String,
    job: Job,
}

enum Job {
    Check(Vec<u8>),
    Convert {
        routine: Vec<u8>,
        out: Vec<u8>,
        work: Vec<u8>,
    },
    Read {
        text: Vec<u8>,
        names: Vec<u8>,
        out: Vec<u8>,
    },
    Write {
        routine: Vec<u8>,
        names: Vec<u8>,
        text: Vec<u8>,
    },
    Run {
        program: Vec<u8>,
        is_routine: bool,
        replies: Vec<u8>,
        log: Vec<u8>,
        budget: u64,
    },
    /// One step of a routine from its start.
    Step {
        routine: Vec<u8>,
        replies: Vec<u8>,
        log: Vec<u8>,
    },
}

/// Every case, in the order of the table.
pub fn all_cases() -> Vec<Case> {
    let mut cases = vec![case(
        "check-512",
        "512 plain actions",
        Job::Check(bytes_of(&repeated("a1", 512))),
    )];
    cases.extend(conversions());
    cases.extend(texts());
    cases.extend(long_runs());
    cases.extend(short_runs());
    cases
}

fn conversions() -> Vec<Case> {
    let grown = |name, count: u16| {
        let what = format!("{} calls and a return", count - 1);
        converting(name, &what, &calls_and_a_return(count))
    };
    let actions = repeated("a1", 512);
    let blocks = nested("+a1{", "}", 256);
    vec![
        grown("convert-calls", 512),
        converting(
            "convert-310",
            "310 records that become 4,096",
            &grown_to_the_limit(),
        ),
        converting("convert-actions", "512 plain actions", &actions),
        converting("convert-blocks", "256 nested blocks", &blocks),
        grown("convert-64", 64),
        grown("convert-128", 128),
        grown("convert-256", 256),
        grown("convert-512", 512),
    ]
}

/// A routine of every kind that is typed, and the text that is written of it.
fn texts() -> Vec<Case> {
    let routine = bytes_of(&named());
    let names = most_names();
    let mut text = vec![0; TEXT_BYTES];
    let count = ordinary::write_text(&routine, &names, &mut text).unwrap_or(0);
    let reading = Job::Read {
        text: text[..count].to_vec(),
        names: names.clone(),
        out: vec![0; RECORD * ROUTINE_LIMIT],
    };
    let what = "512 instructions, 999 names";
    let writing = Job::Write {
        routine,
        names,
        text,
    };
    vec![
        case("read-512", what, reading),
        case("write-512", what, writing),
    ]
}

fn long_runs() -> Vec<Case> {
    let base = |name, text| running(name, text, bytes_of(&seq(text)), false, LONG);
    vec![
        base("run-jumps", "##2; ##3; ##1"),
        base("run-actions", "a1; a2; a3; ##1"),
        base("run-tests", "+a1; -a2; ##1"),
        base("run-stack", "push(7); +topeq(7); pop; ##1"),
        running(
            "run-calls",
            &format!("the base of {CALLS}"),
            base_of(&seq(CALLS)),
            false,
            LONG,
        ),
        running("run-loops", LOOPS, bytes_of(&seq(LOOPS)), true, LONG),
    ]
}

fn short_runs() -> Vec<Case> {
    let blocks = bytes_of(&nested("+a1{", "}", 256));
    let ten = bytes_of(&seq(TEN));
    let round = bytes_of(&seq(ROUND));
    let step = Job::Step {
        routine: round.clone(),
        replies: vec![0],
        log: vec![0; 2],
    };
    vec![
        running("run-short", TEN, ten, false, SHORT),
        running("run-short-routine", ROUND, round, true, SHORT),
        running("run-blocks", "256 nested blocks", blocks, true, SHORT),
        case("step-routine", ROUND, step),
    ]
}

fn case(name: &'static str, what: &str, job: Job) -> Case {
    let what = what.to_string();
    Case { name, what, job }
}

fn converting(name: &'static str, what: &str, routine: &[Record]) -> Case {
    let job = Job::Convert {
        routine: bytes_of(routine),
        out: vec![0; RECORD * BASE_LIMIT],
        work: vec![0; RECORD * BASE_LIMIT],
    };
    case(name, what, job)
}

/// A run with as many replies as it uses, every third of them yes, or all of them
/// in a short run of blocks, which a no would end.
fn running(
    name: &'static str,
    what: &str,
    program: Vec<u8>,
    is_routine: bool,
    budget: u64,
) -> Case {
    let yes = if name == "run-blocks" { 1 } else { 3 };
    let mut replies: Vec<u8> = (0..budget).map(|at| u8::from(at % yes == 0)).collect();
    let mut log = vec![0; 2 * replies.len()];
    let run = if is_routine {
        ordinary::run_routine
    } else {
        ordinary::run_base
    };
    let used = run(&program, &replies, &mut log, budget).map_or(0, |ran| ran.replies);
    replies.truncate(used as usize);
    log.truncate(2 * replies.len());
    let job = Job::Run {
        program,
        is_routine,
        replies,
        log,
        budget,
    };
    case(name, what, job)
}

impl Case {
    /// Makes the call once; what it answers is kept from being optimised away.
    pub fn call(&mut self, side: Side) {
        black_box(self.job.call(side));
    }

    /// What a call does, in words, if both sides say the same.
    pub fn agreed(&mut self) -> Result<String, String> {
        let proved = self.job.call(Side::Proved);
        let ordinary = self.job.call(Side::Ordinary);
        if proved != ordinary {
            return Err(format!("{}: {proved:?} is not {ordinary:?}", self.name));
        }
        match (proved, &self.job) {
            (Some(count), Job::Check(_)) => Ok(format!("{count} records checked")),
            (Some(count), Job::Convert { .. }) => Ok(format!("{count} records written")),
            (Some(count), Job::Read { .. }) => Ok(format!("{count} records read")),
            (Some(count), Job::Write { .. }) => Ok(format!("{count} bytes written")),
            (Some(1), _) => Ok("1 step".to_string()),
            (Some(count), _) => Ok(format!("{count} steps")),
            (None, _) => Err(format!("{}: refused", self.name)),
        }
    }
}

impl Job {
    /// Records checked, converted or read, bytes of text written, or steps taken;
    /// nothing if refused.
    fn call(&mut self, side: Side) -> Option<u64> {
        match side {
            Side::Proved => self.proved(),
            Side::Ordinary => self.ordinary(),
        }
    }

    /// The library's own functions, without the wrapper's names for their numbers.
    fn proved(&mut self) -> Option<u64> {
        use quadrilhel::c::{
            check_routine, convert, read_text, run_base, run_routine, step_routine, write_text,
            State,
        };
        match self {
            Job::Check(routine) => counted(check_routine(black_box(routine))),
            Job::Convert { routine, out, work } => counted(convert(black_box(routine), out, work)),
            Job::Read { text, names, out } => counted(read_text(black_box(text), names, out)),
            Job::Write {
                routine,
                names,
                text,
            } => counted(write_text(black_box(routine), names, text)),
            Job::Run {
                program,
                is_routine,
                replies,
                log,
                budget,
            } => {
                let run = if *is_routine { run_routine } else { run_base };
                let ran = run(black_box(program), replies, log, black_box(*budget));
                black_box(&ran);
                (ran.refusal == 0).then_some(ran.steps)
            }
            Job::Step {
                routine,
                replies,
                log,
            } => {
                let state = black_box(State::fresh(1));
                let ran = step_routine(black_box(routine), replies, log, state);
                black_box(&ran);
                (ran.refusal == 0).then_some(ran.steps)
            }
        }
    }

    fn ordinary(&mut self) -> Option<u64> {
        use ordinary::{
            check_routine, convert, read_text, run_base, run_routine, step_routine, write_text,
            State,
        };
        match self {
            Job::Check(routine) => check_routine(black_box(routine)).ok().map(wide),
            Job::Convert { routine, out, work } => {
                convert(black_box(routine), out, work).ok().map(wide)
            }
            Job::Read { text, names, out } => read_text(black_box(text), names, out).ok().map(wide),
            Job::Write {
                routine,
                names,
                text,
            } => write_text(black_box(routine), names, text).ok().map(wide),
            Job::Run {
                program,
                is_routine,
                replies,
                log,
                budget,
            } => {
                let run = if *is_routine { run_routine } else { run_base };
                let ran = run(black_box(program), replies, log, black_box(*budget));
                black_box(&ran).as_ref().ok().map(|ran| ran.steps)
            }
            Job::Step {
                routine,
                replies,
                log,
            } => {
                let state = black_box(State::fresh(1));
                let ran = step_routine(black_box(routine), replies, log, state);
                black_box(&ran).as_ref().ok().map(|ran| ran.steps)
            }
        }
    }
}

fn wide(count: usize) -> u64 {
    count as u64
}

fn counted(verdict: quadrilhel::c::Verdict) -> Option<u64> {
    (verdict.refusal == 0).then_some(verdict.count.into())
}

#[cfg(test)]
mod tests {
    use std::collections::BTreeSet;

    use super::*;

    #[test]
    fn both_sides_do_what_each_case_says() {
        let mut names = BTreeSet::new();
        for mut case in all_cases() {
            let done = case.agreed().expect("accepted by both sides");
            if case.name == "read-512" {
                assert_eq!(done, "512 records read");
            }
            let steps = match &case.job {
                Job::Run { budget, .. } => Some(*budget),
                _ => None,
            };
            if let Some(steps) = steps {
                assert_eq!(done, format!("{steps} steps"), "{}", case.name);
            }
            assert!(names.insert(case.name), "two cases are named {}", case.name);
        }
    }
}
