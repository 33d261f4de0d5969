//! The exported calls, each with the buffers it is lent.

use std::hint::black_box;

use quadrilhel::{c, State, BASE_BYTES, LISTING_BYTES, RECORD};
use shapes::most_names;

use crate::inputs::{bases, relative_bases, routines, texts, Input};

/// Steps of a run: more than the longest file has records.
const STEPS: u64 = 5_000;

/// An exported call.
pub struct Call {
    /// Its name in `include/quadrilhel.h`.
    pub name: &'static str,
    /// What it is to be tried on.
    pub inputs: fn() -> Vec<Input>,
    made: fn(&[u8], &mut Lent),
}

/// Buffers to lend, made before the stack is changed.
struct Lent {
    out: Vec<u8>,
    work: Vec<u8>,
    replies: [Vec<u8>; 3],
    log: Vec<u8>,
    states: Vec<State>,
    names: Vec<u8>,
}

impl Lent {
    fn new(records: usize) -> Lent {
        let steps = STEPS as usize;
        let turns = (0..steps).map(|at| (at % 3 == 0).into()).collect();
        Lent {
            out: vec![0; LISTING_BYTES],
            work: vec![0; BASE_BYTES],
            replies: [vec![0; steps], vec![1; steps], turns],
            log: vec![0; 2 * steps],
            states: states(records),
            names: most_names(),
        }
    }

    fn runs(&mut self, run: fn(&[u8], &[u8], &mut [u8], u64) -> c::Ran, program: &[u8]) {
        for replies in &self.replies {
            black_box(run(program, replies, &mut self.log, STEPS).refusal);
        }
    }

    fn steps(&mut self, step: fn(&[u8], &[u8], &mut [u8], State) -> c::Ran, program: &[u8]) {
        for replies in &self.replies {
            for state in &self.states {
                black_box(step(program, replies, &mut self.log, *state).refusal);
            }
        }
    }
}

fn seen(verdict: c::Verdict) {
    black_box(verdict.refusal);
}

/// The start, some records on the way and the last, with an empty stack and a full
/// one; and a state that is not sound.
fn states(records: usize) -> Vec<State> {
    let positions = [0, 1, 2, records / 4, records / 2, records, records + 1];
    let states = positions.iter().flat_map(|&at| {
        let empty = State::fresh(at as u32);
        let full = State {
            depth: 96,
            entries: [1; 96],
            ..empty
        };
        [empty, full]
    });
    states.collect()
}

impl Call {
    const fn new(
        name: &'static str,
        inputs: fn() -> Vec<Input>,
        made: fn(&[u8], &mut Lent),
    ) -> Call {
        Call { name, inputs, made }
    }

    /// The call by this name.
    pub fn named(name: &str) -> Option<&'static Call> {
        CALLS.iter().find(|call| call.name == name)
    }

    /// The call on this input, ready to be made on another stack.
    pub fn ready<'a>(&'a self, input: &'a Input) -> impl FnMut() + 'a {
        let mut lent = Lent::new(input.bytes.len() / RECORD);
        move || (self.made)(&input.bytes, &mut lent)
    }
}

/// Every exported call.
pub const CALLS: [Call; 13] = [
    Call::new("qh_check_routine", routines, |routine, _| {
        seen(c::check_routine(routine));
    }),
    Call::new("qh_check_base", bases, |base, _| {
        seen(c::check_base(base));
    }),
    Call::new("qh_check_relative", relative_bases, |relative, _| {
        seen(c::check_relative(relative));
    }),
    Call::new("qh_convert", routines, |routine, lent| {
        seen(c::convert(routine, &mut lent.out, &mut lent.work));
    }),
    Call::new("qh_to_relative", bases, |base, lent| {
        seen(c::to_relative(base, &mut lent.out));
    }),
    Call::new("qh_to_absolute", relative_bases, |relative, lent| {
        seen(c::to_absolute(relative, &mut lent.out));
    }),
    Call::new("qh_list", routines, |routine, lent| {
        seen(c::list(routine, &mut lent.out));
    }),
    Call::new("qh_read_text", texts, |text, lent| {
        seen(c::read_text(text, &lent.names, &mut lent.out));
    }),
    Call::new("qh_write_text", routines, |routine, lent| {
        seen(c::write_text(routine, &lent.names, &mut lent.out));
    }),
    Call::new("qh_run_routine", routines, |routine, lent| {
        lent.runs(c::run_routine, routine);
    }),
    Call::new("qh_run_base", bases, |base, lent| {
        lent.runs(c::run_base, base);
    }),
    Call::new("qh_step_routine", routines, |routine, lent| {
        lent.steps(c::step_routine, routine);
    }),
    Call::new("qh_step_base", bases, |base, lent| {
        lent.steps(c::step_base, base);
    }),
];
