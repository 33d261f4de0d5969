//! One comparison for each call of the library.

use ordinary::{converted_length, records_of, Refusal, State, BASE_LIMIT, RECORD, ROUTINE_LIMIT};
use quadrilhel::c;

use crate::lent::{size_around, Lent};
use crate::machines;
use crate::programs::{any_base, any_relative, any_routine, sound_routine};
use crate::random::Random;
use crate::same::{
    library_state, of_plain, of_wrapper, ran, same, same_bytes, verdict, with_program, with_text,
    Seen,
};
use crate::texts::{any_list, any_named_routine, any_text};

/// A call of the library and how to compare it once.
pub struct Area {
    /// The call's name.
    pub name: &'static str,
    /// How many inputs it gets.
    pub cases: u64,
    /// Makes an input and compares; an error tells the difference.
    pub compare_once: fn(&mut Random) -> Result<Seen, String>,
    /// The refusals that this call can give, all of which must turn up.
    pub refusals: &'static [u32],
    /// The statuses that this call can give, all of which must turn up.
    pub statuses: &'static [u32],
}

/// Of conversions, listings and translations, one in so many is made through the
/// wrapper too, which does no more than name the library's numbers.
const WRAPPER: usize = 4;

const NO_STATUS: &[u32] = &[];
const ANY_STATUS: &[u32] = &[1, 2, 3, 4, 5];

/// Every call of the library, and the routine against its own base.
pub const AREAS: [Area; 11] = [
    Area {
        name: "convert",
        cases: 300_000,
        compare_once: compare_convert,
        refusals: &[1, 2, 3, 4, 5, 6, 7, 8, 14],
        statuses: NO_STATUS,
    },
    Area {
        name: "list",
        cases: 60_000,
        compare_once: compare_list,
        refusals: &[1, 2, 3, 4, 5, 6, 7, 8, 14],
        statuses: NO_STATUS,
    },
    Area {
        name: "to_relative",
        cases: 130_000,
        compare_once: compare_to_relative,
        refusals: &[1, 2, 3, 4, 8],
        statuses: NO_STATUS,
    },
    Area {
        name: "to_absolute",
        cases: 130_000,
        compare_once: compare_to_absolute,
        refusals: &[1, 2, 3, 4, 8, 11],
        statuses: NO_STATUS,
    },
    Area {
        name: "run_routine",
        cases: 130_000,
        compare_once: compare_run_routine,
        refusals: &[1, 2, 3, 4, 5, 6, 7, 9, 14],
        statuses: ANY_STATUS,
    },
    Area {
        name: "run_base",
        cases: 130_000,
        compare_once: compare_run_base,
        refusals: &[1, 2, 3, 4, 9],
        statuses: ANY_STATUS,
    },
    Area {
        name: "step_routine",
        cases: 150_000,
        compare_once: compare_step_routine,
        refusals: &[1, 2, 3, 4, 5, 6, 7, 9, 10, 14],
        statuses: ANY_STATUS,
    },
    Area {
        name: "step_base",
        cases: 150_000,
        compare_once: compare_step_base,
        refusals: &[1, 2, 3, 4, 9, 10],
        statuses: ANY_STATUS,
    },
    Area {
        name: "routine and base",
        cases: 40_000,
        compare_once: compare_routine_with_its_base,
        refusals: &[7],
        statuses: &[1, 2, 3, 4],
    },
    Area {
        name: "read_text",
        cases: 200_000,
        compare_once: compare_read_text,
        refusals: &[2, 8, 12, 13],
        statuses: NO_STATUS,
    },
    Area {
        name: "write_text",
        cases: 100_000,
        compare_once: compare_write_text,
        refusals: &[1, 2, 3, 4, 8, 13],
        statuses: NO_STATUS,
    },
];

fn compare_convert(random: &mut Random) -> Result<Seen, String> {
    let routine = any_routine(random);
    let needed = RECORD * converted_length(&records_of(&routine)).min(BASE_LIMIT);
    let out_size = size_around(random, needed);
    let work_size = size_around(random, needed);
    let out = Lent::new(random, out_size);
    let work = Lent::new(random, work_size);
    let compared = convert_alike(&routine, &out, &work).and_then(|seen| {
        if random.once_in(WRAPPER) {
            wrapper_converts_alike(&routine, out, work)?;
        }
        Ok(seen)
    });
    compared.map_err(|error| with_program(error, &routine))
}

fn convert_alike(routine: &[u8], out: &Lent, work: &Lent) -> Result<Seen, String> {
    let (mut library_out, mut library_work) = (out.clone(), work.clone());
    let (mut plain_out, mut plain_work) = (out.clone(), work.clone());
    let checked = ordinary::check_routine(routine);
    same("check_routine", c::check_routine(routine), verdict(checked))?;
    let plain = ordinary::convert(routine, plain_out.part(), plain_work.part());
    let library = c::convert(routine, library_out.part(), library_work.part());
    same("answer", library, verdict(plain))?;
    same_bytes("output", &library_out, &plain_out)?;
    same_bytes("working buffer", &library_work, &plain_work)?;
    Ok(Seen::verdict(library))
}

fn wrapper_converts_alike(routine: &[u8], mut out: Lent, mut work: Lent) -> Result<(), String> {
    let (mut plain_out, mut plain_work) = (out.clone(), work.clone());
    let checked = ordinary::check_routine(routine);
    let safe = quadrilhel::check_routine(routine);
    same(
        "the wrapper's check_routine",
        of_wrapper(safe),
        of_plain(checked),
    )?;
    let plain = ordinary::convert(routine, plain_out.part(), plain_work.part());
    let safe = quadrilhel::convert(routine, out.part(), work.part());
    same("the wrapper's answer", of_wrapper(safe), of_plain(plain))?;
    same_bytes("the wrapper's output", &out, &plain_out)?;
    same_bytes("the wrapper's working buffer", &work, &plain_work)
}

/// A call that fills one buffer: the library's, the wrapper's and plain Rust's.
struct Filling {
    library: fn(&[u8], &mut [u8]) -> c::Verdict,
    wrapper: fn(&[u8], &mut [u8]) -> Result<usize, quadrilhel::Refusal>,
    plain: fn(&[u8], &mut [u8]) -> Result<usize, Refusal>,
}

impl Filling {
    fn alike(&self, given: &[u8], out: &Lent) -> Result<Seen, String> {
        let (mut library_out, mut plain_out) = (out.clone(), out.clone());
        let plain = (self.plain)(given, plain_out.part());
        let library = (self.library)(given, library_out.part());
        same("answer", library, verdict(plain))?;
        same_bytes("output", &library_out, &plain_out)?;
        Ok(Seen::verdict(library))
    }

    fn wrapper_alike(&self, given: &[u8], mut out: Lent) -> Result<(), String> {
        let mut plain_out = out.clone();
        let plain = (self.plain)(given, plain_out.part());
        let safe = (self.wrapper)(given, out.part());
        same("the wrapper's answer", of_wrapper(safe), of_plain(plain))?;
        same_bytes("the wrapper's output", &out, &plain_out)
    }

    fn compare(&self, random: &mut Random, given: &[u8], needed: usize) -> Result<Seen, String> {
        let size = size_around(random, needed);
        let out = Lent::new(random, size);
        let compared = self.alike(given, &out).and_then(|seen| {
            if random.once_in(WRAPPER) {
                self.wrapper_alike(given, out)?;
            }
            Ok(seen)
        });
        compared.map_err(|error| with_program(error, given))
    }
}

fn compare_list(random: &mut Random) -> Result<Seen, String> {
    let calls = Filling {
        library: c::list,
        wrapper: quadrilhel::list,
        plain: ordinary::list,
    };
    let routine = any_routine(random);
    let needed = ordinary::printed(&routine).len();
    calls.compare(random, &routine, needed)
}

fn compare_to_relative(random: &mut Random) -> Result<Seen, String> {
    let calls = Filling {
        library: c::to_relative,
        wrapper: quadrilhel::to_relative,
        plain: ordinary::to_relative,
    };
    let base = any_base(random);
    let checked = ordinary::check_base(&base);
    same("check_base", c::check_base(&base), verdict(checked))
        .and_then(|()| {
            let safe = of_wrapper(quadrilhel::check_base(&base));
            same("the wrapper's check_base", safe, of_plain(checked))
        })
        .map_err(|error| with_program(error, &base))?;
    calls.compare(random, &base, base.len())
}

fn compare_to_absolute(random: &mut Random) -> Result<Seen, String> {
    let calls = Filling {
        library: c::to_absolute,
        wrapper: quadrilhel::to_absolute,
        plain: ordinary::to_absolute,
    };
    let relative = any_relative(random);
    let checked = ordinary::check_relative(&relative);
    same(
        "check_relative",
        c::check_relative(&relative),
        verdict(checked),
    )
    .and_then(|()| {
        let safe = of_wrapper(quadrilhel::check_relative(&relative));
        same("the wrapper's check_relative", safe, of_plain(checked))
    })
    .map_err(|error| with_program(error, &relative))?;
    calls.compare(random, &relative, relative.len())
}

/// A call with a text or a routine, a list of names, and a buffer to fill.
type Named<Answer> = fn(&[u8], &[u8], &mut [u8]) -> Answer;

/// A call that fills one buffer with the help of a list of names.
struct Naming {
    library: Named<c::Verdict>,
    wrapper: Named<Result<usize, quadrilhel::Refusal>>,
    plain: Named<Result<usize, Refusal>>,
}

impl Naming {
    fn alike(&self, given: &[u8], names: &[u8], out: &Lent) -> Result<Seen, String> {
        let (mut library_out, mut plain_out) = (out.clone(), out.clone());
        let plain = (self.plain)(given, names, plain_out.part());
        let library = (self.library)(given, names, library_out.part());
        same("answer", library, verdict(plain))?;
        same_bytes("output", &library_out, &plain_out)?;
        let mut safe_out = out.clone();
        let safe = (self.wrapper)(given, names, safe_out.part());
        same("the wrapper's answer", of_wrapper(safe), of_plain(plain))?;
        same_bytes("the wrapper's output", &safe_out, &plain_out)?;
        Ok(Seen::verdict(library))
    }
}

/// The bytes that a call needs to fill, if it has room for any that it may.
fn room_for(most: usize, call: impl FnOnce(&mut [u8]) -> Result<usize, Refusal>) -> usize {
    call(&mut vec![0; most]).unwrap_or(0)
}

fn compare_read_text(random: &mut Random) -> Result<Seen, String> {
    let calls = Naming {
        library: c::read_text,
        wrapper: quadrilhel::read_text,
        plain: ordinary::read_text,
    };
    let names = any_list(random);
    let text = any_text(random, &names);
    let read = |out: &mut [u8]| ordinary::read_text(&text, &names, out);
    let needed = RECORD * room_for(RECORD * ROUTINE_LIMIT, read);
    let size = size_around(random, needed);
    let out = Lent::new(random, size);
    calls
        .alike(&text, &names, &out)
        .map_err(|error| with_text(error, &text, &names))
}

/// What is written is then read, written and read again.
fn compare_write_text(random: &mut Random) -> Result<Seen, String> {
    let calls = Naming {
        library: c::write_text,
        wrapper: quadrilhel::write_text,
        plain: ordinary::write_text,
    };
    let names = any_list(random);
    let routine = any_named_routine(random, &names);
    let write = |out: &mut [u8]| ordinary::write_text(&routine, &names, out);
    let needed = room_for(quadrilhel::TEXT_BYTES, write);
    let size = size_around(random, needed);
    let out = Lent::new(random, size);
    calls
        .alike(&routine, &names, &out)
        .and_then(|seen| {
            if seen.refusal == 0 {
                reads_back(&routine, &names)?;
            }
            Ok(seen)
        })
        .map_err(|error| with_text(with_program(error, &routine), b"", &names))
}

/// "Writing what the reader produced and reading it again gives the same records":
/// here the library is held against itself.
fn reads_back(routine: &[u8], names: &[u8]) -> Result<(), String> {
    let produced = written_and_read(routine, names)?;
    let again = written_and_read(&produced, names)?;
    same("what was read, written and read again", again, produced)
}

/// What the library reads in the text that it writes of a routine.
fn written_and_read(routine: &[u8], names: &[u8]) -> Result<Vec<u8>, String> {
    let mut text = vec![0; quadrilhel::TEXT_BYTES];
    let count = quadrilhel::write_text(routine, names, &mut text)
        .map_err(|why| format!("what was written before is not now: {why}"))?;
    let mut read = vec![0; routine.len()];
    let records = quadrilhel::read_text(&text[..count], names, &mut read)
        .map_err(|why| format!("what was written is not read: {why}"))?;
    same("records read", RECORD * records, routine.len())?;
    Ok(read)
}

/// A call with a program, replies, a log and, last, a budget or a state.
type Call<Last, Answer> = fn(&[u8], &[u8], &mut [u8], Last) -> Answer;

/// A machine's call; the two sides have a type of state each.
struct Machine<T, U> {
    library: Call<T, c::Ran>,
    wrapper: Call<T, Result<quadrilhel::Ran, quadrilhel::Refusal>>,
    plain: Call<U, Result<ordinary::Ran, Refusal>>,
}

/// What a machine is given.
struct Given {
    program: Vec<u8>,
    replies: Vec<u8>,
    log: Lent,
}

impl Given {
    fn new(random: &mut Random, program: Vec<u8>) -> Given {
        let replies = machines::replies(random);
        let size = machines::log_size(random, replies.len());
        let log = Lent::new(random, size);
        Given {
            program,
            replies,
            log,
        }
    }

    fn with_error(&self, error: String, last: &str) -> String {
        let error = with_program(error, &self.program);
        format!("{error}\n  replies {:?}, {last}", self.replies)
    }
}

impl<T: Copy, U: Copy> Machine<T, U> {
    fn alike(&self, given: &Given, last: (T, U), refused: c::State) -> Result<Seen, String> {
        let Given {
            program, replies, ..
        } = given;
        let (mut log, mut plain_log, mut safe_log) =
            (given.log.clone(), given.log.clone(), given.log.clone());
        let plain = (self.plain)(program, replies, plain_log.part(), last.1);
        let library = (self.library)(program, replies, log.part(), last.0);
        same("answer", library, ran(plain, refused))?;
        same_bytes("log", &log, &plain_log)?;
        let safe = (self.wrapper)(program, replies, safe_log.part(), last.0);
        let named = of_wrapper(safe.map(numbers_of_wrapper));
        same(
            "the wrapper's answer",
            named,
            of_plain(plain.map(numbers_of_plain)),
        )?;
        same_bytes("the wrapper's log", &safe_log, &plain_log)?;
        Ok(Seen::ran(library))
    }
}

type Numbers = (u32, c::State, [u64; 3]);

fn numbers_of_wrapper(ran: quadrilhel::Ran) -> Numbers {
    let counts = [ran.steps, ran.replies, ran.actions];
    (ran.status.number(), ran.state, counts)
}

fn numbers_of_plain(ran: ordinary::Ran) -> Numbers {
    let counts = [ran.steps, ran.replies, ran.actions];
    (ran.status as u32, library_state(ran.state), counts)
}

/// Budgets that only a run that stops of itself can be given, with few low bits
/// set or all of them.
const HUGE: [u64; 4] = [u64::MAX, 1 << 63, 1 << 32, (1 << 32) + 1];

/// A run with a budget that can be spent, and where that one stopped of itself,
/// the same with a huge one.
fn compare_run(
    random: &mut Random,
    calls: &Machine<u64, u64>,
    program: Vec<u8>,
) -> Result<Seen, String> {
    let given = Given::new(random, program);
    let refused = library_state(State::fresh(0));
    let alike = |budget| {
        calls
            .alike(&given, (budget, budget), refused)
            .map_err(|error| given.with_error(error, &format!("budget {budget}")))
    };
    let seen = alike(machines::budget(random))?;
    if seen.refusal == 0 && seen.status != 5 {
        return alike(random.one_of(&HUGE));
    }
    Ok(seen)
}

fn compare_run_routine(random: &mut Random) -> Result<Seen, String> {
    let calls = Machine {
        library: c::run_routine,
        wrapper: quadrilhel::run_routine,
        plain: ordinary::run_routine,
    };
    let routine = any_routine(random);
    compare_run(random, &calls, routine)
}

fn compare_run_base(random: &mut Random) -> Result<Seen, String> {
    let calls = Machine {
        library: c::run_base,
        wrapper: quadrilhel::run_base,
        plain: ordinary::run_base,
    };
    let base = any_base(random);
    compare_run(random, &calls, base)
}

fn compare_step(
    random: &mut Random,
    calls: &Machine<c::State, State>,
    program: Vec<u8>,
) -> Result<Seen, String> {
    let given = Given::new(random, program);
    let state = machines::state(random, given.program.len() / RECORD);
    let both = (library_state(state), state);
    calls
        .alike(&given, both, library_state(state))
        .map_err(|error| given.with_error(error, &format!("from {state:?}")))
}

fn compare_step_routine(random: &mut Random) -> Result<Seen, String> {
    let calls = Machine {
        library: c::step_routine,
        wrapper: quadrilhel::step_routine,
        plain: ordinary::step_routine,
    };
    let routine = any_routine(random);
    compare_step(random, &calls, routine)
}

fn compare_step_base(random: &mut Random) -> Result<Seen, String> {
    let calls = Machine {
        library: c::step_base,
        wrapper: quadrilhel::step_base,
        plain: ordinary::step_base,
    };
    let base = any_base(random);
    compare_step(random, &calls, base)
}

/// What the paper's demand 3 says of a run that stops with budget left over: the
/// base does the same, with the same status, log, replies used and stack. Here
/// the library is held against itself.
fn compare_routine_with_its_base(random: &mut Random) -> Result<Seen, String> {
    let mut given = Given::new(random, Vec::new());
    given.program = sound_routine(random);
    given.replies.iter_mut().for_each(|reply| *reply &= 1);
    base_does_the_same(&given).map_err(|error| given.with_error(error, "runs of both"))
}

fn base_does_the_same(given: &Given) -> Result<Seen, String> {
    let (mut source_log, mut base_log) = (given.log.clone(), given.log.clone());
    let source = c::run_routine(&given.program, &given.replies, source_log.part(), 2_000);
    if source.refusal != 0 || source.status == 5 {
        return Ok(Seen::ran(source));
    }
    let base = quadrilhel::converted(&given.program)
        .map_err(|why| format!("a routine that runs is not converted: {why}"))?;
    // A step of the routine is at most 2n + 1 steps of the base, for n records.
    let records = (given.program.len() / RECORD) as u64;
    let budget = (2 * records + 1) * (source.steps + 1) + 1;
    let run = c::run_base(&base, &given.replies, base_log.part(), budget);
    let numbers = |ran: c::Ran| {
        let stack = (ran.state.depth, ran.state.entries);
        (ran.refusal, ran.status, stack, ran.replies, ran.actions)
    };
    same(
        "base run beside the routine's",
        numbers(run),
        numbers(source),
    )?;
    same_bytes(
        "log of the base beside the routine's",
        &base_log,
        &source_log,
    )?;
    Ok(Seen::ran(source))
}
