//! "Running": states, steps and runs, of routines and of bases.

use crate::check::{check_base, check_routine};
use crate::nesting::partners;
use crate::record::{kind, own, Record};
use crate::refusal::{Reason, Refusal};
use crate::stages::labels::Labels;
use crate::NUMBER_LIMIT;

/// "A counter stack of depth 0..96."
pub const STACK: usize = 96;

/// "A state is a position 0..n (n counts the records of what is run) and a
/// counter stack of depth 0..96."
#[derive(Clone, Copy, PartialEq, Eq, Debug)]
pub struct State {
    /// The record to be done next; "Position 0 means ended."
    pub at: u32,
    /// How many entries are in use.
    pub depth: u32,
    /// "Entries in use are 0..9,999 and unused ones zero."
    pub entries: [u16; STACK],
}

/// Why a run stopped.
#[derive(Clone, Copy, PartialEq, Eq, Debug)]
pub enum Status {
    /// The position is 0.
    Ended = 1,
    /// The next step needs a reply and none is left.
    NoReply = 2,
    /// "A log with under two bytes left is full."
    LogFull = 3,
    /// The next step pushes and all 96 entries are in use.
    StackFull = 4,
    /// As many steps as the budget allows were taken.
    BudgetSpent = 5,
}

/// What a run "answers: state, steps taken, replies used, actions logged and one
/// status".
#[derive(Clone, Copy, PartialEq, Eq, Debug)]
pub struct Ran {
    /// The state it stopped in.
    pub state: State,
    /// Why it stopped.
    pub status: Status,
    /// Steps taken.
    pub steps: u64,
    /// Replies used.
    pub replies: u64,
    /// Actions logged, two bytes each.
    pub actions: u64,
}

/// Runs a routine from its start.
pub fn run_routine(
    routine: &[u8],
    replies: &[u8],
    log: &mut [u8],
    budget: u64,
) -> Result<Ran, Refusal> {
    let program = Routine::of(check_routine(routine)?);
    check_replies(replies)?;
    let start = State::start(program.count());
    Ok(run(&program, start, Outside::new(replies, log), budget))
}

/// Runs a base from its start.
pub fn run_base(base: &[u8], replies: &[u8], log: &mut [u8], budget: u64) -> Result<Ran, Refusal> {
    let program = Base(check_base(base)?);
    check_replies(replies)?;
    let start = State::start(program.count());
    Ok(run(&program, start, Outside::new(replies, log), budget))
}

/// "A single step is the same with budget 1, from a given state."
pub fn step_routine(
    routine: &[u8],
    replies: &[u8],
    log: &mut [u8],
    state: State,
) -> Result<Ran, Refusal> {
    let program = Routine::of(check_routine(routine)?);
    check_replies(replies)?;
    check_state(&state, program.count())?;
    Ok(run(&program, state, Outside::new(replies, log), 1))
}

/// A single step of a base, from a given state.
pub fn step_base(
    base: &[u8],
    replies: &[u8],
    log: &mut [u8],
    state: State,
) -> Result<Ran, Refusal> {
    let program = Base(check_base(base)?);
    check_replies(replies)?;
    check_state(&state, program.count())?;
    Ok(run(&program, state, Outside::new(replies, log), 1))
}

/// Refusal 9, over all reply bytes, used or not.
fn check_replies(replies: &[u8]) -> Result<(), Refusal> {
    match replies.iter().position(|&reply| reply > 1) {
        Some(before) => Err(Refusal::at(Reason::Reply, before + 1)),
        None => Ok(()),
    }
}

/// Refusal 10.
fn check_state(state: &State, count: usize) -> Result<(), Refusal> {
    if state.is_sound(count) {
        Ok(())
    } else {
        Err(Refusal::whole(Reason::State))
    }
}

impl State {
    /// A fresh stack, "96 zeros at depth 0", at a position.
    pub fn fresh(at: u32) -> State {
        State {
            at,
            depth: 0,
            entries: [0; STACK],
        }
    }

    /// "The start is position 1, or 0 if n = 0."
    pub fn start(count: usize) -> State {
        State::fresh(if count == 0 { 0 } else { 1 })
    }

    fn is_sound(&self, count: usize) -> bool {
        let depth = self.depth as usize;
        self.at as usize <= count
            && depth <= STACK
            && self.entries[..depth].iter().all(|&e| e <= NUMBER_LIMIT)
            && self.entries[depth..].iter().all(|&e| e == 0)
    }

    fn push(&mut self, entry: u16) -> Result<(), Status> {
        let free = self.entries.get_mut(self.depth as usize);
        *free.ok_or(Status::StackFull)? = entry;
        self.depth += 1;
        Ok(())
    }

    fn top(&self) -> Option<u16> {
        let below = (self.depth as usize).checked_sub(1)?;
        Some(self.entries[below])
    }

    /// "Pop replies no on empty, else yes"; an entry no longer used is zero.
    fn pop(&mut self) -> bool {
        if self.depth == 0 {
            return false;
        }
        self.depth -= 1;
        self.entries[self.depth as usize] = 0;
        true
    }
}

/// The lent replies and log, and how far each is used.
struct Outside<'a> {
    replies: &'a [u8],
    log: &'a mut [u8],
    used: usize,
    logged: usize,
}

impl<'a> Outside<'a> {
    fn new(replies: &'a [u8], log: &'a mut [u8]) -> Outside<'a> {
        Outside {
            replies,
            log,
            used: 0,
            logged: 0,
        }
    }

    /// "Each outside action uses one reply (0 no, 1 yes), also when its reply
    /// doesn't matter, and logs its number in two bytes, low first." Nothing is
    /// used or logged if either is wanting.
    fn act(&mut self, action: u16) -> Result<bool, Status> {
        let reply = *self.replies.get(self.used).ok_or(Status::NoReply)?;
        let from = 2 * self.logged;
        let free = self.log.get_mut(from..from + 2).ok_or(Status::LogFull)?;
        free.copy_from_slice(&action.to_le_bytes());
        self.used += 1;
        self.logged += 1;
        Ok(reply == 1)
    }
}

/// What can be run: a routine or a base.
trait Program {
    fn count(&self) -> usize;

    /// Does the record at `i` and answers where to go, or the status that stops
    /// the run before this step. Both programs' steps are inlined into the loop
    /// that makes them, which is a third faster.
    fn step(&self, i: usize, state: &mut State, outside: &mut Outside) -> Result<usize, Status>;
}

/// Statuses "are tried in the order 1, 5, 2, 3, 4".
fn run(program: &impl Program, mut state: State, mut outside: Outside, budget: u64) -> Ran {
    let count = program.count();
    let mut steps = 0;
    let status = loop {
        if state.at == 0 {
            break Status::Ended;
        }
        if steps == budget {
            break Status::BudgetSpent;
        }
        match program.step(state.at as usize, &mut state, &mut outside) {
            Ok(next) => state.at = inside(next, count),
            Err(status) => break status,
        }
        steps += 1;
    };
    Ran {
        state,
        status,
        steps,
        replies: outside.used as u64,
        actions: outside.logged as u64,
    }
}

/// "A move to any number outside 1..n sets 0."
fn inside(next: usize, count: usize) -> u32 {
    if next <= count {
        next as u32
    } else {
        0
    }
}

/// "+a: on yes i+1, on no i+2. -a: the reverse." And a: i+1.
fn after_action(kind: u8, i: usize, yes: bool) -> usize {
    let skips = match kind {
        kind::YES_TEST => !yes,
        kind::NO_TEST => yes,
        _ => false,
    };
    i + 1 + usize::from(skips)
}

struct Base(Vec<Record>);

impl Base {
    /// "In a base, push replies yes; pop replies no on empty, else yes; compare
    /// replies yes exactly if not empty and the top equals y, and keeps it. These
    /// use no outside reply and aren't logged."
    fn act(record: Record, state: &mut State, outside: &mut Outside) -> Result<bool, Status> {
        match record.x {
            own::PUSH => state.push(record.y).map(|()| true),
            own::POP => Ok(state.pop()),
            own::COMPARE => Ok(state.top() == Some(record.y)),
            action => outside.act(action),
        }
    }
}

impl Program for Base {
    fn count(&self) -> usize {
        self.0.len()
    }

    #[inline(always)]
    fn step(&self, i: usize, state: &mut State, outside: &mut Outside) -> Result<usize, Status> {
        let record = self.0[i - 1];
        if record.kind == kind::JUMP {
            return Ok(record.x.into());
        }
        let yes = Base::act(record, state, outside)?;
        Ok(after_action(record.kind, i, yes))
    }
}

struct Routine {
    records: Vec<Record>,
    /// For each record, from index 1: a goto's target, a bracket's partner (see
    /// `partners`), 0 for none. Worked out once, before the first step.
    other: Vec<usize>,
}

impl Routine {
    fn of(records: Vec<Record>) -> Routine {
        let labels = Labels::of(&records);
        let mut other = partners(&records);
        for (other, &record) in other[1..].iter_mut().zip(&records) {
            if let Some(target) = labels.target(record) {
                *other = target;
            }
        }
        Routine { records, other }
    }

    /// "If the stack is not empty and its top t is in 1..n, pop and go to t;
    /// otherwise end, stack kept."
    fn go_back(&self, state: &mut State) -> usize {
        match state.top().map(usize::from) {
            Some(t) if (1..=self.count()).contains(&t) => {
                state.pop();
                t
            }
            _ => 0,
        }
    }
}

/// A header's body, or "past the separator or loop end"; and past its `}` if it
/// has no separator, which "takes its `}` as partner" (request C-12).
fn after_header(entered: bool, i: usize, other: usize) -> usize {
    if entered {
        i + 1
    } else {
        other + 1
    }
}

impl Program for Routine {
    fn count(&self) -> usize {
        self.records.len()
    }

    #[inline(always)]
    fn step(&self, i: usize, state: &mut State, outside: &mut Outside) -> Result<usize, Status> {
        use kind::*;
        let Record { kind, x, .. } = self.records[i - 1];
        let other = self.other[i];
        Ok(match kind {
            ACTION | YES_TEST | NO_TEST => after_action(kind, i, outside.act(x)?),
            JUMP => x.into(),
            // "That `}` passes to the next record": so every `}` does.
            LABEL | END => i + 1,
            GOTO | CHAINED_GOTO => other,
            YES_BLOCK | YES_LOOP => after_header(outside.act(x)?, i, other),
            NO_BLOCK | NO_LOOP => after_header(!outside.act(x)?, i, other),
            SEPARATOR => other + 1,
            LOOP_END => other,
            CALL => {
                state.push((i + 1) as u16)?;
                x.into()
            }
            // Only ##R is left: the records were checked.
            _ => self.go_back(state),
        })
    }
}
