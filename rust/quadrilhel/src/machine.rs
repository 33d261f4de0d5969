//! Runs and steps, of routines and of bases.

use crate::c::{self, State};
use crate::refusal::Refusal;

/// Why a run stopped.
#[derive(Clone, Copy, PartialEq, Eq, Hash, Debug)]
pub enum Status {
    /// 1: the routine or base has ended; the position is 0.
    Ended,
    /// 2: the next record needs a reply and none is left.
    NoReply,
    /// 3: the next record logs an action and the log has under two bytes left.
    LogFull,
    /// 4: the next record pushes and all 96 entries are in use.
    StackFull,
    /// 5: as many steps as the budget allows were taken.
    BudgetSpent,
}

impl Status {
    fn from_number(number: u32) -> Option<Status> {
        Some(match number {
            1 => Status::Ended,
            2 => Status::NoReply,
            3 => Status::LogFull,
            4 => Status::StackFull,
            5 => Status::BudgetSpent,
            _ => return None,
        })
    }

    /// The paper's number.
    pub fn number(self) -> u32 {
        match self {
            Status::Ended => 1,
            Status::NoReply => 2,
            Status::LogFull => 3,
            Status::StackFull => 4,
            Status::BudgetSpent => 5,
        }
    }
}

/// What a run or a step did.
#[derive(Clone, Copy, PartialEq, Eq, Debug)]
pub struct Ran {
    /// Why it stopped.
    pub status: Status,
    /// The state it stopped in, from which a step can go on.
    pub state: State,
    /// Steps taken.
    pub steps: u64,
    /// Replies used, from the first of those lent.
    pub replies: u64,
    /// Actions logged, two bytes each from the start of the log; the rest of the
    /// log is as it was.
    pub actions: u64,
}

impl Ran {
    /// The number of each logged action, in order, out of the log that was lent.
    pub fn logged<'a>(&self, log: &'a [u8]) -> impl Iterator<Item = u16> + 'a {
        let actions = usize::try_from(self.actions).unwrap_or(usize::MAX);
        let pairs = log.chunks_exact(2).take(actions);
        pairs.map(|pair| u16::from_le_bytes([pair[0], pair[1]]))
    }
}

/// Runs a routine from its start, for at most `budget` steps.
///
/// Each outside action uses one byte of `replies` (0 no, 1 yes) and puts its
/// number into `log` in two bytes, low first. Refusals 1 to 7, 14 and 9; a refused
/// run does not write to the log.
pub fn run_routine(
    routine: &[u8],
    replies: &[u8],
    log: &mut [u8],
    budget: u64,
) -> Result<Ran, Refusal> {
    named(c::run_routine(routine, replies, log, budget))
}

/// Runs a base from its start, as [`run_routine`] does a routine. Refusals 1 to 4
/// and 9.
pub fn run_base(base: &[u8], replies: &[u8], log: &mut [u8], budget: u64) -> Result<Ran, Refusal> {
    named(c::run_base(base, replies, log, budget))
}

/// Takes one step of a routine from a given state: a run with budget 1, so the
/// status is [`Status::BudgetSpent`] if the step was taken and did not end.
///
/// Replies and log are counted from their first byte in every call. Refusals 1
/// to 7, 14, 9 and 10; the caller still holds the state if the step is refused.
pub fn step_routine(
    routine: &[u8],
    replies: &[u8],
    log: &mut [u8],
    state: State,
) -> Result<Ran, Refusal> {
    named(c::step_routine(routine, replies, log, state))
}

/// Takes one step of a base from a given state, as [`step_routine`] does of a
/// routine. Refusals 1 to 4, 9 and 10.
pub fn step_base(
    base: &[u8],
    replies: &[u8],
    log: &mut [u8],
    state: State,
) -> Result<Ran, Refusal> {
    named(c::step_base(base, replies, log, state))
}

fn named(ran: c::Ran) -> Result<Ran, Refusal> {
    if let Some(refusal) = Refusal::from_numbers(ran.refusal, ran.place) {
        return Err(refusal);
    }
    match Status::from_number(ran.status) {
        Some(status) => Ok(Ran {
            status,
            state: ran.state,
            steps: ran.steps,
            replies: ran.replies,
            actions: ran.actions,
        }),
        None => Err(Refusal::Unknown {
            number: ran.refusal,
            place: ran.status,
        }),
    }
}

impl State {
    /// A fresh counter stack, 96 zeros at depth 0, at a position.
    pub fn fresh(at: u32) -> State {
        State {
            at,
            depth: 0,
            entries: [0; c::STACK],
        }
    }

    /// Where a run of this many records starts: at record 1, or ended if there
    /// are none.
    pub fn start(records: usize) -> State {
        State::fresh(if records == 0 { 0 } else { 1 })
    }

    /// The entries in use, the top last.
    pub fn in_use(&self) -> &[u16] {
        let depth = c::STACK.min(self.depth as usize);
        &self.entries[..depth]
    }
}

#[cfg(test)]
mod tests {
    use super::*;

    #[test]
    fn statuses_have_the_papers_numbers() {
        for number in 1..=5 {
            assert_eq!(
                Status::from_number(number).map(Status::number),
                Some(number)
            );
        }
        assert_eq!(Status::from_number(0), None);
        assert_eq!(Status::from_number(6), None);
    }

    #[test]
    fn an_unsound_depth_is_no_panic() {
        let state = State {
            depth: u32::MAX,
            ..State::fresh(1)
        };
        assert_eq!(state.in_use().len(), 96);
    }
}
