//! Replies, logs, budgets and states.

use ordinary::{State, STACK};

use crate::random::Random;
use crate::routines::near;

/// Reply bytes, at times with one or more that are neither 0 nor 1.
pub fn replies(random: &mut Random) -> Vec<u8> {
    let longest = random.one_of(&[0, 1, 3, 8, 8, 30, 30, 120]);
    let length = random.upto(longest);
    let yes = random.one_of(&[10, 50, 50, 90]);
    let mut replies: Vec<u8> = (0..length).map(|_| random.percent(yes).into()).collect();
    if length > 0 && random.once_in(16) {
        for _ in 0..1 + random.below(2) {
            let bad = random.one_of(&[2, 3, 48, 49, 128, 254, 255]);
            let at = random.below(length);
            replies[at] = bad;
        }
    }
    replies
}

/// The size of a log: odd and even, none, few bytes, or about as many as needed.
pub fn log_size(random: &mut Random, replies: usize) -> usize {
    match random.below(5) {
        0 => random.upto(3),
        1 => random.upto(20),
        2 => (2 * replies).saturating_sub(1),
        3 => 2 * replies,
        _ => 2 * replies + random.upto(5),
    }
}

/// A budget that both sides can spend.
pub fn budget(random: &mut Random) -> u64 {
    match random.below(12) {
        0 => 0,
        1 => 1,
        2 => 2,
        3..=6 => random.upto(40) as u64,
        7..=9 => random.upto(400) as u64,
        _ => 2_000,
    }
}

/// A state to step from, sound more often than not.
pub fn state(random: &mut Random, count: usize) -> State {
    let mut state = sound_state(random, count);
    if random.once_in(6) {
        unsettle(random, &mut state, count);
    }
    state
}

fn sound_state(random: &mut Random, count: usize) -> State {
    let mut state = State::fresh(if count > 0 && !random.once_in(20) {
        1 + random.below(count) as u32
    } else {
        0
    });
    let depth = match random.below(8) {
        0 => STACK,
        1 => STACK - 1,
        2 => random.upto(STACK),
        3 => 0,
        _ => random.upto(4),
    };
    state.depth = depth as u32;
    for entry in &mut state.entries[..depth] {
        *entry = near(random, count);
    }
    state
}

/// Makes a state unsound in one of the ways there are, or leaves it by chance.
fn unsettle(random: &mut Random, state: &mut State, count: usize) {
    let depth = state.depth as usize;
    match random.below(7) {
        0 => state.at = count as u32 + 1,
        1 => state.at = random.one_of(&[4_097, 65_536, 65_537, u32::MAX]),
        2 => state.depth = random.one_of(&[97, 98, 256, 65_536, u32::MAX]),
        3 => state.depth = random.upto(STACK) as u32,
        4 if depth < STACK => {
            let unused = depth + random.below(STACK - depth);
            state.entries[unused] = random.one_of(&[1, 9_999, 10_000, 65_535]);
        }
        5 => state.entries[STACK - 1] = random.one_of(&[0, 1, 10_000]),
        _ if depth > 0 => {
            let used = random.below(depth);
            state.entries[used] = random.one_of(&[9_999, 10_000, 10_001, 65_535]);
        }
        _ => {}
    }
}
