//! The C functions of `include/quadrilhel.h`, with a slice in place of each
//! pointer and length, and their answers as the bare numbers.
//!
//! Most callers want the functions of the crate's root, which answer a `Result`.
//! These are for who must see every field of an answer, refused or not.

#![allow(unsafe_code)]

/// Entries of the counter stack.
pub const STACK: usize = 96;

/// `struct qh_verdict`.
#[repr(C)]
#[derive(Clone, Copy, PartialEq, Eq, Debug)]
pub struct Verdict {
    /// The paper's number, 0 if accepted.
    pub refusal: u32,
    /// Its place.
    pub place: u32,
    /// Records, or bytes of a listing or text; 0 if refused.
    pub count: u32,
}

/// `struct qh_state`: a position and a counter stack.
#[repr(C)]
#[derive(Clone, Copy, PartialEq, Eq, Debug)]
pub struct State {
    /// The record to be done next, 0 if ended.
    pub at: u32,
    /// How many entries are in use.
    pub depth: u32,
    /// The entries, the unused ones zero.
    pub entries: [u16; STACK],
}

/// `struct qh_ran`.
#[repr(C)]
#[derive(Clone, Copy, PartialEq, Eq, Debug)]
pub struct Ran {
    /// The paper's number, 0 if accepted.
    pub refusal: u32,
    /// Its place.
    pub place: u32,
    /// 1 to 5, 0 if refused.
    pub status: u32,
    /// The state stopped in; the given one if a step is refused, and 96 zeros at
    /// position 0 if a run is.
    pub state: State,
    /// Steps taken.
    pub steps: u64,
    /// Replies used.
    pub replies: u64,
    /// Actions logged.
    pub actions: u64,
}

mod ffi {
    use super::{Ran, State, Verdict};

    /// Two readable slices and a writable one, a pointer and a length each.
    macro_rules! machine {
        ($name:ident, $last:ident: $kind:ty) => {
            extern "C" {
                pub fn $name(
                    program: *const u8,
                    program_len: usize,
                    replies: *const u8,
                    replies_len: usize,
                    log: *mut u8,
                    log_len: usize,
                    $last: $kind,
                ) -> Ran;
            }
        };
    }

    machine!(qh_run_routine, budget: u64);
    machine!(qh_run_base, budget: u64);
    machine!(qh_step_routine, state: State);
    machine!(qh_step_base, state: State);

    extern "C" {
        pub fn qh_check_routine(bytes: *const u8, bytes_len: usize) -> Verdict;
        pub fn qh_check_base(bytes: *const u8, bytes_len: usize) -> Verdict;
        pub fn qh_check_relative(bytes: *const u8, bytes_len: usize) -> Verdict;
        pub fn qh_convert(
            routine: *const u8,
            routine_len: usize,
            out: *mut u8,
            out_len: usize,
            work: *mut u8,
            work_len: usize,
        ) -> Verdict;
        pub fn qh_to_relative(
            base: *const u8,
            base_len: usize,
            out: *mut u8,
            out_len: usize,
        ) -> Verdict;
        pub fn qh_to_absolute(
            relative: *const u8,
            relative_len: usize,
            out: *mut u8,
            out_len: usize,
        ) -> Verdict;
        pub fn qh_list(
            routine: *const u8,
            routine_len: usize,
            text: *mut u8,
            text_len: usize,
        ) -> Verdict;
        pub fn qh_read_text(
            text: *const u8,
            text_len: usize,
            names: *const u8,
            names_len: usize,
            out: *mut u8,
            out_len: usize,
        ) -> Verdict;
        pub fn qh_write_text(
            routine: *const u8,
            routine_len: usize,
            names: *const u8,
            names_len: usize,
            text: *mut u8,
            text_len: usize,
        ) -> Verdict;
    }
}

// In every call below, each pointer and length come from one slice, so they name
// memory that is readable, and writable where the slice is mutable, and that
// nothing else writes to during the call. The library keeps no pointer.

type Check = unsafe extern "C" fn(*const u8, usize) -> Verdict;
type Fill = unsafe extern "C" fn(*const u8, usize, *mut u8, usize) -> Verdict;
type Named = unsafe extern "C" fn(*const u8, usize, *const u8, usize, *mut u8, usize) -> Verdict;
type Machine<T> =
    unsafe extern "C" fn(*const u8, usize, *const u8, usize, *mut u8, usize, T) -> Ran;

fn check(call: Check, bytes: &[u8]) -> Verdict {
    // SAFETY: see above.
    unsafe { call(bytes.as_ptr(), bytes.len()) }
}

fn fill(call: Fill, from: &[u8], out: &mut [u8]) -> Verdict {
    // SAFETY: see above.
    unsafe { call(from.as_ptr(), from.len(), out.as_mut_ptr(), out.len()) }
}

fn named(call: Named, from: &[u8], names: &[u8], out: &mut [u8]) -> Verdict {
    // SAFETY: see above.
    unsafe {
        call(
            from.as_ptr(),
            from.len(),
            names.as_ptr(),
            names.len(),
            out.as_mut_ptr(),
            out.len(),
        )
    }
}

fn machine<T>(
    call: Machine<T>,
    program: &[u8],
    replies: &[u8],
    log: &mut [u8],
    budget_or_state: T,
) -> Ran {
    // SAFETY: see above.
    unsafe {
        call(
            program.as_ptr(),
            program.len(),
            replies.as_ptr(),
            replies.len(),
            log.as_mut_ptr(),
            log.len(),
            budget_or_state,
        )
    }
}

/// `qh_check_routine`.
pub fn check_routine(bytes: &[u8]) -> Verdict {
    check(ffi::qh_check_routine, bytes)
}

/// `qh_check_base`.
pub fn check_base(bytes: &[u8]) -> Verdict {
    check(ffi::qh_check_base, bytes)
}

/// `qh_check_relative`.
pub fn check_relative(bytes: &[u8]) -> Verdict {
    check(ffi::qh_check_relative, bytes)
}

/// `qh_convert`.
pub fn convert(routine: &[u8], out: &mut [u8], work: &mut [u8]) -> Verdict {
    // SAFETY: see above.
    unsafe {
        ffi::qh_convert(
            routine.as_ptr(),
            routine.len(),
            out.as_mut_ptr(),
            out.len(),
            work.as_mut_ptr(),
            work.len(),
        )
    }
}

/// `qh_to_relative`.
pub fn to_relative(base: &[u8], out: &mut [u8]) -> Verdict {
    fill(ffi::qh_to_relative, base, out)
}

/// `qh_to_absolute`.
pub fn to_absolute(relative: &[u8], out: &mut [u8]) -> Verdict {
    fill(ffi::qh_to_absolute, relative, out)
}

/// `qh_list`.
pub fn list(routine: &[u8], text: &mut [u8]) -> Verdict {
    fill(ffi::qh_list, routine, text)
}

/// `qh_read_text`.
pub fn read_text(text: &[u8], names: &[u8], out: &mut [u8]) -> Verdict {
    named(ffi::qh_read_text, text, names, out)
}

/// `qh_write_text`.
pub fn write_text(routine: &[u8], names: &[u8], text: &mut [u8]) -> Verdict {
    named(ffi::qh_write_text, routine, names, text)
}

/// `qh_run_routine`.
pub fn run_routine(routine: &[u8], replies: &[u8], log: &mut [u8], budget: u64) -> Ran {
    machine(ffi::qh_run_routine, routine, replies, log, budget)
}

/// `qh_run_base`.
pub fn run_base(base: &[u8], replies: &[u8], log: &mut [u8], budget: u64) -> Ran {
    machine(ffi::qh_run_base, base, replies, log, budget)
}

/// `qh_step_routine`.
pub fn step_routine(routine: &[u8], replies: &[u8], log: &mut [u8], state: State) -> Ran {
    machine(ffi::qh_step_routine, routine, replies, log, state)
}

/// `qh_step_base`.
pub fn step_base(base: &[u8], replies: &[u8], log: &mut [u8], state: State) -> Ran {
    machine(ffi::qh_step_base, base, replies, log, state)
}

#[cfg(test)]
mod tests {
    use super::*;
    use std::mem::{offset_of, size_of};

    #[test]
    fn structs_are_laid_out_as_in_the_header() {
        assert_eq!(size_of::<Verdict>(), 12);
        assert_eq!(size_of::<State>(), 200);
        assert_eq!(size_of::<Ran>(), 240);
        assert_eq!(offset_of!(Ran, state), 12);
        assert_eq!(offset_of!(Ran, steps), 216);
    }
}
