//! A stack with pages below it that nobody may touch.

#![allow(unsafe_code)]

use std::arch::asm;
use std::ffi::{c_int, c_void};
use std::ptr::null_mut;
use std::slice;

/// Pages that end the process when touched. No call has a frame that could step
/// over so many.
const GUARD: usize = 16 << 20;
const PAGE: usize = 4_096;
/// A call may happen to leave a byte as one paint has it, but not as both.
const PAINTS: [u8; 2] = [0xA5, 0x5A];

// Linux, x86-64.
const NONE: c_int = 0;
const READ_AND_WRITE: c_int = 3;
const PRIVATE_AND_ANONYMOUS: c_int = 0x22;

extern "C" {
    fn mmap(
        at: *mut c_void,
        size: usize,
        may: c_int,
        how: c_int,
        file: c_int,
        from: i64,
    ) -> *mut c_void;
    fn mprotect(at: *mut c_void, size: usize, may: c_int) -> c_int;
    fn munmap(at: *mut c_void, size: usize) -> c_int;
}

/// A stack of an exact size.
pub struct Guarded {
    mapped: *mut u8,
    size: usize,
}

impl Guarded {
    /// A stack of this many bytes, a multiple of 16, if the system gives it.
    pub fn new(size: usize) -> Option<Guarded> {
        let size = size.next_multiple_of(16);
        // SAFETY: new pages, of which only those that may be read and written are.
        unsafe {
            let all = GUARD + size.next_multiple_of(PAGE);
            let mapped = mmap(null_mut(), all, NONE, PRIVATE_AND_ANONYMOUS, -1, 0);
            if mapped as isize == -1 {
                return None;
            }
            let mapped = mapped.cast::<u8>();
            let stack = Guarded { mapped, size };
            let usable = stack.lowest().cast();
            (mprotect(usable, all - GUARD, READ_AND_WRITE) == 0).then_some(stack)
        }
    }

    /// Makes a call on this stack. If the stack is too short, the process ends.
    pub fn run(&mut self, call: impl FnMut()) {
        // SAFETY: the top is a multiple of 16 above a page's start, the stack is
        // lent to nobody else meanwhile, and `enter` gives the call it was made for.
        unsafe { switch(self.lowest().add(self.size), call) }
    }

    /// Makes a call on this stack, twice; answers how many bytes of it were used.
    pub fn used_by(&mut self, mut call: impl FnMut()) -> usize {
        let used = PAINTS.map(|paint| {
            self.bytes().fill(paint);
            self.run(&mut call);
            let kept = self.bytes().iter().position(|&byte| byte != paint);
            self.size - kept.unwrap_or(self.size)
        });
        used[0].max(used[1])
    }

    fn lowest(&self) -> *mut u8 {
        // SAFETY: the guard is the lower part of what is mapped.
        unsafe { self.mapped.add(GUARD) }
    }

    fn bytes(&mut self) -> &mut [u8] {
        // SAFETY: these bytes are mapped, may be read and written, and belong here.
        unsafe { slice::from_raw_parts_mut(self.lowest(), self.size) }
    }
}

impl Drop for Guarded {
    fn drop(&mut self) {
        // SAFETY: what `new` mapped, and nothing uses it any more.
        unsafe {
            munmap(self.mapped.cast(), GUARD + self.size.next_multiple_of(PAGE));
        }
    }
}

/// Makes the call with the stack pointer at `top`.
///
/// # Safety
///
/// `top` is a multiple of 16 and the upper end of memory that may be written.
unsafe fn switch<F: FnMut()>(top: *mut u8, mut call: F) {
    let call: *mut F = &mut call;
    asm!(
        "mov r12, rsp",
        "mov rsp, {top}",
        "call {enter}",
        "mov rsp, r12",
        top = in(reg) top,
        enter = in(reg) enter::<F> as extern "C" fn(*mut F),
        in("rdi") call,
        out("r12") _,
        clobber_abi("C"),
    );
}

extern "C" fn enter<F: FnMut()>(call: *mut F) {
    // SAFETY: `switch` hands over the address of its own call.
    unsafe { (*call)() }
}
