//! A call on a stack of just so many bytes. Below them lie pages that can't be touched, so that a call that needs more ends the
//! process. A thread can't have so small a stack, for its own needs count too; so the stack is switched for the call alone.

use std::arch::asm;

extern "C" {
    fn mmap(address: *mut u8, length: usize, protection: i32, flags: i32, file: i32, offset: i64) -> *mut u8;
    fn munmap(address: *mut u8, length: usize) -> i32;
    fn mprotect(address: *mut u8, length: usize, protection: i32) -> i32;
}

/// More than any frame of the library, so that none reaches past the pages that are shut.
const SHUT: usize = 1 << 20;
const PAGE: usize = 4096;

struct Work<'a>(&'a mut dyn FnMut());

extern "C" fn start(work: &mut Work) {
    (work.0)();
}

/// Runs the call on a stack of `bytes` bytes, a multiple of 16.
pub fn on_stack_of(bytes: usize, call: &mut dyn FnMut()) {
    assert_eq!(bytes % 16, 0);
    let open = bytes.div_ceil(PAGE) * PAGE;
    let mut work = Work(call);
    // SAFETY: the stack is a fresh mapping that nobody else uses. r12 holds the former one, for a called function gives it back.
    unsafe {
        let all = mmap(std::ptr::null_mut(), SHUT + open, 0, 0x22, -1, 0);
        assert_ne!(all as isize, -1);
        assert_eq!(mprotect(all.add(SHUT), open, 3), 0);
        asm!(
            "xchg rsp, r12",
            "call {start}",
            "mov rsp, r12",
            start = sym start,
            inout("r12") all.add(SHUT + bytes) => _,
            in("rdi") &raw mut work,
            clobber_abi("C"),
        );
        munmap(all, SHUT + open);
    }
}
