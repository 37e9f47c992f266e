//! Memory with a page before and behind it that can be neither read nor written, so that a call that leaves the bytes it was
//! given ends the process; the case that it was at is printed then.

use crate::support::cases;
use std::ffi::c_char;
use std::sync::Once;

extern "C" {
    fn mmap(address: *mut u8, length: usize, protection: i32, flags: i32, file: i32, offset: i64) -> *mut u8;
    fn munmap(address: *mut u8, length: usize) -> i32;
    fn mprotect(address: *mut u8, length: usize, protection: i32) -> i32;
    fn memfd_create(name: *const c_char, flags: u32) -> i32;
    fn ftruncate(file: i32, length: i64) -> i32;
    fn close(file: i32) -> i32;
    fn sigaction(signal: i32, action: *const SignalAction, former: *mut SignalAction) -> i32;
    fn write(file: i32, bytes: *const u8, length: usize) -> isize;
    fn _exit(status: i32) -> !;
}

/// `struct sigaction` of Linux on x86-64.
#[repr(C)]
struct SignalAction {
    handler: usize,
    mask: [u64; 16],
    flags: i32,
    restorer: usize,
}

const NONE: i32 = 0;
const READ: i32 = 1;
const READ_WRITE: i32 = 3;
const SHARED: i32 = 0x01;
const PRIVATE_UNRESERVED: i32 = 0x02 | 0x20 | 0x4000;
const FIXED: i32 = 0x10;
const SIGSEGV: i32 = 11;
const SIGBUS: i32 = 7;
const ON_STACK: i32 = 0x0800_0000;
const PAGE: usize = 4096;

/// Where the bytes lie: against the page before, against the page behind, or at an odd place.
#[derive(Clone, Copy, PartialEq, Eq, Debug)]
pub enum Against {
    Front,
    Rear,
    Neither,
}

/// Pages between two that are shut.
pub struct Guarded {
    /// The pages as a call sees them.
    pages: *mut u8,
    /// The same memory, open to the test.
    own: *mut u8,
    length: usize,
}

impl Guarded {
    /// At least `length` bytes that a call may write.
    pub fn output(length: usize) -> Guarded {
        let (pages, length) = shut(length);
        // SAFETY: the pages are fresh.
        assert_eq!(unsafe { mprotect(pages, length, READ_WRITE) }, 0);
        Guarded { pages, own: pages, length }
    }

    /// At least `length` bytes that a call may only read: the same memory is mapped twice.
    pub fn input(length: usize) -> Guarded {
        let (pages, length) = shut(length);
        // SAFETY: a fresh file in memory, put over fresh pages and at a fresh place.
        unsafe {
            let file = memfd_create(c"guarded".as_ptr(), 0);
            assert!(file >= 0 && ftruncate(file, length as i64) == 0, "memfd_create");
            assert_eq!(mmap(pages, length, READ, SHARED | FIXED, file, 0), pages);
            let own = mmap(std::ptr::null_mut(), length, READ_WRITE, SHARED, file, 0);
            assert_ne!(own as isize, -1, "mmap of {length} bytes");
            close(file);
            Guarded { pages, own, length }
        }
    }

    /// Where `length` bytes begin that lie against that end.
    pub fn place(&self, length: usize, against: Against) -> *mut u8 {
        // SAFETY: within the pages.
        unsafe { self.pages.add(self.offset(length, against)) }
    }

    /// How far from the first page they begin.
    pub fn offset(&self, length: usize, against: Against) -> usize {
        assert!(length <= self.length);
        match against {
            Against::Front => 0,
            Against::Rear => self.length - length,
            Against::Neither => (self.length - length).min(13),
        }
    }

    /// Puts the bytes against that end; where they begin.
    pub fn put(&mut self, bytes: &[u8], against: Against) -> *const u8 {
        let offset = self.offset(bytes.len(), against);
        self.bytes()[offset..offset + bytes.len()].copy_from_slice(bytes);
        self.place(bytes.len(), against)
    }

    /// All of the memory, to fill and to look at.
    pub fn bytes(&mut self) -> &mut [u8] {
        // SAFETY: the memory is this value's own.
        unsafe { std::slice::from_raw_parts_mut(self.own, self.length) }
    }
}

impl Drop for Guarded {
    fn drop(&mut self) {
        // SAFETY: the mappings that were made for this value.
        unsafe {
            if self.own != self.pages {
                munmap(self.own, self.length);
            }
            munmap(self.pages.sub(PAGE), self.length + 2 * PAGE);
        }
    }
}

/// At least `length` bytes of whole pages, that can't be touched, with one more before and behind; their number.
fn shut(length: usize) -> (*mut u8, usize) {
    say_the_case_on_faults();
    let length = length.div_ceil(PAGE).max(1) * PAGE;
    // SAFETY: a fresh mapping.
    unsafe {
        let all = mmap(std::ptr::null_mut(), length + 2 * PAGE, NONE, PRIVATE_UNRESERVED, -1, 0);
        assert_ne!(all as isize, -1, "mmap of {length} bytes");
        (all.add(PAGE), length)
    }
}

/// Prints the thread's case when it touches a page that is shut.
pub fn say_the_case_on_faults() {
    static SAY: Once = Once::new();
    SAY.call_once(|| {
        let action = SignalAction { handler: say_and_exit as *const () as usize, mask: [0; 16], flags: ON_STACK, restorer: 0 };
        for signal in [SIGSEGV, SIGBUS] {
            // SAFETY: the handler only writes and exits.
            assert_eq!(unsafe { sigaction(signal, &action, std::ptr::null_mut()) }, 0);
        }
    });
}

extern "C" fn say_and_exit(_signal: i32) {
    let (name, case) = cases::current();
    let (file, line) = cases::called();
    let mut said = Line { bytes: [0; 512], length: 0 };
    said.add(b"\na call left the bytes it was given, or its stack, in case '");
    said.add(name.as_bytes());
    said.add(b":");
    said.add_number(case);
    said.add(b"' at ");
    said.add(file.as_bytes());
    said.add(b":");
    said.add_number(line.into());
    said.add(b"\n");
    // SAFETY: the bytes are live, and the process ends.
    unsafe {
        write(2, said.bytes.as_ptr(), said.length);
        _exit(101)
    }
}

/// A line put together without the heap, as a signal's handler must.
struct Line {
    bytes: [u8; 512],
    length: usize,
}

impl Line {
    fn add(&mut self, bytes: &[u8]) {
        for byte in bytes.iter().take(self.bytes.len() - self.length) {
            self.bytes[self.length] = *byte;
            self.length += 1;
        }
    }

    fn add_number(&mut self, number: u64) {
        if number >= 10 {
            self.add_number(number / 10);
        }
        self.add(&[b'0' + (number % 10) as u8]);
    }
}
