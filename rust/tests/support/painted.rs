//! A thread on a stack of our own, filled with a pattern before and looked through after.

use std::ffi::c_void;

extern "C" {
    fn mmap(address: *mut u8, length: usize, protection: i32, flags: i32, file: i32, offset: i64) -> *mut u8;
    fn munmap(address: *mut u8, length: usize) -> i32;
    fn pthread_attr_init(attributes: *mut Attributes) -> i32;
    fn pthread_attr_setstack(attributes: *mut Attributes, stack: *mut u8, length: usize) -> i32;
    fn pthread_attr_destroy(attributes: *mut Attributes) -> i32;
    fn pthread_create(
        thread: *mut usize,
        attributes: *const Attributes,
        start: extern "C" fn(*mut c_void) -> *mut c_void,
        argument: *mut c_void,
    ) -> i32;
    fn pthread_join(thread: usize, result: *mut *mut c_void) -> i32;
}

/// `pthread_attr_t` of glibc on x86-64, with room to spare.
#[repr(C, align(16))]
struct Attributes([u8; 128]);

struct Work<'a> {
    call: &'a mut dyn FnMut(),
    /// Where the stack was when the call began.
    entered: usize,
}

const STACK: usize = 8 << 20;
const PAINT: u8 = 0xC7;

extern "C" fn start(work: *mut c_void) -> *mut c_void {
    // SAFETY: `peak` hands in its work, and waits for this thread.
    let work = unsafe { &mut *work.cast::<Work>() };
    let here = 0u8;
    work.entered = std::hint::black_box(&here) as *const u8 as usize;
    (work.call)();
    std::ptr::null_mut()
}

/// How far down the stack the call writes, in bytes.
pub fn peak(call: &mut dyn FnMut()) -> usize {
    let mut work = Work { call, entered: 0 };
    // SAFETY: the stack is a fresh mapping that only the new thread uses until it is joined.
    unsafe {
        let stack = mmap(std::ptr::null_mut(), STACK, 3, 0x22, -1, 0);
        assert_ne!(stack as isize, -1);
        std::slice::from_raw_parts_mut(stack, STACK).fill(PAINT);
        let mut attributes = Attributes([0; 128]);
        let mut thread = 0;
        assert_eq!(pthread_attr_init(&mut attributes), 0);
        assert_eq!(pthread_attr_setstack(&mut attributes, stack, STACK), 0);
        assert_eq!(pthread_create(&mut thread, &attributes, start, (&raw mut work).cast()), 0);
        assert_eq!(pthread_join(thread, std::ptr::null_mut()), 0);
        pthread_attr_destroy(&mut attributes);
        let untouched = std::slice::from_raw_parts(stack, STACK).iter().take_while(|byte| **byte == PAINT).count();
        let lowest = stack as usize + untouched;
        munmap(stack, STACK);
        work.entered.saturating_sub(lowest)
    }
}
