//! A thread whose stack is memory of ours, painted before it starts.

use std::ffi::c_void;
use std::ptr::null_mut;

/// What a thread has that asks for no other: 2 MiB, as in Rust's library.
const STACK: usize = 2 << 20;
const PAGE: usize = 4_096;

/// Room for C's `pthread_attr_t`, 56 bytes on 64-bit Linux.
#[repr(C)]
struct Attributes([u64; 16]);

const PROT_NONE: i32 = 0;
const PROT_READ_WRITE: i32 = 3;
const MAP_PRIVATE_ANONYMOUS: i32 = 0x22;

type Start = extern "C" fn(*mut c_void) -> *mut c_void;

extern "C" {
    fn mmap(at: *mut c_void, len: usize, prot: i32, flags: i32, fd: i32, off: i64) -> *mut c_void;
    fn mprotect(at: *mut c_void, len: usize, prot: i32) -> i32;
    fn munmap(at: *mut c_void, len: usize) -> i32;
    fn pthread_attr_init(attributes: *mut Attributes) -> i32;
    fn pthread_attr_setstack(attributes: *mut Attributes, low: *mut c_void, len: usize) -> i32;
    fn pthread_attr_destroy(attributes: *mut Attributes) -> i32;
    fn pthread_create(
        thread: *mut usize,
        attributes: *const Attributes,
        start: Start,
        job: *mut c_void,
    ) -> i32;
    fn pthread_join(thread: usize, result: *mut *mut c_void) -> i32;
}

/// What the thread calls, and what that answers.
struct Job<F> {
    call: F,
    status: Option<u8>,
}

extern "C" fn start<F: FnMut() -> u8>(job: *mut c_void) -> *mut c_void {
    // Safe: the job is that of `on_painted_stack`, which waits for this thread.
    let job = unsafe { &mut *job.cast::<Job<F>>() };
    job.status = Some((job.call)());
    null_mut()
}

/// Makes a call on a thread with a stack of 2 MiB that is painted with this byte. Gives the call's answer, and how many
/// bytes lie between the stack's end and the lowest byte that is no longer painted. The page below the stack can't be
/// touched, so a call that needs more ends the test.
pub fn on_painted_stack<F: FnMut() -> u8 + Send>(paint: u8, call: F) -> (u8, usize) {
    let done = |failed: i32| assert_eq!(failed, 0);
    let mut job = Job { call, status: None };
    let (mut attributes, mut thread) = (Attributes([0; 16]), 0);
    // Safe: the pointers are to memory of the lengths that are named, which outlives the thread; the stack is painted
    // before the thread starts and looked at after it has ended.
    unsafe {
        let guard = mmap(null_mut(), PAGE + STACK, PROT_READ_WRITE, MAP_PRIVATE_ANONYMOUS, -1, 0);
        assert_ne!(guard as isize, -1, "no memory");
        done(mprotect(guard, PAGE, PROT_NONE));
        let low = guard.byte_add(PAGE);
        low.cast::<u8>().write_bytes(paint, STACK);
        done(pthread_attr_init(&mut attributes));
        done(pthread_attr_setstack(&mut attributes, low, STACK));
        done(pthread_create(&mut thread, &attributes, start::<F>, (&raw mut job).cast()));
        done(pthread_join(thread, null_mut()));
        done(pthread_attr_destroy(&mut attributes));
        let stack = std::slice::from_raw_parts(low.cast::<u8>(), STACK);
        let painted = stack.iter().take_while(|&&byte| byte == paint).count();
        done(munmap(guard, PAGE + STACK));
        (job.status.expect("the thread came to its end"), STACK - painted)
    }
}
