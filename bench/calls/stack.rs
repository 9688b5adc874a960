//! The stack that a call uses.
use std::ffi::c_void;
use std::hint::black_box;

const STACK: usize = 1 << 20;

extern "C" {
    fn pthread_attr_init(attr: *mut [u64; 16]) -> i32;
    fn pthread_attr_setstack(attr: *mut [u64; 16], stack: *mut c_void, size: usize) -> i32;
    fn pthread_create(
        thread: *mut usize,
        attr: *const [u64; 16],
        start: extern "C" fn(*mut c_void) -> *mut c_void,
        argument: *mut c_void,
    ) -> i32;
    fn pthread_join(thread: usize, result: *mut *mut c_void) -> i32;
}

type Job<'a> = &'a mut dyn FnMut();

extern "C" fn start(job: *mut c_void) -> *mut c_void {
    let job = unsafe { &mut *(job as *mut Job) };
    job();
    std::ptr::null_mut()
}

/// The bytes that a thread which runs `job` writes of its stack: the stack is painted before, and what is left of the paint is counted.
fn painted(mut job: Job) -> usize {
    const PAINT: u64 = 0xA5A5_5A5A_C3C3_3C3C;
    let mut stack = vec![PAINT; STACK / 8 + 512];
    let first = stack.as_ptr().align_offset(4096);
    let (mut attr, mut thread) = ([0u64; 16], 0usize);
    unsafe {
        assert_eq!(pthread_attr_init(&mut attr), 0);
        assert_eq!(pthread_attr_setstack(&mut attr, stack.as_mut_ptr().add(first) as *mut c_void, STACK), 0);
        assert_eq!(pthread_create(&mut thread, &attr, start, &mut job as *mut Job as *mut c_void), 0);
        assert_eq!(pthread_join(thread, std::ptr::null_mut()), 0);
    }
    let left = black_box(&stack)[first..].iter().take_while(|&&x| x == PAINT).count();
    STACK - 8 * left
}

/// What `job` uses, without what a thread has anyway.
pub fn used(job: &mut dyn FnMut()) -> usize {
    painted(job) - painted(&mut || ())
}
