//! How much stack a piece of work uses: it runs in a thread whose stack was
//! painted before, and what has lost its paint was used.

use std::ffi::{c_int, c_void};
use std::ptr;

/// The system's attributes of a thread, as large as x86-64 has them.
#[repr(C, align(8))]
struct Attributes([u8; 56]);

extern "C" {
    fn pthread_attr_init(attributes: *mut Attributes) -> c_int;
    fn pthread_attr_setstack(attributes: *mut Attributes, low: *mut c_void, size: usize) -> c_int;
    fn pthread_attr_destroy(attributes: *mut Attributes) -> c_int;
    fn pthread_create(
        thread: *mut usize,
        attributes: *const Attributes,
        start: extern "C" fn(*mut c_void) -> *mut c_void,
        argument: *mut c_void,
    ) -> c_int;
    fn pthread_join(thread: usize, answer: *mut *mut c_void) -> c_int;
}

const SIZE: usize = 1 << 20;
const PAINT: u64 = 0x5bd1_e995_97f4_a7c5;

struct Painted(Vec<u64>);

impl Painted {
    /// The bytes from the first that lost its paint to the stack's top.
    fn used(&self) -> usize {
        let untouched = self.0.iter().take_while(|&&word| word == PAINT).count();
        (self.0.len() - untouched) * 8
    }
}

type Work<'a> = Box<dyn FnOnce() + 'a>;

extern "C" fn start(work: *mut c_void) -> *mut c_void {
    // SAFETY: what `run_painted` handed over, taken once.
    let work = unsafe { Box::from_raw(work.cast::<Work>()) };
    work();
    ptr::null_mut()
}

fn run_painted(work: Work) -> usize {
    // Stacks are aligned to pages.
    let mut memory = vec![PAINT; (SIZE + 4096) / 8];
    let skipped = memory.as_ptr().align_offset(4096);
    let low = &mut memory[skipped..skipped + SIZE / 8];
    let mut attributes = Attributes([0; 56]);
    let mut thread = 0;
    let work = Box::into_raw(Box::new(work)).cast();
    // SAFETY: the stack is memory of ours that outlives the thread, which is
    // joined here; the work is taken by `start`.
    let done = unsafe {
        pthread_attr_init(&mut attributes) == 0
            && pthread_attr_setstack(&mut attributes, low.as_mut_ptr().cast(), SIZE) == 0
            && pthread_create(&mut thread, &attributes, start, work) == 0
            && pthread_join(thread, ptr::null_mut()) == 0
            && pthread_attr_destroy(&mut attributes) == 0
    };
    assert!(done, "a thread on a stack of ours");
    Painted(low.to_vec()).used()
}

/// The bytes of stack that the work uses beyond those of an idle thread.
pub fn used(work: impl FnOnce()) -> usize {
    run_painted(Box::new(work)).saturating_sub(run_painted(Box::new(|| ())))
}
