//! The stack that a part needs: it runs on a thread whose stack is painted before, and what it has changed is looked up after.
//!
//! What is told is how far below the thread's own entry the lowest changed byte is. The sheet and the tables stand elsewhere.

use crate::parts::*;
use crate::sheets::Case;
use std::alloc::{alloc, dealloc, Layout};
use std::ffi::c_void;
use std::hint::black_box;

const SIZE: usize = 16 << 20;
const PAGE: usize = 4096;
const PAINT: u8 = 0xa5;

/// Room for the attributes of a thread, which take 56 bytes.
#[repr(C, align(16))]
struct Attributes([u8; 128]);

type Entry = extern "C" fn(*mut c_void) -> *mut c_void;

extern "C" {
    fn pthread_attr_init(attributes: *mut Attributes) -> i32;
    fn pthread_attr_setstack(attributes: *mut Attributes, low: *mut u8, size: usize) -> i32;
    fn pthread_attr_destroy(attributes: *mut Attributes) -> i32;
    fn pthread_create(thread: *mut usize, attributes: *const Attributes, entry: Entry, given: *mut c_void) -> i32;
    fn pthread_join(thread: usize, result: *mut *mut c_void) -> i32;
}

/// What a thread is to call, and where its entry's own frame was.
struct Job<'a> {
    part: &'a mut dyn FnMut(),
    top: usize,
}

extern "C" fn enter(given: *mut c_void) -> *mut c_void {
    // SAFETY: the thread is given a job that outlives it.
    let job = unsafe { &mut *given.cast::<Job>() };
    let here = 0u8;
    job.top = std::ptr::from_ref(black_box(&here)) as usize;
    (job.part)();
    std::ptr::null_mut()
}

/// Runs a job to its end on a thread with this stack.
///
/// # Safety
/// The stack is `SIZE` bytes that nobody else uses.
unsafe fn run_on(low: *mut u8, job: &mut Job) {
    let mut attributes = Attributes([0; 128]);
    let (mut thread, mut result) = (0, std::ptr::null_mut());
    assert_eq!(pthread_attr_init(&mut attributes), 0);
    assert_eq!(pthread_attr_setstack(&mut attributes, low, SIZE), 0);
    assert_eq!(pthread_create(&mut thread, &attributes, enter, std::ptr::from_mut(job).cast()), 0);
    assert_eq!(pthread_join(thread, &mut result), 0);
    assert_eq!(pthread_attr_destroy(&mut attributes), 0);
}

/// A region for the stacks of one thread after another.
pub struct Painted {
    low: *mut u8,
}

impl Painted {
    fn layout() -> Layout {
        Layout::from_size_align(SIZE, PAGE).expect("a layout")
    }

    pub fn new() -> Painted {
        // SAFETY: the size is not 0.
        let low = unsafe { alloc(Painted::layout()) };
        assert!(!low.is_null(), "no room for a stack");
        Painted { low }
    }

    /// How deep a part goes, in bytes.
    pub fn depth<R>(&mut self, mut part: impl FnMut() -> R) -> usize {
        let mut called = || {
            black_box(part());
        };
        let mut job = Job { part: &mut called, top: 0 };
        // SAFETY: the region is ours alone; it is read only after the thread has ended.
        let lowest = unsafe {
            self.low.write_bytes(PAINT, SIZE);
            run_on(self.low, &mut job);
            let bytes = std::slice::from_raw_parts(self.low, SIZE);
            bytes.iter().position(|byte| *byte != PAINT).expect("a thread uses its stack")
        };
        job.top - (self.low as usize + lowest)
    }
}

impl Drop for Painted {
    fn drop(&mut self) {
        // SAFETY: allocated with this layout, and every thread on it has ended.
        unsafe { dealloc(self.low, Painted::layout()) };
    }
}

/// The stack of the Rust as a whole, with the oracle's reading, and of each call of this library.
pub struct Stacks {
    pub rust: Option<usize>,
    pub load: usize,
    pub ask: usize,
    pub verdict: usize,
}

impl Stacks {
    pub fn ours(&self) -> usize {
        self.load.max(self.ask).max(self.verdict)
    }
}

pub fn stacks(painted: &mut Painted, case: &Case, rust_answers: bool) -> Stacks {
    let bytes = &case.bytes;
    let mut lent = Lent::new();
    let record = our_load(bytes, &mut lent);
    Stacks {
        rust: rust_answers.then(|| painted.depth(|| rust_whole(bytes, rust_read))),
        load: painted.depth(|| our_load(bytes, &mut lent)),
        ask: painted.depth(|| our_ask(&record, &lent)),
        verdict: painted.depth(|| our_verdict(bytes, &mut lent)),
    }
}
