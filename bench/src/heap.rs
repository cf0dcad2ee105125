//! Blocks taken from the heap, counted by the driver's allocator. While nothing is counted it costs a test of a flag.

use crate::parts::*;
use crate::sheets::Case;
use std::alloc::{GlobalAlloc, Layout, System};
use std::hint::black_box;
use std::sync::atomic::{AtomicBool, AtomicUsize, Ordering::Relaxed};

pub struct Counting;

#[global_allocator]
static ALLOCATOR: Counting = Counting;

static ON: AtomicBool = AtomicBool::new(false);
static NOW: AtomicUsize = AtomicUsize::new(0);
static PEAK: AtomicUsize = AtomicUsize::new(0);
static BLOCKS: AtomicUsize = AtomicUsize::new(0);
static TOTAL: AtomicUsize = AtomicUsize::new(0);

#[cold]
fn taken(size: usize) {
    BLOCKS.fetch_add(1, Relaxed);
    TOTAL.fetch_add(size, Relaxed);
    let now = NOW.fetch_add(size, Relaxed) + size;
    PEAK.fetch_max(now, Relaxed);
}

#[cold]
fn given_back(size: usize) {
    NOW.fetch_sub(size, Relaxed);
}

// SAFETY: every call is the system allocator's own; the counters are beside it.
unsafe impl GlobalAlloc for Counting {
    unsafe fn alloc(&self, layout: Layout) -> *mut u8 {
        if ON.load(Relaxed) {
            taken(layout.size());
        }
        System.alloc(layout)
    }

    unsafe fn alloc_zeroed(&self, layout: Layout) -> *mut u8 {
        if ON.load(Relaxed) {
            taken(layout.size());
        }
        System.alloc_zeroed(layout)
    }

    unsafe fn dealloc(&self, block: *mut u8, layout: Layout) {
        if ON.load(Relaxed) {
            given_back(layout.size());
        }
        System.dealloc(block, layout);
    }

    /// Counted as a new block, and the old one given back.
    unsafe fn realloc(&self, block: *mut u8, layout: Layout, size: usize) -> *mut u8 {
        if ON.load(Relaxed) {
            taken(size);
            given_back(layout.size());
        }
        System.realloc(block, layout, size)
    }
}

/// What a part takes from the heap: the most bytes at once, how many blocks, and the bytes of all of them.
#[derive(Clone, Copy, PartialEq, Eq, Debug)]
pub struct Heap {
    pub peak: usize,
    pub blocks: usize,
    pub total: usize,
}

fn counted(part: impl FnOnce()) -> Heap {
    for counter in [&NOW, &PEAK, &BLOCKS, &TOTAL] {
        counter.store(0, Relaxed);
    }
    ON.store(true, Relaxed);
    part();
    ON.store(false, Relaxed);
    assert_eq!(NOW.load(Relaxed), 0, "something was kept");
    Heap { peak: PEAK.load(Relaxed), blocks: BLOCKS.load(Relaxed), total: TOTAL.load(Relaxed) }
}

/// The heap of the Rust as a whole, with the oracle's reading and with the plain one, and of this library's three calls.
pub struct Heaps {
    pub rust: Option<(Heap, Heap)>,
    pub ours: Heap,
}

pub fn heaps(case: &Case, rust_answers: bool) -> Heaps {
    let whole = |read| {
        counted(|| {
            black_box(rust_whole(&case.bytes, read));
        })
    };
    let mut lent = Lent::new();
    Heaps {
        rust: rust_answers.then(|| (whole(rust_read), whole(rust_read_plain))),
        ours: counted(|| {
            black_box(our_whole(&case.bytes, &mut lent));
        }),
    }
}
