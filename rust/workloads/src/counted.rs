//! The system's allocator, and what is asked of it and given back. A program that counts makes it its own:
//!
//! ```
//! #[global_allocator]
//! static ALLOCATOR: workloads::counted::Counted = workloads::counted::Counted;
//! ```

use std::alloc::{GlobalAlloc, Layout, System};
use std::ops::Sub;
use std::sync::atomic::{AtomicUsize, Ordering::Relaxed};

pub struct Counted;

static TIMES: AtomicUsize = AtomicUsize::new(0);
static ASKED: AtomicUsize = AtomicUsize::new(0);
static GIVEN_BACK: AtomicUsize = AtomicUsize::new(0);

/// How often memory was asked for, how many bytes, and how many were given back. What grows in place or moves was given back at its old
/// size and asked for at its new one.
#[derive(Clone, Copy)]
pub struct Counts {
    pub times: usize,
    pub asked: usize,
    pub given_back: usize,
}

impl Counts {
    /// Since the program began.
    pub fn now() -> Self {
        Counts { times: TIMES.load(Relaxed), asked: ASKED.load(Relaxed), given_back: GIVEN_BACK.load(Relaxed) }
    }

    /// The bytes that were not given back.
    pub fn kept(self) -> usize {
        self.asked - self.given_back
    }
}

impl Sub for Counts {
    type Output = Self;
    fn sub(self, before: Self) -> Self {
        Counts {
            times: self.times - before.times,
            asked: self.asked - before.asked,
            given_back: self.given_back - before.given_back,
        }
    }
}

fn ask(size: usize) {
    TIMES.fetch_add(1, Relaxed);
    ASKED.fetch_add(size, Relaxed);
}

fn give_back(size: usize) {
    GIVEN_BACK.fetch_add(size, Relaxed);
}

// SAFETY: passed on as it is to the system's allocator.
unsafe impl GlobalAlloc for Counted {
    unsafe fn alloc(&self, layout: Layout) -> *mut u8 {
        ask(layout.size());
        unsafe { System.alloc(layout) }
    }

    unsafe fn alloc_zeroed(&self, layout: Layout) -> *mut u8 {
        ask(layout.size());
        unsafe { System.alloc_zeroed(layout) }
    }

    unsafe fn realloc(&self, place: *mut u8, layout: Layout, size: usize) -> *mut u8 {
        ask(size);
        give_back(layout.size());
        unsafe { System.realloc(place, layout, size) }
    }

    unsafe fn dealloc(&self, place: *mut u8, layout: Layout) {
        give_back(layout.size());
        unsafe { System.dealloc(place, layout) }
    }
}
