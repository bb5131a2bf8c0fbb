//! An allocator that counts the requests for memory of the current thread.

use std::alloc::{GlobalAlloc, Layout, System};
use std::cell::Cell;

struct Counting;

thread_local! {
    static REQUESTS: Cell<usize> = const { Cell::new(0) };
}

fn count() {
    REQUESTS.set(REQUESTS.get() + 1);
}

// SAFETY: the system's allocator serves each call.
unsafe impl GlobalAlloc for Counting {
    unsafe fn alloc(&self, layout: Layout) -> *mut u8 {
        count();
        unsafe { System.alloc(layout) }
    }

    unsafe fn alloc_zeroed(&self, layout: Layout) -> *mut u8 {
        count();
        unsafe { System.alloc_zeroed(layout) }
    }

    unsafe fn realloc(&self, pointer: *mut u8, layout: Layout, size: usize) -> *mut u8 {
        count();
        unsafe { System.realloc(pointer, layout, size) }
    }

    unsafe fn dealloc(&self, pointer: *mut u8, layout: Layout) {
        unsafe { System.dealloc(pointer, layout) }
    }
}

#[global_allocator]
static ALLOCATOR: Counting = Counting;

/// How many requests for memory a call makes, and what it returns.
pub fn requests<R>(call: impl FnOnce() -> R) -> (usize, R) {
    let before = REQUESTS.get();
    let result = call();
    (REQUESTS.get() - before, result)
}

#[test]
fn requests_are_counted() {
    let (count, boxed) = requests(|| std::hint::black_box(Box::new(1_u8)));
    assert_eq!((count, *boxed), (1, 1));
}
