//! The calls for C, compiled by rustc: the proved source of `crates/fixed_face` and `crates/fixed_c` over the library.
//! `include/fixed.h` declares them.
#![no_std]
// The code below is the proved source.
#![allow(dead_code, unused_imports, clippy::too_many_arguments)]

// Rust requires a handler for assertions that fail, although no call for C reaches an assertion. With an operating
// system it is that of std, and without one it is below.
#[cfg(not(target_os = "none"))]
extern crate std;

use zugyelmas::*;

// The unsafe blocks of these calls pass the pointers and counts of C to `slice` and `slice_mut`. The header requires of
// C what these functions require.
mod c;
mod face;

/// Returns the array of C that begins at `first`. If `count` is 0, the pointer is not used, and may be null.
///
/// # Safety
///
/// If `count` is not 0, `first` is aligned and points to `count` elements of one array. Nothing writes them during
/// `'a`. `include/fixed.h` requires this of C.
unsafe fn slice<'a, T>(first: *const T, count: usize) -> &'a [T] {
    if count == 0 {
        return &[];
    }
    // SAFETY: `count` is not 0, so the caller has guaranteed all that a shared slice requires. An array of C is never
    // larger than `isize::MAX` bytes.
    unsafe { core::slice::from_raw_parts(first, count) }
}

/// Returns the array of C that begins at `first`, to be written. If `count` is 0, the pointer is not used, and may be
/// null.
///
/// # Safety
///
/// If `count` is not 0, `first` is aligned and points to `count` elements of one array. Nothing else reads or writes
/// them during `'a`. `include/fixed.h` requires this of C.
unsafe fn slice_mut<'a, T>(first: *mut T, count: usize) -> &'a mut [T] {
    if count == 0 {
        return &mut [];
    }
    // SAFETY: `count` is not 0, so the caller has guaranteed all that a mutable slice requires. An array of C is never
    // larger than `isize::MAX` bytes.
    unsafe { core::slice::from_raw_parts_mut(first, count) }
}

#[cfg(target_os = "none")]
#[panic_handler]
fn stop(_: &core::panic::PanicInfo) -> ! {
    loop {}
}
