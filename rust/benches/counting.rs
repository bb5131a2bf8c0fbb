//! Instructions of a pass, counted by valgrind's callgrind: a measure that does not depend on the day.
//!
//! With the word `--count` a bench makes each pass twice and has callgrind write what the second took; `bench/counts`
//! reads it.

use std::arch::asm;
use std::ffi::CStr;

/// Sets callgrind's counters to 0.
const ZERO: usize = 0x4354_0001;

/// Has callgrind write its counters under a name, and sets them to 0.
const WRITE_UNDER: usize = 0x4354_0003;

/// Whether instructions are counted, and not time.
pub fn is_on() -> bool {
    std::env::args().any(|word| word == "--count")
}

/// Has callgrind count a pass. The first pass is not counted, since it may link or load what it calls.
pub fn count(name: &CStr, mut pass: impl FnMut()) {
    pass();
    request(ZERO, 0);
    pass();
    request(WRITE_UNDER, name.as_ptr() as usize);
}

/// Asks valgrind for something, by instructions that change nothing where there is no valgrind.
#[cfg(target_arch = "x86_64")]
fn request(what: usize, of: usize) {
    let request = [what, of, 0, 0, 0, 0];
    // SAFETY: the rotations leave rdi as it was, and the exchange rbx. Valgrind reads the request and the name.
    unsafe {
        asm!(
            "rol rdi, 3", "rol rdi, 13", "rol rdi, 61", "rol rdi, 51", "xchg rbx, rbx",
            in("rax") request.as_ptr(), inout("rdx") 0_usize => _,
        );
    }
}

#[cfg(not(target_arch = "x86_64"))]
fn request(_: usize, _: usize) {
    panic!("instructions are counted on x86_64 alone");
}
