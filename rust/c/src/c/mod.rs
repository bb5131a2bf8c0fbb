// Made by `make package` of crates/fixed_c/src/lib.rt, which is proved: changes go there.

//! Calls for C and C++: operations on the bits of fixed-point numbers. The number of fraction bits is an argument,
//! known only at run time.
//!
//! Each of the eight words has its own calls, such as `fixed_i32_div`. A call has no precondition on its numbers: it
//! returns 0 and writes its result, or it fails. It then returns the number of a [`Code`](crate::face::answer::Code),
//! and the result is unchanged, unless the comment of the call says otherwise. If several codes apply, the call returns
//! the first one that its comment names.
//!
//! The result of an operation is the wrapped word, and the side of the word's range on which the exact result lies.
//! Other calls write a number, the ends of an interval, a text or a block. Operands and results are bits, in units of
//! `2^-frac`, unless a comment names another unit. Operands named `k` are integers. Numbers of fraction bits range from
//! 0 to the width of the word. No call allocates.
//!
//! `include/fixed.h` declares the calls. Its inline functions, such as `fixed_i32_saturating`, apply a policy to a
//! result. No proof covers the pointers that C passes: the header states what a program must guarantee of them. The
//! Rust crate `fixed` does not have these calls.

mod signed_16;
mod signed_16_functions;
mod signed_32;
mod signed_32_functions;
mod signed_64;
mod signed_64_functions;
mod signed_8;
mod signed_8_functions;
mod unsigned_16;
mod unsigned_16_functions;
mod unsigned_32;
mod unsigned_32_functions;
mod unsigned_64;
mod unsigned_64_functions;
mod unsigned_8;
mod unsigned_8_functions;
