// Made by `make package` of crates/fixed_face/src/lib.rt, which is proved: changes go there.

//! The calls for C, for any word: what the calls of each word in `fixed_c` do.
//!
//! A call has no precondition on its numbers. It writes its result, or it fails with a [`Code`](answer::Code). Operands
//! and results are bits, in units of `2^-frac`, unless a comment names another unit. No call allocates.

pub mod answer;
pub mod arrays;
pub mod block_calls;
mod blocks;
pub mod calls;
pub mod conversions;
pub mod dots;
pub mod elementary;
pub mod ends_calls;
mod intervals;
pub mod near_calls;
pub mod one_sign;
mod products;
mod quotients;
mod remainders;
mod roots;
mod rounded;
pub mod texts;
