// Made by `make package` of crates/fixed_kernel/src/lib.rt, which is proved: changes go there.

//! The operations of fixed-point numbers on their bits. The number of fraction bits is an argument, known only at run
//! time.
//!
//! Each function `.._of` returns an [`Outcome`](crate::word::Outcome) that stands for the exact result: the wrapped
//! word, and whether the exact result fits, is too large or is too small. Operands and results are in units of
//! `2^-frac`. No function allocates.
//!
//! Preconditions: each number of fraction bits is at most the width, a divisor is not 0, and the operand of a root is
//! not negative. `abs_of` and `signum_of` require signed words, `next_power_of_two_of` requires unsigned ones, and
//! the mixed sums require two words of one width.
//!
//! [`overflowing_mul`], [`overflowing_div`], [`overflowing_mul_add`] and [`round_to_zero_of`] return words and are
//! calls of the Rust crate `fixed`. It does not have the others.

pub mod laws;
mod overflowing;
mod powers;
mod products;
mod quotients;
mod remainders;
mod rounded_products;
mod rounded_quotients;
mod rounding;
mod sums;
mod whole;
mod wide;

pub use crate::word::Rounding;
pub use overflowing::{overflowing_div, overflowing_mul, overflowing_mul_add};
pub use powers::{next_power_of_two_of, sqrt_of};
pub use products::{add_prod_of, mul_add_of, mul_int_of, mul_nearest_of, mul_of};
pub use quotients::{
    div_euclid_int_of, div_euclid_of, div_int_of, div_nearest_of, div_of, recip_of,
};
pub use remainders::{next_multiple_of_of, rem_euclid_int_of, rem_euclid_of, rem_int_of, rem_of};
pub use rounded_products::{add_prod_round_of, mul_add_round_of, mul_round_of};
pub use rounded_quotients::{div_int_round_of, div_round_of, recip_round_of};
pub use rounding::round_to_zero_of;
pub use sums::{abs_of, add_of, dist_of, mixed_add_of, mixed_sub_of, neg_of, signum_of, sub_of};
