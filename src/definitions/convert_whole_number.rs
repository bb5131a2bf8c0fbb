// Made by `make package` of crates/fixed_convert/specs/WholeNumber.antt: changes go there.

//! The whole numbers beside a / 2 ^ f, in units of 2 ^ -f.
//!
//! From `crates/fixed_convert/specs/WholeNumber.antt`:
//!
//! ```text
//! -- the nearest to a over d, for d above 0, and where two are nearest the one further from 0
//! abbrev pub nearest_or_further : ℤ → ℕ → ℤ
//! nearest_or_further (pos a) d = pos ((2 * a + d) / (2 * d))
//! nearest_or_further (negsuc a) d = neg_ℤ (pos ((2 * suc a + d) / (2 * d)))
//!
//! -- the greatest that is at most the number, and what the number is above it
//! abbrev pub exact_floor : ℤ → ℕ → ℤ
//! exact_floor a f = units (floor_quotient a (2 ^ f)) f
//!
//! abbrev pub exact_frac : ℤ → ℕ → ℤ
//! exact_frac a f = a -ℤ exact_floor a f
//!
//! -- the least that is at least the number
//! abbrev pub exact_ceil : ℤ → ℕ → ℤ
//! exact_ceil a f = neg_ℤ (exact_floor (neg_ℤ a) f)
//!
//! -- the nearest, and where two are nearest the one further from 0, or the even one
//! abbrev pub exact_round : ℤ → ℕ → ℤ
//! exact_round a f = units (nearest_or_further a (2 ^ f)) f
//!
//! abbrev pub exact_round_ties_even : ℤ → ℕ → ℤ
//! exact_round_ties_even a f = units (rounded a (pos (2 ^ f)) Even) f
//! ```
