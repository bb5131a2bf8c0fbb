// Made by `make package` of crates/fixed_elementary/specs/ElementaryRows.antt: changes go there.

//! The exact result of each operation: a whole number of units of the result, of any size.
//! a and b are the operands' bits, and f is the number of their fraction bits.
//!
//! From `crates/fixed_elementary/specs/ElementaryRows.antt`:
//!
//! ```text
//! -- x, if a is above 0: the row of a reciprocal root
//! abbrev pub by_positive : ℤ → ℤ → Option ℤ
//! by_positive (pos zero) x = None
//! by_positive (pos (suc n)) x = Some x
//! by_positive (negsuc n) x = None
//!
//! -- the length of the pair (a, b), rounded down
//! abbrev pub exact_hypot : ℤ → ℤ → ℤ
//! exact_hypot a b = root_of (a *ℤ a +ℤ b *ℤ b) 0
//!
//! -- one over the root of a, rounded down: the root of a quotient, for a above 0
//! abbrev pub exact_recip_sqrt : ℤ → ℕ → ℤ
//! exact_recip_sqrt a f = root_of (pos (2 ^ (3 * f) / unsigned_abs a)) 0
//! ```
