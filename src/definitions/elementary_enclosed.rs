// Made by `make package` of crates/fixed_elementary/specs/Enclosed.antt: changes go there.

//! Logarithms with more digits than a word has.
//!
//! From `crates/fixed_elementary/specs/Enclosed.antt`:
//!
//! ```text
//! -- s and s + 2 enclose the logarithm of a to the base 2, in units of 2^-h
//! pub record IsEnclosed (a h s : ℕ) : Type 0 where
//!   pub below : 2 ^ s ≤ a ^ 2 ^ h
//!   pub above : a ^ 2 ^ h < 2 ^ (s + 2)
//!   pub digits : s + 1 ≤ 64 * 2 ^ h
//! ```
