// Made by `make package` of crates/fixed_logs/src/laws.rt, which is proved: changes go there.

//! Laws of the definitions. These functions do nothing: the contract of each is the law.

/// A positive number has exactly one logarithm to a base of at least 2.
///
/// # Proved
///
/// ```text
/// ensures exists { (a f b : ℕ) → 1 ≤ a → 2 ≤ b → (k : ℤ) × IsLog a f b k }
/// ensures unique { (a f b : ℕ) (k l : ℤ) → 2 ≤ b → IsLog a f b k → IsLog a f b l → k ≡ l }
/// ```
///
/// Definitions: [`IsLog`].
///
/// [`IsLog`]: crate::definitions::logs_logarithm
pub fn log_law() {}

/// The logarithm of a number is that of its whole part if that is not 0. It is also that of the number as a fraction
/// with d more digits.
///
/// # Proved
///
/// ```text
/// ensures of_whole { (a f b : ℕ) (k : ℤ)
///     → 2 ≤ b → 2 ^ f ≤ a → IsLog (a / 2 ^ f) 0 b k → IsLog a f b k }
/// ensures of_raised { (a f d b : ℕ) (k : ℤ) → IsLog (a * 2 ^ d) (f + d) b k → IsLog a f b k }
/// ```
///
/// Definitions: [`IsLog`].
///
/// [`IsLog`]: crate::definitions::logs_logarithm
pub fn log_parts_law() {}
