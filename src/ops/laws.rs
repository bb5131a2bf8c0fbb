// Made by `make package` of crates/fixed_ops/src/laws.rt, which is proved: changes go there.

//! Laws of the definitions. These functions do nothing: the contract of each is the law.

/// Each partial result of a walk fits if and only if the fold over each prefix of the list fits.
///
/// # Proved
///
/// ```text
/// ensures { (s : Bool) (n : ℕ) (step : ℤ → ℤ → ℤ) (from : ℤ) (xs : List ℤ)
///     → EachFits s n step from xs
///     ↔ ((k : ℕ) → 0 < k → k ≤ length xs → InRange s n (fold step from (take k xs))) }
/// ```
///
/// Definitions: [`InRange`], [`EachFits`].
///
/// [`InRange`]: crate::definitions::word_format
/// [`EachFits`]: crate::definitions::ops_folds
pub fn fold_law() {}
