// Made by `make package` of crates/fixed_natural/src/laws.rt, which is proved: changes go there.

//! Laws of logarithms and powers. These functions do nothing: the contract of each is the law.

/// The natural logarithm of 1 is exactly 0. Two numbers that both meet the bound for the logarithm of one number differ
/// by at most one unit. On signed words of n bits, each logarithm fits if the range of the word reaches from `-f` to
/// `n - 1 - f`. The decimals of log2 e are right: 2 to the power of the decimal `log2_e` is at most e, and 2 to the
/// power of the next decimal is at least e. For this, e lies between two sums of its series.
///
/// # Proved
///
/// ```text
/// ensures between { (p q : ℕ) → p ≡ log2_e → q ≡ decimals
///     → (2 ^ p * factorial 40 ^ q ≤ e_sum 40 ^ q) × ((e_sum 40 + 1) ^ q ≤ 2 ^ (p + 1) * factorial 40 ^ q) }
/// ensures of_one { (k f : ℕ) (r : ℤ) → 1 ≤ k → IsLn k (pos (2 ^ f)) f r → r ≡ pos 0 }
/// ensures near { (k f : ℕ) (a r s : ℤ) → 1 ≤ k → IsLn k a f r → IsLn k a f s
///     → r ≤ℤ (s +ℤ pos 1) }
/// ensures fits { (k n f : ℕ) (a r : ℤ) → 1 ≤ k → f < n → f * 2 ^ f ≤ 2 ^ (n - 1)
///     → (n - 1 - f) * 2 ^ f < 2 ^ (n - 1) → InRange true n a → pos 0 <ℤ a
///     → IsLn k a f r → InRange true n r }
/// ```
///
/// Definitions: [`InRange`], [`decimals`], [`e_sum`], [`factorial`], [`log2_e`], [`IsLn`].
///
/// [`InRange`]: crate::definitions::word_format
/// [`decimals`]: crate::definitions::natural_bases
/// [`e_sum`]: crate::definitions::natural_bases
/// [`factorial`]: crate::definitions::natural_bases
/// [`log2_e`]: crate::definitions::natural_bases
/// [`IsLn`]: crate::definitions::natural_logs
pub fn ln_law() {}

/// The logarithm of a power of 10 to the base 10 is exact, and so is that of 1, which is 0. Two numbers that both meet
/// the bound for the logarithm of one number differ by at most one unit. On signed words of n bits, each logarithm fits
/// if the range of the word reaches from `-f` to `n - 1 - f`. The decimals of log2 10 are right: it is at least the
/// decimal `log2_10`, and less than the next decimal.
///
/// # Proved
///
/// ```text
/// ensures of_one { (k f : ℕ) (r : ℤ) → 1 ≤ k → IsLog10 k (pos (2 ^ f)) f r → r ≡ pos 0 }
/// ensures of_power { (j k f : ℕ) (r : ℤ) → 1 ≤ k → IsLog10 k (pos (10 ^ j * 2 ^ f)) f r → r ≡ pos (j * 2 ^ f) }
/// ensures between { (p q : ℕ) → p ≡ log2_10 → q ≡ decimals → (2 ^ p ≤ 10 ^ q) × (10 ^ q < 2 ^ (p + 1)) }
/// ensures near { (k f : ℕ) (a r s : ℤ) → 1 ≤ k → IsLog10 k a f r → IsLog10 k a f s
///     → r ≤ℤ (s +ℤ pos 1) }
/// ensures fits { (k n f : ℕ) (a r : ℤ) → 1 ≤ k → f < n → f * 2 ^ f ≤ 2 ^ (n - 1)
///     → (n - 1 - f) * 2 ^ f < 2 ^ (n - 1) → InRange true n a → pos 0 <ℤ a
///     → IsLog10 k a f r → InRange true n r }
/// ```
///
/// Definitions: [`InRange`], [`decimals`], [`log2_10`], [`IsLog10`].
///
/// [`InRange`]: crate::definitions::word_format
/// [`decimals`]: crate::definitions::natural_bases
/// [`log2_10`]: crate::definitions::natural_bases
/// [`IsLog10`]: crate::definitions::natural_logs
pub fn log10_law() {}

/// e to the power of 0 is exactly 1. No power is below 0. With up to 60 fraction bits, e to the power of a number that
/// is not above 0 is at most 1. For a number x that is not below 0, the power is below `2^m` units if x times the
/// decimal `log2_e` is below `m - f` by more than `2^-61`.
///
/// # Proved
///
/// ```text
/// ensures of_zero { (f : ℕ) (r : ℤ) → IsExp (pos 0) f r → r ≡ pos (2 ^ f) }
/// ensures from_zero { (f : ℕ) (a r : ℤ) → IsExp a f r → pos 0 ≤ℤ r }
/// ensures up_to_one { (f : ℕ) (a r : ℤ) → f ≤ 60 → a ≤ℤ pos 0 → IsExp a f r → r ≤ℤ pos (2 ^ f) }
/// ensures below { (m f a : ℕ) (r : ℤ) → (a * log2_e + f * 2 ^ f * decimals) * 2 ^ exp_room
///     + 2 ^ f * decimals < m * 2 ^ f * decimals * 2 ^ exp_room
///     → IsExp (pos a) f r → r <ℤ pos (2 ^ m) }
/// ```
///
/// Definitions: [`decimals`], [`log2_e`], [`exp_room`].
///
/// [`decimals`]: crate::definitions::natural_bases
/// [`log2_e`]: crate::definitions::natural_bases
/// [`exp_room`]: crate::definitions::natural_exps
pub fn exp_law() {}

/// No power is below 0. With up to 54 fraction bits, the power of a number of at most 1 is at most 1 if the exponent is
/// not below 0. If `(n / 2^f)^(2^f) = (a / 2^f)^j` for a whole number n from 1 to `2^54`, the power of `a` units with
/// an exponent of j units, which is not below 0, is exactly n units.
///
/// # Proved
///
/// ```text
/// ensures from_zero { (f : ℕ) (a b r : ℤ) → IsPow a b f r → pos 0 ≤ℤ r }
/// ensures up_to_one { (a j f : ℕ) (r : ℤ) → 0 < a → a ≤ 2 ^ f → f ≤ 54
///     → IsPow (pos a) (pos j) f r → r ≤ℤ pos (2 ^ f) }
/// ensures exact { (a j f n : ℕ) (r : ℤ) → 0 < a → 0 < n → n ≤ 2 ^ 54
///     → n ^ 2 ^ f * 2 ^ (f * j) ≡ a ^ j * 2 ^ (f * 2 ^ f) → IsPow (pos a) (pos j) f r → r ≡ pos n }
/// ```
///
/// Definitions: [`IsPow`].
///
/// [`IsPow`]: crate::definitions::natural_pows
pub fn pow_law() {}
