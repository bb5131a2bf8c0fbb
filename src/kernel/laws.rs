// Made by `make package` of crates/fixed_kernel/src/laws.rt, which is proved: changes go there.

//! Laws of the exact results: which of them fit, which operations have none and when, and what multiples, powers and
//! whole numbers are. These functions do nothing: the contract of each is the law.
//!
//! A number of the format is an integer in the range of its word. In contracts, n is the width and f the number of
//! fraction bits.

/// The results of `rem`, `rem_int` and `rem_euclid` fit every word, even if the integer of `rem_int` in units is out
/// of range. A Euclidean remainder is at least 0 and below the magnitude of its divisor. (`rem_euclid_int` fits
/// unsigned words.)
///
/// # Proved
///
/// ```text
/// ensures rem { (s : Bool) (n : ℕ) (a b : ℤ) → InRange s n a → b ≢ pos 0
///     → InRange s n (exact_rem a b) }
/// ensures rem_int { (s : Bool) (n f : ℕ) (a k : ℤ) → InRange s n a → k ≢ pos 0
///     → InRange s n (exact_rem a (units k f)) }
/// ensures rem_euclid { (s : Bool) (n : ℕ) (a b : ℤ) → InRange s n b → b ≢ pos 0
///     → InRange s n (euclidean_remainder a b) }
/// ensures from_zero { (a b : ℤ) → b ≢ pos 0 → pos 0 ≤ℤ euclidean_remainder a b }
/// ensures small { (a b : ℤ) → b ≢ pos 0 → euclidean_remainder a b <ℤ pos (unsigned_abs b) }
/// ```
///
/// Definitions: [`InRange`], [`euclidean_remainder`], [`exact_rem`], [`units`].
///
/// [`InRange`]: crate::definitions::word_format
/// [`euclidean_remainder`]: crate::definitions::word_quotient
/// [`exact_rem`]: crate::definitions::kernel_rows
/// [`units`]: crate::definitions::kernel_rows
pub fn remainder_law() {}

/// For unsigned words, distances, roots, and quotients and remainders by an integer fit.
///
/// # Proved
///
/// ```text
/// ensures sqrt { (n f : ℕ) (a : ℤ)
///     → f ≤ n → InRange false n a → InRange false n (root_of a f) }
/// ensures dist { (n : ℕ) (a b : ℤ) → InRange false n a → InRange false n b
///     → InRange false n (exact_abs (a -ℤ b)) }
/// ensures div_int { (n : ℕ) (a k : ℤ) → InRange false n a → InRange false n k → k ≢ pos 0
///     → InRange false n (truncated_quotient a k) }
/// ensures div_euclid_int { (n f : ℕ) (a k : ℤ) → InRange false n a → InRange false n k
///     → k ≢ pos 0 → InRange false n (exact_div_euclid a (units k f) f) }
/// ensures rem_euclid_int { (n f : ℕ) (a k : ℤ) → InRange false n a → k ≢ pos 0
///     → InRange false n (euclidean_remainder a (units k f)) }
/// ```
///
/// Definitions: [`InRange`], [`euclidean_remainder`], [`truncated_quotient`], [`root_of`], [`exact_abs`], [`exact_div_euclid`], [`units`].
///
/// [`InRange`]: crate::definitions::word_format
/// [`euclidean_remainder`]: crate::definitions::word_quotient
/// [`truncated_quotient`]: crate::definitions::word_quotient
/// [`root_of`]: crate::definitions::root_root
/// [`exact_abs`]: crate::definitions::kernel_rows
/// [`exact_div_euclid`]: crate::definitions::kernel_rows
/// [`units`]: crate::definitions::kernel_rows
pub fn unsigned_law() {}

/// For signed words, these results do not fit at the named operands alone.
///
/// # Proved
///
/// ```text
/// ensures neg { (n : ℕ) (a : ℤ) → InRange true n a
///     → Misses true n (neg_ℤ a) ↔ (a ≡ lowest true n) }
/// ensures abs { (n : ℕ) (a : ℤ) → InRange true n a
///     → Misses true n (exact_abs a) ↔ (a ≡ lowest true n) }
/// ensures div_int { (n : ℕ) (a k : ℤ) → InRange true n a → k ≢ pos 0
///     → Misses true n (truncated_quotient a k) ↔ ((a ≡ lowest true n) × (k ≡ negsuc 0)) }
/// ensures signum { (n f : ℕ) (a : ℤ) → IsWidth n → f ≤ n
///     → Misses true n (exact_signum a f)
///     ↔ (((f ≡ n) × (a ≢ pos 0)) ⊎ ((f ≡ n - 1) × (pos 0 <ℤ a))) }
/// ensures sqrt { (n f : ℕ) (a : ℤ) → IsWidth n → f ≤ n → InRange true n a → pos 0 ≤ℤ a
///     → Misses true n (root_of a f) ↔ ((f ≡ n) × (pos (2 ^ (n - 2)) ≤ℤ a)) }
/// ```
///
/// Definitions: [`InRange`], [`IsWidth`], [`lowest`], [`truncated_quotient`], [`root_of`], [`Misses`], [`exact_abs`], [`exact_signum`].
///
/// [`InRange`]: crate::definitions::word_format
/// [`IsWidth`]: crate::definitions::word_format
/// [`lowest`]: crate::definitions::word_format
/// [`truncated_quotient`]: crate::definitions::word_quotient
/// [`root_of`]: crate::definitions::root_root
/// [`Misses`]: crate::definitions::kernel_row_laws
/// [`exact_abs`]: crate::definitions::kernel_rows
/// [`exact_signum`]: crate::definitions::kernel_rows
pub fn signed_law() {}

/// If there are no fraction bits, numbers behave as integers.
///
/// # Proved
///
/// ```text
/// ensures mul { (a b : ℤ) → exact_mul a b 0 ≡ a *ℤ b }
/// ensures div { (a b : ℤ) → exact_div a b 0 ≡ truncated_quotient a b }
/// ensures div_euclid { (a b : ℤ) → exact_div_euclid a b 0 ≡ euclidean_quotient a b }
/// ensures rem_int { (a k : ℤ) → exact_rem a (units k 0) ≡ exact_rem a k }
/// ensures div_euclid_int { (a k : ℤ) → exact_div_euclid a (units k 0) 0 ≡ exact_div_euclid a k 0 }
/// ensures rem_euclid_int { (a k : ℤ) → euclidean_remainder a (units k 0) ≡ euclidean_remainder a k }
/// ```
///
/// Definitions: [`euclidean_quotient`], [`euclidean_remainder`], [`truncated_quotient`], [`exact_div`], [`exact_div_euclid`], [`exact_mul`], [`exact_rem`], [`units`].
///
/// [`euclidean_quotient`]: crate::definitions::word_quotient
/// [`euclidean_remainder`]: crate::definitions::word_quotient
/// [`truncated_quotient`]: crate::definitions::word_quotient
/// [`exact_div`]: crate::definitions::kernel_rows
/// [`exact_div_euclid`]: crate::definitions::kernel_rows
/// [`exact_mul`]: crate::definitions::kernel_rows
/// [`exact_rem`]: crate::definitions::kernel_rows
/// [`units`]: crate::definitions::kernel_rows
pub fn integer_law() {}

/// The next multiple of a positive b is the smallest one that is at least a, and of a negative b the largest one that
/// is at most a. No other number is the next multiple.
///
/// # Proved
///
/// ```text
/// ensures is { (a b : ℤ) → b ≢ pos 0 → IsNextMultiple a b (exact_next_multiple_of a b) }
/// ensures unique { (a b m : ℤ) → b ≢ pos 0 → IsNextMultiple a b m
///     → exact_next_multiple_of a b ≡ m }
/// ```
///
/// Definitions: [`exact_next_multiple_of`].
///
/// [`exact_next_multiple_of`]: crate::definitions::kernel_rows
pub fn multiple_law() {}

/// The next power of two is the smallest one that is at least a.
///
/// # Proved
///
/// ```text
/// ensures { (a : ℤ) → pos 0 ≤ℤ a → IsNextPower a (exact_next_power_of_two a) }
/// ```
///
/// Definitions: [`exact_next_power_of_two`].
///
/// [`exact_next_power_of_two`]: crate::definitions::kernel_rows
pub fn power_law() {}

/// An operation with a divisor has no exact result if and only if the divisor is 0. A root has none if and only if
/// its operand is negative.
///
/// # Proved
///
/// ```text
/// ensures divisor { (d x : ℤ) → IsOffZero d x (by_divisor d x) }
/// ensures sign { (a x : ℤ) → IsFromZero a x (by_sign a x) }
/// ```
///
/// Definitions: [`IsFromZero`], [`IsOffZero`], [`by_divisor`], [`by_sign`].
///
/// [`IsFromZero`]: crate::definitions::kernel_row_laws
/// [`IsOffZero`]: crate::definitions::kernel_row_laws
/// [`by_divisor`]: crate::definitions::kernel_rows
/// [`by_sign`]: crate::definitions::kernel_rows
pub fn row_law() {}

/// The rounded quotient meets the equation of its rounding, and no other number does.
///
/// # Proved
///
/// ```text
/// ensures is { (x d : ℤ) (r : Rounding) → d ≢ pos 0 → IsRounded x d r (rounded x d r) }
/// ensures unique { (x d q : ℤ) (r : Rounding) → d ≢ pos 0 → IsRounded x d r q
///     → rounded x d r ≡ q }
/// ```
///
/// Definitions: [`IsRounded`], [`rounded`].
///
/// [`IsRounded`]: crate::definitions::kernel_rounded
/// [`rounded`]: crate::definitions::kernel_rounded
pub fn rounded_law() {}

/// Without a named rounding, products are rounded down and quotients toward zero.
///
/// # Proved
///
/// ```text
/// ensures mul { (a b : ℤ) (f : ℕ) → rounded_mul a b f Down ≡ exact_mul a b f }
/// ensures div { (a b : ℤ) (f : ℕ) → rounded_div a b f Zero ≡ exact_div a b f }
/// ensures recip { (a : ℤ) (f : ℕ) → rounded_recip a f Zero ≡ exact_recip a f }
/// ensures mul_add { (a m c : ℤ) (g : ℕ)
///     → rounded_mul_add a m c g Down ≡ exact_mul_add a m c g }
/// ensures add_prod { (c a b : ℤ) (f g h : ℕ)
///     → rounded_add_prod c a b f g h Down ≡ exact_add_prod c a b f g h }
/// ensures div_int { (a k : ℤ) → rounded a k Zero ≡ truncated_quotient a k }
/// ```
///
/// Definitions: [`truncated_quotient`], [`rounded`], [`rounded_add_prod`], [`rounded_div`], [`rounded_mul`], [`rounded_mul_add`], [`rounded_recip`], [`exact_add_prod`], [`exact_div`], [`exact_mul`], [`exact_mul_add`], [`exact_recip`].
///
/// [`truncated_quotient`]: crate::definitions::word_quotient
/// [`rounded`]: crate::definitions::kernel_rounded
/// [`rounded_add_prod`]: crate::definitions::kernel_rounded_rows
/// [`rounded_div`]: crate::definitions::kernel_rounded_rows
/// [`rounded_mul`]: crate::definitions::kernel_rounded_rows
/// [`rounded_mul_add`]: crate::definitions::kernel_rounded_rows
/// [`rounded_recip`]: crate::definitions::kernel_rounded_rows
/// [`exact_add_prod`]: crate::definitions::kernel_rows
/// [`exact_div`]: crate::definitions::kernel_rows
/// [`exact_mul`]: crate::definitions::kernel_rows
/// [`exact_mul_add`]: crate::definitions::kernel_rows
/// [`exact_recip`]: crate::definitions::kernel_rows
pub fn default_law() {}
