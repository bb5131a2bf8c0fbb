// Made by `make package` of crates/fixed_elementary/src/laws.rt, which is proved: changes go there.

//! Laws of the exact results: what each one is, and where it is simple. These functions do nothing: the contract of
//! each is the law.

/// The length is the root of the sum of the squares, rounded down. It is the same if the operands are exchanged. If one
/// operand is 0, it is the magnitude of the other. The length does not fall if the magnitude of an operand grows.
///
/// # Proved
///
/// ```text
/// ensures is_root { (a b : ℤ) → IsRoot (a *ℤ a +ℤ b *ℤ b) 0 (exact_hypot a b) }
/// ensures exchanged { (a b : ℤ) → exact_hypot a b ≡ exact_hypot b a }
/// ensures on_axis { (a : ℤ) → exact_hypot a (pos 0) ≡ pos (unsigned_abs a) }
/// ensures monotone { (a b c : ℤ) → unsigned_abs a ≤ unsigned_abs c → exact_hypot a b ≤ℤ exact_hypot c b }
/// ```
///
/// Definitions: [`exact_hypot`].
///
/// [`exact_hypot`]: crate::definitions::elementary_elementary_rows
pub fn hypot_law() {}

/// The reciprocal root of an a above 0 is an r with `r^2 a <= 2^(3f) < (r+1)^2 a`, and the only one from 0 on. A
/// greater number has no greater reciprocal root.
///
/// # Proved
///
/// ```text
/// ensures is_recip_root { (a : ℤ) (f : ℕ) → pos 0 <ℤ a → IsRecipRoot a f (exact_recip_sqrt a f) }
/// ensures unique { (a r s : ℤ) (f : ℕ) → IsRecipRoot a f r → IsRecipRoot a f s → r ≡ s }
/// ensures monotone { (a b r s : ℤ) (f : ℕ) → a ≤ℤ b → IsRecipRoot a f r → IsRecipRoot b f s → s ≤ℤ r }
/// ```
///
/// Definitions: [`exact_recip_sqrt`].
///
/// [`exact_recip_sqrt`]: crate::definitions::elementary_elementary_rows
pub fn recip_sqrt_law() {}

/// The logarithm of a power of two is exact: that of `2^j` units is `j - f`. Two numbers that both meet the bound for
/// the logarithm of one number differ by at most one unit, and the logarithm of a greater number is at most one unit
/// less. On signed words of n bits, each logarithm fits if the range of the word reaches from `-f` to `n - 1 - f`.
///
/// # Proved
///
/// ```text
/// ensures exact { (room j f : ℕ) (r : ℤ) → IsLog2Of room (pos (2 ^ j)) f r
///     → r ≡ pos (j * 2 ^ f) -ℤ pos (f * 2 ^ f) }
/// ensures near { (room f : ℕ) (a r s : ℤ) → f ≤ room → IsLog2Of room a f r → IsLog2Of room a f s
///     → r ≤ℤ (s +ℤ pos 1) }
/// ensures monotone { (room f : ℕ) (a b r s : ℤ) → f ≤ room → pos 0 <ℤ a → a ≤ℤ b
///     → IsLog2Of room a f r → IsLog2Of room b f s → r ≤ℤ (s +ℤ pos 1) }
/// ensures fits { (room n f : ℕ) (a r : ℤ) → f ≤ room → f < n → f * 2 ^ f ≤ 2 ^ (n - 1)
///     → (n - 1 - f) * 2 ^ f < 2 ^ (n - 1) → InRange true n a → pos 0 <ℤ a
///     → IsLog2Of room a f r → InRange true n r }
/// ```
///
/// Definitions: [`InRange`].
///
/// [`InRange`]: crate::definitions::word_format
pub fn log2_law() {}

/// 2 to the power of the whole number `j - f`, for j from 0 on, is exactly `2^j` units. No power is below 0, and one
/// whose exponent is below `m - f` is below `2^m` units. A power with a greater exponent is at most one unit less, if it
/// is below `2^k` units for a k of its bound. 2 to the power of the logarithm of a number is at most that number. If f is
/// above 0, a unit more than the power, times `1 + 2^-f`, is above the number. By powers, so is a unit more than the
/// power, times `2^((1 + 2^-k) / 2^f + 2^-j)`, for each k of the logarithm's bound and each j of the power's.
///
/// # Proved
///
/// ```text
/// ensures exact { (room j f : ℕ) (a r : ℤ) → a +ℤ pos (f * 2 ^ f) ≡ pos (j * 2 ^ f)
///     → IsExp2Of room a f r → r ≡ pos (2 ^ j) }
/// ensures from_zero { (room f : ℕ) (a r : ℤ) → IsExp2Of room a f r → pos 0 ≤ℤ r }
/// ensures below { (room m f : ℕ) (a r : ℤ) → (a +ℤ pos (f * 2 ^ f)) <ℤ pos (m * 2 ^ f)
///     → IsExp2Of room a f r → r <ℤ pos (2 ^ m) }
/// ensures monotone { (room k f : ℕ) (a b r s : ℤ) → k ≤ room → a ≤ℤ b
///     → IsExp2Of room a f r → IsExp2Of room b f s → s <ℤ pos (2 ^ k) → r ≤ℤ (s +ℤ pos 1) }
/// ensures of_log2 { (log exp f : ℕ) (a r s : ℤ) → f ≤ log → pos 0 <ℤ a
///     → IsLog2Of log a f r → IsExp2Of exp r f s → s ≤ℤ a }
/// ensures near_log2 { (log exp f : ℕ) (a r s : ℤ) → 0 < f → f + 4 ≤ log → f + 4 ≤ exp
///     → IsLog2Of log a f r → IsExp2Of exp r f s
///     → (a *ℤ pos (2 ^ f)) <ℤ ((s +ℤ pos 1) *ℤ pos (2 ^ f + 1)) }
/// ensures near_log2_powers { (log exp f k j : ℕ) (a r s : ℤ) → f + k ≤ log → j ≤ exp
///     → IsLog2Of log a f r → IsExp2Of exp r f s
///     → unsigned_abs a ^ (2 ^ f * 2 ^ k * 2 ^ j)
///     < (unsigned_abs s + 1) ^ (2 ^ f * 2 ^ k * 2 ^ j) * 2 ^ ((2 ^ k + 1) * 2 ^ j + 2 ^ f * 2 ^ k) }
/// ```
///
/// Definitions: [`IsExp2Of`].
///
/// [`IsExp2Of`]: crate::definitions::elementary_exp2
pub fn exp2_law() {}
