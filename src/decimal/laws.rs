// Made by `make package` of crates/fixed_decimal/src/laws.rt, which is proved: changes go there.

//! Laws of the definitions. These functions do nothing: the contract of each is the law.

/// A decimal is read as its number, rounded as named: down, toward zero, or to the nearest, ties to even. If it is read
/// as exact, the result is the number itself.
///
/// # Proved
///
/// ```text
/// ensures rounded { (f : ℕ) (r : Rounding) (text : List ℕ) → fault_in text ≡ None
///     → (a : ℤ) × (decimal_row text f r ≡ Ok a)
///     × IsRounded (number_in text *ℤ pos (2 ^ f)) (pos (10 ^ places_in (without_leading_sign text))) r a }
/// ensures exact { (a : ℤ) (f : ℕ) (text : List ℕ) → exact_row text f ≡ Ok a
///     → a *ℤ pos (10 ^ places_in (without_leading_sign text)) ≡ number_in text *ℤ pos (2 ^ f) }
/// ```
///
/// Definitions: [`IsRounded`], [`decimal_row`], [`exact_row`], [`fault_in`], [`number_in`], [`places_in`].
///
/// [`IsRounded`]: crate::definitions::kernel_rounded
/// [`decimal_row`]: crate::definitions::decimal_decimal
/// [`exact_row`]: crate::definitions::decimal_decimal
/// [`fault_in`]: crate::definitions::decimal_decimal
/// [`number_in`]: crate::definitions::decimal_decimal
/// [`places_in`]: crate::definitions::decimal_decimal
pub fn reading_law() {}

/// If the text of a number is exact, it is read as the number, with each rounding. A text with at least as many digits
/// after the point as the format has fraction bits is exact. The shortest text is read as the number, to the nearest,
/// ties to even; no decimal with fewer digits after the point is. A rounded text is at least as near to the number as
/// any decimal with as many digits after the point. Up to 64 fraction bits, `shortest` returns how many digits after
/// the point the shortest text has.
///
/// # Proved
///
/// ```text
/// ensures exact { (a : ℤ) (f p : ℕ) (r s : Rounding) → IsExactAt a f p
///     → decimal_row (text_of a f p r) f s ≡ Ok a }
/// ensures enough { (a : ℤ) (f p : ℕ) → f ≤ p → IsExactAt a f p }
/// ensures shortest { (a : ℤ) (f p : ℕ) → IsLeast (ReadsBack a f) p
///     → decimal_row (text_of a f p Even) f Even ≡ Ok a }
/// ensures fewest { (a : ℤ) (f p : ℕ) (text : List ℕ) → IsLeast (ReadsBack a f) p
///     → decimal_row text f Even ≡ Ok a → p ≤ places_in (without_leading_sign text) }
/// ensures found { (a : ℤ) (f : ℕ) → f ≤ 64 → IsLeast (ReadsBack a f) (shortest a f) }
/// ensures nearest { (a n : ℤ) (f p : ℕ)
///     → nat_abs (a *ℤ pos (10 ^ p) -ℤ to_places a f p Even *ℤ pos (2 ^ f))
///     ≤ nat_abs (a *ℤ pos (10 ^ p) -ℤ n *ℤ pos (2 ^ f)) }
/// ```
///
/// Definitions: [`decimal_row`], [`places_in`], [`IsExactAt`], [`ReadsBack`], [`shortest`], [`text_of`], [`to_places`].
///
/// [`decimal_row`]: crate::definitions::decimal_decimal
/// [`places_in`]: crate::definitions::decimal_decimal
/// [`IsExactAt`]: crate::definitions::decimal_text
/// [`ReadsBack`]: crate::definitions::decimal_text
/// [`shortest`]: crate::definitions::decimal_text
/// [`text_of`]: crate::definitions::decimal_text
/// [`to_places`]: crate::definitions::decimal_text
pub fn text_law() {}
