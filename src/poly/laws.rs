// Made by `make package` of crates/fixed_poly/src/laws.rt, which is proved: changes go there.

//! Laws of the definitions. These functions do nothing: the contract of each is the law.

/// The value of a constant polynomial is exact. For x from 0 to 1, a value lies at or below the exact one. If the
/// degree k is at least 1, it does so by at most `k (2^f - 1) 2^(f (k - 1))` units of the exact value, which are
/// `2^-(f (k + 1))`. This is less than k units of the format.
///
/// # Proved
///
/// ```text
/// ensures constant { (signed : Bool) (n f : ℕ) (x v : ℤ) (coefs : List ℤ)
///     → horner_reply signed n f x coefs ≡ Value v → degree coefs ≡ 0
///     → exact_polynomial x f coefs ≡ v }
/// ensures from_zero { (signed : Bool) (n f : ℕ) (x v : ℤ) (coefs : List ℤ)
///     → horner_reply signed n f x coefs ≡ Value v → pos 0 ≤ℤ x → x ≤ℤ pos (2 ^ f)
///     → pos 0 ≤ℤ shortfall x f coefs v }
/// ensures at_most { (signed : Bool) (n f : ℕ) (x v : ℤ) (coefs : List ℤ)
///     → horner_reply signed n f x coefs ≡ Value v → pos 0 ≤ℤ x → x ≤ℤ pos (2 ^ f)
///     → 0 < degree coefs → shortfall x f coefs v
///     ≤ℤ pos (degree coefs * (2 ^ f - 1) * 2 ^ (f * (degree coefs - 1))) }
/// ensures below_units { (signed : Bool) (n f : ℕ) (x v : ℤ) (coefs : List ℤ)
///     → horner_reply signed n f x coefs ≡ Value v → pos 0 ≤ℤ x → x ≤ℤ pos (2 ^ f)
///     → 0 < degree coefs
///     → shortfall x f coefs v <ℤ pos (degree coefs * 2 ^ (f * degree coefs)) }
/// ```
///
/// Definitions: [`horner_reply`], [`degree`], [`exact_polynomial`], [`shortfall`].
///
/// [`horner_reply`]: crate::definitions::poly_horner
/// [`degree`]: crate::definitions::poly_exact
/// [`exact_polynomial`]: crate::definitions::poly_exact
/// [`shortfall`]: crate::definitions::poly_exact
pub fn bound_law() {}

/// For a signed word and x from 0 to 1, no step overflows if the sum of the magnitudes of all coefficients is at most
/// the largest number.
///
/// # Proved
///
/// ```text
/// ensures { (n f : ℕ) (x : ℤ) (coefs : List ℤ) → pos 0 ≤ℤ x → x ≤ℤ pos (2 ^ f)
///     → pos (magnitudes coefs) ≤ℤ highest true n
///     → horner_reply true n f x coefs ≡ Value (value_at x f coefs 0) }
/// ```
///
/// Definitions: [`highest`], [`horner_reply`], [`value_at`], [`magnitudes`].
///
/// [`highest`]: crate::definitions::word_format
/// [`horner_reply`]: crate::definitions::poly_horner
/// [`value_at`]: crate::definitions::poly_horner
/// [`magnitudes`]: crate::definitions::poly_exact
pub fn fitting_law() {}

/// Reading a piece as a header, or as a line, returns the one whose text the piece is, and nothing if there is none.
///
/// # Proved
///
/// ```text
/// ensures headers { IsReader header_text header_of }
/// ensures lines { IsReader line_text line_of }
/// ```
///
/// Definitions: [`header_of`], [`line_of`], [`header_text`], [`line_text`].
///
/// [`header_of`]: crate::definitions::poly_lines
/// [`line_of`]: crate::definitions::poly_lines
/// [`header_text`]: crate::definitions::poly_text
/// [`line_text`]: crate::definitions::poly_text
pub fn text_law() {}
