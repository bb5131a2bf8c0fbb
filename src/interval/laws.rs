// Made by `make package` of crates/fixed_interval/src/laws.rt, which is proved: changes go there.

//! Laws of the ends. These functions do nothing: the contract of each is the law.

/// The numbers that are at most a quotient that is rounded down, and those that are at least one that is rounded up. If
/// the divisor is below 0, the order is reversed.
///
/// # Proved
///
/// ```text
/// ensures floor_above { (q x d : ℤ) → pos 0 <ℤ d → (q ≤ℤ floor_over x d) ↔ ((q *ℤ d) ≤ℤ x) }
/// ensures floor_below { (q x d : ℤ) → d <ℤ pos 0 → (q ≤ℤ floor_over x d) ↔ (x ≤ℤ (q *ℤ d)) }
/// ensures ceiling_above { (q x d : ℤ) → pos 0 <ℤ d
///     → (ceiling_over x d ≤ℤ q) ↔ (x ≤ℤ (q *ℤ d)) }
/// ensures ceiling_below { (q x d : ℤ) → d <ℤ pos 0
///     → (ceiling_over x d ≤ℤ q) ↔ ((q *ℤ d) ≤ℤ x) }
/// ```
///
/// Definitions: [`ceiling_over`], [`floor_over`].
///
/// [`ceiling_over`]: crate::definitions::interval_ends
/// [`floor_over`]: crate::definitions::interval_ends
pub fn rounding_law() {}

/// The root that is rounded up is the least number from 0 on whose square is at least the number, and the only such
/// one.
///
/// # Proved
///
/// ```text
/// ensures is { (a : ℤ) (f : ℕ) → pos 0 ≤ℤ a → IsCeilingRoot a f (ceiling_root a f) }
/// ensures unique { (a r s : ℤ) (f : ℕ) → IsCeilingRoot a f r → IsCeilingRoot a f s → r ≡ s }
/// ```
///
/// Definitions: [`ceiling_root`].
///
/// [`ceiling_root`]: crate::definitions::interval_ends
pub fn root_law() {}

/// If each operand is replaced by an interval inside it, the result is still defined and fits, and its ends are within
/// the old ones.
///
/// # Proved
///
/// ```text
/// ensures sum { IsMonotone sum_ends }
/// ensures difference { IsMonotone difference_ends }
/// ensures product { (f : ℕ) → IsMonotone (λ a b. product_ends a b f) }
/// ensures quotient { (f : ℕ) → IsMonotone (λ a b. quotient_ends a b f) }
/// ensures root { (f : ℕ) → IsMonotoneOfOne (λ a. root_ends a f) }
/// ensures negation { IsMonotoneOfOne negation_ends }
/// ensures magnitude { IsMonotoneOfOne magnitude_ends }
/// ensures square { (f : ℕ) → IsMonotoneOfOne (λ a. square_ends a f) }
/// ```
///
/// Definitions: [`difference_ends`], [`magnitude_ends`], [`negation_ends`], [`product_ends`], [`quotient_ends`], [`root_ends`], [`square_ends`], [`sum_ends`], [`IsMonotone`], [`IsMonotoneOfOne`].
///
/// [`difference_ends`]: crate::definitions::interval_ends
/// [`magnitude_ends`]: crate::definitions::interval_ends
/// [`negation_ends`]: crate::definitions::interval_ends
/// [`product_ends`]: crate::definitions::interval_ends
/// [`quotient_ends`]: crate::definitions::interval_ends
/// [`root_ends`]: crate::definitions::interval_ends
/// [`square_ends`]: crate::definitions::interval_ends
/// [`sum_ends`]: crate::definitions::interval_ends
/// [`IsMonotone`]: crate::definitions::interval_containment
/// [`IsMonotoneOfOne`]: crate::definitions::interval_containment
pub fn inclusion_law() {}

/// No narrower interval contains every result of an operation on numbers of two intervals: each interval that contains
/// them all also contains the operation's ends.
///
/// # Proved
///
/// ```text
/// ensures sum { IsTight sum_ends HoldsSums }
/// ensures difference { IsTight difference_ends HoldsDifferences }
/// ensures product { (f : ℕ) → IsTight (λ a b. product_ends a b f) (λ a b r. HoldsProducts a b f r) }
/// ensures quotient { (f : ℕ) → IsTight (λ a b. quotient_ends a b f) (λ a b r. HoldsQuotients a b f r) }
/// ensures root { (f : ℕ) → IsTightOfOne (λ a. root_ends a f) (λ a r. HoldsRoots a f r) }
/// ensures negation { IsTightOfOne negation_ends HoldsNegations }
/// ensures magnitude { IsTightOfOne magnitude_ends HoldsMagnitudes }
/// ensures square { (f : ℕ) → IsTightOfOne (λ a. square_ends a f) (λ a r. HoldsSquares a f r) }
/// ```
///
/// Definitions: [`difference_ends`], [`magnitude_ends`], [`negation_ends`], [`product_ends`], [`quotient_ends`], [`root_ends`], [`square_ends`], [`sum_ends`], [`HoldsDifferences`], [`HoldsMagnitudes`], [`HoldsNegations`], [`HoldsProducts`], [`HoldsQuotients`], [`HoldsRoots`], [`HoldsSquares`], [`HoldsSums`], [`IsTight`], [`IsTightOfOne`].
///
/// [`difference_ends`]: crate::definitions::interval_ends
/// [`magnitude_ends`]: crate::definitions::interval_ends
/// [`negation_ends`]: crate::definitions::interval_ends
/// [`product_ends`]: crate::definitions::interval_ends
/// [`quotient_ends`]: crate::definitions::interval_ends
/// [`root_ends`]: crate::definitions::interval_ends
/// [`square_ends`]: crate::definitions::interval_ends
/// [`sum_ends`]: crate::definitions::interval_ends
/// [`HoldsDifferences`]: crate::definitions::interval_containment
/// [`HoldsMagnitudes`]: crate::definitions::interval_containment
/// [`HoldsNegations`]: crate::definitions::interval_containment
/// [`HoldsProducts`]: crate::definitions::interval_containment
/// [`HoldsQuotients`]: crate::definitions::interval_containment
/// [`HoldsRoots`]: crate::definitions::interval_containment
/// [`HoldsSquares`]: crate::definitions::interval_containment
/// [`HoldsSums`]: crate::definitions::interval_containment
/// [`IsTight`]: crate::definitions::interval_containment
/// [`IsTightOfOne`]: crate::definitions::interval_containment
pub fn tightness_law() {}

/// A piece is read as a header, or as a line, exactly if it is the text of that.
///
/// # Proved
///
/// ```text
/// ensures headers { IsReader header_text header_of }
/// ensures lines { IsReader line_text line_of }
/// ```
///
/// Definitions: [`header_of`], [`line_of`], [`header_text`], [`line_text`].
///
/// [`header_of`]: crate::definitions::interval_lines
/// [`line_of`]: crate::definitions::interval_lines
/// [`header_text`]: crate::definitions::interval_text
/// [`line_text`]: crate::definitions::interval_text
pub fn text_law() {}
