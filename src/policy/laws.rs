// Made by `make package` of crates/fixed_policy/src/laws.rt, which is proved: changes go there.

//! Laws of the definitions. These functions do nothing: each contract is the law.

/// If products are shifted right by s, each pair loses less than one unit of the accumulator. If they are shifted
/// left, nothing is lost.
///
/// # Proved
///
/// ```text
/// ensures from_zero { (s : ℕ) (acc : ℤ) (ps : List (ℤ × ℤ)) → pos 0 ≤ℤ loss s acc ps }
/// ensures at_most { (s : ℕ) (acc : ℤ) (ps : List (ℤ × ℤ))
///     → loss s acc ps ≤ℤ pos (length ps * (2 ^ s - 1)) }
/// ensures exact { (t : ℕ) (acc : ℤ) (ps : List (ℤ × ℤ))
///     → dot (negsuc t) acc ps ≡ acc +ℤ products ps *ℤ pos (2 ^ suc t) }
/// ```
///
/// Definitions: [`dot`], [`loss`], [`products`].
///
/// [`dot`]: crate::definitions::policy_dot_product
/// [`loss`]: crate::definitions::policy_dot_product
/// [`products`]: crate::definitions::policy_dot_product
pub fn loss_law() {}

/// The wrapped accumulator of a list of pairs does not depend on their order.
///
/// # Proved
///
/// ```text
/// ensures { (signed : Bool) (n : ℕ) (s acc : ℤ) (xs ys : List (ℤ × ℤ)) → IsWidth n
///     → IsPermutation xs ys → wrapped_dot signed n s acc xs ≡ wrapped_dot signed n s acc ys }
/// ```
///
/// Definitions: [`IsWidth`], [`wrapped_dot`].
///
/// [`IsWidth`]: crate::definitions::word_format
/// [`wrapped_dot`]: crate::definitions::policy_dot_product
pub fn order_law() {}
