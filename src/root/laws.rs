// Made by `make package` of crates/fixed_root/src/laws.rt, which is proved: changes go there.

//! The law of the definition of the root: the contract is the law.

/// The computed root is the root, and no other number is.
///
/// # Proved
///
/// ```text
/// ensures is_root { (a : ℤ) (f : ℕ) → pos 0 ≤ℤ a → IsRoot a f (root_of a f) }
/// ensures unique { (a r s : ℤ) (f : ℕ) → IsRoot a f r → IsRoot a f s → r ≡ s }
/// ```
///
/// Definitions: [`root_of`].
///
/// [`root_of`]: crate::definitions::root_root
pub fn root_law() {}
