// Made by `make package` of crates/fixed_num/src/laws.rt, which is proved: changes go there.

//! Laws of the definitions and of the comparisons. These functions do nothing: the contract of each is the law.

use crate::num::format::Fixed;
use crate::word::{Ordered, RawWord};
use core::hash::Hash;

/// If two numbers are moved by the same amount, their mean moves by that amount.
///
/// # Proved
///
/// ```text
/// ensures { (a b t : ℤ) → mean_of (a +ℤ t) (b +ℤ t) ≡ mean_of a b +ℤ t }
/// ```
///
/// Definitions: [`mean_of`].
///
/// [`mean_of`]: crate::definitions::num_sizes
pub fn mean_law() {}

/// Equality, order and hash of numbers of one format are those of their bits as integers.
///
/// # Proved
///
/// ```text
/// ensures equal { IsTrue (⟦<Fixed<T, F> as PartialEq>⟧.eq x y)
///     ↔ (T.value x.bits ≡ T.value y.bits) }
/// ensures order { ⟦<Fixed<T, F> as Ord>⟧.cmp x y ≡ int_cmp (T.value x.bits) (T.value y.bits) }
/// ensures partial_order { ⟦<Fixed<T, F> as PartialOrd>⟧.partial_cmp x y
///     ≡ Some (int_cmp (T.value x.bits) (T.value y.bits)) }
/// ensures hash { ⟦<Fixed<T, F> as Hash>⟧.hash_input x ≡ T.hash_input x.bits }
/// ```
pub fn order_law<T: RawWord + Ordered, const F: u32>(x: Fixed<T, F>, y: Fixed<T, F>) {}

/// A cast to the word of the other sign and back restores the number. (`fixed_bits` has the law that bits and bytes
/// read back give the number.)
///
/// # Proved
///
/// ```text
/// ensures { (s t : Bool) (n : ℕ) (x : ℤ) → IsWidth n → InRange s n x → wrap s n (wrap t n x) ≡ x }
/// ```
///
/// Definitions: [`InRange`], [`IsWidth`], [`wrap`].
///
/// [`InRange`]: crate::definitions::word_format
/// [`IsWidth`]: crate::definitions::word_format
/// [`wrap`]: crate::definitions::word_format
pub fn cast_law() {}
