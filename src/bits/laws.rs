// Made by `make package` of crates/fixed_bits/src/laws.rt, which is proved: changes go there.

//! Laws of the definitions. These functions do nothing: the contract of each is the law.

/// The bit list is the only list of n digits 0 or 1 for the value modulo `2^n`. The byte list is the only list of n/8
/// digits from 0 to 255 for it.
///
/// # Proved
///
/// ```text
/// ensures bits { (n : ℕ) (a : ℤ) → IsWidth n → IsDigitList 2 n a (bit_list n a) }
/// ensures only_bits { (n : ℕ) (a : ℤ) (ds : List ℕ)
///     → IsWidth n → IsDigitList 2 n a ds → bit_list n a ≡ ds }
/// ensures bytes { (n : ℕ) (a : ℤ) → IsWidth n → IsDigitList 256 (n / 8) a (byte_list n a) }
/// ensures only_bytes { (n : ℕ) (a : ℤ) (ds : List ℕ) → IsWidth n → IsDigitList 256 (n / 8) a ds
///     → byte_list n a ≡ ds }
/// ```
///
/// Definitions: [`IsWidth`], [`bit_list`], [`byte_list`].
///
/// [`IsWidth`]: crate::definitions::word_format
/// [`bit_list`]: crate::definitions::bits_digits
/// [`byte_list`]: crate::definitions::bits_digits
pub fn list_law() {}

/// Of the numbers that fit, only one has a given bit list, and only one a given byte list. So bits and bytes that are
/// read back restore the number.
///
/// # Proved
///
/// ```text
/// ensures bits { (signed : Bool) (n : ℕ) (x y : ℤ)
///     → IsWidth n → InRange signed n x → InRange signed n y
///     → bit_list n x ≡ bit_list n y → x ≡ y }
/// ensures bytes { (signed : Bool) (n : ℕ) (x y : ℤ)
///     → IsWidth n → InRange signed n x → InRange signed n y
///     → byte_list n x ≡ byte_list n y → x ≡ y }
/// ```
///
/// Definitions: [`InRange`], [`IsWidth`], [`bit_list`], [`byte_list`].
///
/// [`InRange`]: crate::definitions::word_format
/// [`IsWidth`]: crate::definitions::word_format
/// [`bit_list`]: crate::definitions::bits_digits
/// [`byte_list`]: crate::definitions::bits_digits
pub fn read_back_law() {}
