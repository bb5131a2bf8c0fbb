//! What Rust expects between types: `==` and `<` of numbers of two words and of numbers and integers, `From` where no
//! bit is lost, and `TryFrom` elsewhere. Nothing here is proved: each call forwards to a proved one.

use crate::{Castable, Fixed, FromNum, Numeric, Order, ToFloat};
use core::cmp::Ordering;
use core::error::Error;
use core::fmt;

mod words;

/// Two words that differ.
pub trait Distinct {}

/// A word, and another that holds its numbers with at least one fraction bit.
pub trait Narrower {}

/// Why `try_from` fails: it returns the same number in another type, and never rounds.
///
/// ```
/// use zugyelmas::{ConversionError, FixedI8, FixedI32};
///
/// let number = FixedI32::<16>::from_bits(98304); // 1.5
/// assert_eq!(i64::try_from(number), Err(ConversionError::Inexact));
/// assert_eq!(FixedI8::<4>::try_from(number), Ok(FixedI8::from_bits(24))); // 1.5
/// assert_eq!(FixedI8::<7>::try_from(number), Err(ConversionError::Overflow));
/// assert_eq!(ConversionError::Overflow.to_string(), "the number does not fit");
/// ```
#[derive(Clone, Copy, PartialEq, Eq, Hash, Debug)]
pub enum ConversionError {
    /// The number is too large or too small for the type.
    Overflow,
    /// The number needs more fraction bits than the type has.
    Inexact,
}

impl fmt::Display for ConversionError {
    fn fmt(&self, formatter: &mut fmt::Formatter<'_>) -> fmt::Result {
        formatter.write_str(match self {
            ConversionError::Overflow => "the number does not fit",
            ConversionError::Inexact => "the number needs more fraction bits",
        })
    }
}

impl Error for ConversionError {}

/// The same number in another type; fails if the type does not have it.
#[inline]
fn exact<S: Numeric, N: Numeric>(source: S) -> Result<N, ConversionError> {
    let rounded = N::checked_from_num(source).ok_or(ConversionError::Overflow)?;
    if rounded.equals(source) {
        Ok(rounded)
    } else {
        Err(ConversionError::Inexact)
    }
}

/// Whether a word with `to` fraction bits holds every number of a word with `from` fraction bits.
const fn holds<S: Castable, T: Castable>(from: u32, to: u32) -> bool {
    let sign = (T::SIGNED && !S::SIGNED) as u64;
    let (up, has) = (
        S::BITS as u64 + sign + to as u64,
        T::BITS as u64 + from as u64,
    );
    from <= to && up <= has && (T::SIGNED || !S::SIGNED)
}

/// Whether the numbers are the same.
///
/// The operators compare numbers of two words, or a number and an integer. Numbers of one word and two fractions are
/// compared by [`Order`], since an operator would make `number == FixedI32::from_bits(1)` ambiguous.
///
/// ```
/// use zugyelmas::prelude::*;
///
/// let gain = FixedI32::<16>::from_num(1.5); // 98304 units of 1/65536
/// assert!(gain == FixedI16::<8>::from_num(1.5)); // 384 units of 1/256
/// assert!(gain < 2 && gain > FixedU8::<8>::MAX); // 255/256
/// assert!(gain.equals(FixedI32::<8>::from_num(1.5)));
/// ```
impl<T: Castable, U: Castable, const F: u32, const G: u32> PartialEq<Fixed<U, G>> for Fixed<T, F>
where
    (T, U): Distinct,
{
    #[inline]
    fn eq(&self, other: &Fixed<U, G>) -> bool {
        self.equals(*other)
    }
}

/// The order of the numbers.
impl<T: Castable, U: Castable, const F: u32, const G: u32> PartialOrd<Fixed<U, G>> for Fixed<T, F>
where
    (T, U): Distinct,
{
    #[inline]
    fn partial_cmp(&self, other: &Fixed<U, G>) -> Option<Ordering> {
        Some(self.compare(*other))
    }
}

/// The same number. If the format does not hold every number of the source's, it is a compile error.
///
/// ```
/// use zugyelmas::prelude::*;
///
/// let sample = FixedI16::<8>::from_num(-1.5); // -384 units of 1/256
/// assert_eq!(FixedI32::<16>::from(sample), FixedI32::from_num(-1.5)); // -98304 units of 1/65536
/// assert_eq!(FixedI32::<16>::from(7_u8), FixedI32::from_num(7));
/// assert_eq!(f64::from(sample), -1.5);
/// ```
///
/// ```compile_fail
/// use zugyelmas::prelude::*;
///
/// let _ = FixedI32::<28>::from(7_u8); // 255 needs 8 bits before the point
/// ```
impl<T: Castable, U: Castable, const F: u32, const G: u32> From<Fixed<U, G>> for Fixed<T, F>
where
    (U, T): Narrower,
{
    #[inline]
    fn from(source: Fixed<U, G>) -> Fixed<T, F> {
        const {
            assert!(
                holds::<U, T>(G, F),
                "the format holds every number of the source's"
            )
        }
        Fixed::from_num(source)
    }
}

/// 1 for true and 0 for false. If the format does not hold 1, it is a compile error.
impl<T: Castable, const F: u32> From<bool> for Fixed<T, F> {
    #[inline]
    fn from(source: bool) -> Fixed<T, F> {
        const {
            assert!(
                F as u64 + 1 + T::SIGNED as u64 <= T::BITS as u64,
                "the format holds 1"
            )
        }
        Fixed::from_num(source)
    }
}
