// Made by `make package` of the tables in rust/script/between.rs: changes go there.

use super::{
    Castable, ConversionError, Distinct, Fixed, FromNum, Narrower, Numeric, Order, ToFloat, exact,
    holds,
};
use core::cmp::Ordering;

impl<T: Castable, const F: u32> PartialEq<i8> for Fixed<T, F> {
    #[inline]
    fn eq(&self, other: &i8) -> bool {
        self.equals(*other)
    }
}

impl<T: Castable, const F: u32> PartialOrd<i8> for Fixed<T, F> {
    #[inline]
    fn partial_cmp(&self, other: &i8) -> Option<Ordering> {
        Some(self.compare(*other))
    }
}

/// The integer; fails if the number is none of its type.
impl<T: Castable, const F: u32> TryFrom<Fixed<T, F>> for i8 {
    type Error = ConversionError;

    #[inline]
    fn try_from(number: Fixed<T, F>) -> Result<i8, ConversionError> {
        exact(number)
    }
}

/// The same number. If the format does not hold every integer of the type, it is a compile error.
impl<T: Castable, const F: u32> From<i8> for Fixed<T, F>
where
    (i8, T): Narrower,
{
    #[inline]
    fn from(source: i8) -> Fixed<T, F> {
        const {
            assert!(
                holds::<i8, T>(0, F),
                "the format holds every integer of the type"
            )
        }
        Fixed::from_num(source)
    }
}

/// The same number; fails if it does not fit.
impl<const F: u32> TryFrom<i8> for Fixed<i8, F> {
    type Error = ConversionError;

    #[inline]
    fn try_from(source: i8) -> Result<Fixed<i8, F>, ConversionError> {
        exact(source)
    }
}
impl Distinct for (i16, i8) {}
impl Narrower for (i8, i16) {}
impl Distinct for (i32, i8) {}
impl Narrower for (i8, i32) {}
impl Distinct for (i64, i8) {}
impl Narrower for (i8, i64) {}
impl Distinct for (u8, i8) {}

/// The same number; fails if it does not fit.
impl<const F: u32> TryFrom<i8> for Fixed<u8, F> {
    type Error = ConversionError;

    #[inline]
    fn try_from(source: i8) -> Result<Fixed<u8, F>, ConversionError> {
        exact(source)
    }
}

/// The same number; fails if it is none of the format.
impl<const F: u32, const G: u32> TryFrom<Fixed<i8, G>> for Fixed<u8, F> {
    type Error = ConversionError;

    #[inline]
    fn try_from(source: Fixed<i8, G>) -> Result<Fixed<u8, F>, ConversionError> {
        exact(source)
    }
}
impl Distinct for (u16, i8) {}

/// The same number; fails if it does not fit.
impl<const F: u32> TryFrom<i8> for Fixed<u16, F> {
    type Error = ConversionError;

    #[inline]
    fn try_from(source: i8) -> Result<Fixed<u16, F>, ConversionError> {
        exact(source)
    }
}

/// The same number; fails if it is none of the format.
impl<const F: u32, const G: u32> TryFrom<Fixed<i8, G>> for Fixed<u16, F> {
    type Error = ConversionError;

    #[inline]
    fn try_from(source: Fixed<i8, G>) -> Result<Fixed<u16, F>, ConversionError> {
        exact(source)
    }
}
impl Distinct for (u32, i8) {}

/// The same number; fails if it does not fit.
impl<const F: u32> TryFrom<i8> for Fixed<u32, F> {
    type Error = ConversionError;

    #[inline]
    fn try_from(source: i8) -> Result<Fixed<u32, F>, ConversionError> {
        exact(source)
    }
}

/// The same number; fails if it is none of the format.
impl<const F: u32, const G: u32> TryFrom<Fixed<i8, G>> for Fixed<u32, F> {
    type Error = ConversionError;

    #[inline]
    fn try_from(source: Fixed<i8, G>) -> Result<Fixed<u32, F>, ConversionError> {
        exact(source)
    }
}
impl Distinct for (u64, i8) {}

/// The same number; fails if it does not fit.
impl<const F: u32> TryFrom<i8> for Fixed<u64, F> {
    type Error = ConversionError;

    #[inline]
    fn try_from(source: i8) -> Result<Fixed<u64, F>, ConversionError> {
        exact(source)
    }
}

/// The same number; fails if it is none of the format.
impl<const F: u32, const G: u32> TryFrom<Fixed<i8, G>> for Fixed<u64, F> {
    type Error = ConversionError;

    #[inline]
    fn try_from(source: Fixed<i8, G>) -> Result<Fixed<u64, F>, ConversionError> {
        exact(source)
    }
}

/// The same number: the float has as many bits as the word.
impl<const F: u32> From<Fixed<i8, F>> for f32 {
    #[inline]
    fn from(number: Fixed<i8, F>) -> f32 {
        const { assert!(F <= i8::BITS, "the fraction F is at most the width") }
        number.to_float()
    }
}

/// The same number: the float has as many bits as the word.
impl<const F: u32> From<Fixed<i8, F>> for f64 {
    #[inline]
    fn from(number: Fixed<i8, F>) -> f64 {
        const { assert!(F <= i8::BITS, "the fraction F is at most the width") }
        number.to_float()
    }
}

impl<T: Castable, const F: u32> PartialEq<i16> for Fixed<T, F> {
    #[inline]
    fn eq(&self, other: &i16) -> bool {
        self.equals(*other)
    }
}

impl<T: Castable, const F: u32> PartialOrd<i16> for Fixed<T, F> {
    #[inline]
    fn partial_cmp(&self, other: &i16) -> Option<Ordering> {
        Some(self.compare(*other))
    }
}

/// The integer; fails if the number is none of its type.
impl<T: Castable, const F: u32> TryFrom<Fixed<T, F>> for i16 {
    type Error = ConversionError;

    #[inline]
    fn try_from(number: Fixed<T, F>) -> Result<i16, ConversionError> {
        exact(number)
    }
}

/// The same number. If the format does not hold every integer of the type, it is a compile error.
impl<T: Castable, const F: u32> From<i16> for Fixed<T, F>
where
    (i16, T): Narrower,
{
    #[inline]
    fn from(source: i16) -> Fixed<T, F> {
        const {
            assert!(
                holds::<i16, T>(0, F),
                "the format holds every integer of the type"
            )
        }
        Fixed::from_num(source)
    }
}
impl Distinct for (i8, i16) {}

/// The same number; fails if it does not fit.
impl<const F: u32> TryFrom<i16> for Fixed<i8, F> {
    type Error = ConversionError;

    #[inline]
    fn try_from(source: i16) -> Result<Fixed<i8, F>, ConversionError> {
        exact(source)
    }
}

/// The same number; fails if it is none of the format.
impl<const F: u32, const G: u32> TryFrom<Fixed<i16, G>> for Fixed<i8, F> {
    type Error = ConversionError;

    #[inline]
    fn try_from(source: Fixed<i16, G>) -> Result<Fixed<i8, F>, ConversionError> {
        exact(source)
    }
}

/// The same number; fails if it does not fit.
impl<const F: u32> TryFrom<i16> for Fixed<i16, F> {
    type Error = ConversionError;

    #[inline]
    fn try_from(source: i16) -> Result<Fixed<i16, F>, ConversionError> {
        exact(source)
    }
}
impl Distinct for (i32, i16) {}
impl Narrower for (i16, i32) {}
impl Distinct for (i64, i16) {}
impl Narrower for (i16, i64) {}
impl Distinct for (u8, i16) {}

/// The same number; fails if it does not fit.
impl<const F: u32> TryFrom<i16> for Fixed<u8, F> {
    type Error = ConversionError;

    #[inline]
    fn try_from(source: i16) -> Result<Fixed<u8, F>, ConversionError> {
        exact(source)
    }
}

/// The same number; fails if it is none of the format.
impl<const F: u32, const G: u32> TryFrom<Fixed<i16, G>> for Fixed<u8, F> {
    type Error = ConversionError;

    #[inline]
    fn try_from(source: Fixed<i16, G>) -> Result<Fixed<u8, F>, ConversionError> {
        exact(source)
    }
}
impl Distinct for (u16, i16) {}

/// The same number; fails if it does not fit.
impl<const F: u32> TryFrom<i16> for Fixed<u16, F> {
    type Error = ConversionError;

    #[inline]
    fn try_from(source: i16) -> Result<Fixed<u16, F>, ConversionError> {
        exact(source)
    }
}

/// The same number; fails if it is none of the format.
impl<const F: u32, const G: u32> TryFrom<Fixed<i16, G>> for Fixed<u16, F> {
    type Error = ConversionError;

    #[inline]
    fn try_from(source: Fixed<i16, G>) -> Result<Fixed<u16, F>, ConversionError> {
        exact(source)
    }
}
impl Distinct for (u32, i16) {}

/// The same number; fails if it does not fit.
impl<const F: u32> TryFrom<i16> for Fixed<u32, F> {
    type Error = ConversionError;

    #[inline]
    fn try_from(source: i16) -> Result<Fixed<u32, F>, ConversionError> {
        exact(source)
    }
}

/// The same number; fails if it is none of the format.
impl<const F: u32, const G: u32> TryFrom<Fixed<i16, G>> for Fixed<u32, F> {
    type Error = ConversionError;

    #[inline]
    fn try_from(source: Fixed<i16, G>) -> Result<Fixed<u32, F>, ConversionError> {
        exact(source)
    }
}
impl Distinct for (u64, i16) {}

/// The same number; fails if it does not fit.
impl<const F: u32> TryFrom<i16> for Fixed<u64, F> {
    type Error = ConversionError;

    #[inline]
    fn try_from(source: i16) -> Result<Fixed<u64, F>, ConversionError> {
        exact(source)
    }
}

/// The same number; fails if it is none of the format.
impl<const F: u32, const G: u32> TryFrom<Fixed<i16, G>> for Fixed<u64, F> {
    type Error = ConversionError;

    #[inline]
    fn try_from(source: Fixed<i16, G>) -> Result<Fixed<u64, F>, ConversionError> {
        exact(source)
    }
}

/// The same number: the float has as many bits as the word.
impl<const F: u32> From<Fixed<i16, F>> for f32 {
    #[inline]
    fn from(number: Fixed<i16, F>) -> f32 {
        const { assert!(F <= i16::BITS, "the fraction F is at most the width") }
        number.to_float()
    }
}

/// The same number: the float has as many bits as the word.
impl<const F: u32> From<Fixed<i16, F>> for f64 {
    #[inline]
    fn from(number: Fixed<i16, F>) -> f64 {
        const { assert!(F <= i16::BITS, "the fraction F is at most the width") }
        number.to_float()
    }
}

impl<T: Castable, const F: u32> PartialEq<i32> for Fixed<T, F> {
    #[inline]
    fn eq(&self, other: &i32) -> bool {
        self.equals(*other)
    }
}

impl<T: Castable, const F: u32> PartialOrd<i32> for Fixed<T, F> {
    #[inline]
    fn partial_cmp(&self, other: &i32) -> Option<Ordering> {
        Some(self.compare(*other))
    }
}

/// The integer; fails if the number is none of its type.
impl<T: Castable, const F: u32> TryFrom<Fixed<T, F>> for i32 {
    type Error = ConversionError;

    #[inline]
    fn try_from(number: Fixed<T, F>) -> Result<i32, ConversionError> {
        exact(number)
    }
}

/// The same number. If the format does not hold every integer of the type, it is a compile error.
impl<T: Castable, const F: u32> From<i32> for Fixed<T, F>
where
    (i32, T): Narrower,
{
    #[inline]
    fn from(source: i32) -> Fixed<T, F> {
        const {
            assert!(
                holds::<i32, T>(0, F),
                "the format holds every integer of the type"
            )
        }
        Fixed::from_num(source)
    }
}
impl Distinct for (i8, i32) {}

/// The same number; fails if it does not fit.
impl<const F: u32> TryFrom<i32> for Fixed<i8, F> {
    type Error = ConversionError;

    #[inline]
    fn try_from(source: i32) -> Result<Fixed<i8, F>, ConversionError> {
        exact(source)
    }
}

/// The same number; fails if it is none of the format.
impl<const F: u32, const G: u32> TryFrom<Fixed<i32, G>> for Fixed<i8, F> {
    type Error = ConversionError;

    #[inline]
    fn try_from(source: Fixed<i32, G>) -> Result<Fixed<i8, F>, ConversionError> {
        exact(source)
    }
}
impl Distinct for (i16, i32) {}

/// The same number; fails if it does not fit.
impl<const F: u32> TryFrom<i32> for Fixed<i16, F> {
    type Error = ConversionError;

    #[inline]
    fn try_from(source: i32) -> Result<Fixed<i16, F>, ConversionError> {
        exact(source)
    }
}

/// The same number; fails if it is none of the format.
impl<const F: u32, const G: u32> TryFrom<Fixed<i32, G>> for Fixed<i16, F> {
    type Error = ConversionError;

    #[inline]
    fn try_from(source: Fixed<i32, G>) -> Result<Fixed<i16, F>, ConversionError> {
        exact(source)
    }
}

/// The same number; fails if it does not fit.
impl<const F: u32> TryFrom<i32> for Fixed<i32, F> {
    type Error = ConversionError;

    #[inline]
    fn try_from(source: i32) -> Result<Fixed<i32, F>, ConversionError> {
        exact(source)
    }
}
impl Distinct for (i64, i32) {}
impl Narrower for (i32, i64) {}
impl Distinct for (u8, i32) {}

/// The same number; fails if it does not fit.
impl<const F: u32> TryFrom<i32> for Fixed<u8, F> {
    type Error = ConversionError;

    #[inline]
    fn try_from(source: i32) -> Result<Fixed<u8, F>, ConversionError> {
        exact(source)
    }
}

/// The same number; fails if it is none of the format.
impl<const F: u32, const G: u32> TryFrom<Fixed<i32, G>> for Fixed<u8, F> {
    type Error = ConversionError;

    #[inline]
    fn try_from(source: Fixed<i32, G>) -> Result<Fixed<u8, F>, ConversionError> {
        exact(source)
    }
}
impl Distinct for (u16, i32) {}

/// The same number; fails if it does not fit.
impl<const F: u32> TryFrom<i32> for Fixed<u16, F> {
    type Error = ConversionError;

    #[inline]
    fn try_from(source: i32) -> Result<Fixed<u16, F>, ConversionError> {
        exact(source)
    }
}

/// The same number; fails if it is none of the format.
impl<const F: u32, const G: u32> TryFrom<Fixed<i32, G>> for Fixed<u16, F> {
    type Error = ConversionError;

    #[inline]
    fn try_from(source: Fixed<i32, G>) -> Result<Fixed<u16, F>, ConversionError> {
        exact(source)
    }
}
impl Distinct for (u32, i32) {}

/// The same number; fails if it does not fit.
impl<const F: u32> TryFrom<i32> for Fixed<u32, F> {
    type Error = ConversionError;

    #[inline]
    fn try_from(source: i32) -> Result<Fixed<u32, F>, ConversionError> {
        exact(source)
    }
}

/// The same number; fails if it is none of the format.
impl<const F: u32, const G: u32> TryFrom<Fixed<i32, G>> for Fixed<u32, F> {
    type Error = ConversionError;

    #[inline]
    fn try_from(source: Fixed<i32, G>) -> Result<Fixed<u32, F>, ConversionError> {
        exact(source)
    }
}
impl Distinct for (u64, i32) {}

/// The same number; fails if it does not fit.
impl<const F: u32> TryFrom<i32> for Fixed<u64, F> {
    type Error = ConversionError;

    #[inline]
    fn try_from(source: i32) -> Result<Fixed<u64, F>, ConversionError> {
        exact(source)
    }
}

/// The same number; fails if it is none of the format.
impl<const F: u32, const G: u32> TryFrom<Fixed<i32, G>> for Fixed<u64, F> {
    type Error = ConversionError;

    #[inline]
    fn try_from(source: Fixed<i32, G>) -> Result<Fixed<u64, F>, ConversionError> {
        exact(source)
    }
}

/// The same number: the float has as many bits as the word.
impl<const F: u32> From<Fixed<i32, F>> for f64 {
    #[inline]
    fn from(number: Fixed<i32, F>) -> f64 {
        const { assert!(F <= i32::BITS, "the fraction F is at most the width") }
        number.to_float()
    }
}

impl<T: Castable, const F: u32> PartialEq<i64> for Fixed<T, F> {
    #[inline]
    fn eq(&self, other: &i64) -> bool {
        self.equals(*other)
    }
}

impl<T: Castable, const F: u32> PartialOrd<i64> for Fixed<T, F> {
    #[inline]
    fn partial_cmp(&self, other: &i64) -> Option<Ordering> {
        Some(self.compare(*other))
    }
}

/// The integer; fails if the number is none of its type.
impl<T: Castable, const F: u32> TryFrom<Fixed<T, F>> for i64 {
    type Error = ConversionError;

    #[inline]
    fn try_from(number: Fixed<T, F>) -> Result<i64, ConversionError> {
        exact(number)
    }
}
impl Distinct for (i8, i64) {}

/// The same number; fails if it does not fit.
impl<const F: u32> TryFrom<i64> for Fixed<i8, F> {
    type Error = ConversionError;

    #[inline]
    fn try_from(source: i64) -> Result<Fixed<i8, F>, ConversionError> {
        exact(source)
    }
}

/// The same number; fails if it is none of the format.
impl<const F: u32, const G: u32> TryFrom<Fixed<i64, G>> for Fixed<i8, F> {
    type Error = ConversionError;

    #[inline]
    fn try_from(source: Fixed<i64, G>) -> Result<Fixed<i8, F>, ConversionError> {
        exact(source)
    }
}
impl Distinct for (i16, i64) {}

/// The same number; fails if it does not fit.
impl<const F: u32> TryFrom<i64> for Fixed<i16, F> {
    type Error = ConversionError;

    #[inline]
    fn try_from(source: i64) -> Result<Fixed<i16, F>, ConversionError> {
        exact(source)
    }
}

/// The same number; fails if it is none of the format.
impl<const F: u32, const G: u32> TryFrom<Fixed<i64, G>> for Fixed<i16, F> {
    type Error = ConversionError;

    #[inline]
    fn try_from(source: Fixed<i64, G>) -> Result<Fixed<i16, F>, ConversionError> {
        exact(source)
    }
}
impl Distinct for (i32, i64) {}

/// The same number; fails if it does not fit.
impl<const F: u32> TryFrom<i64> for Fixed<i32, F> {
    type Error = ConversionError;

    #[inline]
    fn try_from(source: i64) -> Result<Fixed<i32, F>, ConversionError> {
        exact(source)
    }
}

/// The same number; fails if it is none of the format.
impl<const F: u32, const G: u32> TryFrom<Fixed<i64, G>> for Fixed<i32, F> {
    type Error = ConversionError;

    #[inline]
    fn try_from(source: Fixed<i64, G>) -> Result<Fixed<i32, F>, ConversionError> {
        exact(source)
    }
}

/// The same number; fails if it does not fit.
impl<const F: u32> TryFrom<i64> for Fixed<i64, F> {
    type Error = ConversionError;

    #[inline]
    fn try_from(source: i64) -> Result<Fixed<i64, F>, ConversionError> {
        exact(source)
    }
}
impl Distinct for (u8, i64) {}

/// The same number; fails if it does not fit.
impl<const F: u32> TryFrom<i64> for Fixed<u8, F> {
    type Error = ConversionError;

    #[inline]
    fn try_from(source: i64) -> Result<Fixed<u8, F>, ConversionError> {
        exact(source)
    }
}

/// The same number; fails if it is none of the format.
impl<const F: u32, const G: u32> TryFrom<Fixed<i64, G>> for Fixed<u8, F> {
    type Error = ConversionError;

    #[inline]
    fn try_from(source: Fixed<i64, G>) -> Result<Fixed<u8, F>, ConversionError> {
        exact(source)
    }
}
impl Distinct for (u16, i64) {}

/// The same number; fails if it does not fit.
impl<const F: u32> TryFrom<i64> for Fixed<u16, F> {
    type Error = ConversionError;

    #[inline]
    fn try_from(source: i64) -> Result<Fixed<u16, F>, ConversionError> {
        exact(source)
    }
}

/// The same number; fails if it is none of the format.
impl<const F: u32, const G: u32> TryFrom<Fixed<i64, G>> for Fixed<u16, F> {
    type Error = ConversionError;

    #[inline]
    fn try_from(source: Fixed<i64, G>) -> Result<Fixed<u16, F>, ConversionError> {
        exact(source)
    }
}
impl Distinct for (u32, i64) {}

/// The same number; fails if it does not fit.
impl<const F: u32> TryFrom<i64> for Fixed<u32, F> {
    type Error = ConversionError;

    #[inline]
    fn try_from(source: i64) -> Result<Fixed<u32, F>, ConversionError> {
        exact(source)
    }
}

/// The same number; fails if it is none of the format.
impl<const F: u32, const G: u32> TryFrom<Fixed<i64, G>> for Fixed<u32, F> {
    type Error = ConversionError;

    #[inline]
    fn try_from(source: Fixed<i64, G>) -> Result<Fixed<u32, F>, ConversionError> {
        exact(source)
    }
}
impl Distinct for (u64, i64) {}

/// The same number; fails if it does not fit.
impl<const F: u32> TryFrom<i64> for Fixed<u64, F> {
    type Error = ConversionError;

    #[inline]
    fn try_from(source: i64) -> Result<Fixed<u64, F>, ConversionError> {
        exact(source)
    }
}

/// The same number; fails if it is none of the format.
impl<const F: u32, const G: u32> TryFrom<Fixed<i64, G>> for Fixed<u64, F> {
    type Error = ConversionError;

    #[inline]
    fn try_from(source: Fixed<i64, G>) -> Result<Fixed<u64, F>, ConversionError> {
        exact(source)
    }
}

impl<T: Castable, const F: u32> PartialEq<u8> for Fixed<T, F> {
    #[inline]
    fn eq(&self, other: &u8) -> bool {
        self.equals(*other)
    }
}

impl<T: Castable, const F: u32> PartialOrd<u8> for Fixed<T, F> {
    #[inline]
    fn partial_cmp(&self, other: &u8) -> Option<Ordering> {
        Some(self.compare(*other))
    }
}

/// The integer; fails if the number is none of its type.
impl<T: Castable, const F: u32> TryFrom<Fixed<T, F>> for u8 {
    type Error = ConversionError;

    #[inline]
    fn try_from(number: Fixed<T, F>) -> Result<u8, ConversionError> {
        exact(number)
    }
}

/// The same number. If the format does not hold every integer of the type, it is a compile error.
impl<T: Castable, const F: u32> From<u8> for Fixed<T, F>
where
    (u8, T): Narrower,
{
    #[inline]
    fn from(source: u8) -> Fixed<T, F> {
        const {
            assert!(
                holds::<u8, T>(0, F),
                "the format holds every integer of the type"
            )
        }
        Fixed::from_num(source)
    }
}
impl Distinct for (i8, u8) {}

/// The same number; fails if it does not fit.
impl<const F: u32> TryFrom<u8> for Fixed<i8, F> {
    type Error = ConversionError;

    #[inline]
    fn try_from(source: u8) -> Result<Fixed<i8, F>, ConversionError> {
        exact(source)
    }
}

/// The same number; fails if it is none of the format.
impl<const F: u32, const G: u32> TryFrom<Fixed<u8, G>> for Fixed<i8, F> {
    type Error = ConversionError;

    #[inline]
    fn try_from(source: Fixed<u8, G>) -> Result<Fixed<i8, F>, ConversionError> {
        exact(source)
    }
}
impl Distinct for (i16, u8) {}
impl Narrower for (u8, i16) {}
impl Distinct for (i32, u8) {}
impl Narrower for (u8, i32) {}
impl Distinct for (i64, u8) {}
impl Narrower for (u8, i64) {}

/// The same number; fails if it does not fit.
impl<const F: u32> TryFrom<u8> for Fixed<u8, F> {
    type Error = ConversionError;

    #[inline]
    fn try_from(source: u8) -> Result<Fixed<u8, F>, ConversionError> {
        exact(source)
    }
}
impl Distinct for (u16, u8) {}
impl Narrower for (u8, u16) {}
impl Distinct for (u32, u8) {}
impl Narrower for (u8, u32) {}
impl Distinct for (u64, u8) {}
impl Narrower for (u8, u64) {}

/// The same number: the float has as many bits as the word.
impl<const F: u32> From<Fixed<u8, F>> for f32 {
    #[inline]
    fn from(number: Fixed<u8, F>) -> f32 {
        const { assert!(F <= u8::BITS, "the fraction F is at most the width") }
        number.to_float()
    }
}

/// The same number: the float has as many bits as the word.
impl<const F: u32> From<Fixed<u8, F>> for f64 {
    #[inline]
    fn from(number: Fixed<u8, F>) -> f64 {
        const { assert!(F <= u8::BITS, "the fraction F is at most the width") }
        number.to_float()
    }
}

impl<T: Castable, const F: u32> PartialEq<u16> for Fixed<T, F> {
    #[inline]
    fn eq(&self, other: &u16) -> bool {
        self.equals(*other)
    }
}

impl<T: Castable, const F: u32> PartialOrd<u16> for Fixed<T, F> {
    #[inline]
    fn partial_cmp(&self, other: &u16) -> Option<Ordering> {
        Some(self.compare(*other))
    }
}

/// The integer; fails if the number is none of its type.
impl<T: Castable, const F: u32> TryFrom<Fixed<T, F>> for u16 {
    type Error = ConversionError;

    #[inline]
    fn try_from(number: Fixed<T, F>) -> Result<u16, ConversionError> {
        exact(number)
    }
}

/// The same number. If the format does not hold every integer of the type, it is a compile error.
impl<T: Castable, const F: u32> From<u16> for Fixed<T, F>
where
    (u16, T): Narrower,
{
    #[inline]
    fn from(source: u16) -> Fixed<T, F> {
        const {
            assert!(
                holds::<u16, T>(0, F),
                "the format holds every integer of the type"
            )
        }
        Fixed::from_num(source)
    }
}
impl Distinct for (i8, u16) {}

/// The same number; fails if it does not fit.
impl<const F: u32> TryFrom<u16> for Fixed<i8, F> {
    type Error = ConversionError;

    #[inline]
    fn try_from(source: u16) -> Result<Fixed<i8, F>, ConversionError> {
        exact(source)
    }
}

/// The same number; fails if it is none of the format.
impl<const F: u32, const G: u32> TryFrom<Fixed<u16, G>> for Fixed<i8, F> {
    type Error = ConversionError;

    #[inline]
    fn try_from(source: Fixed<u16, G>) -> Result<Fixed<i8, F>, ConversionError> {
        exact(source)
    }
}
impl Distinct for (i16, u16) {}

/// The same number; fails if it does not fit.
impl<const F: u32> TryFrom<u16> for Fixed<i16, F> {
    type Error = ConversionError;

    #[inline]
    fn try_from(source: u16) -> Result<Fixed<i16, F>, ConversionError> {
        exact(source)
    }
}

/// The same number; fails if it is none of the format.
impl<const F: u32, const G: u32> TryFrom<Fixed<u16, G>> for Fixed<i16, F> {
    type Error = ConversionError;

    #[inline]
    fn try_from(source: Fixed<u16, G>) -> Result<Fixed<i16, F>, ConversionError> {
        exact(source)
    }
}
impl Distinct for (i32, u16) {}
impl Narrower for (u16, i32) {}
impl Distinct for (i64, u16) {}
impl Narrower for (u16, i64) {}
impl Distinct for (u8, u16) {}

/// The same number; fails if it does not fit.
impl<const F: u32> TryFrom<u16> for Fixed<u8, F> {
    type Error = ConversionError;

    #[inline]
    fn try_from(source: u16) -> Result<Fixed<u8, F>, ConversionError> {
        exact(source)
    }
}

/// The same number; fails if it is none of the format.
impl<const F: u32, const G: u32> TryFrom<Fixed<u16, G>> for Fixed<u8, F> {
    type Error = ConversionError;

    #[inline]
    fn try_from(source: Fixed<u16, G>) -> Result<Fixed<u8, F>, ConversionError> {
        exact(source)
    }
}

/// The same number; fails if it does not fit.
impl<const F: u32> TryFrom<u16> for Fixed<u16, F> {
    type Error = ConversionError;

    #[inline]
    fn try_from(source: u16) -> Result<Fixed<u16, F>, ConversionError> {
        exact(source)
    }
}
impl Distinct for (u32, u16) {}
impl Narrower for (u16, u32) {}
impl Distinct for (u64, u16) {}
impl Narrower for (u16, u64) {}

/// The same number: the float has as many bits as the word.
impl<const F: u32> From<Fixed<u16, F>> for f32 {
    #[inline]
    fn from(number: Fixed<u16, F>) -> f32 {
        const { assert!(F <= u16::BITS, "the fraction F is at most the width") }
        number.to_float()
    }
}

/// The same number: the float has as many bits as the word.
impl<const F: u32> From<Fixed<u16, F>> for f64 {
    #[inline]
    fn from(number: Fixed<u16, F>) -> f64 {
        const { assert!(F <= u16::BITS, "the fraction F is at most the width") }
        number.to_float()
    }
}

impl<T: Castable, const F: u32> PartialEq<u32> for Fixed<T, F> {
    #[inline]
    fn eq(&self, other: &u32) -> bool {
        self.equals(*other)
    }
}

impl<T: Castable, const F: u32> PartialOrd<u32> for Fixed<T, F> {
    #[inline]
    fn partial_cmp(&self, other: &u32) -> Option<Ordering> {
        Some(self.compare(*other))
    }
}

/// The integer; fails if the number is none of its type.
impl<T: Castable, const F: u32> TryFrom<Fixed<T, F>> for u32 {
    type Error = ConversionError;

    #[inline]
    fn try_from(number: Fixed<T, F>) -> Result<u32, ConversionError> {
        exact(number)
    }
}

/// The same number. If the format does not hold every integer of the type, it is a compile error.
impl<T: Castable, const F: u32> From<u32> for Fixed<T, F>
where
    (u32, T): Narrower,
{
    #[inline]
    fn from(source: u32) -> Fixed<T, F> {
        const {
            assert!(
                holds::<u32, T>(0, F),
                "the format holds every integer of the type"
            )
        }
        Fixed::from_num(source)
    }
}
impl Distinct for (i8, u32) {}

/// The same number; fails if it does not fit.
impl<const F: u32> TryFrom<u32> for Fixed<i8, F> {
    type Error = ConversionError;

    #[inline]
    fn try_from(source: u32) -> Result<Fixed<i8, F>, ConversionError> {
        exact(source)
    }
}

/// The same number; fails if it is none of the format.
impl<const F: u32, const G: u32> TryFrom<Fixed<u32, G>> for Fixed<i8, F> {
    type Error = ConversionError;

    #[inline]
    fn try_from(source: Fixed<u32, G>) -> Result<Fixed<i8, F>, ConversionError> {
        exact(source)
    }
}
impl Distinct for (i16, u32) {}

/// The same number; fails if it does not fit.
impl<const F: u32> TryFrom<u32> for Fixed<i16, F> {
    type Error = ConversionError;

    #[inline]
    fn try_from(source: u32) -> Result<Fixed<i16, F>, ConversionError> {
        exact(source)
    }
}

/// The same number; fails if it is none of the format.
impl<const F: u32, const G: u32> TryFrom<Fixed<u32, G>> for Fixed<i16, F> {
    type Error = ConversionError;

    #[inline]
    fn try_from(source: Fixed<u32, G>) -> Result<Fixed<i16, F>, ConversionError> {
        exact(source)
    }
}
impl Distinct for (i32, u32) {}

/// The same number; fails if it does not fit.
impl<const F: u32> TryFrom<u32> for Fixed<i32, F> {
    type Error = ConversionError;

    #[inline]
    fn try_from(source: u32) -> Result<Fixed<i32, F>, ConversionError> {
        exact(source)
    }
}

/// The same number; fails if it is none of the format.
impl<const F: u32, const G: u32> TryFrom<Fixed<u32, G>> for Fixed<i32, F> {
    type Error = ConversionError;

    #[inline]
    fn try_from(source: Fixed<u32, G>) -> Result<Fixed<i32, F>, ConversionError> {
        exact(source)
    }
}
impl Distinct for (i64, u32) {}
impl Narrower for (u32, i64) {}
impl Distinct for (u8, u32) {}

/// The same number; fails if it does not fit.
impl<const F: u32> TryFrom<u32> for Fixed<u8, F> {
    type Error = ConversionError;

    #[inline]
    fn try_from(source: u32) -> Result<Fixed<u8, F>, ConversionError> {
        exact(source)
    }
}

/// The same number; fails if it is none of the format.
impl<const F: u32, const G: u32> TryFrom<Fixed<u32, G>> for Fixed<u8, F> {
    type Error = ConversionError;

    #[inline]
    fn try_from(source: Fixed<u32, G>) -> Result<Fixed<u8, F>, ConversionError> {
        exact(source)
    }
}
impl Distinct for (u16, u32) {}

/// The same number; fails if it does not fit.
impl<const F: u32> TryFrom<u32> for Fixed<u16, F> {
    type Error = ConversionError;

    #[inline]
    fn try_from(source: u32) -> Result<Fixed<u16, F>, ConversionError> {
        exact(source)
    }
}

/// The same number; fails if it is none of the format.
impl<const F: u32, const G: u32> TryFrom<Fixed<u32, G>> for Fixed<u16, F> {
    type Error = ConversionError;

    #[inline]
    fn try_from(source: Fixed<u32, G>) -> Result<Fixed<u16, F>, ConversionError> {
        exact(source)
    }
}

/// The same number; fails if it does not fit.
impl<const F: u32> TryFrom<u32> for Fixed<u32, F> {
    type Error = ConversionError;

    #[inline]
    fn try_from(source: u32) -> Result<Fixed<u32, F>, ConversionError> {
        exact(source)
    }
}
impl Distinct for (u64, u32) {}
impl Narrower for (u32, u64) {}

/// The same number: the float has as many bits as the word.
impl<const F: u32> From<Fixed<u32, F>> for f64 {
    #[inline]
    fn from(number: Fixed<u32, F>) -> f64 {
        const { assert!(F <= u32::BITS, "the fraction F is at most the width") }
        number.to_float()
    }
}

impl<T: Castable, const F: u32> PartialEq<u64> for Fixed<T, F> {
    #[inline]
    fn eq(&self, other: &u64) -> bool {
        self.equals(*other)
    }
}

impl<T: Castable, const F: u32> PartialOrd<u64> for Fixed<T, F> {
    #[inline]
    fn partial_cmp(&self, other: &u64) -> Option<Ordering> {
        Some(self.compare(*other))
    }
}

/// The integer; fails if the number is none of its type.
impl<T: Castable, const F: u32> TryFrom<Fixed<T, F>> for u64 {
    type Error = ConversionError;

    #[inline]
    fn try_from(number: Fixed<T, F>) -> Result<u64, ConversionError> {
        exact(number)
    }
}
impl Distinct for (i8, u64) {}

/// The same number; fails if it does not fit.
impl<const F: u32> TryFrom<u64> for Fixed<i8, F> {
    type Error = ConversionError;

    #[inline]
    fn try_from(source: u64) -> Result<Fixed<i8, F>, ConversionError> {
        exact(source)
    }
}

/// The same number; fails if it is none of the format.
impl<const F: u32, const G: u32> TryFrom<Fixed<u64, G>> for Fixed<i8, F> {
    type Error = ConversionError;

    #[inline]
    fn try_from(source: Fixed<u64, G>) -> Result<Fixed<i8, F>, ConversionError> {
        exact(source)
    }
}
impl Distinct for (i16, u64) {}

/// The same number; fails if it does not fit.
impl<const F: u32> TryFrom<u64> for Fixed<i16, F> {
    type Error = ConversionError;

    #[inline]
    fn try_from(source: u64) -> Result<Fixed<i16, F>, ConversionError> {
        exact(source)
    }
}

/// The same number; fails if it is none of the format.
impl<const F: u32, const G: u32> TryFrom<Fixed<u64, G>> for Fixed<i16, F> {
    type Error = ConversionError;

    #[inline]
    fn try_from(source: Fixed<u64, G>) -> Result<Fixed<i16, F>, ConversionError> {
        exact(source)
    }
}
impl Distinct for (i32, u64) {}

/// The same number; fails if it does not fit.
impl<const F: u32> TryFrom<u64> for Fixed<i32, F> {
    type Error = ConversionError;

    #[inline]
    fn try_from(source: u64) -> Result<Fixed<i32, F>, ConversionError> {
        exact(source)
    }
}

/// The same number; fails if it is none of the format.
impl<const F: u32, const G: u32> TryFrom<Fixed<u64, G>> for Fixed<i32, F> {
    type Error = ConversionError;

    #[inline]
    fn try_from(source: Fixed<u64, G>) -> Result<Fixed<i32, F>, ConversionError> {
        exact(source)
    }
}
impl Distinct for (i64, u64) {}

/// The same number; fails if it does not fit.
impl<const F: u32> TryFrom<u64> for Fixed<i64, F> {
    type Error = ConversionError;

    #[inline]
    fn try_from(source: u64) -> Result<Fixed<i64, F>, ConversionError> {
        exact(source)
    }
}

/// The same number; fails if it is none of the format.
impl<const F: u32, const G: u32> TryFrom<Fixed<u64, G>> for Fixed<i64, F> {
    type Error = ConversionError;

    #[inline]
    fn try_from(source: Fixed<u64, G>) -> Result<Fixed<i64, F>, ConversionError> {
        exact(source)
    }
}
impl Distinct for (u8, u64) {}

/// The same number; fails if it does not fit.
impl<const F: u32> TryFrom<u64> for Fixed<u8, F> {
    type Error = ConversionError;

    #[inline]
    fn try_from(source: u64) -> Result<Fixed<u8, F>, ConversionError> {
        exact(source)
    }
}

/// The same number; fails if it is none of the format.
impl<const F: u32, const G: u32> TryFrom<Fixed<u64, G>> for Fixed<u8, F> {
    type Error = ConversionError;

    #[inline]
    fn try_from(source: Fixed<u64, G>) -> Result<Fixed<u8, F>, ConversionError> {
        exact(source)
    }
}
impl Distinct for (u16, u64) {}

/// The same number; fails if it does not fit.
impl<const F: u32> TryFrom<u64> for Fixed<u16, F> {
    type Error = ConversionError;

    #[inline]
    fn try_from(source: u64) -> Result<Fixed<u16, F>, ConversionError> {
        exact(source)
    }
}

/// The same number; fails if it is none of the format.
impl<const F: u32, const G: u32> TryFrom<Fixed<u64, G>> for Fixed<u16, F> {
    type Error = ConversionError;

    #[inline]
    fn try_from(source: Fixed<u64, G>) -> Result<Fixed<u16, F>, ConversionError> {
        exact(source)
    }
}
impl Distinct for (u32, u64) {}

/// The same number; fails if it does not fit.
impl<const F: u32> TryFrom<u64> for Fixed<u32, F> {
    type Error = ConversionError;

    #[inline]
    fn try_from(source: u64) -> Result<Fixed<u32, F>, ConversionError> {
        exact(source)
    }
}

/// The same number; fails if it is none of the format.
impl<const F: u32, const G: u32> TryFrom<Fixed<u64, G>> for Fixed<u32, F> {
    type Error = ConversionError;

    #[inline]
    fn try_from(source: Fixed<u64, G>) -> Result<Fixed<u32, F>, ConversionError> {
        exact(source)
    }
}

/// The same number; fails if it does not fit.
impl<const F: u32> TryFrom<u64> for Fixed<u64, F> {
    type Error = ConversionError;

    #[inline]
    fn try_from(source: u64) -> Result<Fixed<u64, F>, ConversionError> {
        exact(source)
    }
}
