// Made by `make package` of crates/fixed_num/src/operators.rt, which is proved: changes go there.

//! The operators between numbers of one format.
//!
//! Each operator returns the exact result. Precondition: there is one, and it fits. The assigning forms store the
//! same result.

use crate::kernel::{add_of, div_of, mul_of, neg_of, rem_of, sub_of};
use crate::num::format::Fixed;
use crate::num::from_outcome::exact_number;
use crate::word::{RawWord, SignedWord, Word};
use core::ops::{
    Add, AddAssign, Div, DivAssign, Mul, MulAssign, Neg, Rem, RemAssign, Sub, SubAssign,
};

impl<T: SignedWord, const F: u32> Neg for Fixed<T, F> {
    type Output = Self;

    /// Returns the negated number. Precondition: it fits.
    ///
    /// # Examples
    ///
    /// ```
    /// use zugyelmas::prelude::*;
    /// type Number = FixedI8<4>; // from -8 to 7.9375
    /// let number = Number::from_num::<f64>;
    ///
    /// assert_eq!(-number(1.5), number(-1.5));
    /// assert_eq!(-Number::MAX, number(-7.9375));
    /// ```
    ///
    /// # Panics
    ///
    /// With debug assertions, panics unless the number fits. Without them, the result is wrapped.
    ///
    /// # Proved
    ///
    /// ```text
    /// can_neg = { λ a. InRange T.SIGNED T.BITS (neg_ℤ (T.value a.bits)) }
    /// neg_gives = { λ a r. T.value r.bits ≡ neg_ℤ (T.value a.bits) }
    /// ```
    ///
    /// Definitions: [`InRange`].
    ///
    /// [`InRange`]: crate::definitions::word_format
    #[track_caller]
    fn neg(self) -> Self {
        exact_number(neg_of(self.bits))
    }
}

impl<T: Word, const F: u32> Add for Fixed<T, F> {
    type Output = Self;

    /// Returns the sum. Precondition: it fits.
    ///
    /// # Examples
    ///
    /// ```
    /// use zugyelmas::prelude::*;
    /// type Number = FixedI8<4>; // from -8 to 7.9375
    /// let number = Number::from_num::<f64>;
    ///
    /// assert_eq!(number(1.5) + number(2.25), number(3.75));
    /// assert_eq!(Number::MAX + Number::MIN, number(-0.0625));
    /// ```
    ///
    /// # Panics
    ///
    /// With debug assertions, panics unless the number fits. Without them, the result is wrapped.
    ///
    /// # Proved
    ///
    /// ```text
    /// can_add = { λ a b. InRange T.SIGNED T.BITS (T.value a.bits +ℤ T.value b.bits) }
    /// add_gives = { λ a b r. T.value r.bits ≡ T.value a.bits +ℤ T.value b.bits }
    /// ```
    ///
    /// Definitions: [`InRange`].
    ///
    /// [`InRange`]: crate::definitions::word_format
    #[track_caller]
    fn add(self, rhs: Self) -> Self {
        exact_number(add_of(self.bits, rhs.bits))
    }
}

impl<T: Word, const F: u32> AddAssign for Fixed<T, F> {
    /// Stores the sum. Precondition: it fits.
    ///
    /// # Examples
    ///
    /// ```
    /// use zugyelmas::prelude::*;
    /// type Number = FixedI8<4>; // from -8 to 7.9375
    /// let number = Number::from_num::<f64>;
    ///
    /// let mut sum = number(1.5);
    /// sum += number(2.25);
    /// assert_eq!(sum, number(3.75));
    /// ```
    ///
    /// # Panics
    ///
    /// With debug assertions, panics unless the number fits. Without them, the result is wrapped.
    ///
    /// # Proved
    ///
    /// ```text
    /// can_add_assign = { λ a b. InRange T.SIGNED T.BITS (T.value a.bits +ℤ T.value b.bits) }
    /// add_assign_gives = { λ a b r. T.value r.bits ≡ T.value a.bits +ℤ T.value b.bits }
    /// ```
    ///
    /// Definitions: [`InRange`].
    ///
    /// [`InRange`]: crate::definitions::word_format
    #[track_caller]
    fn add_assign(&mut self, rhs: Self) {
        *self = *self + rhs;
    }
}

impl<T: Word, const F: u32> Sub for Fixed<T, F> {
    type Output = Self;

    /// Returns the difference. Precondition: it fits.
    ///
    /// # Examples
    ///
    /// ```
    /// use zugyelmas::prelude::*;
    /// type Number = FixedI8<4>; // from -8 to 7.9375
    /// let number = Number::from_num::<f64>;
    ///
    /// assert_eq!(number(1.5) - number(2.25), number(-0.75));
    /// assert_eq!(number(-0.0625) - Number::MAX, Number::MIN);
    /// ```
    ///
    /// # Panics
    ///
    /// With debug assertions, panics unless the number fits. Without them, the result is wrapped.
    ///
    /// # Proved
    ///
    /// ```text
    /// can_sub = { λ a b. InRange T.SIGNED T.BITS (T.value a.bits -ℤ T.value b.bits) }
    /// sub_gives = { λ a b r. T.value r.bits ≡ T.value a.bits -ℤ T.value b.bits }
    /// ```
    ///
    /// Definitions: [`InRange`].
    ///
    /// [`InRange`]: crate::definitions::word_format
    #[track_caller]
    fn sub(self, rhs: Self) -> Self {
        exact_number(sub_of(self.bits, rhs.bits))
    }
}

impl<T: Word, const F: u32> SubAssign for Fixed<T, F> {
    /// Stores the difference. Precondition: it fits.
    ///
    /// # Examples
    ///
    /// ```
    /// use zugyelmas::prelude::*;
    /// type Number = FixedI8<4>; // from -8 to 7.9375
    /// let number = Number::from_num::<f64>;
    ///
    /// let mut sum = number(1.5);
    /// sum -= number(2.25);
    /// assert_eq!(sum, number(-0.75));
    /// ```
    ///
    /// # Panics
    ///
    /// With debug assertions, panics unless the number fits. Without them, the result is wrapped.
    ///
    /// # Proved
    ///
    /// ```text
    /// can_sub_assign = { λ a b. InRange T.SIGNED T.BITS (T.value a.bits -ℤ T.value b.bits) }
    /// sub_assign_gives = { λ a b r. T.value r.bits ≡ T.value a.bits -ℤ T.value b.bits }
    /// ```
    ///
    /// Definitions: [`InRange`].
    ///
    /// [`InRange`]: crate::definitions::word_format
    #[track_caller]
    fn sub_assign(&mut self, rhs: Self) {
        *self = *self - rhs;
    }
}

impl<T: Word, const F: u32> Mul for Fixed<T, F> {
    type Output = Self;

    /// Returns the product, rounded down. Preconditions: F is at most the width, and the product fits.
    ///
    /// # Examples
    ///
    /// ```
    /// use zugyelmas::prelude::*;
    /// type Number = FixedI8<4>; // from -8 to 7.9375
    /// let number = Number::from_num::<f64>;
    ///
    /// assert_eq!(number(1.5) * number(2.25), number(3.375));
    /// assert_eq!(number(0.5) * number(-0.0625), number(-0.0625)); // -0.03125, rounded down
    /// assert_eq!(number(1.5) * 3_i8, number(4.5));
    /// assert_eq!(3_i8 * number(1.5), number(4.5));
    /// ```
    ///
    /// # Compile errors
    ///
    /// Compiles only if the fraction F is at most the width.
    ///
    /// # Panics
    ///
    /// With debug assertions, panics unless the number fits. Without them, the result is wrapped.
    ///
    /// # Proved
    ///
    /// ```text
    /// can_mul = { λ a b. (F ≤ T.BITS)
    ///     × InRange T.SIGNED T.BITS (exact_mul (T.value a.bits) (T.value b.bits) F) }
    /// mul_gives = { λ a b r. T.value r.bits ≡ exact_mul (T.value a.bits) (T.value b.bits) F }
    /// ```
    ///
    /// Definitions: [`InRange`], [`exact_mul`].
    ///
    /// [`InRange`]: crate::definitions::word_format
    /// [`exact_mul`]: crate::definitions::kernel_rows
    #[track_caller]
    fn mul(self, rhs: Self) -> Self {
        const {
            assert!(
                F <= T::BITS,
                "precondition: the fraction F is at most the width"
            )
        };
        exact_number(mul_of(self.bits, rhs.bits, F))
    }
}

impl<T: Word, const F: u32, const G: u32> MulAssign<Fixed<T, G>> for Fixed<T, F> {
    /// Stores the product by a factor with any number G of fraction bits, rounded down. Preconditions: G is at most
    /// the width, and the product fits.
    ///
    /// # Examples
    ///
    /// ```
    /// use zugyelmas::prelude::*;
    /// type Number = FixedI8<4>; // from -8 to 7.9375
    /// let number = Number::from_num::<f64>;
    ///
    /// let mut product = number(1.5);
    /// product *= number(2.25);
    /// assert_eq!(product, number(3.375));
    /// product *= FixedI8::<6>::from_bits(32); // 0.5
    /// assert_eq!(product, number(1.6875));
    /// product *= 2_i8;
    /// assert_eq!(product, number(3.375));
    /// ```
    ///
    /// # Compile errors
    ///
    /// Compiles only if the fraction G is at most the width.
    ///
    /// # Panics
    ///
    /// With debug assertions, panics unless the number fits. Without them, the result is wrapped.
    ///
    /// # Proved
    ///
    /// ```text
    /// can_mul_assign = { λ a b. (G ≤ T.BITS)
    ///     × InRange T.SIGNED T.BITS (exact_mul (T.value a.bits) (T.value b.bits) G) }
    /// mul_assign_gives = { λ a b r. T.value r.bits ≡ exact_mul (T.value a.bits) (T.value b.bits) G }
    /// ```
    ///
    /// Definitions: [`InRange`], [`exact_mul`].
    ///
    /// [`InRange`]: crate::definitions::word_format
    /// [`exact_mul`]: crate::definitions::kernel_rows
    #[track_caller]
    fn mul_assign(&mut self, rhs: Fixed<T, G>) {
        const {
            assert!(
                G <= T::BITS,
                "precondition: the fraction G is at most the width"
            )
        };
        *self = exact_number(mul_of(self.bits, rhs.bits, G));
    }
}

impl<T: Word, const F: u32> Div for Fixed<T, F> {
    type Output = Self;

    /// Returns the quotient, rounded toward zero. Preconditions: F is at most the width, the divisor is not 0, and
    /// the quotient fits.
    ///
    /// # Examples
    ///
    /// ```
    /// use zugyelmas::prelude::*;
    /// type Number = FixedI8<4>; // from -8 to 7.9375
    /// let number = Number::from_num::<f64>;
    ///
    /// assert_eq!(number(3.0) / number(2.0), number(1.5));
    /// assert_eq!(number(-1.0) / number(3.0), number(-0.3125)); // -1/3, rounded toward zero
    /// assert_eq!(number(4.5) / 3_i8, number(1.5));
    /// ```
    ///
    /// ```should_panic
    /// # use zugyelmas::prelude::*;
    /// # type Number = FixedI8<4>; // from -8 to 7.9375
    /// # let number = Number::from_num::<f64>;
    /// # std::panic::set_hook(Box::new(|_| {}));
    /// let _ = number(1.0) / number(0.0); // the divisor is 0
    /// ```
    ///
    /// # Compile errors
    ///
    /// Compiles only if the fraction F is at most the width.
    ///
    /// # Panics
    ///
    /// Panics unless the divisor is not 0.
    ///
    /// With debug assertions, panics unless the number fits. Without them, the result is wrapped.
    ///
    /// # Proved
    ///
    /// ```text
    /// can_div = { λ a b. (F ≤ T.BITS) × (T.value b.bits ≢ pos 0)
    ///     × InRange T.SIGNED T.BITS (exact_div (T.value a.bits) (T.value b.bits) F) }
    /// div_gives = { λ a b r. T.value r.bits ≡ exact_div (T.value a.bits) (T.value b.bits) F }
    /// ```
    ///
    /// Definitions: [`InRange`], [`exact_div`].
    ///
    /// [`InRange`]: crate::definitions::word_format
    /// [`exact_div`]: crate::definitions::kernel_rows
    #[track_caller]
    fn div(self, rhs: Self) -> Self {
        const {
            assert!(
                F <= T::BITS,
                "precondition: the fraction F is at most the width"
            )
        };
        assert!(rhs.bits != T::ZERO, "precondition: the divisor is not 0");
        exact_number(div_of(self.bits, rhs.bits, F))
    }
}

impl<T: Word, const F: u32> DivAssign for Fixed<T, F> {
    /// Stores the quotient, rounded toward zero. Preconditions: F is at most the width, the divisor is not 0, and the
    /// quotient fits.
    ///
    /// # Examples
    ///
    /// ```
    /// use zugyelmas::prelude::*;
    /// type Number = FixedI8<4>; // from -8 to 7.9375
    /// let number = Number::from_num::<f64>;
    ///
    /// let mut quotient = number(6.0);
    /// quotient /= number(2.0);
    /// assert_eq!(quotient, number(3.0));
    /// quotient /= 2_i8;
    /// assert_eq!(quotient, number(1.5));
    /// ```
    ///
    /// # Compile errors
    ///
    /// Compiles only if the fraction F is at most the width.
    ///
    /// # Panics
    ///
    /// Panics unless the divisor is not 0.
    ///
    /// With debug assertions, panics unless the number fits. Without them, the result is wrapped.
    ///
    /// # Proved
    ///
    /// ```text
    /// can_div_assign = { λ a b. (F ≤ T.BITS) × (T.value b.bits ≢ pos 0)
    ///     × InRange T.SIGNED T.BITS (exact_div (T.value a.bits) (T.value b.bits) F) }
    /// div_assign_gives = { λ a b r. T.value r.bits ≡ exact_div (T.value a.bits) (T.value b.bits) F }
    /// ```
    ///
    /// Definitions: [`InRange`], [`exact_div`].
    ///
    /// [`InRange`]: crate::definitions::word_format
    /// [`exact_div`]: crate::definitions::kernel_rows
    #[track_caller]
    fn div_assign(&mut self, rhs: Self) {
        const {
            assert!(
                F <= T::BITS,
                "precondition: the fraction F is at most the width"
            )
        };
        assert!(rhs.bits != T::ZERO, "precondition: the divisor is not 0");
        *self = *self / rhs;
    }
}

impl<T: Word, const F: u32> Rem for Fixed<T, F> {
    type Output = Self;

    /// Returns the remainder of the quotient that is rounded toward zero. It always fits. Precondition: the divisor
    /// is not 0.
    ///
    /// # Examples
    ///
    /// ```
    /// use zugyelmas::prelude::*;
    /// type Number = FixedI8<4>; // from -8 to 7.9375
    /// let number = Number::from_num::<f64>;
    ///
    /// assert_eq!(number(5.5) % number(2.0), number(1.5));
    /// assert_eq!(number(-5.5) % number(2.0), number(-1.5)); // the sign of the dividend
    /// assert_eq!(number(5.5) % 2_i8, number(1.5));
    /// ```
    ///
    /// ```should_panic
    /// # use zugyelmas::prelude::*;
    /// # type Number = FixedI8<4>; // from -8 to 7.9375
    /// # let number = Number::from_num::<f64>;
    /// # std::panic::set_hook(Box::new(|_| {}));
    /// let _ = number(5.5) % number(0.0); // the divisor is 0
    /// ```
    ///
    /// # Panics
    ///
    /// Panics unless the divisor is not 0.
    ///
    /// With debug assertions, panics unless the number fits. Without them, the result is wrapped.
    ///
    /// # Proved
    ///
    /// ```text
    /// can_rem = { λ a b. (T.value b.bits ≢ pos 0)
    ///     × InRange T.SIGNED T.BITS (exact_rem (T.value a.bits) (T.value b.bits)) }
    /// rem_gives = { λ a b r. T.value r.bits ≡ exact_rem (T.value a.bits) (T.value b.bits) }
    /// ```
    ///
    /// Definitions: [`InRange`], [`exact_rem`].
    ///
    /// [`InRange`]: crate::definitions::word_format
    /// [`exact_rem`]: crate::definitions::kernel_rows
    #[track_caller]
    fn rem(self, rhs: Self) -> Self {
        assert!(rhs.bits != T::ZERO, "precondition: the divisor is not 0");
        exact_number(rem_of(self.bits, rhs.bits))
    }
}

impl<T: Word, const F: u32> RemAssign for Fixed<T, F> {
    /// Stores the remainder of the quotient that is rounded toward zero. Precondition: the divisor is not 0.
    ///
    /// # Examples
    ///
    /// ```
    /// use zugyelmas::prelude::*;
    /// type Number = FixedI8<4>; // from -8 to 7.9375
    /// let number = Number::from_num::<f64>;
    ///
    /// let mut rest = number(5.5);
    /// rest %= number(3.0);
    /// assert_eq!(rest, number(2.5));
    /// rest %= 2_i8;
    /// assert_eq!(rest, number(0.5));
    /// ```
    ///
    /// # Panics
    ///
    /// Panics unless the divisor is not 0.
    ///
    /// With debug assertions, panics unless the number fits. Without them, the result is wrapped.
    ///
    /// # Proved
    ///
    /// ```text
    /// can_rem_assign = { λ a b. (T.value b.bits ≢ pos 0)
    ///     × InRange T.SIGNED T.BITS (exact_rem (T.value a.bits) (T.value b.bits)) }
    /// rem_assign_gives = { λ a b r. T.value r.bits ≡ exact_rem (T.value a.bits) (T.value b.bits) }
    /// ```
    ///
    /// Definitions: [`InRange`], [`exact_rem`].
    ///
    /// [`InRange`]: crate::definitions::word_format
    /// [`exact_rem`]: crate::definitions::kernel_rows
    #[track_caller]
    fn rem_assign(&mut self, rhs: Self) {
        assert!(rhs.bits != T::ZERO, "precondition: the divisor is not 0");
        *self = *self % rhs;
    }
}
