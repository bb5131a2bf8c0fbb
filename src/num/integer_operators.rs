// Made by `make package` of crates/fixed_num/src/integer_operators.rt, which is proved: changes go there.

//! The operators between a number and an integer. The integer, on either side, has the number's word type.
//!
//! Each operator returns the exact result. Precondition: there is one, and it fits. The assigning forms store the
//! same result.

use crate::kernel::{div_int_of, mul_int_of, rem_int_of};
use crate::num::format::Fixed;
use crate::num::from_outcome::exact_number;
use crate::word::{RawWord, Word};
use core::ops::{Div, DivAssign, Mul, MulAssign, Rem, RemAssign};

impl<T: Word, const F: u32> Mul<T> for Fixed<T, F> {
    type Output = Self;

    /// Returns the product by an integer. Precondition: it fits.
    ///
    /// # Examples
    ///
    /// ```
    /// use zugyelmas::prelude::*;
    /// type Number = FixedI8<4>; // from -8 to 7.9375
    /// let number = Number::from_num::<f64>;
    ///
    /// assert_eq!(number(1.5) * number(2.25), number(3.375));
    /// assert_eq!(number(0.5) * number(-0.0625), number(-0.0625)); // -0.03125, rounded down
    /// assert_eq!(number(1.5) * 3_i8, number(4.5));
    /// assert_eq!(3_i8 * number(1.5), number(4.5));
    /// ```
    ///
    /// # Panics
    ///
    /// With debug assertions, panics unless the number fits. Without them, the result is wrapped.
    ///
    /// # Proved
    ///
    /// ```text
    /// can_mul = { λ a k. InRange T.SIGNED T.BITS (T.value a.bits *ℤ T.value k) }
    /// mul_gives = { λ a k r. T.value r.bits ≡ T.value a.bits *ℤ T.value k }
    /// ```
    ///
    /// Definitions: [`InRange`].
    ///
    /// [`InRange`]: crate::definitions::word_format
    #[track_caller]
    fn mul(self, rhs: T) -> Self {
        exact_number(mul_int_of(self.bits, rhs))
    }
}

impl<T: Word, const F: u32> MulAssign<T> for Fixed<T, F> {
    /// Stores the product by an integer. Precondition: it fits.
    ///
    /// # Examples
    ///
    /// ```
    /// use zugyelmas::prelude::*;
    /// type Number = FixedI8<4>; // from -8 to 7.9375
    /// let number = Number::from_num::<f64>;
    ///
    /// let mut product = number(1.5);
    /// product *= number(2.25);
    /// assert_eq!(product, number(3.375));
    /// product *= FixedI8::<6>::from_bits(32); // 0.5
    /// assert_eq!(product, number(1.6875));
    /// product *= 2_i8;
    /// assert_eq!(product, number(3.375));
    /// ```
    ///
    /// # Panics
    ///
    /// With debug assertions, panics unless the number fits. Without them, the result is wrapped.
    ///
    /// # Proved
    ///
    /// ```text
    /// can_mul_assign = { λ a k. InRange T.SIGNED T.BITS (T.value a.bits *ℤ T.value k) }
    /// mul_assign_gives = { λ a k r. T.value r.bits ≡ T.value a.bits *ℤ T.value k }
    /// ```
    ///
    /// Definitions: [`InRange`].
    ///
    /// [`InRange`]: crate::definitions::word_format
    #[track_caller]
    fn mul_assign(&mut self, rhs: T) {
        *self = exact_number(mul_int_of(self.bits, rhs));
    }
}

impl<T: Word, const F: u32> Div<T> for Fixed<T, F> {
    type Output = Self;

    /// Returns the quotient by an integer, rounded toward zero. Preconditions: the divisor is not 0, and the quotient
    /// fits.
    ///
    /// # Examples
    ///
    /// ```
    /// use zugyelmas::prelude::*;
    /// type Number = FixedI8<4>; // from -8 to 7.9375
    /// let number = Number::from_num::<f64>;
    ///
    /// assert_eq!(number(3.0) / number(2.0), number(1.5));
    /// assert_eq!(number(-1.0) / number(3.0), number(-0.3125)); // -1/3, rounded toward zero
    /// assert_eq!(number(4.5) / 3_i8, number(1.5));
    /// ```
    ///
    /// ```should_panic
    /// # use zugyelmas::prelude::*;
    /// # type Number = FixedI8<4>; // from -8 to 7.9375
    /// # let number = Number::from_num::<f64>;
    /// # std::panic::set_hook(Box::new(|_| {}));
    /// let _ = number(1.0) / number(0.0); // the divisor is 0
    /// ```
    ///
    /// # Panics
    ///
    /// Panics unless the divisor is not 0.
    ///
    /// With debug assertions, panics unless the number fits. Without them, the result is wrapped.
    ///
    /// # Proved
    ///
    /// ```text
    /// can_div = { λ a k. (T.value k ≢ pos 0)
    ///     × InRange T.SIGNED T.BITS (truncated_quotient (T.value a.bits) (T.value k)) }
    /// div_gives = { λ a k r. T.value r.bits ≡ truncated_quotient (T.value a.bits) (T.value k) }
    /// ```
    ///
    /// Definitions: [`InRange`], [`truncated_quotient`].
    ///
    /// [`InRange`]: crate::definitions::word_format
    /// [`truncated_quotient`]: crate::definitions::word_quotient
    #[track_caller]
    fn div(self, rhs: T) -> Self {
        assert!(rhs != T::ZERO, "precondition: the divisor is not 0");
        exact_number(div_int_of(self.bits, rhs))
    }
}

impl<T: Word, const F: u32> DivAssign<T> for Fixed<T, F> {
    /// Stores the quotient by an integer, rounded toward zero. Preconditions: the divisor is not 0, and the quotient
    /// fits.
    ///
    /// # Examples
    ///
    /// ```
    /// use zugyelmas::prelude::*;
    /// type Number = FixedI8<4>; // from -8 to 7.9375
    /// let number = Number::from_num::<f64>;
    ///
    /// let mut quotient = number(6.0);
    /// quotient /= number(2.0);
    /// assert_eq!(quotient, number(3.0));
    /// quotient /= 2_i8;
    /// assert_eq!(quotient, number(1.5));
    /// ```
    ///
    /// # Panics
    ///
    /// Panics unless the divisor is not 0.
    ///
    /// With debug assertions, panics unless the number fits. Without them, the result is wrapped.
    ///
    /// # Proved
    ///
    /// ```text
    /// can_div_assign = { λ a k. (T.value k ≢ pos 0)
    ///     × InRange T.SIGNED T.BITS (truncated_quotient (T.value a.bits) (T.value k)) }
    /// div_assign_gives = { λ a k r. T.value r.bits ≡ truncated_quotient (T.value a.bits) (T.value k) }
    /// ```
    ///
    /// Definitions: [`InRange`], [`truncated_quotient`].
    ///
    /// [`InRange`]: crate::definitions::word_format
    /// [`truncated_quotient`]: crate::definitions::word_quotient
    #[track_caller]
    fn div_assign(&mut self, rhs: T) {
        assert!(rhs != T::ZERO, "precondition: the divisor is not 0");
        *self = exact_number(div_int_of(self.bits, rhs));
    }
}

impl<T: Word, const F: u32> Rem<T> for Fixed<T, F> {
    type Output = Self;

    /// Returns the remainder by an integer, of the quotient that is rounded toward zero. It always fits.
    /// Preconditions: F is at most the width, and the divisor is not 0.
    ///
    /// # Examples
    ///
    /// ```
    /// use zugyelmas::prelude::*;
    /// type Number = FixedI8<4>; // from -8 to 7.9375
    /// let number = Number::from_num::<f64>;
    ///
    /// assert_eq!(number(5.5) % number(2.0), number(1.5));
    /// assert_eq!(number(-5.5) % number(2.0), number(-1.5)); // the sign of the dividend
    /// assert_eq!(number(5.5) % 2_i8, number(1.5));
    /// ```
    ///
    /// ```should_panic
    /// # use zugyelmas::prelude::*;
    /// # type Number = FixedI8<4>; // from -8 to 7.9375
    /// # let number = Number::from_num::<f64>;
    /// # std::panic::set_hook(Box::new(|_| {}));
    /// let _ = number(5.5) % number(0.0); // the divisor is 0
    /// ```
    ///
    /// # Compile errors
    ///
    /// Compiles only if the fraction F is at most the width.
    ///
    /// # Panics
    ///
    /// Panics unless the divisor is not 0.
    ///
    /// With debug assertions, panics unless the number fits. Without them, the result is wrapped.
    ///
    /// # Proved
    ///
    /// ```text
    /// can_rem = { λ a k. (F ≤ T.BITS) × (T.value k ≢ pos 0)
    ///     × InRange T.SIGNED T.BITS (exact_rem (T.value a.bits) (units (T.value k) F)) }
    /// rem_gives = { λ a k r. T.value r.bits ≡ exact_rem (T.value a.bits) (units (T.value k) F) }
    /// ```
    ///
    /// Definitions: [`InRange`], [`exact_rem`], [`units`].
    ///
    /// [`InRange`]: crate::definitions::word_format
    /// [`exact_rem`]: crate::definitions::kernel_rows
    /// [`units`]: crate::definitions::kernel_rows
    #[track_caller]
    fn rem(self, rhs: T) -> Self {
        const {
            assert!(
                F <= T::BITS,
                "precondition: the fraction F is at most the width"
            )
        };
        assert!(rhs != T::ZERO, "precondition: the divisor is not 0");
        exact_number(rem_int_of(self.bits, rhs, F))
    }
}

impl<T: Word, const F: u32> RemAssign<T> for Fixed<T, F> {
    /// Stores the remainder by an integer. Preconditions: F is at most the width, and the divisor is not 0.
    ///
    /// # Examples
    ///
    /// ```
    /// use zugyelmas::prelude::*;
    /// type Number = FixedI8<4>; // from -8 to 7.9375
    /// let number = Number::from_num::<f64>;
    ///
    /// let mut rest = number(5.5);
    /// rest %= number(3.0);
    /// assert_eq!(rest, number(2.5));
    /// rest %= 2_i8;
    /// assert_eq!(rest, number(0.5));
    /// ```
    ///
    /// # Compile errors
    ///
    /// Compiles only if the fraction F is at most the width.
    ///
    /// # Panics
    ///
    /// Panics unless the divisor is not 0.
    ///
    /// With debug assertions, panics unless the number fits. Without them, the result is wrapped.
    ///
    /// # Proved
    ///
    /// ```text
    /// can_rem_assign = { λ a k. (F ≤ T.BITS) × (T.value k ≢ pos 0)
    ///     × InRange T.SIGNED T.BITS (exact_rem (T.value a.bits) (units (T.value k) F)) }
    /// rem_assign_gives = { λ a k r. T.value r.bits ≡ exact_rem (T.value a.bits) (units (T.value k) F) }
    /// ```
    ///
    /// Definitions: [`InRange`], [`exact_rem`], [`units`].
    ///
    /// [`InRange`]: crate::definitions::word_format
    /// [`exact_rem`]: crate::definitions::kernel_rows
    /// [`units`]: crate::definitions::kernel_rows
    #[track_caller]
    fn rem_assign(&mut self, rhs: T) {
        const {
            assert!(
                F <= T::BITS,
                "precondition: the fraction F is at most the width"
            )
        };
        assert!(rhs != T::ZERO, "precondition: the divisor is not 0");
        *self = exact_number(rem_int_of(self.bits, rhs, F));
    }
}

impl<const F: u32> Mul<Fixed<i8, F>> for i8 {
    type Output = Fixed<i8, F>;

    /// Returns the product of an integer and a number. Precondition: it fits.
    ///
    /// # Examples
    ///
    /// ```
    /// use zugyelmas::prelude::*;
    /// type Number = FixedI8<4>; // from -8 to 7.9375
    /// let number = Number::from_num::<f64>;
    ///
    /// assert_eq!(number(1.5) * number(2.25), number(3.375));
    /// assert_eq!(number(0.5) * number(-0.0625), number(-0.0625)); // -0.03125, rounded down
    /// assert_eq!(number(1.5) * 3_i8, number(4.5));
    /// assert_eq!(3_i8 * number(1.5), number(4.5));
    /// ```
    ///
    /// # Panics
    ///
    /// With debug assertions, panics unless the number fits. Without them, the result is wrapped.
    ///
    /// # Proved
    ///
    /// ```text
    /// can_mul = { λ k a. InRange true 8 (a.bits *ℤ k) }
    /// mul_gives = { λ k a r. r.bits ≡ a.bits *ℤ k }
    /// ```
    ///
    /// Definitions: [`InRange`].
    ///
    /// [`InRange`]: crate::definitions::word_format
    #[track_caller]
    fn mul(self, rhs: Fixed<i8, F>) -> Fixed<i8, F> {
        rhs * self
    }
}

impl<const F: u32> Mul<Fixed<i16, F>> for i16 {
    type Output = Fixed<i16, F>;

    /// Returns the product of an integer and a number. Precondition: it fits.
    ///
    /// # Examples
    ///
    /// ```
    /// use zugyelmas::prelude::*;
    /// type Number = FixedI8<4>; // from -8 to 7.9375
    /// let number = Number::from_num::<f64>;
    ///
    /// assert_eq!(number(1.5) * number(2.25), number(3.375));
    /// assert_eq!(number(0.5) * number(-0.0625), number(-0.0625)); // -0.03125, rounded down
    /// assert_eq!(number(1.5) * 3_i8, number(4.5));
    /// assert_eq!(3_i8 * number(1.5), number(4.5));
    /// ```
    ///
    /// # Panics
    ///
    /// With debug assertions, panics unless the number fits. Without them, the result is wrapped.
    ///
    /// # Proved
    ///
    /// ```text
    /// can_mul = { λ k a. InRange true 16 (a.bits *ℤ k) }
    /// mul_gives = { λ k a r. r.bits ≡ a.bits *ℤ k }
    /// ```
    ///
    /// Definitions: [`InRange`].
    ///
    /// [`InRange`]: crate::definitions::word_format
    #[track_caller]
    fn mul(self, rhs: Fixed<i16, F>) -> Fixed<i16, F> {
        rhs * self
    }
}

impl<const F: u32> Mul<Fixed<i32, F>> for i32 {
    type Output = Fixed<i32, F>;

    /// Returns the product of an integer and a number. Precondition: it fits.
    ///
    /// # Examples
    ///
    /// ```
    /// use zugyelmas::prelude::*;
    /// type Number = FixedI8<4>; // from -8 to 7.9375
    /// let number = Number::from_num::<f64>;
    ///
    /// assert_eq!(number(1.5) * number(2.25), number(3.375));
    /// assert_eq!(number(0.5) * number(-0.0625), number(-0.0625)); // -0.03125, rounded down
    /// assert_eq!(number(1.5) * 3_i8, number(4.5));
    /// assert_eq!(3_i8 * number(1.5), number(4.5));
    /// ```
    ///
    /// # Panics
    ///
    /// With debug assertions, panics unless the number fits. Without them, the result is wrapped.
    ///
    /// # Proved
    ///
    /// ```text
    /// can_mul = { λ k a. InRange true 32 (a.bits *ℤ k) }
    /// mul_gives = { λ k a r. r.bits ≡ a.bits *ℤ k }
    /// ```
    ///
    /// Definitions: [`InRange`].
    ///
    /// [`InRange`]: crate::definitions::word_format
    #[track_caller]
    fn mul(self, rhs: Fixed<i32, F>) -> Fixed<i32, F> {
        rhs * self
    }
}

impl<const F: u32> Mul<Fixed<i64, F>> for i64 {
    type Output = Fixed<i64, F>;

    /// Returns the product of an integer and a number. Precondition: it fits.
    ///
    /// # Examples
    ///
    /// ```
    /// use zugyelmas::prelude::*;
    /// type Number = FixedI8<4>; // from -8 to 7.9375
    /// let number = Number::from_num::<f64>;
    ///
    /// assert_eq!(number(1.5) * number(2.25), number(3.375));
    /// assert_eq!(number(0.5) * number(-0.0625), number(-0.0625)); // -0.03125, rounded down
    /// assert_eq!(number(1.5) * 3_i8, number(4.5));
    /// assert_eq!(3_i8 * number(1.5), number(4.5));
    /// ```
    ///
    /// # Panics
    ///
    /// With debug assertions, panics unless the number fits. Without them, the result is wrapped.
    ///
    /// # Proved
    ///
    /// ```text
    /// can_mul = { λ k a. InRange true 64 (a.bits *ℤ k) }
    /// mul_gives = { λ k a r. r.bits ≡ a.bits *ℤ k }
    /// ```
    ///
    /// Definitions: [`InRange`].
    ///
    /// [`InRange`]: crate::definitions::word_format
    #[track_caller]
    fn mul(self, rhs: Fixed<i64, F>) -> Fixed<i64, F> {
        rhs * self
    }
}

impl<const F: u32> Mul<Fixed<u8, F>> for u8 {
    type Output = Fixed<u8, F>;

    /// Returns the product of an integer and a number. Precondition: it fits.
    ///
    /// # Examples
    ///
    /// ```
    /// use zugyelmas::prelude::*;
    /// type Number = FixedI8<4>; // from -8 to 7.9375
    /// let number = Number::from_num::<f64>;
    ///
    /// assert_eq!(number(1.5) * number(2.25), number(3.375));
    /// assert_eq!(number(0.5) * number(-0.0625), number(-0.0625)); // -0.03125, rounded down
    /// assert_eq!(number(1.5) * 3_i8, number(4.5));
    /// assert_eq!(3_i8 * number(1.5), number(4.5));
    /// ```
    ///
    /// # Panics
    ///
    /// With debug assertions, panics unless the number fits. Without them, the result is wrapped.
    ///
    /// # Proved
    ///
    /// ```text
    /// can_mul = { λ k a. InRange false 8 (pos a.bits *ℤ pos k) }
    /// mul_gives = { λ k a r. pos r.bits ≡ pos a.bits *ℤ pos k }
    /// ```
    ///
    /// Definitions: [`InRange`].
    ///
    /// [`InRange`]: crate::definitions::word_format
    #[track_caller]
    fn mul(self, rhs: Fixed<u8, F>) -> Fixed<u8, F> {
        rhs * self
    }
}

impl<const F: u32> Mul<Fixed<u16, F>> for u16 {
    type Output = Fixed<u16, F>;

    /// Returns the product of an integer and a number. Precondition: it fits.
    ///
    /// # Examples
    ///
    /// ```
    /// use zugyelmas::prelude::*;
    /// type Number = FixedI8<4>; // from -8 to 7.9375
    /// let number = Number::from_num::<f64>;
    ///
    /// assert_eq!(number(1.5) * number(2.25), number(3.375));
    /// assert_eq!(number(0.5) * number(-0.0625), number(-0.0625)); // -0.03125, rounded down
    /// assert_eq!(number(1.5) * 3_i8, number(4.5));
    /// assert_eq!(3_i8 * number(1.5), number(4.5));
    /// ```
    ///
    /// # Panics
    ///
    /// With debug assertions, panics unless the number fits. Without them, the result is wrapped.
    ///
    /// # Proved
    ///
    /// ```text
    /// can_mul = { λ k a. InRange false 16 (pos a.bits *ℤ pos k) }
    /// mul_gives = { λ k a r. pos r.bits ≡ pos a.bits *ℤ pos k }
    /// ```
    ///
    /// Definitions: [`InRange`].
    ///
    /// [`InRange`]: crate::definitions::word_format
    #[track_caller]
    fn mul(self, rhs: Fixed<u16, F>) -> Fixed<u16, F> {
        rhs * self
    }
}

impl<const F: u32> Mul<Fixed<u32, F>> for u32 {
    type Output = Fixed<u32, F>;

    /// Returns the product of an integer and a number. Precondition: it fits.
    ///
    /// # Examples
    ///
    /// ```
    /// use zugyelmas::prelude::*;
    /// type Number = FixedI8<4>; // from -8 to 7.9375
    /// let number = Number::from_num::<f64>;
    ///
    /// assert_eq!(number(1.5) * number(2.25), number(3.375));
    /// assert_eq!(number(0.5) * number(-0.0625), number(-0.0625)); // -0.03125, rounded down
    /// assert_eq!(number(1.5) * 3_i8, number(4.5));
    /// assert_eq!(3_i8 * number(1.5), number(4.5));
    /// ```
    ///
    /// # Panics
    ///
    /// With debug assertions, panics unless the number fits. Without them, the result is wrapped.
    ///
    /// # Proved
    ///
    /// ```text
    /// can_mul = { λ k a. InRange false 32 (pos a.bits *ℤ pos k) }
    /// mul_gives = { λ k a r. pos r.bits ≡ pos a.bits *ℤ pos k }
    /// ```
    ///
    /// Definitions: [`InRange`].
    ///
    /// [`InRange`]: crate::definitions::word_format
    #[track_caller]
    fn mul(self, rhs: Fixed<u32, F>) -> Fixed<u32, F> {
        rhs * self
    }
}

impl<const F: u32> Mul<Fixed<u64, F>> for u64 {
    type Output = Fixed<u64, F>;

    /// Returns the product of an integer and a number. Precondition: it fits.
    ///
    /// # Examples
    ///
    /// ```
    /// use zugyelmas::prelude::*;
    /// type Number = FixedI8<4>; // from -8 to 7.9375
    /// let number = Number::from_num::<f64>;
    ///
    /// assert_eq!(number(1.5) * number(2.25), number(3.375));
    /// assert_eq!(number(0.5) * number(-0.0625), number(-0.0625)); // -0.03125, rounded down
    /// assert_eq!(number(1.5) * 3_i8, number(4.5));
    /// assert_eq!(3_i8 * number(1.5), number(4.5));
    /// ```
    ///
    /// # Panics
    ///
    /// With debug assertions, panics unless the number fits. Without them, the result is wrapped.
    ///
    /// # Proved
    ///
    /// ```text
    /// can_mul = { λ k a. InRange false 64 (pos a.bits *ℤ pos k) }
    /// mul_gives = { λ k a r. pos r.bits ≡ pos a.bits *ℤ pos k }
    /// ```
    ///
    /// Definitions: [`InRange`].
    ///
    /// [`InRange`]: crate::definitions::word_format
    #[track_caller]
    fn mul(self, rhs: Fixed<u64, F>) -> Fixed<u64, F> {
        rhs * self
    }
}
