// Made by `make package` of crates/fixed_num/src/format.rt, which is proved: changes go there.

//! The number type, its constants, and the traits by which generic calls name its parts.

use crate::word::{RawWord, Word};

/// The number `bits * 2^-F`: a word of bits, of which F are fraction bits. `FixedI32::<16>::from_bits(98304)` is
/// `1.5`. (`fixed` has a type for each word: `FixedI8` and so on.)
#[derive(Clone, Copy, PartialEq, Eq, PartialOrd, Ord, Hash)]
pub struct Fixed<T: RawWord, const F: u32> {
    /// The number in units of `2^-F`.
    pub bits: T,
}

/// A signed number of 8 bits, F of them fraction bits.
pub type FixedI8<const F: u32> = Fixed<i8, F>;

/// A signed number of 16 bits, F of them fraction bits.
pub type FixedI16<const F: u32> = Fixed<i16, F>;

/// A signed number of 32 bits, F of them fraction bits.
pub type FixedI32<const F: u32> = Fixed<i32, F>;

/// A signed number of 64 bits, F of them fraction bits.
pub type FixedI64<const F: u32> = Fixed<i64, F>;

/// An unsigned number of 8 bits, F of them fraction bits.
pub type FixedU8<const F: u32> = Fixed<u8, F>;

/// An unsigned number of 16 bits, F of them fraction bits.
pub type FixedU16<const F: u32> = Fixed<u16, F>;

/// An unsigned number of 32 bits, F of them fraction bits.
pub type FixedU32<const F: u32> = Fixed<u32, F>;

/// An unsigned number of 64 bits, F of them fraction bits.
pub type FixedU64<const F: u32> = Fixed<u64, F>;

/// A type that holds the bits of a word. (`fixed` does not have this trait.)
pub trait Held: Copy {
    /// The word that holds the bits.
    type Bits: RawWord;

    /// Returns the number with these bits, in units of `2^-F`.
    ///
    /// # Examples
    ///
    /// ```
    /// use zugyelmas::prelude::*;
    /// type Number = FixedI8<4>; // from -8 to 7.9375
    ///
    /// fn number<N: Held<Bits = i8>>() -> N {
    ///     N::from_bits(24)
    /// }
    /// assert_eq!(number::<FixedI8<4>>(), FixedI8::from_num(1.5)); // 24 / 16
    /// assert_eq!(number::<FixedI8<5>>(), FixedI8::from_num(0.75)); // 24 / 32
    /// ```
    ///
    /// # Proved
    ///
    /// ```text
    /// ensures { held result ≡ bits }
    /// ```
    #[must_use]
    fn from_bits(bits: Self::Bits) -> Self;

    /// Returns the bits: the number in units of `2^-F`.
    ///
    /// # Examples
    ///
    /// ```
    /// use zugyelmas::prelude::*;
    /// type Number = FixedI8<4>; // from -8 to 7.9375
    ///
    /// fn bits<N: Held<Bits = i8>>(number: N) -> i8 {
    ///     number.to_bits()
    /// }
    /// assert_eq!(bits(FixedI8::<4>::from_num(1.5)), 24); // 1.5 * 16
    /// assert_eq!(bits(FixedI8::<5>::from_num(0.75)), 24); // 0.75 * 32
    /// ```
    ///
    /// # Proved
    ///
    /// ```text
    /// ensures { result ≡ held self }
    /// ```
    #[must_use]
    fn to_bits(self) -> Self::Bits;
}

impl<T: RawWord, const F: u32> Held for Fixed<T, F> {
    type Bits = T;

    fn from_bits(bits: T) -> Self {
        Fixed { bits }
    }

    fn to_bits(self) -> T {
        self.bits
    }
}

/// A number of any format, as generic code sees it: its constants, its order, its related types and its fraction. It
/// has its own signedness and width, since a law cannot cite one of a supertrait. (`fixed` does not have this trait.)
pub trait Number: Held + Constants + Eq + Ord + Default {
    /// The unsigned number type of the same width and fraction.
    type Unsigned: Held;

    /// The signed number type of the same width and fraction.
    type Signed: Held;

    /// The number of fraction bits, F; the same as `Constants::FRAC_NBITS`.
    const FRACTION: u32;

    /// Returns whether the number is 0.
    ///
    /// # Examples
    ///
    /// ```
    /// use zugyelmas::prelude::*;
    /// type Number = FixedI8<4>; // from -8 to 7.9375
    ///
    /// fn zeros<N: zugyelmas::Number>(numbers: &[N]) -> usize {
    ///     numbers.iter().filter(|number| number.is_zero()).count()
    /// }
    /// assert_eq!(zeros(&[Number::ZERO, Number::DELTA]), 1);
    /// ```
    ///
    /// # Proved
    ///
    /// ```text
    /// ensures { IsTrue result ↔ (Self.number self ≡ pos 0) }
    /// ```
    #[must_use]
    fn is_zero(self) -> bool;
}

impl<T: RawWord, const F: u32> Fixed<T, F> {
    /// Returns the number with these bits, in units of `2^-F`.
    ///
    /// # Examples
    ///
    /// ```
    /// use zugyelmas::prelude::*;
    /// type Number = FixedI8<4>; // from -8 to 7.9375
    ///
    /// let number = Number::from_bits(24);
    /// assert_eq!(number, Number::from_num(1.5)); // 24 / 16
    /// // 98304 / 65536
    /// assert_eq!(FixedI32::<16>::from_bits(98304), FixedI32::from_num(1.5));
    /// ```
    ///
    /// # Proved
    ///
    /// ```text
    /// ensures { result.bits ≡ bits }
    /// ```
    #[must_use]
    pub const fn from_bits(bits: T) -> Self {
        Fixed { bits }
    }

    /// Returns the bits: the number in units of `2^-F`.
    ///
    /// # Examples
    ///
    /// ```
    /// use zugyelmas::prelude::*;
    /// type Number = FixedI8<4>; // from -8 to 7.9375
    ///
    /// assert_eq!(Number::from_num(1.5).to_bits(), 24); // 1.5 * 16
    /// assert_eq!(FixedI32::<16>::from_num(1.5).to_bits(), 98304); // 1.5 * 65536
    /// ```
    ///
    /// # Proved
    ///
    /// ```text
    /// ensures { result ≡ self.bits }
    /// ```
    #[must_use]
    pub const fn to_bits(self) -> T {
        self.bits
    }
}

impl<T: Word, const F: u32> Number for Fixed<T, F> {
    type Unsigned = Fixed<T::Unsigned, F>;

    type Signed = Fixed<T::Signed, F>;

    const FRACTION: u32 = F;

    fn is_zero(self) -> bool {
        Fixed::is_zero(self)
    }
}

impl<T: RawWord, const F: u32> Default for Fixed<T, F> {
    /// The number 0.
    ///
    /// # Examples
    ///
    /// ```
    /// use zugyelmas::prelude::*;
    /// type Number = FixedI8<4>; // from -8 to 7.9375
    ///
    /// assert_eq!(Number::default(), Number::ZERO);
    /// ```
    fn default() -> Self {
        Fixed { bits: T::ZERO }
    }
}

/// The constants of a format. They are in a trait since contracts cannot name inherent constants of a generic type.
pub trait Constants: Sized {
    /// The number 0.
    const ZERO: Self;

    /// The smallest positive number: one unit, `2^-F`.
    const DELTA: Self;

    /// The smallest number.
    const MIN: Self;

    /// The largest number.
    const MAX: Self;

    /// Whether the format has negative numbers.
    const IS_SIGNED: bool;

    /// The number of fraction bits, F.
    const FRAC_NBITS: u32;
}

impl<T: Word, const F: u32> Constants for Fixed<T, F> {
    const ZERO: Self = Fixed { bits: T::ZERO };

    const DELTA: Self = Fixed { bits: T::ONE };

    const MIN: Self = Fixed { bits: T::MIN };

    const MAX: Self = Fixed { bits: T::MAX };

    const IS_SIGNED: bool = T::SIGNED;

    const FRAC_NBITS: u32 = F;
}

impl<T: Word, const F: u32> Fixed<T, F> {
    /// Returns the number of integer bits: the width minus F. Precondition: F is at most the width. (This is the
    /// constant `INT_NBITS` of `fixed`.)
    ///
    /// # Examples
    ///
    /// ```
    /// use zugyelmas::prelude::*;
    /// type Number = FixedI8<4>; // from -8 to 7.9375
    ///
    /// assert_eq!(Number::int_nbits(), 4); // 8 - 4
    /// assert_eq!(FixedI32::<32>::int_nbits(), 0);
    /// ```
    ///
    /// # Compile errors
    ///
    /// Compiles only if the fraction F is at most the width.
    ///
    /// # Proved
    ///
    /// ```text
    /// requires { F ≤ T.BITS }
    /// ensures { result ≡ T.BITS - F }
    /// ```
    #[track_caller]
    #[must_use]
    pub fn int_nbits() -> u32 {
        const {
            assert!(
                F <= T::BITS,
                "precondition: the fraction F is at most the width"
            )
        };
        T::BITS - F
    }

    /// Returns the number 1, whose bits are `2^F`. Precondition: it fits. (This is the constant `ONE` of `fixed`.)
    ///
    /// # Examples
    ///
    /// ```
    /// use zugyelmas::prelude::*;
    /// type Number = FixedI8<4>; // from -8 to 7.9375
    ///
    /// assert_eq!(Number::one().to_bits(), 16); // 16 / 16
    /// ```
    ///
    /// ```should_panic
    /// # use zugyelmas::prelude::*;
    /// # type Number = FixedI8<4>; // from -8 to 7.9375
    /// # std::panic::set_hook(Box::new(|_| {}));
    /// FixedI8::<7>::one(); // the numbers are below 1
    /// ```
    ///
    /// # Panics
    ///
    /// Panics unless the number 1 fits.
    ///
    /// # Proved
    ///
    /// ```text
    /// requires { InRange T.SIGNED T.BITS (pos (2 ^ F)) }
    /// ensures { T.value result.bits ≡ pos (2 ^ F) }
    /// ```
    ///
    /// Definitions: [`InRange`].
    ///
    /// [`InRange`]: crate::definitions::word_format
    #[track_caller]
    #[must_use]
    pub fn one() -> Self {
        assert!(
            F < T::BITS - u32::from(T::SIGNED),
            "precondition: the number 1 fits"
        );
        Fixed {
            bits: T::residue(false, 1 << F),
        }
    }

    /// Returns the number -1, whose bits are `-2^F`. Precondition: it fits. (This is the constant `NEG_ONE` of
    /// `fixed`.)
    ///
    /// # Examples
    ///
    /// ```
    /// use zugyelmas::prelude::*;
    /// type Number = FixedI8<4>; // from -8 to 7.9375
    ///
    /// assert_eq!(Number::neg_one().to_bits(), -16); // -16 / 16
    /// assert_eq!(FixedI8::<7>::neg_one(), FixedI8::MIN); // -1 fits where 1 does not
    /// ```
    ///
    /// ```should_panic
    /// # use zugyelmas::prelude::*;
    /// # type Number = FixedI8<4>; // from -8 to 7.9375
    /// # std::panic::set_hook(Box::new(|_| {}));
    /// FixedU8::<4>::neg_one(); // the numbers are at least 0
    /// ```
    ///
    /// # Panics
    ///
    /// Panics unless the number -1 fits.
    ///
    /// # Proved
    ///
    /// ```text
    /// requires { InRange T.SIGNED T.BITS (neg_ℤ (pos (2 ^ F))) }
    /// ensures { T.value result.bits ≡ neg_ℤ (pos (2 ^ F)) }
    /// ```
    ///
    /// Definitions: [`InRange`].
    ///
    /// [`InRange`]: crate::definitions::word_format
    #[track_caller]
    #[must_use]
    pub fn neg_one() -> Self {
        assert!(T::SIGNED && F < T::BITS, "precondition: the number -1 fits");
        Fixed {
            bits: T::residue(true, 1 << F),
        }
    }

    /// Returns whether the number is 0.
    ///
    /// # Examples
    ///
    /// ```
    /// use zugyelmas::prelude::*;
    /// type Number = FixedI8<4>; // from -8 to 7.9375
    ///
    /// assert!(Number::ZERO.is_zero());
    /// assert!(!Number::DELTA.is_zero()); // 0.0625
    /// ```
    ///
    /// # Proved
    ///
    /// ```text
    /// ensures { IsTrue result ↔ (T.value self.bits ≡ pos 0) }
    /// ```
    #[must_use]
    pub fn is_zero(self) -> bool {
        self.bits == T::ZERO
    }
}
