// Made by `make package` of crates/fixed_num/src/literal.rt, which is proved: changes go there.

//! Constants from decimals.
//!
//! A `const fn` can call no method of a trait, and has no slicing. So each word has its own `lit`, which calls one of
//! two kernels without type parameters.

use crate::decimal::{signed_literal, unsigned_literal};
use crate::num::format::Fixed;

impl<const F: u32> Fixed<i8, F> {
    /// Returns the number of a decimal, rounded to the nearest unit, ties to even. Preconditions: the text is a
    /// decimal, its number fits, and F is at most the width.
    ///
    /// # Examples
    ///
    /// ```
    /// use zugyelmas::prelude::*;
    /// type Number = FixedI8<4>; // from -8 to 7.9375
    ///
    /// const GAIN: FixedI8<4> = FixedI8::lit("1.5");
    /// assert_eq!(GAIN.to_bits(), 24); // 1.5 * 16
    /// // 3277 / 32768, the nearest number
    /// assert_eq!(FixedU16::<15>::lit("0.1"), FixedU16::from_num(0.1));
    /// ```
    ///
    /// ```should_panic
    /// # use zugyelmas::prelude::*;
    /// # type Number = FixedI8<4>; // from -8 to 7.9375
    /// # std::panic::set_hook(Box::new(|_| {}));
    /// FixedI8::<4>::lit("8"); // 8 does not fit
    /// ```
    ///
    /// ```should_panic
    /// # use zugyelmas::prelude::*;
    /// # type Number = FixedI8<4>; // from -8 to 7.9375
    /// # std::panic::set_hook(Box::new(|_| {}));
    /// FixedI8::<4>::lit("1/2"); // no decimal
    /// ```
    ///
    /// # Panics
    ///
    /// Panics unless the text is a decimal that fits.
    ///
    /// # Proved
    ///
    /// ```text
    /// requires { IsSome (literal true 8 F text.now) }
    /// ensures { literal true 8 F text.now ≡ Some result.bits }
    /// ```
    ///
    /// Definitions: [`literal`].
    ///
    /// [`literal`]: crate::definitions::decimal_rows
    #[track_caller]
    #[must_use]
    pub const fn lit(text: &str) -> Self {
        assert!(
            crate::decimal::checked_signed_literal(text.as_bytes(), F, 8).is_some(),
            "precondition: the text is a decimal that fits"
        );
        Fixed {
            bits: signed_literal(text.as_bytes(), F, 8) as i8,
        }
    }
}

impl<const F: u32> Fixed<i16, F> {
    /// Returns the number of a decimal, rounded to the nearest unit, ties to even. Preconditions: the text is a
    /// decimal, its number fits, and F is at most the width.
    ///
    /// # Examples
    ///
    /// ```
    /// use zugyelmas::prelude::*;
    /// type Number = FixedI8<4>; // from -8 to 7.9375
    ///
    /// const GAIN: FixedI8<4> = FixedI8::lit("1.5");
    /// assert_eq!(GAIN.to_bits(), 24); // 1.5 * 16
    /// // 3277 / 32768, the nearest number
    /// assert_eq!(FixedU16::<15>::lit("0.1"), FixedU16::from_num(0.1));
    /// ```
    ///
    /// ```should_panic
    /// # use zugyelmas::prelude::*;
    /// # type Number = FixedI8<4>; // from -8 to 7.9375
    /// # std::panic::set_hook(Box::new(|_| {}));
    /// FixedI8::<4>::lit("8"); // 8 does not fit
    /// ```
    ///
    /// ```should_panic
    /// # use zugyelmas::prelude::*;
    /// # type Number = FixedI8<4>; // from -8 to 7.9375
    /// # std::panic::set_hook(Box::new(|_| {}));
    /// FixedI8::<4>::lit("1/2"); // no decimal
    /// ```
    ///
    /// # Panics
    ///
    /// Panics unless the text is a decimal that fits.
    ///
    /// # Proved
    ///
    /// ```text
    /// requires { IsSome (literal true 16 F text.now) }
    /// ensures { literal true 16 F text.now ≡ Some result.bits }
    /// ```
    ///
    /// Definitions: [`literal`].
    ///
    /// [`literal`]: crate::definitions::decimal_rows
    #[track_caller]
    #[must_use]
    pub const fn lit(text: &str) -> Self {
        assert!(
            crate::decimal::checked_signed_literal(text.as_bytes(), F, 16).is_some(),
            "precondition: the text is a decimal that fits"
        );
        Fixed {
            bits: signed_literal(text.as_bytes(), F, 16) as i16,
        }
    }
}

impl<const F: u32> Fixed<i32, F> {
    /// Returns the number of a decimal, rounded to the nearest unit, ties to even. Preconditions: the text is a
    /// decimal, its number fits, and F is at most the width.
    ///
    /// # Examples
    ///
    /// ```
    /// use zugyelmas::prelude::*;
    /// type Number = FixedI8<4>; // from -8 to 7.9375
    ///
    /// const GAIN: FixedI8<4> = FixedI8::lit("1.5");
    /// assert_eq!(GAIN.to_bits(), 24); // 1.5 * 16
    /// // 3277 / 32768, the nearest number
    /// assert_eq!(FixedU16::<15>::lit("0.1"), FixedU16::from_num(0.1));
    /// ```
    ///
    /// ```should_panic
    /// # use zugyelmas::prelude::*;
    /// # type Number = FixedI8<4>; // from -8 to 7.9375
    /// # std::panic::set_hook(Box::new(|_| {}));
    /// FixedI8::<4>::lit("8"); // 8 does not fit
    /// ```
    ///
    /// ```should_panic
    /// # use zugyelmas::prelude::*;
    /// # type Number = FixedI8<4>; // from -8 to 7.9375
    /// # std::panic::set_hook(Box::new(|_| {}));
    /// FixedI8::<4>::lit("1/2"); // no decimal
    /// ```
    ///
    /// # Panics
    ///
    /// Panics unless the text is a decimal that fits.
    ///
    /// # Proved
    ///
    /// ```text
    /// requires { IsSome (literal true 32 F text.now) }
    /// ensures { literal true 32 F text.now ≡ Some result.bits }
    /// ```
    ///
    /// Definitions: [`literal`].
    ///
    /// [`literal`]: crate::definitions::decimal_rows
    #[track_caller]
    #[must_use]
    pub const fn lit(text: &str) -> Self {
        assert!(
            crate::decimal::checked_signed_literal(text.as_bytes(), F, 32).is_some(),
            "precondition: the text is a decimal that fits"
        );
        Fixed {
            bits: signed_literal(text.as_bytes(), F, 32) as i32,
        }
    }
}

impl<const F: u32> Fixed<i64, F> {
    /// Returns the number of a decimal, rounded to the nearest unit, ties to even. Preconditions: the text is a
    /// decimal, its number fits, and F is at most the width.
    ///
    /// # Examples
    ///
    /// ```
    /// use zugyelmas::prelude::*;
    /// type Number = FixedI8<4>; // from -8 to 7.9375
    ///
    /// const GAIN: FixedI8<4> = FixedI8::lit("1.5");
    /// assert_eq!(GAIN.to_bits(), 24); // 1.5 * 16
    /// // 3277 / 32768, the nearest number
    /// assert_eq!(FixedU16::<15>::lit("0.1"), FixedU16::from_num(0.1));
    /// ```
    ///
    /// ```should_panic
    /// # use zugyelmas::prelude::*;
    /// # type Number = FixedI8<4>; // from -8 to 7.9375
    /// # std::panic::set_hook(Box::new(|_| {}));
    /// FixedI8::<4>::lit("8"); // 8 does not fit
    /// ```
    ///
    /// ```should_panic
    /// # use zugyelmas::prelude::*;
    /// # type Number = FixedI8<4>; // from -8 to 7.9375
    /// # std::panic::set_hook(Box::new(|_| {}));
    /// FixedI8::<4>::lit("1/2"); // no decimal
    /// ```
    ///
    /// # Panics
    ///
    /// Panics unless the text is a decimal that fits.
    ///
    /// # Proved
    ///
    /// ```text
    /// requires { IsSome (literal true 64 F text.now) }
    /// ensures { literal true 64 F text.now ≡ Some result.bits }
    /// ```
    ///
    /// Definitions: [`literal`].
    ///
    /// [`literal`]: crate::definitions::decimal_rows
    #[track_caller]
    #[must_use]
    pub const fn lit(text: &str) -> Self {
        assert!(
            crate::decimal::checked_signed_literal(text.as_bytes(), F, 64).is_some(),
            "precondition: the text is a decimal that fits"
        );
        Fixed {
            bits: signed_literal(text.as_bytes(), F, 64),
        }
    }
}

impl<const F: u32> Fixed<u8, F> {
    /// Returns the number of a decimal, rounded to the nearest unit, ties to even. Preconditions: the text is a
    /// decimal, its number fits, and F is at most the width.
    ///
    /// # Examples
    ///
    /// ```
    /// use zugyelmas::prelude::*;
    /// type Number = FixedI8<4>; // from -8 to 7.9375
    ///
    /// const GAIN: FixedI8<4> = FixedI8::lit("1.5");
    /// assert_eq!(GAIN.to_bits(), 24); // 1.5 * 16
    /// // 3277 / 32768, the nearest number
    /// assert_eq!(FixedU16::<15>::lit("0.1"), FixedU16::from_num(0.1));
    /// ```
    ///
    /// ```should_panic
    /// # use zugyelmas::prelude::*;
    /// # type Number = FixedI8<4>; // from -8 to 7.9375
    /// # std::panic::set_hook(Box::new(|_| {}));
    /// FixedI8::<4>::lit("8"); // 8 does not fit
    /// ```
    ///
    /// ```should_panic
    /// # use zugyelmas::prelude::*;
    /// # type Number = FixedI8<4>; // from -8 to 7.9375
    /// # std::panic::set_hook(Box::new(|_| {}));
    /// FixedI8::<4>::lit("1/2"); // no decimal
    /// ```
    ///
    /// # Panics
    ///
    /// Panics unless the text is a decimal that fits.
    ///
    /// # Proved
    ///
    /// ```text
    /// requires { IsSome (literal false 8 F text.now) }
    /// ensures { literal false 8 F text.now ≡ Some (pos result.bits) }
    /// ```
    ///
    /// Definitions: [`literal`].
    ///
    /// [`literal`]: crate::definitions::decimal_rows
    #[track_caller]
    #[must_use]
    pub const fn lit(text: &str) -> Self {
        assert!(
            crate::decimal::checked_unsigned_literal(text.as_bytes(), F, 8).is_some(),
            "precondition: the text is a decimal that fits"
        );
        Fixed {
            bits: unsigned_literal(text.as_bytes(), F, 8) as u8,
        }
    }
}

impl<const F: u32> Fixed<u16, F> {
    /// Returns the number of a decimal, rounded to the nearest unit, ties to even. Preconditions: the text is a
    /// decimal, its number fits, and F is at most the width.
    ///
    /// # Examples
    ///
    /// ```
    /// use zugyelmas::prelude::*;
    /// type Number = FixedI8<4>; // from -8 to 7.9375
    ///
    /// const GAIN: FixedI8<4> = FixedI8::lit("1.5");
    /// assert_eq!(GAIN.to_bits(), 24); // 1.5 * 16
    /// // 3277 / 32768, the nearest number
    /// assert_eq!(FixedU16::<15>::lit("0.1"), FixedU16::from_num(0.1));
    /// ```
    ///
    /// ```should_panic
    /// # use zugyelmas::prelude::*;
    /// # type Number = FixedI8<4>; // from -8 to 7.9375
    /// # std::panic::set_hook(Box::new(|_| {}));
    /// FixedI8::<4>::lit("8"); // 8 does not fit
    /// ```
    ///
    /// ```should_panic
    /// # use zugyelmas::prelude::*;
    /// # type Number = FixedI8<4>; // from -8 to 7.9375
    /// # std::panic::set_hook(Box::new(|_| {}));
    /// FixedI8::<4>::lit("1/2"); // no decimal
    /// ```
    ///
    /// # Panics
    ///
    /// Panics unless the text is a decimal that fits.
    ///
    /// # Proved
    ///
    /// ```text
    /// requires { IsSome (literal false 16 F text.now) }
    /// ensures { literal false 16 F text.now ≡ Some (pos result.bits) }
    /// ```
    ///
    /// Definitions: [`literal`].
    ///
    /// [`literal`]: crate::definitions::decimal_rows
    #[track_caller]
    #[must_use]
    pub const fn lit(text: &str) -> Self {
        assert!(
            crate::decimal::checked_unsigned_literal(text.as_bytes(), F, 16).is_some(),
            "precondition: the text is a decimal that fits"
        );
        Fixed {
            bits: unsigned_literal(text.as_bytes(), F, 16) as u16,
        }
    }
}

impl<const F: u32> Fixed<u32, F> {
    /// Returns the number of a decimal, rounded to the nearest unit, ties to even. Preconditions: the text is a
    /// decimal, its number fits, and F is at most the width.
    ///
    /// # Examples
    ///
    /// ```
    /// use zugyelmas::prelude::*;
    /// type Number = FixedI8<4>; // from -8 to 7.9375
    ///
    /// const GAIN: FixedI8<4> = FixedI8::lit("1.5");
    /// assert_eq!(GAIN.to_bits(), 24); // 1.5 * 16
    /// // 3277 / 32768, the nearest number
    /// assert_eq!(FixedU16::<15>::lit("0.1"), FixedU16::from_num(0.1));
    /// ```
    ///
    /// ```should_panic
    /// # use zugyelmas::prelude::*;
    /// # type Number = FixedI8<4>; // from -8 to 7.9375
    /// # std::panic::set_hook(Box::new(|_| {}));
    /// FixedI8::<4>::lit("8"); // 8 does not fit
    /// ```
    ///
    /// ```should_panic
    /// # use zugyelmas::prelude::*;
    /// # type Number = FixedI8<4>; // from -8 to 7.9375
    /// # std::panic::set_hook(Box::new(|_| {}));
    /// FixedI8::<4>::lit("1/2"); // no decimal
    /// ```
    ///
    /// # Panics
    ///
    /// Panics unless the text is a decimal that fits.
    ///
    /// # Proved
    ///
    /// ```text
    /// requires { IsSome (literal false 32 F text.now) }
    /// ensures { literal false 32 F text.now ≡ Some (pos result.bits) }
    /// ```
    ///
    /// Definitions: [`literal`].
    ///
    /// [`literal`]: crate::definitions::decimal_rows
    #[track_caller]
    #[must_use]
    pub const fn lit(text: &str) -> Self {
        assert!(
            crate::decimal::checked_unsigned_literal(text.as_bytes(), F, 32).is_some(),
            "precondition: the text is a decimal that fits"
        );
        Fixed {
            bits: unsigned_literal(text.as_bytes(), F, 32) as u32,
        }
    }
}

impl<const F: u32> Fixed<u64, F> {
    /// Returns the number of a decimal, rounded to the nearest unit, ties to even. Preconditions: the text is a
    /// decimal, its number fits, and F is at most the width.
    ///
    /// # Examples
    ///
    /// ```
    /// use zugyelmas::prelude::*;
    /// type Number = FixedI8<4>; // from -8 to 7.9375
    ///
    /// const GAIN: FixedI8<4> = FixedI8::lit("1.5");
    /// assert_eq!(GAIN.to_bits(), 24); // 1.5 * 16
    /// // 3277 / 32768, the nearest number
    /// assert_eq!(FixedU16::<15>::lit("0.1"), FixedU16::from_num(0.1));
    /// ```
    ///
    /// ```should_panic
    /// # use zugyelmas::prelude::*;
    /// # type Number = FixedI8<4>; // from -8 to 7.9375
    /// # std::panic::set_hook(Box::new(|_| {}));
    /// FixedI8::<4>::lit("8"); // 8 does not fit
    /// ```
    ///
    /// ```should_panic
    /// # use zugyelmas::prelude::*;
    /// # type Number = FixedI8<4>; // from -8 to 7.9375
    /// # std::panic::set_hook(Box::new(|_| {}));
    /// FixedI8::<4>::lit("1/2"); // no decimal
    /// ```
    ///
    /// # Panics
    ///
    /// Panics unless the text is a decimal that fits.
    ///
    /// # Proved
    ///
    /// ```text
    /// requires { IsSome (literal false 64 F text.now) }
    /// ensures { literal false 64 F text.now ≡ Some (pos result.bits) }
    /// ```
    ///
    /// Definitions: [`literal`].
    ///
    /// [`literal`]: crate::definitions::decimal_rows
    #[track_caller]
    #[must_use]
    pub const fn lit(text: &str) -> Self {
        assert!(
            crate::decimal::checked_unsigned_literal(text.as_bytes(), F, 64).is_some(),
            "precondition: the text is a decimal that fits"
        );
        Fixed {
            bits: unsigned_literal(text.as_bytes(), F, 64),
        }
    }
}
