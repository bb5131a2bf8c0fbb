//! Fixed-point numbers, proved: binary numbers of 8, 16, 32 and 64 bits with 0 to n fraction bits, with the names and
//! behaviour of the Rust crate `fixed`.
//!
//! ```
//! use zugyelmas::prelude::*;
//!
//! const GAIN: FixedI32<16> = FixedI32::lit("1.5"); // 98304 units of 1/65536
//! let level = FixedI32::<16>::from_num(2);
//! assert_eq!(GAIN.checked_mul(level), Some(FixedI32::from_num(3)));
//! assert_eq!(level.saturating_mul_int(1_000_000), FixedI32::MAX);
//! let sum = GAIN * level + 2 * level;
//! let tenth = "0.1".parse::<FixedI32<16>>().expect("a decimal"); // 6554 units: the nearest number
//! assert_eq!(format!("{tenth} {tenth:.6} {}", sum.to_num::<f64>()), "0.1 0.100006 7");
//! assert_eq!(level.checked_log2(), Some(FixedI32::from_num(1)));
//!
//! let (wrapped, past) = FixedI8::<4>::MAX.overflowing_add(FixedI8::DELTA);
//! assert_eq!((wrapped, past), (FixedI8::MIN, true));
//! assert_eq!(FixedU8::<8>::from_bits(64).checked_sqrt(), Some(FixedU8::from_bits(128))); // 1/4, 1/2
//! ```
//!
//! [`Enclosure`] and [`interval`] have intervals whose ends are rounded outward, [`poly`] polynomials by Horner's rule, and
//! [`filter`] filters, each with a proved bound on its rounding. [`math`], [`natural`] and [`turns`] have lengths,
//! logarithms, powers, sines and angles, [`table`] functions by their values, and [`block`] operations on slices.
//!
//! ```
//! use zugyelmas::{Interval, PolyReply, div_in, horner_of};
//!
//! let one = Interval::new(16_i8, 16).expect("ends in order");
//! let three = Interval::new(48_i8, 48).expect("ends in order");
//! let third = div_in(&one, &three, 4).expect("no divisor of 0");
//! assert_eq!((third.lo(), third.hi()), (5, 6)); // 5/16 and 6/16
//! assert_eq!(horner_of(&[256_i16, 128, 64], 128, 8), PolyReply::Value(336)); // 1 + x/2 + x^2/4 at 1/2
//! ```
//!
//! # What is proved
//!
//! The code is that of a library in Rattle, which is Rust with contracts, letter for letter. Each public call was proved,
//! for every input that meets its preconditions, to return what its contract states, to be safe and to return. The
//! checked, saturating, wrapping, overflowing and strict forms of an operation share one exact result, and differ only in
//! what they return if it does not fit. Here the contracts and the proofs are left out; the page of each call
//! ends in its contract, under "Proved", with links to the pages in [`definitions`](crate::definitions).
//! [`guide`](crate::guide) explains which format and policy to pick.
//!
//! # What is trusted
//!
//! The proofs are those of the Rattle toolchain `rattle-kit-13f logic dac8208d650f15bf`, for its language. That rustc's
//! code does the same rests on:
//!
//! - rustc, and that the files of `src` are those of the proved sources: a script leaves contracts out, and writes
//!   assertions and messages of errors in. Each file names its source, with which it can be compared.
//! - The toolchain's table of forms that compile in both languages and run differently. `checks/forms_apart.py` finds none
//!   of them here but those that it lists with a reason.
//! - `stopping::exact_number` in `src/lib.rs`, which every strict and unwrapped call makes: Rust without a proof.
//! - `src/edge.rs`, `src/between.rs`, and the files of the folders `src/edge` and `src/between`: operators on references and
//!   between types, `From` and `TryFrom`, [`Sum`](core::iter::Sum) and [`Product`](core::iter::Product), `{:b}` to `{:X}`,
//!   and replies as results, which forward to proved calls; `{:e}` and `{:E}`, which move the point in a proved text and
//!   round it; and that a format holds every number that `From` takes, which they assert at compile time.
//! - `src/casts.rs`: that `as` from integers to `f32` rounds to the nearest, ties to even, as the Rust reference states;
//!   with a feature `src/memory.rs`, which forwards to `alloc`.
//! - A `usize` of 64 bits, as in every proof. On smaller targets nothing is proved of lengths and indexes.
//! - Every implementation of this library's traits in another crate. Nothing is proved of one, nor of a generic call
//!   that uses it. The traits of words and floats are sealed, since a word that misstates itself would break every call.
//!
//! The tests of the proved crates run here too.
//!
//! # Features
//!
//! No feature is on by default, and the library then has no dependency and does not allocate. Both features allocate:
//!
//! - `calc`: the calculator, in the module `calc`. `calc::run` runs a script, `calc::run_in` does so in memory that was
//!   allocated before, and `calc::explicit` spells a script out. The program `zugyelmas` requires this feature.
//! - `runs`: the runs over text, `filter::filter_run`, `poly::poly_run` and `interval::interval_run`, and
//!   `filter::Bank`, which holds channels of filters.
//!
//! # Preconditions
//!
//! In Rattle each call site proves the preconditions of the call. Here they are assertions, which the page of the call
//! names under "Compile errors" or "Panics":
//!
//! - A number of fraction bits above the width is a compile error if it is a constant, and panics if it is an argument.
//! - Each call but the checked ones panics on a divisor of 0, on the root of a negative number, and on the logarithm,
//!   power or reciprocal root of a number that is not above 0.
//! - Operators and strict and unwrapped forms panic on a shift by the width or more.
//! - Strict and unwrapped forms panic if the result does not fit. Operators and plain calls do so only in builds with debug
//!   assertions. In other builds they wrap, as those of integers do.
#![no_std]
#![forbid(unsafe_code)]
// The code below is the proved sources' own, which name the traits of the calls that they use and the operands of laws,
// and have what only the runs beside the library call.
#![allow(dead_code, unused_imports, unused_labels, unused_variables)]
// Before 1.87 rustc has `casts` alone, and says that std will have such calls.
#![allow(unstable_name_collisions, clippy::incompatible_msrv)]
// Their links name each target, which the docs of the proved language ask for.
#![allow(rustdoc::redundant_explicit_links)]
// Docs name what only some features have.
#![cfg_attr(
    not(all(feature = "calc", feature = "runs")),
    allow(rustdoc::broken_intra_doc_links)
)]
// Taste, not faults: proved sources keep the forms of which their proofs speak.
#![allow(
    clippy::implicit_saturating_add,
    clippy::manual_div_ceil,
    clippy::manual_is_multiple_of,
    clippy::manual_map,
    clippy::manual_range_contains,
    clippy::match_like_matches_macro,
    clippy::module_inception,
    clippy::needless_range_loop,
    clippy::new_without_default,
    clippy::question_mark,
    clippy::while_let_on_iterator
)]
// The tests compare numbers with themselves, divide by -1, and read floats between two, since these are the calls under
// test.
#![cfg_attr(
    test,
    allow(
        clippy::bool_assert_comparison,
        clippy::eq_op,
        clippy::excessive_precision,
        clippy::items_after_test_module,
        clippy::modulo_one,
        clippy::partialeq_to_none,
        clippy::single_element_loop,
        clippy::type_complexity
    )
)]

#[cfg(any(feature = "calc", feature = "runs"))]
extern crate alloc;
#[cfg(test)]
extern crate std;

// Written by hand: Rust without a proof.
mod between;
mod casts;
mod edge;
#[cfg(any(feature = "calc", feature = "runs"))]
pub mod memory;

// The proved sources, as `make package` writes them: each folder is one of their crates, and each file one of its files.
pub mod word;
pub mod bits;
pub mod root;
pub mod logs;
pub mod kernel;
pub mod elementary;
pub mod convert;
pub mod block;
pub mod digits;
pub mod text;
pub mod decimal;
pub mod num;
pub mod radix;
pub mod float;
pub mod cast;
pub mod policy;
pub mod strict;
pub mod math;
pub mod natural;
pub mod turns;
pub mod ops;
pub mod poly;
pub mod filter;
pub mod table;
pub mod interval;
pub mod enclosure;

// The calculator.
#[cfg(feature = "calc")]
pub mod stream;
#[cfg(feature = "calc")]
pub mod script;
#[cfg(feature = "calc")]
pub mod machine;
#[cfg(feature = "calc")]
pub mod calc;

// The pages of the docs.
#[cfg(doc)]
pub mod definitions;
#[cfg(doc)]
pub mod guide;

#[cfg(test)]
mod tests {
    mod convert;
    mod guide;
    mod kernel;
    mod math;
    mod num;
    mod policy;
}

// Its programs run as doctests.
#[cfg(doctest)]
#[doc = include_str!("../docs/COMING_FROM.md")]
mod coming_from {}

/// Keeps the traits of words to Rust's own integers and floats, since nothing proves what another type would say of
/// itself.
mod sealed {
    pub trait Sealed {}

    // A test of the proved crates has a word of its own, which counts.
    #[cfg(test)]
    impl<T> Sealed for T {}

    #[cfg(not(test))]
    mod words {
        use super::Sealed;

        impl Sealed for i8 {}
        impl Sealed for i16 {}
        impl Sealed for i32 {}
        impl Sealed for i64 {}
        impl Sealed for i128 {}
        impl Sealed for u8 {}
        impl Sealed for u16 {}
        impl Sealed for u32 {}
        impl Sealed for u64 {}
        impl Sealed for u128 {}
        impl Sealed for f32 {}
        impl Sealed for f64 {}
    }
}

/// What the strict forms know as the numbers: the same, but that the number has to fit in every build.
mod stopping {
    use crate::word::{Outcome, Word, strict_of};

    pub use crate::num::{
        Fixed, Held, Number, checked_number, overflowing_number, saturating_number, wrapping_number,
    };

    #[track_caller]
    pub fn exact_number<T: Word, const F: u32>(outcome: Outcome<T>) -> Fixed<T, F> {
        Fixed {
            bits: strict_of(outcome),
        }
    }
}

pub use between::ConversionError;
pub use cast::{
    Castable, FromNum, MulInto, Numeric, Order, Source, Target, ToFloat, ToNum, ToWhole,
};
pub use enclosure::Enclosure;
pub use float::Binary;
pub use interval::{Interval, abs_in, add_in, div_in, mul_in, neg_in, sqrt_in, square_in, sub_in};
pub use math::{
    CheckedMath, OverflowingMath, SaturatingMath, StrictMath, UnwrappedMath, WrappingMath,
};
pub use natural::{
    CheckedNatural, OverflowingNatural, SaturatingNatural, StrictNatural, UnwrappedNatural,
    WrappingNatural,
};
pub use num::{
    Constants, Fixed, FixedI8, FixedI16, FixedI32, FixedI64, FixedU8, FixedU16, FixedU32, FixedU64,
    Held, Number,
};
pub use ops::{Plain, PlainMulAdd, PlainProducts, PlainSigned, PlainUnsigned, product, sum};
pub use policy::{
    Checked, CheckedMulAdd, CheckedProducts, CheckedRounded, CheckedSigned, CheckedUnsigned,
};
pub use policy::{
    Overflowing, OverflowingMulAdd, OverflowingProducts, OverflowingRounded, OverflowingSigned,
    OverflowingUnsigned,
};
pub use policy::{
    Wrapping, WrappingMulAdd, WrappingProducts, WrappingRounded, WrappingSigned, WrappingUnsigned,
};
pub use poly::{PolyReply, horner, horner_of};
pub use strict::{
    Saturating, SaturatingMulAdd, SaturatingProducts, SaturatingRounded, SaturatingSigned,
    SaturatingUnsigned,
};
pub use strict::{
    Strict, StrictMulAdd, StrictProducts, StrictRounded, StrictSigned, StrictUnsigned,
};
pub use strict::{
    Unwrapped, UnwrappedMulAdd, UnwrappedProducts, UnwrappedRounded, UnwrappedSigned,
    UnwrappedUnsigned,
};
pub use turns::{
    CheckedRadians, CheckedTurns, OverflowingRadians, OverflowingTurns, SaturatingRadians,
    SaturatingTurns, StrictRadians, StrictTurns, UnwrappedRadians, UnwrappedTurns, WrappingRadians,
    WrappingTurns,
};
pub use word::{Ordered, RawWord, SignedWord, UnsignedWord, Word};

/// What most programs import: the numbers, and the traits of their calls. The traits whose names std has too, such as
/// `Wrapping`, stay in scope beside `use std::num::Wrapping`.
pub mod prelude {
    pub use crate::{Binary as _, Saturating as _, Wrapping as _};
    pub use crate::{
        Checked, CheckedMulAdd, CheckedProducts, CheckedRounded, CheckedSigned, CheckedUnsigned,
    };
    pub use crate::{
        CheckedMath, OverflowingMath, SaturatingMath, StrictMath, UnwrappedMath, WrappingMath,
    };
    pub use crate::{
        CheckedNatural, OverflowingNatural, SaturatingNatural, StrictNatural, UnwrappedNatural,
        WrappingNatural,
    };
    pub use crate::{
        CheckedRadians, OverflowingRadians, SaturatingRadians, StrictRadians, UnwrappedRadians,
        WrappingRadians,
    };
    pub use crate::{
        CheckedTurns, OverflowingTurns, SaturatingTurns, StrictTurns, UnwrappedTurns, WrappingTurns,
    };
    pub use crate::{
        Constants, Fixed, FixedI8, FixedI16, FixedI32, FixedI64, FixedU8, FixedU16, FixedU32,
        FixedU64, Held, Number,
    };
    pub use crate::{FromNum, MulInto, Order, ToFloat, ToNum, ToWhole};
    pub use crate::{
        Overflowing, OverflowingMulAdd, OverflowingProducts, OverflowingRounded, OverflowingSigned,
        OverflowingUnsigned,
    };
    pub use crate::{Plain, PlainMulAdd, PlainProducts, PlainSigned, PlainUnsigned};
    pub use crate::{Ordered, RawWord, SignedWord, UnsignedWord, Word};
    pub use crate::{
        Saturating, SaturatingMulAdd, SaturatingProducts, SaturatingRounded, SaturatingSigned,
        SaturatingUnsigned,
    };
    pub use crate::{
        Strict, StrictMulAdd, StrictProducts, StrictRounded, StrictSigned, StrictUnsigned,
    };
    pub use crate::{
        Unwrapped, UnwrappedMulAdd, UnwrappedProducts, UnwrappedRounded, UnwrappedSigned,
        UnwrappedUnsigned,
    };
    pub use crate::{
        Wrapping, WrappingMulAdd, WrappingProducts, WrappingRounded, WrappingSigned,
        WrappingUnsigned,
    };
}
