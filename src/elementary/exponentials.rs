// Made by `make package` of crates/fixed_elementary/src/exponentials.rt, which is proved: changes go there.

//! Powers of 2 with a fractional exponent: one product for each eight binary digits of the exponent, or on words of 64
//! bits for each four.

use crate::elementary::logarithms::in_units;
use crate::elementary::powers_of_two::{broad_factor, narrow_factor};
use crate::elementary::reciprocals::power_of_two;
use crate::elementary::wide::{high, product};
use crate::word::{Outcome, RawWord, Valued, outcome_of_magnitude};

/// Half the natural logarithm of 2, in units of `2^-64`, rounded down.
const HALF_LOG_2: u64 = 0x58b9_0bfb_e8e7_bcd5;

/// How many units of `2^-62` a power may lack that is computed in 64 bits.
const NEAR_LACK: u64 = 24;

/// Returns the product in units of `2^-62`, rounded down.
#[inline(always)]
fn narrow_product(a: u64, b: u64) -> u64 {
    ((u128::from(a) * u128::from(b)) >> 62) as u64
}

/// Returns the product in units of `2^-126`, rounded down.
#[inline]
fn broad_product(a: u128, b: u128) -> u128 {
    let double = product(a, b);
    4 * double.high + double.low / (1 << 126)
}

/// Returns a group of eight binary digits of a number. Group 0 is the last eight.
#[inline(always)]
fn narrow_digits(number: u64, group: u32) -> u64 {
    (number >> (8 * group)) % 256
}

/// Returns a group of four binary digits of a number. Group 0 is the last four.
#[inline]
fn broad_digits(number: u64, group: u32) -> u64 {
    (number >> (4 * group)) % 16
}

/// Returns the power after eight more digits of the exponent, in units of `2^-62`.
#[inline(always)]
fn narrow_turn(power: u64, digits: u64, group: u32) -> u64 {
    narrow_product(power, narrow_factor(digits, group))
}

/// Returns the power after four more digits of the exponent, in units of `2^-126`.
#[inline]
fn broad_turn(power: u128, digits: u64, group: u32) -> u128 {
    broad_product(power, broad_factor(digits, group))
}

/// Returns `2^(part / 256^groups)` in units of `2^-62`, or slightly less.
#[inline(always)]
fn narrow_exp2(part: u64, groups: u32) -> u64 {
    let mut power = 1 << 62;
    for i in 0..groups {
        power = narrow_turn(power, narrow_digits(part, groups - 1 - i), i);
    }
    power
}

/// Returns `2^(part / 16^groups)` in units of `2^-126`, or slightly less.
fn broad_exp2(part: u64, groups: u32) -> u128 {
    let mut power = 1 << 126;
    for i in 0..groups {
        power = broad_turn(power, broad_digits(part, groups - 1 - i), i);
    }
    power
}

/// Returns `mantissa * 2^whole / 2^62`, rounded down, or `2^bits` if that is less.
#[inline(always)]
fn narrow_in_bits(mantissa: u64, whole: u128, bits: u32) -> u64 {
    if whole < u128::from(bits) {
        mantissa >> (62 - whole as u32)
    } else {
        1 << bits
    }
}

/// Returns `mantissa * 2^whole / 2^126`, rounded down, or `2^bits` if that is less.
fn broad_in_bits(mantissa: u128, whole: u128, bits: u32) -> u128 {
    if whole < u128::from(bits) {
        mantissa >> (126 - whole as u32)
    } else {
        power_of_two(bits)
    }
}

/// Returns how many groups of eight digits have these digits.
#[inline(always)]
fn narrow_groups(places: u32) -> u32 {
    places.div_ceil(8)
}

/// Returns how many groups of four digits have these digits.
fn broad_groups(places: u32) -> u32 {
    places.div_ceil(4)
}

/// Returns the fraction of an exponent, converted from units of `2^-places` to units of `2^-digits`.
#[inline(always)]
fn part_of(exponent: u128, places: u32, digits: u32) -> u64 {
    ((exponent % (1 << places)) << (digits - places)) as u64
}

/// Returns `2^(exponent / 2^places)`, rounded down from a mantissa of 63 bits, at most `2^bits`.
#[inline(always)]
fn narrow_power(exponent: u128, places: u32, bits: u32) -> u64 {
    let groups = narrow_groups(places);
    let mantissa = narrow_exp2(part_of(exponent, places, 8 * groups), groups);
    narrow_in_bits(mantissa, exponent >> places, bits)
}

/// Does the same from a mantissa of 127 bits.
#[inline(never)]
fn broad_power(exponent: u128, places: u32, bits: u32) -> u128 {
    let groups = broad_groups(places);
    let mantissa = broad_exp2(part_of(exponent, places, 4 * groups), groups);
    broad_in_bits(mantissa, exponent >> places, bits)
}

/// Returns `2^(part / 2^64)` in units of `2^-62`, or at most 24 units less. The last 32 digits need one product, since
/// their power is little above 1.
#[inline(always)]
fn near_exp2(part: u64) -> u64 {
    let power = narrow_exp2(part >> 32, 4);
    let rest = high(part % (1 << 32), HALF_LOG_2);
    power + high(2 * power, rest)
}

/// Returns whether all numbers from `low` to 24 more have the same digits before the last `shift`.
#[inline(always)]
fn is_closed(low: u64, shift: u32) -> bool {
    (low + NEAR_LACK) >> shift == low >> shift
}

/// Returns `2^(exponent / 2^places)`, rounded as by `broad_power`, at most `2^bits`. It is computed from a mantissa of 63
/// bits, and from one of 127 bits where that leaves a digit open.
#[inline(always)]
fn either_power(exponent: u128, places: u32, bits: u32) -> u128 {
    let whole = exponent >> places;
    if whole >= u128::from(bits) {
        return power_of_two(bits);
    }
    let low = near_exp2(part_of(exponent, places, 64));
    if whole < 62 {
        let shift = 62 - whole as u32;
        if is_closed(low, shift) {
            return u128::from(low >> shift);
        }
    }
    broad_power(exponent, places, bits)
}

/// Returns `2^(exponent / 2^places)`, rounded as by `exp2_of`, at most `2^bits`. Precondition: `places <= bits <= 64`.
#[inline(always)]
#[must_use]
pub fn power_of(exponent: u128, places: u32, bits: u32) -> u128 {
    if bits <= 32 {
        u128::from(narrow_power(exponent, places, bits))
    } else {
        either_power(exponent, places, bits)
    }
}

/// Returns the exponent of a power in units of `2^-frac`, or `None` if it is below 0, so that the power is less than a
/// unit. Each branch asks for the magnitude anew: where the sign is known, it compiles to a sum with no branch on it.
#[inline(always)]
fn exponent_of<T: RawWord>(a: T, frac: u32) -> Option<u128> {
    let units = in_units(frac);
    if !a.is_below_zero() {
        Some(units + u128::from(a.magnitude()))
    } else if units < u128::from(a.magnitude()) {
        None
    } else {
        Some(units - u128::from(a.magnitude()))
    }
}

/// Returns 2 to the power of `a 2^-frac`, in units of `2^-frac`. For the result r and the exact power p in units,
/// `r <= p < (r + 1) 2^(2^-k)`, where k is 54 on words of up to 32 bits and 117 on words of 64 bits. 2 to the power of
/// a whole number of at least `-frac` is exact. If the result is above the range, the outcome stands for some number
/// above the range. Precondition: `frac` is at most the width.
///
/// # Examples
///
/// ```
/// use zugyelmas::elementary::exp2_of;
/// use zugyelmas::word::{Outcome, Side};
///
/// // 2 to the power of 1
/// assert_eq!(exp2_of(16_i8, 4), Outcome { wrapped: 32, side: Side::Fits });
/// // 1.4142.., rounded down to 1.375
/// assert_eq!(exp2_of(8_i8, 4), Outcome { wrapped: 22, side: Side::Fits });
/// assert_eq!(exp2_of(-16_i8, 4), Outcome { wrapped: 8, side: Side::Fits }); // 0.5
/// assert_eq!(exp2_of(48_i8, 4).side, Side::Above); // 8 does not fit
/// ```
///
/// ```should_panic
/// # use zugyelmas::elementary::exp2_of;
/// # use zugyelmas::word::{Outcome, Side};
/// # std::panic::set_hook(Box::new(|_| {}));
/// exp2_of(16_i8, 9); // the fraction is above the width
/// ```
///
/// # Panics
///
/// Panics unless the fraction frac is at most the width.
///
/// # Proved
///
/// ```text
/// requires { frac ≤ T.BITS }
/// ensures { (r : ℤ) × IsExp2Of (exp2_room T.BITS) (T.value a) frac r
///     × StandsUpTo T.value T.SIGNED T.BITS r result }
/// ```
///
/// Definitions: [`IsExp2Of`], [`exp2_room`].
///
/// [`IsExp2Of`]: crate::definitions::elementary_exp2
/// [`exp2_room`]: crate::definitions::elementary_exp2
#[inline(always)]
#[track_caller]
#[must_use]
pub fn exp2_of<T: RawWord>(a: T, frac: u32) -> Outcome<T> {
    assert!(
        frac <= T::BITS,
        "precondition: the fraction frac is at most the width"
    );
    match exponent_of(a, frac) {
        Some(exponent) => outcome_of_magnitude(false, power_of(exponent, frac, T::BITS)),
        None => outcome_of_magnitude(false, 0),
    }
}
