// Made by `make package` of crates/fixed_decimal/src/places.rt, which is proved: changes go there.

//! How many digits after the point a number needs.

use crate::decimal::halves::low_bits;
use crate::decimal::tens::ten_to;
use crate::word::RawWord;

/// Returns how many digits after the point the exact text of a number in units of `2^-frac` has, which is at most
/// `frac`. Precondition: `frac` is at most the width.
///
/// # Examples
///
/// ```
/// use zugyelmas::decimal::exact_places;
///
/// assert_eq!(exact_places(24_i8, 4), 1); // 1.5
/// assert_eq!(exact_places(1_i8, 4), 4); // 0.0625
/// assert_eq!(exact_places(16_i8, 4), 0); // 1
/// ```
///
/// ```should_panic
/// # use zugyelmas::decimal::exact_places;
/// # std::panic::set_hook(Box::new(|_| {}));
/// exact_places(24_i8, 9); // the fraction is above the width
/// ```
///
/// # Panics
///
/// Panics unless the fraction frac is at most the width.
///
/// # Proved
///
/// ```text
/// requires { frac ≤ T.BITS }
/// ensures places { IsLeast (IsExactAt (T.value number) frac) result }
/// ensures bound { result ≤ frac }
/// ```
///
/// Definitions: [`IsExactAt`].
///
/// [`IsExactAt`]: crate::definitions::decimal_text
#[track_caller]
#[must_use]
pub fn exact_places<T: RawWord>(number: T, frac: u32) -> usize {
    assert!(
        frac <= T::BITS,
        "precondition: the fraction frac is at most the width"
    );
    let zeros = number.magnitude().trailing_zeros();
    (frac - zeros.min(frac)) as usize
}

/// Returns how many digits after the point the shortest text has that is read as the number, to the nearest, ties to
/// even. That is at most 20. Precondition: `frac` is at most the width.
///
/// # Examples
///
/// ```
/// use zugyelmas::decimal::shortest_places;
///
/// assert_eq!(shortest_places(24_i8, 4), 1); // 1.5
/// // 0.06 is nearer to 0.0625 than to any other number
/// assert_eq!(shortest_places(1_i8, 4), 2);
/// ```
///
/// ```should_panic
/// # use zugyelmas::decimal::shortest_places;
/// # std::panic::set_hook(Box::new(|_| {}));
/// shortest_places(24_i8, 9); // the fraction is above the width
/// ```
///
/// # Panics
///
/// Panics unless the fraction frac is at most the width.
///
/// # Proved
///
/// ```text
/// requires { frac ≤ T.BITS }
/// ensures places { IsLeast (ReadsBack (T.value number) frac) result }
/// ensures shortest { result ≡ shortest (T.value number) frac }
/// ensures bound { result ≤ 20 }
/// ```
///
/// Definitions: [`ReadsBack`], [`shortest`].
///
/// [`ReadsBack`]: crate::definitions::decimal_text
/// [`shortest`]: crate::definitions::decimal_text
#[track_caller]
#[must_use]
pub fn shortest_places<T: RawWord>(number: T, frac: u32) -> usize {
    assert!(
        frac <= T::BITS,
        "precondition: the fraction frac is at most the width"
    );
    let magnitude = number.magnitude();
    let mut places = enough_places(frac);
    while places > 0 && reads_back(magnitude, frac, places - 1) {
        places -= 1;
    }
    places
}

/// Returns a number of digits, at most 20, such that a unit of the last digit is at most `2^-frac`.
#[inline]
fn enough_places(frac: u32) -> usize {
    (frac * 3 / 10 + 1) as usize
}

/// Returns whether the nearest decimal with `places` digits after the point is less than half a unit of `2^-frac` away
/// from a magnitude, or half a unit away from an even one.
#[inline]
fn reads_back(magnitude: u64, frac: u32, places: usize) -> bool {
    let tens = u128::from(ten_to(places));
    let past = low_bits(u128::from(magnitude) * tens, frac);
    let twice = 2 * past.min((1 << frac) - past);
    twice < tens || twice == tens && magnitude % 2 == 0
}
