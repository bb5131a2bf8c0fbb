// Made by `make package` of crates/fixed_logs/src/squaring.rt, which is proved: changes go there.

//! Logarithms by repeated squaring of the base. They are those of the Rust crate `fixed`, and count their steps.

use crate::logs::base::Base;
use crate::logs::exact::{Power, below_zero, is_at_most, product, product_within, whole, word_of};
use crate::word::{Digits, Ledger, Steps};

/// Returns the largest power of the base that is at most a number, from that of the base's square.
fn greatest_power<L: Ledger, D: Digits<L>>(val: D, base: D, steps: &mut Steps<L>) -> Power<D> {
    let starts = is_at_most(base, val, steps);
    if !starts {
        return Power {
            exponent: 0,
            power: D::ONE,
        };
    }
    match product(base, base, steps) {
        None => Power {
            exponent: 1,
            power: base,
        },
        Some(square) => {
            let half = greatest_power(val, square, steps);
            let doubled = 2 * half.exponent;
            match product_within(half.power, base, val, steps) {
                Some(power) => Power {
                    exponent: doubled + 1,
                    power,
                },
                None => Power {
                    exponent: doubled,
                    power: half.power,
                },
            }
        }
    }
}

/// Returns the largest product of a number and a power of the base that fits the word, from that of the base's
/// square.
fn greatest_product<L: Ledger, D: Digits<L>>(val: D, base: D, steps: &mut Steps<L>) -> Power<D> {
    match product(val, base, steps) {
        None => Power {
            exponent: 0,
            power: val,
        },
        Some(once) => match product(base, base, steps) {
            None => Power {
                exponent: 1,
                power: once,
            },
            Some(square) => {
                let half = greatest_product(val, square, steps);
                let doubled = 2 * half.exponent;
                match product(half.power, base, steps) {
                    Some(power) => Power {
                        exponent: doubled + 1,
                        power,
                    },
                    None => Power {
                        exponent: doubled,
                        power: half.power,
                    },
                }
            }
        },
    }
}

/// Returns the integer k with `base^k <= val < base^(k+1)`. It is 0 if the base does not fit the word. Precondition:
/// `val` is not 0. The count of steps rises by at most `4 log2(n) + 4`, where n is the width.
///
/// # Examples
///
/// ```
/// use zugyelmas::logs::{Base, int_part};
/// use zugyelmas::word::{Silent, Steps};
/// let ten = Base::new(10).expect("at least 2");
/// let steps = &mut Steps::new(Silent::new());
///
/// assert_eq!(int_part(1000_u16, ten, steps), 3);
/// assert_eq!(int_part(999_u16, ten, steps), 2); // 2.999.., rounded down
/// ```
///
/// ```should_panic
/// # use zugyelmas::logs::{Base, int_part};
/// # use zugyelmas::word::{Silent, Steps};
/// # let ten = Base::new(10).expect("at least 2");
/// # let steps = &mut Steps::new(Silent::new());
/// # std::panic::set_hook(Box::new(|_| {}));
/// int_part(0_u16, ten, steps); // 0 has no logarithm
/// ```
///
/// # Panics
///
/// If the ledger `L` counts nothing, panics unless the number is not 0. If it counts, nothing is tested, and the result has a meaning only if the number is not 0.
///
/// # Proved
///
/// ```text
/// requires { D.value val ≢ pos 0 }
/// ensures value { IsLog (nat_abs (D.value val)) 0 base result }
/// ensures ticks { RisesAtMost (4 * log2 D.BITS + 4) (L.count steps.old) (L.count steps.new) }
/// ```
///
/// Definitions: [`RisesAtMost`], [`IsLog`], [`log2`].
///
/// [`RisesAtMost`]: crate::definitions::word_ticks
/// [`IsLog`]: crate::definitions::logs_logarithm
/// [`log2`]: crate::definitions::logs_logarithm
#[track_caller]
pub fn int_part<L: Ledger, D: Digits<L>>(val: D, base: Base, steps: &mut Steps<L>) -> i32 {
    assert!(
        L::LAST > 0 || !val.at_most(D::ZERO, steps),
        "precondition: the number is not 0"
    );
    let number = base.get();
    if is_at_most(val, D::ONE, steps) {
        return 0;
    }
    match word_of(u64::from(number), steps) {
        Some(word) => whole(greatest_power(val, word, steps).exponent),
        None => 0,
    }
}

/// Returns the negative integer k with `base^k <= val / 2^n < base^(k+1)`. It is -1 if the base does not fit the
/// word. Precondition: `val` is not 0. The count of steps rises by at most `4 log2(n) + 4`, where n is the width.
///
/// # Examples
///
/// ```
/// use zugyelmas::logs::{Base, frac_part};
/// use zugyelmas::word::{Silent, Steps};
/// let ten = Base::new(10).expect("at least 2");
/// let steps = &mut Steps::new(Silent::new());
///
/// assert_eq!(frac_part(128_u8, ten, steps), -1); // of 1/2
/// assert_eq!(frac_part(25_u8, ten, steps), -2); // of 25/256, which is below 1/10
/// ```
///
/// ```should_panic
/// # use zugyelmas::logs::{Base, frac_part};
/// # use zugyelmas::word::{Silent, Steps};
/// # let ten = Base::new(10).expect("at least 2");
/// # let steps = &mut Steps::new(Silent::new());
/// # std::panic::set_hook(Box::new(|_| {}));
/// frac_part(0_u8, ten, steps); // 0 has no logarithm
/// ```
///
/// # Panics
///
/// If the ledger `L` counts nothing, panics unless the number is not 0. If it counts, nothing is tested, and the result has a meaning only if the number is not 0.
///
/// # Proved
///
/// ```text
/// requires { D.value val ≢ pos 0 }
/// ensures value { IsLog (nat_abs (D.value val)) D.BITS base result }
/// ensures ticks { RisesAtMost (4 * log2 D.BITS + 4) (L.count steps.old) (L.count steps.new) }
/// ```
///
/// Definitions: [`RisesAtMost`], [`IsLog`], [`log2`].
///
/// [`RisesAtMost`]: crate::definitions::word_ticks
/// [`IsLog`]: crate::definitions::logs_logarithm
/// [`log2`]: crate::definitions::logs_logarithm
#[track_caller]
pub fn frac_part<L: Ledger, D: Digits<L>>(val: D, base: Base, steps: &mut Steps<L>) -> i32 {
    assert!(
        L::LAST > 0 || !val.at_most(D::ZERO, steps),
        "precondition: the number is not 0"
    );
    let number = base.get();
    let _in_range = is_at_most(val, D::ONE, steps);
    match word_of(u64::from(number), steps) {
        Some(word) => below_zero(greatest_product(val, word, steps).exponent),
        None => -1,
    }
}
