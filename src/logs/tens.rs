// Made by `make package` of crates/fixed_logs/src/tens.rt, which is proved: changes go there.

//! Logarithms to base 10, by a table of powers of 10.

use crate::logs::base::Base;
use crate::logs::exact::{Power, below_zero, is_at_most, product, word_of};
use crate::logs::squaring::int_part;
use crate::word::{Digits, Ledger, Steps};

/// A power of 10.
struct Ten {
    exponent: u32,
    power: u64,
}

/// The powers of 10 by which a fraction is multiplied. Each is the square of the next.
const TENS: [Ten; 5] = [
    Ten {
        exponent: 16,
        power: 10_000_000_000_000_000,
    },
    Ten {
        exponent: 8,
        power: 100_000_000,
    },
    Ten {
        exponent: 4,
        power: 10_000,
    },
    Ten {
        exponent: 2,
        power: 100,
    },
    Ten {
        exponent: 1,
        power: 10,
    },
];

/// Returns the product, multiplied by a power of 10 if the result fits the word.
fn raised<L: Ledger, D: Digits<L>>(from: Power<D>, ten: &Ten, steps: &mut Steps<L>) -> Power<D> {
    let Some(word) = word_of(ten.power, steps) else {
        return from;
    };
    match product(from.power, word, steps) {
        Some(power) => Power {
            exponent: from.exponent + ten.exponent,
            power,
        },
        None => from,
    }
}

/// Returns the negative integer k with `10^k <= val / 2^n < 10^(k+1)`. Precondition: `val` is not 0. The count of
/// steps rises by at most `4 log2(n) + 4`, where n is the width.
///
/// # Examples
///
/// ```
/// use zugyelmas::logs::frac_log10_part;
/// use zugyelmas::word::{Silent, Steps};
/// let steps = &mut Steps::new(Silent::new());
///
/// assert_eq!(frac_log10_part(26_u8, steps), -1); // of 26/256, which is above 1/10
/// assert_eq!(frac_log10_part(25_u8, steps), -2); // of 25/256, which is below 1/10
/// ```
///
/// ```should_panic
/// # use zugyelmas::logs::frac_log10_part;
/// # use zugyelmas::word::{Silent, Steps};
/// # let steps = &mut Steps::new(Silent::new());
/// # std::panic::set_hook(Box::new(|_| {}));
/// frac_log10_part(0_u8, steps); // 0 has no logarithm
/// ```
///
/// # Panics
///
/// If the ledger `L` counts nothing, panics unless the number is not 0. If it counts, nothing is tested, and the result has a meaning only if the number is not 0.
///
/// # Proved
///
/// ```text
/// requires { D.value val ≢ pos 0 }
/// ensures value { IsLog (nat_abs (D.value val)) D.BITS 10 result }
/// ensures ticks { RisesAtMost (4 * log2 D.BITS + 4) (L.count steps.old) (L.count steps.new) }
/// ```
///
/// Definitions: [`RisesAtMost`], [`IsLog`], [`log2`].
///
/// [`RisesAtMost`]: crate::definitions::word_ticks
/// [`IsLog`]: crate::definitions::logs_logarithm
/// [`log2`]: crate::definitions::logs_logarithm
#[track_caller]
pub fn frac_log10_part<L: Ledger, D: Digits<L>>(val: D, steps: &mut Steps<L>) -> i32 {
    assert!(
        L::LAST > 0 || !val.at_most(D::ZERO, steps),
        "precondition: the number is not 0"
    );
    let _in_range = is_at_most(val, D::ONE, steps);
    let mut found = Power {
        exponent: 0,
        power: val,
    };
    for ten in &TENS {
        found = raised(found, ten, steps);
    }
    below_zero(found.exponent)
}

/// Returns the integer k with `10^k <= val < 10^(k+1)`, as std's `ilog10` does. Precondition: `val` is not 0. The
/// count of steps rises by at most `4 log2(n) + 4`, where n is the width.
///
/// # Examples
///
/// ```
/// use zugyelmas::logs::int_log10_part;
/// use zugyelmas::word::{Silent, Steps};
/// let steps = &mut Steps::new(Silent::new());
///
/// assert_eq!(int_log10_part(100_u8, steps), 2);
/// assert_eq!(int_log10_part(99_u8, steps), 1); // 1.99.., rounded down
/// ```
///
/// ```should_panic
/// # use zugyelmas::logs::int_log10_part;
/// # use zugyelmas::word::{Silent, Steps};
/// # let steps = &mut Steps::new(Silent::new());
/// # std::panic::set_hook(Box::new(|_| {}));
/// int_log10_part(0_u8, steps); // 0 has no logarithm
/// ```
///
/// # Panics
///
/// If the ledger `L` counts nothing, panics unless the number is not 0. If it counts, nothing is tested, and the result has a meaning only if the number is not 0.
///
/// # Proved
///
/// ```text
/// requires { D.value val ≢ pos 0 }
/// ensures value { IsLog (nat_abs (D.value val)) 0 10 result }
/// ensures ticks { RisesAtMost (4 * log2 D.BITS + 4) (L.count steps.old) (L.count steps.new) }
/// ```
///
/// Definitions: [`RisesAtMost`], [`IsLog`], [`log2`].
///
/// [`RisesAtMost`]: crate::definitions::word_ticks
/// [`IsLog`]: crate::definitions::logs_logarithm
/// [`log2`]: crate::definitions::logs_logarithm
#[track_caller]
pub fn int_log10_part<L: Ledger, D: Digits<L>>(val: D, steps: &mut Steps<L>) -> i32 {
    assert!(
        L::LAST > 0 || !val.at_most(D::ZERO, steps),
        "precondition: the number is not 0"
    );
    int_part(val, Base::TEN, steps)
}
