// Made by `make package` of crates/fixed_root/src/by_digit.rt, which is proved: changes go there.

//! The square root, found one binary digit at a time.

use crate::root::exact::{difference, high_part, is_at_most, low_part, scaled, sum};
use crate::word::{Digits, Ledger, Steps};

/// The digits of the root so far, the digits read so far minus the square of that root, and the digits not read yet,
/// as the most significant ones of a word.
#[derive(Clone, Copy)]
struct RootSoFar<D> {
    root: D,
    remainder: D,
    rest: D,
}

/// Returns the start: nothing is read, or the most significant digit if the number of digits is odd.
fn begin<L: Ledger, D: Digits<L>>(val: D, frac: u32, steps: &mut Steps<L>) -> RootSoFar<D> {
    if frac % 2 == 0 {
        RootSoFar {
            root: D::ZERO,
            remainder: D::ZERO,
            rest: val,
        }
    } else {
        RootSoFar {
            root: high_part(val, 1, steps),
            remainder: D::ZERO,
            rest: low_part(val, 1, steps),
        }
    }
}

/// Reads two more digits, and finds a digit of the root.
fn read_pair<L: Ledger, D: Digits<L>>(part: RootSoFar<D>, steps: &mut Steps<L>) -> RootSoFar<D> {
    let pair = high_part(part.rest, 2, steps);
    let rest = low_part(part.rest, 2, steps);
    let moved = scaled(part.remainder, 2, steps);
    let whole = sum(moved, pair, steps);
    let fourfold = scaled(part.root, 2, steps);
    let trial = sum(fourfold, D::ONE, steps);
    let twice = scaled(part.root, 1, steps);
    if is_at_most(trial, whole, steps) {
        RootSoFar {
            root: sum(twice, D::ONE, steps),
            remainder: difference(whole, trial, steps),
            rest,
        }
    } else {
        RootSoFar {
            root: twice,
            remainder: whole,
            rest,
        }
    }
}

/// Reads the digits of a word whose least significant ones are zeros, two in each turn, and finds a digit of the root
/// in each turn.
fn read_word<L: Ledger, D: Digits<L>>(
    part: RootSoFar<D>,
    turns: u32,
    steps: &mut Steps<L>,
) -> RootSoFar<D> {
    let mut now = part;
    for i in 0..turns {
        now = read_pair(now, steps);
    }
    now
}

/// Reads two zeros, and finds a digit of the root. Both results are computed, since a selection takes less time than
/// a branch that cannot be predicted.
fn read_zeros<L: Ledger, D: Digits<L>>(root: D, remainder: D, steps: &mut Steps<L>) -> (D, D) {
    let twice = scaled(root, 1, steps);
    let more = sum(twice, D::ONE, steps);
    let same = low_part(remainder, 2, steps);
    let above = difference(remainder, root, steps);
    let fourfold = low_part(above, 2, steps);
    let less = difference(fourfold, D::ONE, steps);
    if is_at_most(remainder, root, steps) {
        (twice, same)
    } else {
        (more, less)
    }
}

/// Finds the last digit if the last two digits of the number are zeros.
fn find_last<L: Ledger, D: Digits<L>>(root: D, remainder: D, steps: &mut Steps<L>) -> D {
    let twice = scaled(root, 1, steps);
    if is_at_most(remainder, root, steps) {
        twice
    } else {
        sum(twice, D::ONE, steps)
    }
}

/// Reads twice as many zeros as there are turns, and finds a digit of the root in each turn.
fn finish<L: Ledger, D: Digits<L>>(root: D, remainder: D, turns: u32, steps: &mut Steps<L>) -> D {
    if turns == 0 {
        return root;
    }
    let mut digits = root;
    let mut left = remainder;
    for i in 0..turns - 1 {
        (digits, left) = read_zeros(digits, left, steps);
    }
    find_last(digits, left, steps)
}

/// Returns the square root of `val 2^-frac` in units of `2^-frac`, rounded down: the integer r with
/// `r^2 <= val 2^frac < (r+1)^2`. The root of 0 is 0. Precondition: `frac` is at most the width n. The count of steps
/// rises by at most `16 n + 32`.
///
/// # Examples
///
/// ```
/// use zugyelmas::root::root;
/// use zugyelmas::word::{Count, Steps};
/// let steps = &mut Steps::new(Count::new());
///
/// assert_eq!(root(36_u8, 4, steps), 24); // 2.25 has the root 1.5
/// // 2 has the root 1.414.., rounded down to 1.375
/// assert_eq!(root(32_u8, 4, steps), 22);
/// assert_eq!(root(0_u8, 4, steps), 0);
/// assert!(steps.ledger().count() <= 3 * (16 * 8 + 32));
/// ```
///
/// ```should_panic
/// # use zugyelmas::root::root;
/// # use zugyelmas::word::{Count, Steps};
/// # let steps = &mut Steps::new(Count::new());
/// # std::panic::set_hook(Box::new(|_| {}));
/// root(36_u8, 9, steps); // the fraction is above the width
/// ```
///
/// # Panics
///
/// Panics unless the fraction frac is at most the width.
///
/// # Proved
///
/// ```text
/// requires { frac ≤ D.BITS }
/// ensures root { IsRoot (D.value val) frac (D.value result) }
/// ensures ticks { RisesAtMost (16 * D.BITS + 32) (L.count steps.old) (L.count steps.new) }
/// ```
///
/// Definitions: [`RisesAtMost`].
///
/// [`RisesAtMost`]: crate::definitions::word_ticks
#[track_caller]
pub fn root<L: Ledger, D: Digits<L>>(val: D, frac: u32, steps: &mut Steps<L>) -> D {
    assert!(
        frac <= D::BITS,
        "precondition: the fraction frac is at most the width"
    );
    if is_at_most(val, D::ZERO, steps) {
        return D::ZERO;
    }
    let zeros = val.leading_zeros(steps) / 2;
    let moved = scaled(val, 2 * zeros, steps);
    let first = begin(moved, frac, steps);
    let half = read_word(first, D::BITS / 2 - zeros, steps);
    finish(half.root, half.remainder, frac / 2, steps)
}
