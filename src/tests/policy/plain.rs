// Made by `make package` of crates/tests_policy/src/plain.rt, which is proved: changes go there.

//! Numbers by their bits as integers, and the answers of the policies on them.

use crate::num::Number;
use crate::word::RawWord;

/// The bits as an integer.
pub fn value<N: Number>(a: N) -> i128 {
    let bits = a.to_bits();
    let magnitude = bits.magnitude() as i128;
    if bits.is_below_zero() {
        -magnitude
    } else {
        magnitude
    }
}

/// The checked, overflowing, wrapping and saturating answers.
pub type Forms = (Option<i128>, (i128, bool), i128, i128);

/// Those answers, by their bits.
pub fn shown<N: Number>(
    checked: Option<N>,
    overflowing: (N, bool),
    wrapping: N,
    saturating: N,
) -> Forms {
    let checked = match checked {
        Some(number) => Some(value(number)),
        None => None,
    };
    let (left, verdict) = overflowing;
    (
        checked,
        (value(left), verdict),
        value(wrapping),
        value(saturating),
    )
}

/// Those of a number by the bits that are left and the nearest that fits, which are one where it fits.
pub fn forms(left: i128, nearest: i128) -> Forms {
    forms_of(left == nearest, left, nearest)
}

/// The same where it is said whether the number fits.
pub fn forms_of(fits: bool, left: i128, nearest: i128) -> Forms {
    let checked = if fits { Some(left) } else { None };
    (checked, (left, !fits), left, nearest)
}

/// Asserts that these are the answers wanted; the message names the operands.
pub fn stands(operands: [i128; 3], found: Forms, wanted: Forms) {
    let (checked, (overflowing, verdict), wrapping, saturating) = found;
    assert!(
        found == wanted,
        "{operands:?}: {checked:?}, {overflowing} {verdict}, {wrapping}, {saturating}"
    );
}

/// Asserts that in each row the answers found are those wanted; the message names the row.
pub fn all_stand(rows: &[(&str, Forms, Forms)]) {
    for (what, found, wanted) in rows {
        assert!(*found == *wanted, "{what}");
    }
}

/// The same of four numbers that fit.
pub fn all_fit(rows: &[(&str, [i128; 4], [i128; 4])]) {
    for (what, found, wanted) in rows {
        assert!(*found == *wanted, "{what}: {found:?}");
    }
}
