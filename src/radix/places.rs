// Made by `make package` of crates/fixed_radix/src/places.rt, which is proved: changes go there.

//! A number in units of `2^-shift`, and how many digits after the point it needs.

/// Returns a magnitude of units of `2^-frac` in units of `2^-shift`, rounded to the nearest, ties to even.
pub(crate) fn in_units(magnitude: u64, frac: u32, shift: u32) -> u128 {
    let units = u128::from(magnitude);
    if shift >= frac {
        return units << (shift - frac);
    }
    let behind = frac - shift;
    let whole = units >> behind;
    let rest = units % (1 << behind);
    if 2 * rest + whole % 2 > 1 << behind {
        whole + 1
    } else {
        whole
    }
}

/// Returns whether a magnitude in units of `2^-frac` is a whole number of units of `2^-shift`.
fn is_exact(magnitude: u64, frac: u32, shift: u32) -> bool {
    shift >= frac || u128::from(magnitude) % (1 << (frac - shift)) == 0
}

/// Returns how many digits after the point the exact text of a magnitude has, in a base of `2^bits`.
pub(crate) fn exact_places(magnitude: u64, frac: u32, bits: u32) -> u32 {
    let mut places = 0;
    while places < frac && !is_exact(magnitude, frac, bits * places) {
        places += 1;
    }
    places
}
