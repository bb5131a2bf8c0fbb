// Made by `make package` of crates/fixed_decimal/src/tens.rt, which is proved: changes go there.

//! Powers of ten.

/// The powers of ten that fit into 64 bits.
static TENS: [u64; 20] = [
    1,
    10,
    100,
    1_000,
    10_000,
    100_000,
    1_000_000,
    10_000_000,
    100_000_000,
    1_000_000_000,
    10_000_000_000,
    100_000_000_000,
    1_000_000_000_000,
    10_000_000_000_000,
    100_000_000_000_000,
    1_000_000_000_000_000,
    10_000_000_000_000_000,
    100_000_000_000_000_000,
    1_000_000_000_000_000_000,
    10_000_000_000_000_000_000,
];

/// Returns `10^power`. Precondition: `power` is below 20.
#[inline(always)]
#[must_use]
pub const fn ten_to(power: usize) -> u64 {
    TENS[power]
}
