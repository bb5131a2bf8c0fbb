// Made by `make package` of crates/fixed_turns/src/constants.rt, which is proved: changes go there.

//! Pi and 2 over pi, in words of 128 and 64 bits.

/// Pi in units of `2^-126`, rounded down. This is also half of pi in units of `2^-127`.
pub(crate) const PI: u128 = 0xc90f_daa2_2168_c234_c4c6_628b_80dc_1cd1;

/// How many radians a quarter turn is, in units of `2^-63`, rounded down: the higher half of `PI`.
pub(crate) const RADIANS: u64 = (PI >> 64) as u64;

/// The next 64 bits of `RADIANS`, in units of `2^-127`, rounded down: the lower half of `PI`.
pub(crate) const RADIANS_MORE: u64 = (PI % (1 << 64)) as u64;

/// How many quarter turns a radian is, which is 2 over pi, in units of `2^-64`, rounded down.
pub(crate) const QUARTERS: u64 = 0xa2f9_836e_4e44_1529;

/// The next 64 bits of `QUARTERS`, in units of `2^-128`, rounded down.
pub(crate) const QUARTERS_MORE: u64 = 0xfc27_57d1_f534_ddc0;
