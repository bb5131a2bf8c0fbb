// Made by `make package` of crates/fixed_root/src/near.rt, which is proved: changes go there.

//! Numbers near a root, without a division: two of Newton's steps for `1 / sqrt(x)`, and then one for the root. No
//! contract says how near: who asks tests the number.

use crate::casts::CastSigned;

/// `2^7 / sqrt(x)` for x from 1/4 to 1, by the seven most significant bits of x, of which one of the first two is set.
const RECIPROCALS: [u8; 128] = [
    0, 0, 0, 0, 0, 0, 0, 0, 0, 0, 0, 0, 0, 0, 0, 0, 0, 0, 0, 0, 0, 0, 0, 0, 0, 0, 0, 0, 0, 0, 0, 0,
    254, 250, 247, 243, 240, 236, 233, 230, 228, 225, 222, 220, 217, 215, 212, 210, 208, 206, 204,
    202, 200, 198, 196, 194, 193, 191, 189, 188, 186, 185, 183, 182, 180, 179, 178, 176, 175, 174,
    172, 171, 170, 169, 168, 167, 166, 164, 163, 162, 161, 160, 159, 158, 158, 157, 156, 155, 154,
    153, 152, 151, 151, 150, 149, 148, 147, 147, 146, 145, 144, 144, 143, 142, 142, 141, 140, 140,
    139, 138, 138, 137, 137, 136, 135, 135, 134, 134, 133, 132, 132, 131, 131, 130, 130, 129, 129,
    128,
];

/// A number near the root of a fraction x of 64 bits, in units of `2^-32`, and one near `1 / sqrt(x)`, in the same units.
#[derive(Clone, Copy)]
struct Guess {
    root: u64,
    reciprocal: u64,
}

/// Returns a number near the root of `top 2^-64`, and one near its reciprocal.
#[inline]
fn guess_of(top: u64) -> Guess {
    let first = RECIPROCALS[(top >> 57) as usize] as u64;
    let over = (top >> 48).wrapping_mul(first.wrapping_mul(first));
    let second = first.wrapping_mul((3_u64 << 30).wrapping_sub(over)) >> 22;
    let over = ((top >> 34) + 1).wrapping_mul(second.wrapping_mul(second));
    let reciprocal = second.wrapping_mul((3_u64 << 62).wrapping_sub(over) >> 32) >> 15;
    let half = (top >> 32).wrapping_mul(reciprocal >> 1) >> 31;
    let left = top.wrapping_sub(half.wrapping_mul(half));
    let more = (left >> 16).wrapping_mul(reciprocal >> 8) >> 41;
    Guess {
        root: half.wrapping_add(more),
        reciprocal,
    }
}

/// Returns a number near the root of a number whose first or second bit is set.
#[inline]
pub(crate) fn near_root(number: u64) -> u32 {
    (guess_of(number).root % (1 << 32)) as u32
}

/// Does the same for a number of 128 bits: the root of its upper half, with zeros, and two more steps.
#[inline]
pub(crate) fn near_double_root(number: u128) -> u64 {
    let top = (number >> 64) as u64;
    let Guess { root, reciprocal } = guess_of(top);
    let left = top.wrapping_sub(root.wrapping_mul(root));
    let below = ((number >> 35) % (1 << 29)) as u64;
    let eighth = left.wrapping_mul(1 << 29).wrapping_add(below);
    let more = (eighth as u128).wrapping_mul(reciprocal as u128) >> 62;
    let next = root
        .wrapping_mul(1 << 32)
        .saturating_add((more % (1 << 64)) as u64);
    let square = (next as u128).wrapping_mul(next as u128);
    let left = ((number.wrapping_sub(square) >> 41) % (1 << 64)) as u64;
    let units = left
        .cast_signed()
        .wrapping_sub(1)
        .wrapping_mul(reciprocal.cast_signed())
        >> 56;
    next.saturating_add_signed(units)
}
