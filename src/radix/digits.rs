// Made by `make package` of crates/fixed_radix/src/digits.rt, which is proved: changes go there.

//! Writing the digits of a number in a base of `2^bits`, from the last one on.

use crate::radix::bases::glyph;

/// Returns the remainder of a number by `2^bits`.
#[inline]
fn last_digit(number: u128, bits: u32) -> u8 {
    (number % (1 << bits)) as u8
}

/// Writes the last `count` digits of a number so that they end before `end`.
fn put_places(number: u128, bits: u32, upper: bool, count: usize, buffer: &mut [u8], end: usize) {
    let start = end - count;
    let mut rest = number;
    let mut at = end;
    while at > start {
        at -= 1;
        buffer[at] = glyph(last_digit(rest, bits), upper);
        rest >>= bits;
    }
}

/// Writes the digits of a number, without leading zeros, so that they end before `end`, and returns where they begin.
fn put_whole(number: u64, bits: u32, upper: bool, buffer: &mut [u8], end: usize) -> usize {
    let mut at = end - 1;
    buffer[at] = glyph(last_digit(u128::from(number), bits), upper);
    let mut rest = number >> bits;
    while rest > 0 {
        at -= 1;
        buffer[at] = glyph(last_digit(u128::from(rest), bits), upper);
        rest >>= bits;
    }
    at
}

/// Writes the text of a number in units of `2^-(bits * places)` at the end of the buffer, and returns where it begins.
pub(crate) fn put_number(
    number: u128,
    bits: u32,
    upper: bool,
    places: usize,
    buffer: &mut [u8; 130],
) -> usize {
    if places == 0 {
        return put_whole(number as u64, bits, upper, buffer, 130);
    }
    put_places(number, bits, upper, places, buffer, 130);
    let point = 129 - places;
    buffer[point] = b'.';
    let whole = number >> (bits * places as u32);
    put_whole(whole as u64, bits, upper, buffer, point)
}
