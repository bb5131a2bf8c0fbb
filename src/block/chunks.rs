// Made by `make package` of crates/fixed_block/src/chunks.rt, which is proved: changes go there.

//! The sum of the products of words of at most 16 bits, by chunks whose sums fit in 32 bits.

use crate::convert::Castable;
use crate::word::Integer;

/// Returns the value of a word. Precondition: the word has at most 16 bits.
#[inline(always)]
fn short<T: Castable>(word: T) -> i32 {
    word.to_wide() as i32
}

/// Returns the product of two words as two numbers: the first one times `2^16`, plus the second. Precondition: the
/// words have at most 16 bits.
#[inline(always)]
fn halves<T: Castable>(x: T, y: T) -> (i32, i32) {
    if T::BITS <= 8 {
        byte_halves(short(x), short(y))
    } else if T::SIGNED {
        signed_halves(signed_product(short(x), short(y)))
    } else {
        unsigned_halves(short(x).unsigned_abs(), short(y).unsigned_abs())
    }
}

/// Returns the product of two numbers of 8 bits as the second number.
#[inline(always)]
fn byte_halves(x: i32, y: i32) -> (i32, i32) {
    (0, x * y)
}

/// Returns the product of two signed numbers of 16 bits.
#[inline(always)]
fn signed_product(x: i32, y: i32) -> i32 {
    x * y
}

/// Returns an integer over `2^16`, rounded down, and the remainder.
#[inline(always)]
fn signed_halves(product: i32) -> (i32, i32) {
    let high = product.floored(16);
    (high, product - high * 65536)
}

/// Returns the same for the product of two unsigned numbers of 16 bits.
#[inline(always)]
fn unsigned_halves(x: u32, y: u32) -> (i32, i32) {
    let product = x * y;
    ((product / 65536) as i32, (product % 65536) as i32)
}

/// Returns the first number times `2^16`, plus the second.
#[inline(always)]
fn joined(high: i32, low: i32) -> i64 {
    i64::from(high) * 65536 + i64::from(low)
}

/// Returns the sum of the products of at most `2^14` words of at most 16 bits. Sums of halves fit in 32 bits, so that
/// the loop takes several words at a time.
#[inline(always)]
fn chunk_sum<T: Castable>(a: &[T], b: &[T]) -> i64 {
    let mut high: i32 = 0;
    let mut low: i32 = 0;
    for at in 0..a.len() {
        let (more_high, more_low) = halves(a[at], b[at]);
        high += more_high;
        low += more_low;
    }
    joined(high, low)
}

/// Returns the sum of the products of words of at most 16 bits.
#[inline(always)]
pub(crate) fn short_sum<T: Castable>(a: &[T], b: &[T]) -> i128 {
    let mut sum: i128 = 0;
    let mut at = 0;
    while at < a.len() {
        let end = at + (a.len() - at).min(16384);
        sum += i128::from(chunk_sum(&a[at..end], &b[at..end]));
        at = end;
    }
    sum
}
