// Made by `make package` of crates/fixed_digits/src/written.rt, which is proved: changes go there.

//! Writing the decimal of a number, up to eight digits at a time.

/// The two digits of each number below 100.
static PAIRS: [u8; 200] =
    *b"00010203040506070809101112131415161718192021222324252627282930313233343536373839404142434445464748495051525354555657585960616263646566676869707172737475767778798081828384858687888990919293949596979899";

/// A millionth in units of `2^-57`, rounded up.
const MILLIONTH: u64 = 144_115_188_076;

/// Writes the two digits of a number below 100 at a place.
#[inline(always)]
fn put_pair(pair: u32, buffer: &mut [u8], at: usize) {
    let from = pair as usize * 2;
    let (tens, ones) = (PAIRS[from], PAIRS[from + 1]);
    buffer[at] = tens;
    buffer[at + 1] = ones;
}

/// Writes the four digits of a number below 10,000 at a place.
#[inline(always)]
fn put_four(four: u32, buffer: &mut [u8], at: usize) {
    put_pair(four % 100, buffer, at + 2);
    put_pair(four / 100, buffer, at);
}

/// Writes the eight digits of a number below 100,000,000 at a place. `first` is its millionth in units of `2^-32`, and each
/// step takes what is below 1 of it a hundred times.
#[inline(always)]
fn put_eight(eight: u32, buffer: &mut [u8], at: usize) {
    let first = ((u64::from(eight) * MILLIONTH) >> 25) + 1;
    let second = first % (1 << 32) * 100;
    let third = second % (1 << 32) * 100;
    let fourth = third % (1 << 32) * 100;
    put_pair((fourth >> 32) as u32, buffer, at + 6);
    put_pair((third >> 32) as u32, buffer, at + 4);
    put_pair((second >> 32) as u32, buffer, at + 2);
    put_pair((first >> 32) as u32, buffer, at);
}

/// Writes the decimal of a number below 100 so that it ends before `end`, and returns where it begins.
#[inline(always)]
fn put_first_pair(number: u32, buffer: &mut [u8], end: usize) -> usize {
    if number < 10 {
        let at = end - 1;
        buffer[at] = b'0' + number as u8;
        at
    } else {
        let at = end - 2;
        put_pair(number, buffer, at);
        at
    }
}

/// Writes the decimal of a number below 10,000 so that it ends before `end`, and returns where it begins.
#[inline(always)]
fn put_first_four(number: u32, buffer: &mut [u8], end: usize) -> usize {
    if number < 100 {
        put_first_pair(number, buffer, end)
    } else {
        let at = end - 2;
        put_pair(number % 100, buffer, at);
        put_first_pair(number / 100, buffer, at)
    }
}

/// Writes the decimal of a number below 100,000,000 so that it ends before `end`, and returns where it begins.
#[inline(always)]
fn put_first(number: u32, buffer: &mut [u8], end: usize) -> usize {
    if number < 10_000 {
        put_first_four(number, buffer, end)
    } else {
        let at = end - 4;
        put_four(number % 10_000, buffer, at);
        put_first_four(number / 10_000, buffer, at)
    }
}

/// Writes the decimal so that it ends before `end`, and returns where it begins. Bytes from `end` on do not change.
/// Precondition: `end` is at least 20, which is the length of the longest decimal, and at most the buffer's length.
#[inline(always)]
pub fn decimal_before(number: u64, buffer: &mut [u8], end: usize) -> usize {
    let mut at = end;
    let mut rest = number;
    while rest >= 100_000_000 {
        at -= 8;
        put_eight((rest % 100_000_000) as u32, buffer, at);
        rest /= 100_000_000;
    }
    put_first(rest as u32, buffer, at)
}

/// Writes the decimal at the end of the buffer, and returns where it begins.
pub fn decimal_into(number: u64, buffer: &mut [u8; 20]) -> usize {
    decimal_before(number, buffer, 20)
}
