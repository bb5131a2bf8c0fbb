//! All 2^32 patterns of `f32` in one format, beside plain integer arithmetic.
//!
//!     cargo bench --bench patterns
//!
//! It prints how many patterns agree, and stops at the first that does not.

use std::thread;
use zugyelmas::prelude::*;

type Number = FixedI32<16>;

/// How many bits of a pattern a thread takes.
const PART: u32 = 31;

/// The float in units of `2^-16`, to the nearest, ties to even, held at the ends; nothing for a NaN.
fn held(bits: u32) -> Option<i32> {
    let (field, fraction) = (bits >> 23 & 255, i64::from(bits & 0x7f_ffff));
    let (digits, exponent) = match field {
        255 if fraction != 0 => return None,
        255 => (1, 100),
        0 => (fraction, -149),
        _ => (fraction + (1 << 23), field as i32 - 150),
    };
    let size = match exponent + 16 {
        up @ 0.. => digits << up.min(32),
        down => to_even(digits, down.unsigned_abs().min(60)),
    };
    let number = if bits >> 31 == 1 { -size } else { size };
    Some(number.clamp(i32::MIN.into(), i32::MAX.into()) as i32)
}

/// `digits / 2^by` to the nearest, ties to even.
fn to_even(digits: i64, by: u32) -> i64 {
    let (unit, quotient) = (1_i64 << by, digits >> by);
    let twice = 2 * (digits & (unit - 1));
    quotient + i64::from(twice > unit || twice == unit && quotient % 2 == 1)
}

/// Asserts that every pattern of a part is as expected.
fn agree(part: u32) {
    for low in 0..1 << PART {
        let x = f32::from_bits((part << PART) + low);
        match held(x.to_bits()) {
            Some(number) => assert_eq!(Number::saturating_from_num(x).to_bits(), number, "{x}"),
            None => assert_eq!(Number::checked_from_num(x), None),
        }
    }
}

fn main() {
    thread::scope(|scope| {
        for part in 0..1 << (32 - PART) {
            scope.spawn(move || agree(part));
        }
    });
    println!("{} patterns agree", 1_u64 << 32);
}
