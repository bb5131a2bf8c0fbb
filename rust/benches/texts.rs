//! Decimal text, read and written: typed calls beside std's integers of as many digits, and beside a reader and a writer
//! by hand. Prints nanoseconds a text, and their ratio.
//!
//!     cargo bench --bench texts -- [WORD..]      (words of a row's name: `read`, `written`)
//!
//! `bench/counts` counts the instructions instead.

mod counting;
mod draws;
mod timing;

use draws::Draws;
use std::fmt::Write;
use std::hint::black_box;
use std::time::Duration;
use timing::{Timing, is_wanted};
use zugyelmas::prelude::*;

const LENGTH: usize = 4096;

const TIMING: Timing = Timing {
    length: LENGTH,
    samples: 51,
    sample: Duration::from_micros(200),
};

/// The powers of ten up to `10^18`.
fn tens(power: usize) -> u64 {
    const TENS: [u64; 19] = {
        let mut tens = [1; 19];
        let mut at = 1;
        while at < 19 {
            tens[at] = tens[at - 1] * 10;
            at += 1;
        }
        tens
    };
    TENS[power]
}

/// Prints what both sides take.
fn row(name: &str, by_hand: impl FnMut(), call: impl FnMut()) {
    if !is_wanted(name) {
        return;
    }
    if counting::is_on() {
        counting::count(c"by hand", by_hand);
        counting::count(c"call", call);
        println!("{name}");
        return;
    }
    TIMING.row(name, by_hand, call);
}

/// A number of so many digits.
fn of_digits(draws: &mut Draws, digits: usize) -> u64 {
    tens(digits - 1) + draws.next() % (tens(digits) - tens(digits - 1))
}

/// The whole numbers as text, half of them below 0, and the same digits with a point.
fn texts(digits: usize) -> Vec<(String, String)> {
    let mut draws = Draws(42);
    let point = digits.div_ceil(3);
    let text = |_| {
        let sign = ["", "-"][(draws.next() >> 40) as usize % 2];
        let digits = of_digits(&mut draws, digits).to_string();
        let (whole, part) = digits.split_at(point);
        (format!("{sign}{digits}"), format!("{sign}{whole}.{part}"))
    };
    (0..LENGTH).map(text).collect()
}

/// A decimal of at most 18 digits in units of `2^-frac`, to the nearest, ties to even, in 64 bits.
fn read_by_hand(text: &str, frac: u32) -> Option<i64> {
    let (below_zero, digits) = match text.strip_prefix('-') {
        Some(digits) => (true, digits),
        None => (false, text),
    };
    if digits.len() > 19 {
        return None;
    }
    let (mut value, mut point) = (0, None);
    for (at, byte) in digits.bytes().enumerate() {
        match byte {
            b'0'..=b'9' => value = value * 10 + u64::from(byte - b'0'),
            b'.' if point.is_none() => point = Some(at + 1),
            _ => return None,
        }
    }
    let unit = tens(digits.len() - point.unwrap_or(digits.len()));
    let scaled = u128::from(value) << frac;
    let (quotient, rest) = match u64::try_from(scaled) {
        Ok(scaled) => (scaled / unit, scaled % unit),
        Err(_) => (
            (scaled / u128::from(unit)) as u64,
            (scaled % u128::from(unit)) as u64,
        ),
    };
    let up = 2 * rest + quotient % 2 > unit;
    let magnitude = i64::try_from(quotient + u64::from(up)).ok()?;
    Some(if below_zero { -magnitude } else { magnitude })
}

/// The decimal with four places, to the nearest, ties to even.
fn write_by_hand(bits: i32, out: &mut String) {
    let scaled = u64::from(bits.unsigned_abs()) * 10_000;
    let (quotient, rest) = (scaled >> 16, scaled % 65536);
    let number = quotient + u64::from(2 * rest + quotient % 2 > 65536);
    let sign = if bits < 0 { "-" } else { "" };
    write!(out, "{sign}{}.{:04}", number / 10_000, number % 10_000).expect("a string takes it");
}

fn read(digits: usize) {
    let texts = texts(digits);
    let mut whole = vec![0_i64; LENGTH];
    let mut bits = vec![0_i64; LENGTH];
    let mut numbers = vec![FixedI64::<32>::from_bits(0); LENGTH];
    let mut call = || {
        for (number, (_, decimal)) in numbers.iter_mut().zip(black_box(&texts)) {
            *number = decimal.parse().expect("it fits");
        }
    };
    row(
        &format!("read: i64<32> beside i64, {digits} digits"),
        || {
            for (number, (integer, _)) in whole.iter_mut().zip(black_box(&texts)) {
                *number = integer.parse().expect("it fits");
            }
        },
        &mut call,
    );
    row(
        &format!("read: i64<32> by hand, {digits} digits"),
        || {
            for (bits, (_, decimal)) in bits.iter_mut().zip(black_box(&texts)) {
                *bits = read_by_hand(decimal, 32).expect("it fits");
            }
        },
        &mut call,
    );
    assert!(
        numbers
            .iter()
            .zip(&bits)
            .all(|(number, bits)| number.to_bits() == *bits)
    );
}

/// Makes a pass of texts, each written over the one before.
fn write_each<N: Copy>(numbers: &[N], out: &mut String, write: impl Fn(N, &mut String)) {
    for number in black_box(numbers) {
        out.clear();
        write(*number, out);
        black_box(&mut *out);
    }
}

fn written(digits: usize) {
    let mut draws = Draws(42);
    let integers: Vec<i64> = (0..LENGTH)
        .map(|_| of_digits(&mut draws, digits) as i64)
        .collect();
    let unit = tens(4.min(digits - 1)) as i64;
    let to_bits = |number: &i64| (i128::from(*number) * 65536 / i128::from(unit)) as i32;
    let numbers: Vec<FixedI32<16>> = integers
        .iter()
        .map(|number| FixedI32::from_bits(to_bits(number)))
        .collect();
    let (mut out, mut other) = (String::with_capacity(100), String::with_capacity(100));
    let integer = |number: i64, out: &mut String| write!(out, "{number}").expect("it is taken");
    let by_hand = |number: FixedI32<16>, out: &mut String| write_by_hand(number.to_bits(), out);
    let places =
        |number: FixedI32<16>, out: &mut String| write!(out, "{number:.4}").expect("it is taken");
    let shortest =
        |number: FixedI32<16>, out: &mut String| write!(out, "{number}").expect("it is taken");
    for number in &numbers {
        write_each(&[*number], &mut out, by_hand);
        write_each(&[*number], &mut other, places);
        assert_eq!(out, other);
    }
    row(
        &format!("written: i32<16> beside i64, {digits} digits"),
        || write_each(&integers, &mut out, integer),
        || write_each(&numbers, &mut other, places),
    );
    row(
        &format!("written: i32<16> by hand, {digits} digits"),
        || write_each(&numbers, &mut out, by_hand),
        || write_each(&numbers, &mut other, places),
    );
    row(
        &format!("written: shortest beside i64, {digits} digits"),
        || write_each(&integers, &mut out, integer),
        || write_each(&numbers, &mut other, shortest),
    );
}

fn main() {
    if !counting::is_on() {
        println!("{:44} {:>8} {:>8} {:>6}", "", "by hand", "call", "ratio");
    }
    for digits in [3, 6, 9, 12, 15, 18] {
        read(digits);
    }
    for digits in [6, 8] {
        written(digits);
    }
}
