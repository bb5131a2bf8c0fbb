//! Nanoseconds an element of conversions in loops over arrays, beside the same loop by hand on native operations.
//!
//!     cargo bench --bench casts [WORD..]      (words of a row's name: `saturating`, `f64`)
//!     bench/counts                            (instructions in place of nanoseconds)
//!
//! Each loop takes 4,096 numbers. Both results are compared first. The least of many short samples counts.

mod counting;
mod draws;
mod timing;

use draws::Draws;
use std::hint::black_box;
use std::time::Duration;
use timing::{Timing, is_wanted};
use zugyelmas::kernel::Rounding::{Even, Zero};
use zugyelmas::prelude::*;

/// How many numbers an array has.
const LENGTH: usize = 4096;

const TIMING: Timing = Timing {
    length: LENGTH,
    samples: 201,
    sample: Duration::from_micros(20),
};

/// One pass over the arrays.
#[inline(never)]
fn pass<A: Copy, R>(numbers: &[A], results: &mut [R], f: impl Fn(A) -> R) {
    for (result, number) in results.iter_mut().zip(numbers) {
        *result = f(*number);
    }
}

/// Prints what a call and the loop by hand take.
fn row<A: Copy, R: Clone + Default + PartialEq>(
    name: &str,
    number: impl Fn(u64) -> A,
    by_hand: impl Fn(A) -> R + Copy,
    call: impl Fn(A) -> R + Copy,
) {
    if !is_wanted(name) {
        return;
    }
    let mut draws = Draws(42);
    let numbers: Vec<A> = (0..LENGTH).map(|_| number(draws.next())).collect();
    let (mut plain, mut typed) = (vec![R::default(); LENGTH], vec![R::default(); LENGTH]);
    pass(&numbers, &mut plain, by_hand);
    pass(&numbers, &mut typed, call);
    assert!(plain == typed, "{name}: both sides agree");
    let by_hand = || pass(black_box(&numbers), black_box(&mut plain), by_hand);
    let call = || pass(black_box(&numbers), black_box(&mut typed), call);
    if counting::is_on() {
        counting::count(c"by hand", by_hand);
        counting::count(c"call", call);
        println!("{name}");
        return;
    }
    TIMING.row(name, by_hand, call);
}

/// A float of about 29 bits before the point, half of them below 0.
fn far_float(draw: u64) -> f64 {
    (draw as i64) as f64 / 17179869184.0
}

/// A float of about ten bits before the point, half of them below 0.
fn float(draw: u64) -> f64 {
    (draw as i32) as f64 / 2097152.0
}

/// A tie to the even number, by a bias and a mask.
fn even_by_16(bits: i32) -> i64 {
    let wide = i64::from(bits);
    (wide + 32767 + (wide >> 16 & 1)) >> 16
}

fn formats() {
    let n32 = |draw: u64| FixedI32::<16>::from_bits(draw as i32);
    let n16 = |draw: u64| FixedI16::<8>::from_bits(draw as i16);
    row(
        "wrapping i16<8> to i32<16>",
        n16,
        |a| i32::from(a.to_bits()) << 8,
        |a| FixedI32::<16>::wrapping_from_num(a).to_bits(),
    );
    row(
        "checked i32<16> to i16<8>",
        n32,
        |a| i16::try_from(a.to_bits() >> 8).ok(),
        |a| FixedI16::<8>::checked_from_num(a).map(Fixed::to_bits),
    );
    row(
        "saturating i32<16> to i16<8>",
        n32,
        |a| (a.to_bits() >> 8).clamp(-32768, 32767) as i16,
        |a| FixedI16::<8>::saturating_from_num(a).to_bits(),
    );
    row(
        "saturating i32<16> to i8<4>",
        n32,
        |a| (a.to_bits() >> 12).clamp(-128, 127) as i8,
        |a| FixedI8::<4>::saturating_from_num(a).to_bits(),
    );
    row(
        "saturating i32<16> to u8<4>",
        n32,
        |a| (a.to_bits() >> 12).clamp(0, 255) as u8,
        |a| FixedU8::<4>::saturating_from_num(a).to_bits(),
    );
    row(
        "saturating i32<16> to i32<8>",
        n32,
        |a| a.to_bits() >> 8,
        |a| FixedI32::<8>::saturating_from_num(a).to_bits(),
    );
    row(
        "saturating i16<8> to i32<28>",
        n16,
        |a| (i64::from(a.to_bits()) << 20).clamp(i32::MIN.into(), i32::MAX.into()) as i32,
        |a| FixedI32::<28>::saturating_from_num(a).to_bits(),
    );
}

fn products() {
    let factors = |draw: u64| (draw as i16, (draw >> 32) as i32 >> 6);
    let typed = |(a, b)| (FixedI16::<8>::from_bits(a), FixedI32::<16>::from_bits(b));
    let exact = |(a, b): (i16, i32)| i64::from(a) * i64::from(b);
    row(
        "wrapping_mul_into i16<8> i32<16> to i32<16>",
        factors,
        |both| (exact(both) >> 8) as i32,
        |both| {
            let (a, b) = typed(both);
            a.wrapping_mul_into::<_, FixedI32<16>>(b).to_bits()
        },
    );
    row(
        "checked_mul_into i16<8> i32<16> to i32<16>",
        factors,
        |both| i32::try_from(exact(both) >> 8).ok(),
        |both| {
            let (a, b) = typed(both);
            a.checked_mul_into::<_, FixedI32<16>>(b).map(Fixed::to_bits)
        },
    );
    row(
        "saturating_mul_into i16<8> i32<16> to i32<16>",
        factors,
        |both| (exact(both) >> 8).clamp(i32::MIN.into(), i32::MAX.into()) as i32,
        |both| {
            let (a, b) = typed(both);
            a.saturating_mul_into::<_, FixedI32<16>>(b).to_bits()
        },
    );
    row(
        "wrapping_mul_into_round even to i32<16>",
        factors,
        |both| {
            let product = exact(both);
            ((product + 127 + (product >> 8 & 1)) >> 8) as i32
        },
        |both| {
            let (a, b) = typed(both);
            a.wrapping_mul_into_round::<_, FixedI32<16>>(b, Even)
                .to_bits()
        },
    );
}

fn roundings() {
    let n32 = |draw: u64| FixedI32::<16>::from_bits(draw as i32);
    row(
        "wrapping even i32<16> to i32",
        n32,
        |a| even_by_16(a.to_bits()) as i32,
        |a| i32::wrapping_from_num_round(a, Even),
    );
    row(
        "saturating even i32<16> to i16",
        n32,
        |a| even_by_16(a.to_bits()).clamp(-32768, 32767) as i16,
        |a| i16::saturating_from_num_round(a, Even),
    );
    row(
        "wrapping zero i32<16> to i32",
        n32,
        |a| a.to_bits() / 65536,
        |a| i32::wrapping_from_num_round(a, Zero),
    );
    row(
        "wrapping_floor i32<16>",
        n32,
        |a| a.to_bits() & !65535,
        |a| a.wrapping_floor().to_bits(),
    );
    row(
        "wrapping_ceil i32<16>",
        n32,
        |a| a.to_bits().wrapping_add(65535) & !65535,
        |a| a.wrapping_ceil().to_bits(),
    );
    row(
        "wrapping_round i32<16>",
        n32,
        |a| a.to_bits().wrapping_add(32768 - i32::from(a.to_bits() < 0)) & !65535,
        |a| a.wrapping_round().to_bits(),
    );
    row(
        "wrapping_round_ties_even i32<16>",
        n32,
        |a| (even_by_16(a.to_bits()) << 16) as i32,
        |a| a.wrapping_round_ties_even().to_bits(),
    );
}

fn floats() {
    row(
        "saturating f64 to i32<16>",
        float,
        |x| (x * 65536.0).round_ties_even() as i32,
        |x| FixedI32::<16>::saturating_from_num(x).to_bits(),
    );
    row(
        "saturating far f64 to i32<16>",
        far_float,
        |x| (x * 65536.0).round_ties_even() as i32,
        |x| FixedI32::<16>::saturating_from_num(x).to_bits(),
    );
    row(
        "saturating f64 to i64<32>",
        float,
        |x| (x * 4294967296.0).round_ties_even() as i64,
        |x| FixedI64::<32>::saturating_from_num(x).to_bits(),
    );
    row(
        "saturating far f64 to i64<32>",
        far_float,
        |x| (x * 4294967296.0).round_ties_even() as i64,
        |x| FixedI64::<32>::saturating_from_num(x).to_bits(),
    );
    row(
        "wrapping f64 to i32<16>",
        float,
        |x| (x * 65536.0).round_ties_even() as i64 as i32,
        |x| FixedI32::<16>::wrapping_from_num(x).to_bits(),
    );
    row(
        "saturating f32 to i16<8>",
        |draw| float(draw) as f32,
        |x| (x * 256.0).round_ties_even() as i16,
        |x| FixedI16::<8>::saturating_from_num(x).to_bits(),
    );
    floats_out();
}

/// The rows of a word with half of its bits behind the point, to both floats.
macro_rules! floats_of {
    ($name:literal, $word:ty, $fixed:ty, $half:expr) => {
        row(
            concat!($name, " to f64"),
            |draw| <$fixed>::from_bits(draw.rotate_left(40) as $word),
            |a| a.to_bits() as f64 / $half,
            |a| a.to_float::<f64>(),
        );
        row(
            concat!($name, " to f32"),
            |draw| <$fixed>::from_bits(draw.rotate_left(40) as $word),
            |a| a.to_bits() as f32 / $half,
            |a| a.to_float::<f32>(),
        );
    };
}

fn floats_out() {
    floats_of!("i8<4>", i8, FixedI8<4>, 16.0);
    floats_of!("u8<4>", u8, FixedU8<4>, 16.0);
    floats_of!("i16<8>", i16, FixedI16<8>, 256.0);
    floats_of!("u16<8>", u16, FixedU16<8>, 256.0);
    floats_of!("i32<16>", i32, FixedI32<16>, 65536.0);
    floats_of!("u32<16>", u32, FixedU32<16>, 65536.0);
    floats_of!("i64<32>", i64, FixedI64<32>, 4294967296.0);
    floats_of!("u64<32>", u64, FixedU64<32>, 4294967296.0);
}

fn comparisons() {
    let n16 = |draw: u64| FixedI16::<8>::from_bits(draw as i16);
    let n32 = |draw: u64| FixedI32::<16>::from_bits((draw >> 16) as i32);
    let n64 = |draw: u64| FixedI64::<32>::from_bits(draw.reverse_bits() as i64);
    row(
        "i32<16> < i32<16>",
        |draw| (n32(draw), n32(draw >> 16)),
        |(a, b)| a.to_bits() < b.to_bits(),
        |(a, b)| a < b,
    );
    row(
        "i16<8> == i32<16>",
        |draw| (n16(draw), n32(draw)),
        |(a, b)| i32::from(a.to_bits()) << 8 == b.to_bits(),
        |(a, b)| a == b,
    );
    row(
        "i32<16> < i64<32>",
        |draw| (n32(draw), n64(draw)),
        |(a, b)| i64::from(a.to_bits()) << 16 < b.to_bits(),
        |(a, b)| a < b,
    );
    row(
        "i16<8> <= u16<4>",
        |draw| (n16(draw), FixedU16::<4>::from_bits((draw >> 16) as u16)),
        |(a, b)| i32::from(a.to_bits()) <= i32::from(b.to_bits()) << 4,
        |(a, b)| a <= b,
    );
    row("i32<16> < 5", n32, |a| a.to_bits() < 5 << 16, |a| a < 5);
    row(
        "i32<16> == an i32",
        |draw| (n32(draw), draw as i32),
        |(a, b)| i64::from(a.to_bits()) == i64::from(b) << 16,
        |(a, b)| a == b,
    );
}

fn lossless() {
    row(
        "i32<16> from i16<8>",
        |draw: u64| FixedI16::<8>::from_bits(draw as i16),
        |a| i32::from(a.to_bits()) << 8,
        |a| FixedI32::<16>::from(a).to_bits(),
    );
    row(
        "i16 tried from i32<16>",
        |draw: u64| FixedI32::<16>::from_bits(((draw as i32) >> 12) << 12),
        |a| {
            let whole = a.to_bits() & 65535 == 0;
            whole.then_some((a.to_bits() >> 16) as i16)
        },
        |a| i16::try_from(a).ok(),
    );
}

fn main() {
    if !counting::is_on() {
        println!("{:44} {:>8} {:>8} {:>6}", "", "by hand", "call", "ratio");
    }
    formats();
    products();
    roundings();
    floats();
    comparisons();
    lossless();
}
