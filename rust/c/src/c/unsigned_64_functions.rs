// Made by `make package` of crates/fixed_c/src/unsigned_64_functions.rt, which is proved: changes go there.

//! The elementary functions, polynomials and filters of `u64`.
//!
//! Operands and results are bits, in units of `2^-frac`. A call returns 0 and writes a number, or it fails: it returns
//! the number of a code and leaves the number unchanged, unless its comment says otherwise. If several codes apply, it
//! returns the first one that its comment names. [`elementary`] states the bounds.

use crate::face::near_calls::{NearCall, near_of};
use crate::face::{arrays, elementary};
use crate::filter::Shape;

/// Writes the number of a call, or returns the code of why there is none, as [`near_of`] does.
#[inline(always)]
fn near(call: NearCall<u64>, number: &mut u64) -> i32 {
    near_of(call, number)
}

/// Writes the length of the pair `(a, b)`, which is the root of `a^2 + b^2`, rounded down. Fails with `OutOfRange`.
#[unsafe(no_mangle)]
pub extern "C" fn fixed_u64_hypot(a: u64, b: u64, number: &mut u64) -> i32 {
    near(NearCall::Hypot(a, b), number)
}

/// Writes one over the square root of `a / 2^frac`, rounded down. Fails with `FractionPastWidth`, `NotPositive` or
/// `OutOfRange`.
#[unsafe(no_mangle)]
pub extern "C" fn fixed_u64_recip_sqrt(a: u64, frac: u32, number: &mut u64) -> i32 {
    near(NearCall::RecipSqrt(a, frac), number)
}

/// Writes the logarithm of `a / 2^frac` to the base 2, rounded down within the bound of `IsLog2Of`. Fails with
/// `FractionPastWidth`, `NotPositive` or `OutOfRange`.
#[unsafe(no_mangle)]
pub extern "C" fn fixed_u64_log2(a: u64, frac: u32, number: &mut u64) -> i32 {
    near(NearCall::Log2(a, frac), number)
}

/// Writes the natural logarithm of `a / 2^frac`, rounded down within the bound of `IsLn`. Fails with
/// `FractionPastWidth`, `NotPositive` or `OutOfRange`.
#[unsafe(no_mangle)]
pub extern "C" fn fixed_u64_ln(a: u64, frac: u32, number: &mut u64) -> i32 {
    near(NearCall::Ln(a, frac), number)
}

/// Writes the logarithm of `a / 2^frac` to the base 10, rounded down within the bound of `IsLog10`. Fails with
/// `FractionPastWidth`, `NotPositive` or `OutOfRange`.
#[unsafe(no_mangle)]
pub extern "C" fn fixed_u64_log10(a: u64, frac: u32, number: &mut u64) -> i32 {
    near(NearCall::Log10(a, frac), number)
}

/// Writes 2 to the power of `a / 2^frac`, rounded down within the bound of `IsExp2Of`. Fails with `FractionPastWidth`
/// or `OutOfRange`.
#[unsafe(no_mangle)]
pub extern "C" fn fixed_u64_exp2(a: u64, frac: u32, number: &mut u64) -> i32 {
    near(NearCall::Exp2(a, frac), number)
}

/// Writes e to the power of `a / 2^frac`, rounded down within the bound of `IsExp`. Fails with `FractionPastWidth` or
/// `OutOfRange`.
#[unsafe(no_mangle)]
pub extern "C" fn fixed_u64_exp(a: u64, frac: u32, number: &mut u64) -> i32 {
    near(NearCall::Exp(a, frac), number)
}

/// Writes `a / 2^frac` to the power of `b / 2^frac`, rounded down within the bound of `IsPow`. Fails with
/// `FractionPastWidth`, `NotPositive` or `OutOfRange`.
#[unsafe(no_mangle)]
pub extern "C" fn fixed_u64_pow(a: u64, b: u64, frac: u32, number: &mut u64) -> i32 {
    near(NearCall::Pow(a, b, frac), number)
}

/// Writes the sine of `a / 2^frac` radians, rounded to the nearest within the bound of `IsRadianSine`. Fails with
/// `FractionPastWidth` or `OutOfRange`.
#[unsafe(no_mangle)]
pub extern "C" fn fixed_u64_sin(a: u64, frac: u32, number: &mut u64) -> i32 {
    near(NearCall::Sin(a, frac), number)
}

/// Writes the cosine of `a / 2^frac` radians, rounded to the nearest within the bound of `IsRadianCosine`. Fails with
/// `FractionPastWidth` or `OutOfRange`.
#[unsafe(no_mangle)]
pub extern "C" fn fixed_u64_cos(a: u64, frac: u32, number: &mut u64) -> i32 {
    near(NearCall::Cos(a, frac), number)
}

/// Writes the sine and the cosine of `angle / 2^frac` radians, as `fixed_u64_sin` and `fixed_u64_cos` do. Fails with
/// `FractionPastWidth`, or with `OutOfRange` if one of both does not fit: both numbers are then unchanged.
#[unsafe(no_mangle)]
pub extern "C" fn fixed_u64_sin_cos(
    angle: u64,
    frac: u32,
    sine: &mut u64,
    cosine: &mut u64,
) -> i32 {
    elementary::sin_cos(angle, frac, sine, cosine)
}

/// Writes the sine of `a / 2^frac` turns, rounded to the nearest within the bound of `IsSine`. Fails with
/// `FractionPastWidth` or `OutOfRange`.
#[unsafe(no_mangle)]
pub extern "C" fn fixed_u64_sin_turns(a: u64, frac: u32, number: &mut u64) -> i32 {
    near(NearCall::SinTurns(a, frac), number)
}

/// Writes the cosine of `a / 2^frac` turns, rounded to the nearest within the bound of `IsCosine`. Fails with
/// `FractionPastWidth` or `OutOfRange`.
#[unsafe(no_mangle)]
pub extern "C" fn fixed_u64_cos_turns(a: u64, frac: u32, number: &mut u64) -> i32 {
    near(NearCall::CosTurns(a, frac), number)
}

/// Writes the sine and the cosine of `angle / 2^frac` turns, as `fixed_u64_sin_turns` and `fixed_u64_cos_turns` do. Fails
/// with `FractionPastWidth`, or with `OutOfRange` if one of both does not fit: both numbers are then unchanged.
#[unsafe(no_mangle)]
pub extern "C" fn fixed_u64_sin_cos_turns(
    angle: u64,
    frac: u32,
    sine: &mut u64,
    cosine: &mut u64,
) -> i32 {
    elementary::sin_cos_turns(angle, frac, sine, cosine)
}

/// Writes the angle of the point `(x, y)` in units of `2^-frac` radians, from -pi to pi, rounded to the nearest within
/// the bound of `IsRadianAngle`. Fails with `FractionPastWidth`, `NoAngle` or `OutOfRange`.
#[unsafe(no_mangle)]
pub extern "C" fn fixed_u64_atan2(y: u64, x: u64, frac: u32, number: &mut u64) -> i32 {
    near(NearCall::Atan2(y, x, frac), number)
}

/// Writes the angle of the point `(x, y)` in units of `2^-frac` turns, from -1/2 to 1/2 turns, rounded to the nearest
/// within the bound of `IsAngleOf`. Fails with `FractionPastWidth`, `NoAngle` or `OutOfRange`.
#[unsafe(no_mangle)]
pub extern "C" fn fixed_u64_atan2_turns(y: u64, x: u64, frac: u32, number: &mut u64) -> i32 {
    near(NearCall::Atan2Turns(y, x, frac), number)
}

/// Writes the value at `x` of the polynomial with these coefficients, the lowest first. Fails with `FractionPastWidth`,
/// `NoElement` or `OutOfRange`, which writes the index of the coefficient whose step does not fit.
#[unsafe(no_mangle)]
pub extern "C" fn fixed_u64_horner(
    coefs: *const u64,
    coefs_count: usize,
    x: u64,
    frac: u32,
    value: &mut u64,
    step: &mut usize,
) -> i32 {
    arrays::horner(
        unsafe { crate::slice(coefs, coefs_count) },
        x,
        frac,
        value,
        step,
    )
}

/// Puts the sample in front of the past samples, drops the oldest, and writes the output. Fails with
/// `FractionPastWidth`, `NoElement` or `CountsDiffer`, and the past samples are unchanged; or with `OutOfRange`, which
/// takes the sample, and writes the index of the tap whose partial sum does not fit.
#[unsafe(no_mangle)]
pub extern "C" fn fixed_u64_filter(
    taps: *const u64,
    taps_count: usize,
    past: *mut u64,
    past_count: usize,
    sample: u64,
    out_frac: u32,
    coef_frac: u32,
    sample_frac: u32,
    output: &mut u64,
    tap: &mut usize,
) -> i32 {
    let shape = Shape {
        out_frac,
        coef_frac,
        sample_frac,
    };
    arrays::filter(
        unsafe { crate::slice(taps, taps_count) },
        unsafe { crate::slice_mut(past, past_count) },
        sample,
        shape,
        output,
        tap,
    )
}

/// Filters a block of samples, the oldest first, and writes the output after each: as many steps of
/// `fixed_u64_filter`. Fails with `FractionPastWidth`, `NoElement` or `CountsDiffer`, and nothing is written; or with
/// `OutOfRange`, and writes the index of the first sample whose output does not fit, and of its tap: that sample is in
/// front of the past samples, and the outputs from there on are unchanged.
#[unsafe(no_mangle)]
pub extern "C" fn fixed_u64_filter_block(
    taps: *const u64,
    taps_count: usize,
    past: *mut u64,
    past_count: usize,
    input: *const u64,
    input_count: usize,
    output: *mut u64,
    output_count: usize,
    out_frac: u32,
    coef_frac: u32,
    sample_frac: u32,
    sample: &mut usize,
    tap: &mut usize,
) -> i32 {
    let shape = Shape {
        out_frac,
        coef_frac,
        sample_frac,
    };
    arrays::filter_block(
        unsafe { crate::slice(taps, taps_count) },
        unsafe { crate::slice_mut(past, past_count) },
        unsafe { crate::slice(input, input_count) },
        unsafe { crate::slice_mut(output, output_count) },
        shape,
        sample,
        tap,
    )
}
