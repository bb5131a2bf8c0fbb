// Made by `make package` of crates/fixed_c/src/signed_32.rt, which is proved: changes go there.

//! The calls of `i32`.
//!
//! Operands and results are bits, in units of `2^-frac` unless a comment names another unit. Operands named `k` are
//! integers. A call returns 0 and writes its result, or it fails: it returns the number of a [`Code`] and leaves the
//! result unchanged, unless its comment says otherwise. If several codes apply, it returns the first one that its
//! comment names. [`fixed_face::block_calls`] states what calls over blocks leave.

use crate::face::answer::Code;
use crate::face::block_calls::{EachCall, PairsCall, put_each, put_pairs};
use crate::face::calls::{Call, put, put_result};
use crate::face::ends_calls::{EndsCall, ends_of};
use crate::face::texts::{TextCall, put_text};
use crate::face::{conversions, dots, one_sign, texts};
use crate::word::Outcome;

/// The result of an operation.
#[repr(C)]
#[derive(Clone, Copy)]
pub struct AnswerI32 {
    /// The wrapped number. It differs from the exact result by a multiple of `2^32` units, and is the exact result if
    /// that fits.
    pub bits: i32,
    /// The side: 0 if the exact result fits, 1 if it is above the range, and -1 if it is below.
    pub side: i32,
}

/// The result of an operation on intervals.
#[repr(C)]
#[derive(Clone, Copy)]
pub struct EndsI32 {
    /// The smallest number of the interval.
    pub low: i32,
    /// The largest number of the interval.
    pub high: i32,
}

impl AnswerI32 {
    /// Writes the outcome and returns 0; or returns the number of the code, and leaves the result unchanged.
    #[inline(always)]
    fn leave(&mut self, answer: Result<Outcome<i32>, Code>) -> i32 {
        put(answer, &mut self.bits, &mut self.side)
    }

    /// Writes the outcome of a call, or returns the number of its code, as `leave` does.
    #[inline(always)]
    fn take(&mut self, call: Call<i32>) -> i32 {
        put_result(call, &mut self.bits, &mut self.side)
    }
}

impl EndsI32 {
    /// Writes the ends of the result of a call, or returns the number of its code.
    #[inline(always)]
    fn take(&mut self, call: EndsCall<i32>) -> i32 {
        ends_of(call, &mut self.low, &mut self.high)
    }
}

/// Writes the text of a call, or returns the number of its code.
#[inline(always)]
fn write(call: TextCall<i32>, buffer: &mut [u8], length: &mut usize) -> i32 {
    put_text(call, buffer, length)
}

/// Writes the results of a call over a block, or returns the number of its code.
#[inline(always)]
fn each(call: EachCall<i32>, policy: u32, block: &mut [i32], place: &mut usize) -> i32 {
    put_each(call, policy, block, place)
}

/// Writes the results of a call over two blocks, or returns the number of its code.
#[inline(always)]
fn pairs(
    call: PairsCall<i32>,
    policy: u32,
    block: &mut [i32],
    others: &[i32],
    place: &mut usize,
) -> i32 {
    put_pairs(call, policy, block, others, place)
}

/// Writes `-a`. Always returns 0.
#[unsafe(no_mangle)]
pub extern "C" fn fixed_i32_neg(a: i32, answer: &mut AnswerI32) -> i32 {
    answer.take(Call::Neg(a))
}

/// Writes `a + b`. Always returns 0.
#[unsafe(no_mangle)]
pub extern "C" fn fixed_i32_add(a: i32, b: i32, answer: &mut AnswerI32) -> i32 {
    answer.take(Call::Add(a, b))
}

/// Writes `a - b`. Always returns 0.
#[unsafe(no_mangle)]
pub extern "C" fn fixed_i32_sub(a: i32, b: i32, answer: &mut AnswerI32) -> i32 {
    answer.take(Call::Sub(a, b))
}

/// Writes the magnitude of `a - b`. Always returns 0.
#[unsafe(no_mangle)]
pub extern "C" fn fixed_i32_dist(a: i32, b: i32, answer: &mut AnswerI32) -> i32 {
    answer.take(Call::Dist(a, b))
}

/// Writes the magnitude of `a`. Always returns 0.
#[unsafe(no_mangle)]
pub extern "C" fn fixed_i32_abs(a: i32, answer: &mut AnswerI32) -> i32 {
    answer.leave(one_sign::abs(a))
}

/// Writes `2^frac` if `a` is positive, 0 if it is 0, and `-2^frac` if it is negative. Fails with `FractionPastWidth`.
#[unsafe(no_mangle)]
pub extern "C" fn fixed_i32_signum(a: i32, frac: u32, answer: &mut AnswerI32) -> i32 {
    answer.leave(one_sign::signum(a, frac))
}

/// Writes `a b / 2^frac`, rounded down. Fails with `FractionPastWidth`.
#[unsafe(no_mangle)]
pub extern "C" fn fixed_i32_mul(a: i32, b: i32, frac: u32, answer: &mut AnswerI32) -> i32 {
    answer.take(Call::Mul(a, b, frac))
}

/// Writes `a k`, for an integer `k`. Always returns 0.
#[unsafe(no_mangle)]
pub extern "C" fn fixed_i32_mul_int(a: i32, k: i32, answer: &mut AnswerI32) -> i32 {
    answer.take(Call::MulInt(a, k))
}

/// Writes `a mul / 2^mul_frac`, rounded down, plus `add`, in the unit of `a` and `add`. Fails with `FractionPastWidth`.
#[unsafe(no_mangle)]
pub extern "C" fn fixed_i32_mul_add(
    a: i32,
    mul: i32,
    add: i32,
    mul_frac: u32,
    answer: &mut AnswerI32,
) -> i32 {
    answer.take(Call::MulAdd(a, mul, add, mul_frac))
}

/// Writes `c` plus the product of `a` and `b`, which is rounded down to the fraction bits of `c`. Each operand has its
/// own number of fraction bits. Fails with `FractionPastWidth`.
#[unsafe(no_mangle)]
pub extern "C" fn fixed_i32_add_prod(
    c: i32,
    a: i32,
    b: i32,
    c_frac: u32,
    a_frac: u32,
    b_frac: u32,
    answer: &mut AnswerI32,
) -> i32 {
    answer.take(Call::AddProd(c, a, b, c_frac, a_frac, b_frac))
}

/// Writes `a 2^frac / b`, rounded toward zero. Fails with `FractionPastWidth` or `ZeroDivisor`.
#[unsafe(no_mangle)]
pub extern "C" fn fixed_i32_div(a: i32, b: i32, frac: u32, answer: &mut AnswerI32) -> i32 {
    answer.take(Call::Div(a, b, frac))
}

/// Writes `a / k`, rounded toward zero, for an integer `k`. Fails with `ZeroDivisor`.
#[unsafe(no_mangle)]
pub extern "C" fn fixed_i32_div_int(a: i32, k: i32, answer: &mut AnswerI32) -> i32 {
    answer.take(Call::DivInt(a, k))
}

/// Writes `2^(2 frac) / a`, rounded toward zero. Fails with `FractionPastWidth` or `ZeroDivisor`.
#[unsafe(no_mangle)]
pub extern "C" fn fixed_i32_recip(a: i32, frac: u32, answer: &mut AnswerI32) -> i32 {
    answer.take(Call::Recip(a, frac))
}

/// Writes the Euclidean quotient of `a` and `b`, which is an integer, times `2^frac`. Fails with `FractionPastWidth` or
/// `ZeroDivisor`.
#[unsafe(no_mangle)]
pub extern "C" fn fixed_i32_div_euclid(a: i32, b: i32, frac: u32, answer: &mut AnswerI32) -> i32 {
    answer.take(Call::DivEuclid(a, b, frac))
}

/// Writes the Euclidean quotient of `a` and `k 2^frac`, which is an integer, times `2^frac`. Fails with
/// `FractionPastWidth` or `ZeroDivisor`.
#[unsafe(no_mangle)]
pub extern "C" fn fixed_i32_div_euclid_int(
    a: i32,
    k: i32,
    frac: u32,
    answer: &mut AnswerI32,
) -> i32 {
    answer.take(Call::DivEuclidInt(a, k, frac))
}

/// Writes `a - b q`, where q is the quotient of `a` and `b`, rounded toward zero. Fails with `ZeroDivisor`.
#[unsafe(no_mangle)]
pub extern "C" fn fixed_i32_rem(a: i32, b: i32, answer: &mut AnswerI32) -> i32 {
    answer.take(Call::Rem(a, b))
}

/// Writes `a - d q` for `d = k 2^frac`, where q is the quotient of `a` and d, rounded toward zero. Fails with
/// `FractionPastWidth` or `ZeroDivisor`.
#[unsafe(no_mangle)]
pub extern "C" fn fixed_i32_rem_int(a: i32, k: i32, frac: u32, answer: &mut AnswerI32) -> i32 {
    answer.take(Call::RemInt(a, k, frac))
}

/// Writes the Euclidean remainder of `a` and `b`, which is never negative. Fails with `ZeroDivisor`.
#[unsafe(no_mangle)]
pub extern "C" fn fixed_i32_rem_euclid(a: i32, b: i32, answer: &mut AnswerI32) -> i32 {
    answer.take(Call::RemEuclid(a, b))
}

/// Writes the Euclidean remainder of `a` and `k 2^frac`, which is never negative. Fails with `FractionPastWidth` or
/// `ZeroDivisor`.
#[unsafe(no_mangle)]
pub extern "C" fn fixed_i32_rem_euclid_int(
    a: i32,
    k: i32,
    frac: u32,
    answer: &mut AnswerI32,
) -> i32 {
    answer.take(Call::RemEuclidInt(a, k, frac))
}

/// Writes the smallest multiple of `b` that is at least `a` if `b` is positive, and the largest one that is at most `a`
/// if `b` is negative. Fails with `ZeroDivisor`.
#[unsafe(no_mangle)]
pub extern "C" fn fixed_i32_next_multiple_of(a: i32, b: i32, answer: &mut AnswerI32) -> i32 {
    answer.take(Call::NextMultipleOf(a, b))
}

/// Writes the root of `a 2^frac`, rounded down. Fails with `FractionPastWidth` or `NegativeRoot`.
#[unsafe(no_mangle)]
pub extern "C" fn fixed_i32_sqrt(a: i32, frac: u32, answer: &mut AnswerI32) -> i32 {
    answer.take(Call::Sqrt(a, frac))
}

/// Writes `a b / 2^frac`, rounded as named. Fails with `FractionPastWidth` or `NoRounding`.
#[unsafe(no_mangle)]
pub extern "C" fn fixed_i32_mul_round(
    a: i32,
    b: i32,
    frac: u32,
    rounding: u32,
    answer: &mut AnswerI32,
) -> i32 {
    answer.take(Call::MulRound(a, b, frac, rounding))
}

/// Writes `a mul / 2^mul_frac`, rounded as named, plus `add`, in the unit of `a` and `add`. Fails with
/// `FractionPastWidth` or `NoRounding`.
#[unsafe(no_mangle)]
pub extern "C" fn fixed_i32_mul_add_round(
    a: i32,
    mul: i32,
    add: i32,
    mul_frac: u32,
    rounding: u32,
    answer: &mut AnswerI32,
) -> i32 {
    answer.take(Call::MulAddRound(a, mul, add, mul_frac, rounding))
}

/// Writes `c` plus the product of `a` and `b`, which is rounded as named to the fraction bits of `c`. Each operand has
/// its own number of fraction bits. Fails with `FractionPastWidth` or `NoRounding`.
#[unsafe(no_mangle)]
pub extern "C" fn fixed_i32_add_prod_round(
    c: i32,
    a: i32,
    b: i32,
    c_frac: u32,
    a_frac: u32,
    b_frac: u32,
    rounding: u32,
    answer: &mut AnswerI32,
) -> i32 {
    answer.take(Call::AddProdRound(
        c, a, b, c_frac, a_frac, b_frac, rounding,
    ))
}

/// Writes `a 2^frac / b`, rounded as named. Fails with `FractionPastWidth`, `NoRounding` or `ZeroDivisor`.
#[unsafe(no_mangle)]
pub extern "C" fn fixed_i32_div_round(
    a: i32,
    b: i32,
    frac: u32,
    rounding: u32,
    answer: &mut AnswerI32,
) -> i32 {
    answer.take(Call::DivRound(a, b, frac, rounding))
}

/// Writes `a / divisor`, rounded as named, for an integer `divisor`. Fails with `NoRounding` or `ZeroDivisor`.
#[unsafe(no_mangle)]
pub extern "C" fn fixed_i32_div_int_round(
    a: i32,
    divisor: i32,
    rounding: u32,
    answer: &mut AnswerI32,
) -> i32 {
    answer.take(Call::DivIntRound(a, divisor, rounding))
}

/// Writes `2^(2 frac) / a`, rounded as named. Fails with `FractionPastWidth`, `NoRounding` or `ZeroDivisor`.
#[unsafe(no_mangle)]
pub extern "C" fn fixed_i32_recip_round(
    a: i32,
    frac: u32,
    rounding: u32,
    answer: &mut AnswerI32,
) -> i32 {
    answer.take(Call::RecipRound(a, frac, rounding))
}

/// Writes `number / 2^from` in units of `2^-to`, rounded as named, for a number of any signed word; `from` is at most
/// 64. Fails with `FractionPastWidth` or `NoRounding`.
#[unsafe(no_mangle)]
pub extern "C" fn fixed_i32_convert(
    number: i64,
    from: u32,
    to: u32,
    rounding: u32,
    answer: &mut AnswerI32,
) -> i32 {
    answer.take(Call::Convert(number, from, to, rounding))
}

/// Writes `number / 2^from` in units of `2^-to`, rounded as named, for a number of any unsigned word; `from` is at most
/// 64. Fails with `FractionPastWidth` or `NoRounding`.
#[unsafe(no_mangle)]
pub extern "C" fn fixed_i32_convert_unsigned(
    number: u64,
    from: u32,
    to: u32,
    rounding: u32,
    answer: &mut AnswerI32,
) -> i32 {
    answer.take(Call::ConvertUnsigned(number, from, to, rounding))
}

/// Writes the number of a double in units of `2^-frac`, rounded as named. Fails with `FractionPastWidth`, `NoRounding`
/// or `NotFinite`.
#[unsafe(no_mangle)]
pub extern "C" fn fixed_i32_from_double(
    number: f64,
    frac: u32,
    rounding: u32,
    answer: &mut AnswerI32,
) -> i32 {
    answer.take(Call::FromDouble(number, frac, rounding))
}

/// Writes the double nearest to `a / 2^frac`, ties to even. Fails with `FractionPastWidth`.
#[unsafe(no_mangle)]
pub extern "C" fn fixed_i32_to_double(a: i32, frac: u32, value: &mut f64) -> i32 {
    conversions::to_double(a, frac, value)
}

/// Writes the number of a decimal in units of `2^-frac`, rounded as named. Fails with `FractionPastWidth`,
/// `NoRounding`, or `NoDigits`, `InvalidDigit` or `TooManyPoints` if the text is not a decimal.
#[unsafe(no_mangle)]
pub extern "C" fn fixed_i32_parse(
    decimal: *const u8,
    decimal_count: usize,
    frac: u32,
    rounding: u32,
    answer: &mut AnswerI32,
) -> i32 {
    answer.leave(texts::parse(
        unsafe { crate::slice(decimal, decimal_count) },
        frac,
        rounding,
    ))
}

/// Writes the text of `a / 2^frac`, rounded as named to `places` digits after the point, the byte 0 after it, and its
/// length. Fails with `FractionPastWidth`, `TooManyPlaces`, `NoRounding` or `NoRoom`, which writes the length.
#[unsafe(no_mangle)]
pub extern "C" fn fixed_i32_print(
    a: i32,
    frac: u32,
    places: u32,
    rounding: u32,
    buffer: *mut u8,
    buffer_count: usize,
    length: &mut usize,
) -> i32 {
    write(
        TextCall::Print(a, frac, places, rounding),
        unsafe { crate::slice_mut(buffer, buffer_count) },
        length,
    )
}

/// Writes the shortest text that is read back as `a / 2^frac`, to the nearest, the byte 0 after it, and its length.
/// Fails with `FractionPastWidth` or `NoRoom`, which writes the length.
#[unsafe(no_mangle)]
pub extern "C" fn fixed_i32_print_shortest(
    a: i32,
    frac: u32,
    buffer: *mut u8,
    buffer_count: usize,
    length: &mut usize,
) -> i32 {
    write(
        TextCall::Shortest(a, frac),
        unsafe { crate::slice_mut(buffer, buffer_count) },
        length,
    )
}

/// Writes the ends of the sums of a number in `a` and one in `b`. Fails with `EndsExchanged` or `OutOfRange`.
#[unsafe(no_mangle)]
pub extern "C" fn fixed_i32_add_in(
    a_low: i32,
    a_high: i32,
    b_low: i32,
    b_high: i32,
    answer: &mut EndsI32,
) -> i32 {
    answer.take(EndsCall::Add(a_low, a_high, b_low, b_high))
}

/// Writes the ends of the differences of a number in `a` and one in `b`. Fails with `EndsExchanged` or `OutOfRange`.
#[unsafe(no_mangle)]
pub extern "C" fn fixed_i32_sub_in(
    a_low: i32,
    a_high: i32,
    b_low: i32,
    b_high: i32,
    answer: &mut EndsI32,
) -> i32 {
    answer.take(EndsCall::Sub(a_low, a_high, b_low, b_high))
}

/// Writes the ends of the products of a number in `a` and one in `b`, each over `2^frac`, rounded outward. Fails with
/// `FractionPastWidth`, `EndsExchanged` or `OutOfRange`.
#[unsafe(no_mangle)]
pub extern "C" fn fixed_i32_mul_in(
    a_low: i32,
    a_high: i32,
    b_low: i32,
    b_high: i32,
    frac: u32,
    answer: &mut EndsI32,
) -> i32 {
    answer.take(EndsCall::Mul(a_low, a_high, b_low, b_high, frac))
}

/// Writes the ends of the quotients of a number in `a` by one in `b`, each times `2^frac`, rounded outward. Fails with
/// `FractionPastWidth`, `EndsExchanged`, `ZeroDivisor` or `OutOfRange`.
#[unsafe(no_mangle)]
pub extern "C" fn fixed_i32_div_in(
    a_low: i32,
    a_high: i32,
    b_low: i32,
    b_high: i32,
    frac: u32,
    answer: &mut EndsI32,
) -> i32 {
    answer.take(EndsCall::Div(a_low, a_high, b_low, b_high, frac))
}

/// Writes the ends of the roots of `x 2^frac` for the numbers x in `a`, rounded outward. Fails with
/// `FractionPastWidth`, `EndsExchanged`, `NegativeRoot` or `OutOfRange`.
#[unsafe(no_mangle)]
pub extern "C" fn fixed_i32_sqrt_in(
    a_low: i32,
    a_high: i32,
    frac: u32,
    answer: &mut EndsI32,
) -> i32 {
    answer.take(EndsCall::Sqrt(a_low, a_high, frac))
}

/// Writes `-x` over each x of the block. Fails with `NoPolicy` or `OutOfRange`.
#[unsafe(no_mangle)]
pub extern "C" fn fixed_i32_neg_block(
    block: *mut i32,
    block_count: usize,
    policy: u32,
    place: &mut usize,
) -> i32 {
    each(
        EachCall::Neg,
        policy,
        unsafe { crate::slice_mut(block, block_count) },
        place,
    )
}

/// Writes the magnitude of x over each x of the block. Fails with `NoPolicy` or `OutOfRange`.
#[unsafe(no_mangle)]
pub extern "C" fn fixed_i32_abs_block(
    block: *mut i32,
    block_count: usize,
    policy: u32,
    place: &mut usize,
) -> i32 {
    one_sign::abs_block(
        unsafe { crate::slice_mut(block, block_count) },
        policy,
        place,
    )
}

/// Writes `x k` over each x of the block, for an integer `k`. Fails with `NoPolicy` or `OutOfRange`.
#[unsafe(no_mangle)]
pub extern "C" fn fixed_i32_mul_int_block(
    block: *mut i32,
    block_count: usize,
    k: i32,
    policy: u32,
    place: &mut usize,
) -> i32 {
    each(
        EachCall::MulInt(k),
        policy,
        unsafe { crate::slice_mut(block, block_count) },
        place,
    )
}

/// Writes `x by / 2^frac`, rounded down, over each x of the block. Fails with `FractionPastWidth`, `NoPolicy` or
/// `OutOfRange`.
#[unsafe(no_mangle)]
pub extern "C" fn fixed_i32_scale_block(
    block: *mut i32,
    block_count: usize,
    by: i32,
    frac: u32,
    policy: u32,
    place: &mut usize,
) -> i32 {
    each(
        EachCall::Scale(by, frac),
        policy,
        unsafe { crate::slice_mut(block, block_count) },
        place,
    )
}

/// Writes `x / 2^from` in units of `2^-to`, rounded as named, over each x of the block. Fails with `FractionPastWidth`,
/// `NoRounding`, `NoPolicy` or `OutOfRange`.
#[unsafe(no_mangle)]
pub extern "C" fn fixed_i32_convert_block(
    block: *mut i32,
    block_count: usize,
    from: u32,
    to: u32,
    rounding: u32,
    policy: u32,
    place: &mut usize,
) -> i32 {
    each(
        EachCall::Convert(from, to, rounding),
        policy,
        unsafe { crate::slice_mut(block, block_count) },
        place,
    )
}

/// Writes `x + y` over each x of the block, where y is the other number at its index. Fails with `CountsDiffer`,
/// `NoPolicy` or `OutOfRange`.
#[unsafe(no_mangle)]
pub extern "C" fn fixed_i32_add_block(
    block: *mut i32,
    block_count: usize,
    others: *const i32,
    others_count: usize,
    policy: u32,
    place: &mut usize,
) -> i32 {
    pairs(
        PairsCall::Add,
        policy,
        unsafe { crate::slice_mut(block, block_count) },
        unsafe { crate::slice(others, others_count) },
        place,
    )
}

/// Writes `x - y` over each x of the block, where y is the other number at its index. Fails with `CountsDiffer`,
/// `NoPolicy` or `OutOfRange`.
#[unsafe(no_mangle)]
pub extern "C" fn fixed_i32_sub_block(
    block: *mut i32,
    block_count: usize,
    others: *const i32,
    others_count: usize,
    policy: u32,
    place: &mut usize,
) -> i32 {
    pairs(
        PairsCall::Sub,
        policy,
        unsafe { crate::slice_mut(block, block_count) },
        unsafe { crate::slice(others, others_count) },
        place,
    )
}

/// Writes `x y / 2^frac`, rounded down, over each x of the block, where y is the other number at its index. Fails with
/// `FractionPastWidth`, `CountsDiffer`, `NoPolicy` or `OutOfRange`.
#[unsafe(no_mangle)]
pub extern "C" fn fixed_i32_mul_block(
    block: *mut i32,
    block_count: usize,
    others: *const i32,
    others_count: usize,
    frac: u32,
    policy: u32,
    place: &mut usize,
) -> i32 {
    pairs(
        PairsCall::Mul(frac),
        policy,
        unsafe { crate::slice_mut(block, block_count) },
        unsafe { crate::slice(others, others_count) },
        place,
    )
}

/// Writes x plus `y by / 2^frac`, which is rounded down, over each x of the block, where y is the other number at its
/// index. Fails with `FractionPastWidth`, `CountsDiffer`, `NoPolicy` or `OutOfRange`.
#[unsafe(no_mangle)]
pub extern "C" fn fixed_i32_mul_add_block(
    block: *mut i32,
    block_count: usize,
    others: *const i32,
    others_count: usize,
    by: i32,
    frac: u32,
    policy: u32,
    place: &mut usize,
) -> i32 {
    pairs(
        PairsCall::MulAdd(by, frac),
        policy,
        unsafe { crate::slice_mut(block, block_count) },
        unsafe { crate::slice(others, others_count) },
        place,
    )
}

/// Writes the sum of the products of the numbers at the same index, over `2^frac` and rounded down once. Fails with
/// `FractionPastWidth` or `CountsDiffer`; or with `OutOfRange` if a partial sum is far too large, as [`dots`] states.
#[unsafe(no_mangle)]
pub extern "C" fn fixed_i32_dot(
    a: *const i32,
    a_count: usize,
    b: *const i32,
    b_count: usize,
    frac: u32,
    answer: &mut AnswerI32,
) -> i32 {
    answer.leave(dots::dot(
        unsafe { crate::slice(a, a_count) },
        unsafe { crate::slice(b, b_count) },
        frac,
    ))
}
