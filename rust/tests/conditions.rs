//! Each kind of condition stops the call, at each layer that has it, and names the line of the caller. Conditions on
//! constants are in `fractions.rs`.

use std::cell::RefCell;
use std::panic::{self, PanicHookInfo, UnwindSafe};
use std::sync::Once;
use zugyelmas::{Binary, Enclosure};
use zugyelmas::prelude::*;
use zugyelmas::{
    bits, block, elementary, filter, float, interval, kernel, logs, natural, num, ops, policy, poly, root, strict,
    table, turns, word,
};

type Byte = FixedI8<4>;
type Unsigned = FixedU8<4>;

fn byte(bits: i8) -> Byte {
    Byte::from_bits(bits)
}

/// The enclosure of the numbers with 4 fraction bits and bits from `low` to `high`.
fn enclosure(low: i8, high: i8) -> Enclosure<i8, 4> {
    Enclosure::from_interval(interval::Interval::from_ends(low, high))
}

/// The fractions of a filter: that of outputs, and 4.
fn shape(out_frac: u32) -> filter::Shape {
    filter::Shape {
        out_frac,
        coef_frac: 4,
        sample_frac: 4,
    }
}

/// A filter with 4 fraction bits in each place.
fn fir<'t, 'p>(taps: &'t [Byte], past: &'p mut [Byte]) -> filter::Fir<'t, 'p, i8, 4, 4, 4> {
    filter::Fir::new(taps, past)
}

/// A table from 0 on.
fn table(values: &[Byte], step: u32) -> table::Table<'_, i8, 4, i8, 4> {
    table::Table {
        first: byte(0),
        step,
        values,
    }
}

/// The interval from 1 to 4 bits.
fn ends() -> interval::Interval<i8> {
    interval::Interval::new(1, 4).expect("ends in order")
}

thread_local! {
    /// What stopped on this thread: the file and the message. Nothing where nobody watches.
    static STOPPED: RefCell<Option<(String, String)>> = const { RefCell::new(None) };
}

/// What a panic says.
fn message(info: &PanicHookInfo) -> String {
    let formatted = info.payload().downcast_ref::<String>().cloned();
    let constant = info
        .payload()
        .downcast_ref::<&str>()
        .map(|text| text.to_string());
    formatted.or(constant).unwrap_or_default()
}

/// Keeps the file and the message of a panic on a thread that watches.
fn watch() {
    static ONCE: Once = Once::new();
    ONCE.call_once(|| {
        let before = panic::take_hook();
        panic::set_hook(Box::new(move |info: &PanicHookInfo| {
            let file = info.location().map_or("", |location| location.file());
            let stopped = Some((file.to_string(), message(info)));
            match STOPPED.replace(None) {
                Some(_) => drop(STOPPED.replace(stopped)),
                None => before(info),
            }
        }));
    });
    STOPPED.set(Some(Default::default()));
}

/// The call stops in this file, and the message has the condition in words.
fn assert_stops(words: &str, call: impl FnOnce() + UnwindSafe) {
    watch();
    let result = panic::catch_unwind(call);
    let (file, message) = STOPPED.take().unwrap_or_default();
    assert!(result.is_err(), "it does not stop");
    assert!(message.contains(words), "{message}");
    assert_eq!(file, file!());
}

/// A test for each call: it stops.
macro_rules! stops {
    ($($name:ident, $words:literal, $call:expr;)*) => {$(
        #[test]
        fn $name() {
            assert_stops($words, || {
                let _ = $call;
            });
        }
    )*};
}

/// The same of calls that stop where assertions for debugging are compiled in, and otherwise wrap.
macro_rules! stops_when_debugging {
    ($($name:ident, $words:literal, $call:expr, $wrapped:expr;)*) => {$(
        #[test]
        fn $name() {
            if cfg!(debug_assertions) {
                assert_stops($words, || {
                    let _ = $call;
                });
            } else {
                assert_eq!($call, $wrapped);
            }
        }
    )*};
}

stops! {
    word_divisor, "the divisor is not 0", word::Arithmetic::quotient(1_i8, 0);
    word_remainder, "the divisor is not 0", word::Arithmetic::euclid_remainder(1_u16, 0);
    word_integer_divisor, "the divisor is not 0", word::Integer::over(1_i32, 0);
    word_scaled, "the shift is below the width", word::Integer::scaled(0_i16, 16);
    word_floored, "the shift is below the width", word::Integer::floored(1_u128, 128);
    word_digits_shift, "the shift is below the width",
        word::Digits::shl(1_u8, 8, &mut word::Steps::new(word::Silent::new()));
    word_strict_of, "the number fits", word::strict_of(kernel::add_of(127_i8, 1));
    bits_shift_left, "the shift is below the width", bits::BitWord::shift_left(1_u8, 8);
    bits_shift_right, "the shift is below the width", bits::BitWord::shift_right(-1_i64, 64);
    float_bits, "the bits are not those of a NaN", f64::of_pattern(0x7ff8_0000_0000_0000);
    float_width, "the bits are those of a float", f32::of_pattern(1 << 32);
    float_quotient, "the number is below `2^WHOLE`", f32::quotient(1 << 16, 0);
    float_divisor, "the divisor is at most 2^64", f64::quotient(1, 65);
    float_fraction, "the fraction frac is at most the width", float::to_float_of::<i8, f64>(1, 9);
    float_nan, "the float is not a NaN", float::saturating_float_of::<f32, i8>(f32::NAN, 4, word::Rounding::Even);
    cast_infinite, "`None` value", Byte::wrapping_from_num(f64::INFINITY);
    cast_nan, "the float is not a NaN", Byte::saturating_from_num(f32::NAN);
    cast_strict, "the number fits", Byte::strict_from_num(8);
    cast_unwrapped, "the number fits", 8.0_f32.unwrapped_to_num::<Byte>();
    cast_strict_ceil, "the number fits", Byte::MAX.strict_ceil();
    cast_unwrapped_round, "the number fits", Byte::MAX.unwrapped_round();
    root_fraction, "the fraction frac is at most the width",
        root::root(1_u8, 9, &mut word::Steps::new(word::Silent::new()));
    logs_zero, "the number is not 0", logs::int_log10_part(0_u8, &mut word::Steps::new(word::Silent::new()));
    logs_fraction_zero, "the number is not 0",
        logs::frac_log10_part(0_u64, &mut word::Steps::new(word::Silent::new()));
    kernel_fraction, "the fraction frac is at most the width", kernel::mul_of(1_i8, 1, 9);
    kernel_divisor, "the divisor is not 0", kernel::div_of(1_i8, 0, 4);
    kernel_root, "the number is not below 0", kernel::sqrt_of(-1_i8, 4);
    kernel_signed, "the word is signed", kernel::abs_of(1_u8);
    kernel_unsigned, "the word is unsigned", kernel::next_power_of_two_of(1_i8);
    kernel_widths, "both words have the same width", kernel::mixed_add_of(1_i8, 1_u16);
    kernel_places_down, "frac_nbits is at most twice the width", kernel::overflowing_mul_add(1_i8, 1, 1, 17);
    kernel_places_up, "frac_nbits is at least minus the width", kernel::overflowing_mul_add(1_i8, 1, 1, -9);
    block_operation, "the operation is ready", block::wrapping_each(&block::Scale { by: 1, frac: 9 }, &mut [1_i8]);
    block_outcome, "the operation is ready", block::Each::outcome(&block::Scale { by: 1, frac: 9 }, 1_i8);
    block_numbers, "the block has at most 64 numbers", block::Each::all_fit(&block::Neg, &[1_i8; 65]);
    blocks_operation, "the operation is ready",
        block::saturating_pairs(&block::Mul { frac: 9 }, &mut [1_i8], &[1]);
    blocks_outcome, "the operation is ready", block::Pairs::outcome(&block::Mul { frac: 9 }, 1_i8, 1);
    blocks_lengths, "both blocks have the same length", block::checked_pairs(&block::Add, &mut [1_i8], &[]);
    num_one, "the number 1 fits", FixedI8::<7>::one();
    num_one_of_any_fraction, "the number 1 fits", FixedI32::<{ u32::MAX }>::one();
    num_unsigned_one, "the number 1 fits", FixedU64::<64>::one();
    num_minus_one_of_any_fraction, "the number -1 fits", FixedI32::<{ u32::MAX }>::neg_one();
    num_minus_one, "the number -1 fits", FixedU8::<4>::neg_one();
    num_logarithm, "the number is above 0", byte(0).int_log2();
    num_base, "the base is at least 2", byte(1).int_log(1);
    num_counted_root, "the number is not below 0",
        byte(-1).sqrt_counted(&mut word::Steps::new(word::Silent::new()));
    num_wide_divisor, "the divisor is not 0", byte(1).wide_div::<4, 8>(byte(0));
    num_wide_unsigned_divisor, "the divisor is not 0", byte(1).wide_div_unsigned::<4, 8>(Unsigned::from_bits(0));
    num_wide_quotient, "the quotient fits", FixedI8::<0>::MIN.wide_div::<0, 8>(FixedI8::<0>::from_bits(-1));
    num_operator_divisor, "the divisor is not 0", byte(1) / byte(0);
    num_operator_integer, "the divisor is not 0", byte(1) % 0;
    num_operator_shift, "the shift is below the width", byte(1) << 8;
    policy_divisor, "the divisor is not 0", byte(1).wrapping_div(byte(0));
    policy_integer, "the divisor is not 0", byte(1).overflowing_div_int(0);
    policy_root, "the number is not below 0", byte(-1).wrapping_sqrt();
    policy_lengths, "both slices have the same length", byte(1).checked_dot_acc(&[byte(1)], &[] as &[Byte]);
    cast_strict_number, "the number fits", Byte::strict_from_num(8);
    cast_unwrapped_number, "the number fits", byte(-16).unwrapped_to_num::<u8>();
    strict_overflow, "the number fits", Byte::MAX.strict_add(Byte::DELTA);
    strict_product, "the number fits", Byte::MAX.strict_mul_add(Byte::MAX, Byte::MAX);
    strict_divisor, "the divisor is not 0", byte(1).strict_div(byte(0));
    strict_root, "the number is not below 0", byte(-1).strict_sqrt();
    strict_shift, "the shift is below the width", byte(1).strict_shl(8);
    unwrapped_overflow, "the number fits", Byte::MIN.unwrapped_neg();
    unwrapped_shift, "the shift is below the width", byte(1).unwrapped_shr(8);
    saturating_divisor, "the divisor is not 0", byte(1).saturating_next_multiple_of(byte(0));
    elementary_root, "the number is above 0", elementary::recip_sqrt_of(0_i8, 4);
    elementary_fraction, "the fraction frac is at most the width", elementary::log2_of(1_u8, 9);
    math_root, "the number is above 0", byte(0).wrapping_recip_sqrt();
    math_length, "the number fits", Byte::MIN.strict_hypot(byte(0));
    math_logarithm, "the number is above 0", byte(-1).saturating_log2();
    math_power, "the number fits", byte(48).unwrapped_exp2();
    math_strict_logarithm, "the number fits", FixedI8::<7>::from_bits(1).strict_log2();
    natural_fraction, "the fraction frac is at most the width", natural::exp_of(1_u8, 9);
    natural_zero, "the number is above 0", natural::ln_of(0_i8, 4);
    natural_power_of_zero, "the number is above 0", natural::pow_of(0_u8, 16, 4);
    natural_below_zero, "the number is above 0", byte(-1).wrapping_ln();
    natural_overflowing, "the number is above 0", byte(0).overflowing_log10();
    natural_saturating, "the number is above 0", byte(0).saturating_pow(byte(16));
    natural_logarithm, "the number fits", FixedI8::<7>::from_bits(1).strict_ln();
    natural_decimal_logarithm, "the number fits", FixedI8::<7>::from_bits(1).unwrapped_log10();
    natural_power_of_e, "the number fits", byte(48).strict_exp();
    natural_power, "the number fits", byte(32).unwrapped_pow(byte(48));
    turns_fraction, "the fraction frac is at most the width", turns::sin_turns_of(1_u8, 9);
    turns_sine, "the number fits", FixedI8::<7>::from_bits(32).strict_sin_turns();
    turns_cosine, "the number fits", FixedI8::<7>::from_bits(0).unwrapped_cos_turns();
    turns_both, "the number fits", FixedI8::<7>::from_bits(32).strict_sin_cos_turns();
    turns_origin, "the coordinates are not both 0", turns::atan2_turns_of(0_u8, 0, 8);
    turns_zeros, "the coordinates are not both 0", byte(0).wrapping_atan2_turns(byte(0));
    turns_angle, "the number fits", FixedI8::<8>::from_bits(0).strict_atan2_turns(FixedI8::from_bits(-1));
    radians_fraction, "the fraction frac is at most the width", turns::cos_of(1_u8, 9);
    radians_sine, "the number fits", FixedU8::<4>::from_bits(64).strict_sin();
    radians_cosine, "the number fits", FixedI8::<7>::from_bits(0).unwrapped_cos();
    radians_both, "the number fits", FixedI8::<7>::from_bits(0).strict_sin_cos();
    radians_origin, "the coordinates are not both 0", turns::atan2_of(0_u8, 0, 8);
    radians_zeros, "the coordinates are not both 0", byte(0).saturating_atan2(byte(0));
    radians_angle, "the number fits", FixedI8::<7>::from_bits(1).strict_atan2(FixedI8::from_bits(0));
    ops_divisor, "the divisor is not 0", byte(0).recip();
    ops_root, "the number is not below 0", byte(-1).sqrt();
    ops_product_of_none, "the number 1 fits", ops::product::<i8, 7>(&[]);
    filter_past, "there is a past sample", filter::put_in_front(1_i8, &mut []);
    filter_lengths, "both slices have the same length",
        filter::filter_block(&shape(8), &[1_i8], &mut [], &[], &mut []);
    filter_outputs, "both slices have the same length",
        filter::filter_block(&shape(8), &[1_i8], &mut [0], &[1], &mut []);
    filter_fraction, "each fraction is at most the width",
        filter::filter_block(&shape(9), &[1_i8], &mut [0], &[], &mut []);
    filter_taps, "there is a tap", fir(&[], &mut []);
    filter_typed_lengths, "both slices have the same length", fir(&[byte(1)], &mut []);
    filter_typed_outputs, "both slices have the same length",
        fir(&[byte(1)], &mut [byte(0)]).push_block(&[byte(1)], &mut []);
    table_value, "there is a value", table(&[], 0).at(byte(1));
    table_step, "the step is below the width", table(&[byte(1)], 8).at(byte(1));
    table_checked_value, "there is a value", table(&[], 0).checked_at(byte(1));
    table_checked_step, "the step is below the width", table(&[byte(1)], 8).checked_at(byte(1));
    table_contained_value, "there is a value", table(&[], 0).contains(byte(1));
    table_contained_step, "the step is below the width", table(&[byte(1)], 8).contains(byte(1));
    line_step, "the step is below the width", table::interpolate_of(1_i8, 2, 0, 8);
    line_part, "the part is below the step", table::interpolate_of(1_i8, 2, 8, 3);
    poly_coefficient, "there is a coefficient", poly::horner_of(&[] as &[i8], 1, 4);
    poly_fraction, "the fraction frac is at most the width", poly::horner_of(&[1_u16], 1, 17);
    poly_typed_coefficient, "there is a coefficient", poly::horner(&[], byte(1));
    interval_product, "the fraction frac is at most the width", interval::mul_in(&ends(), &ends(), 9);
    interval_quotient, "the fraction frac is at most the width", interval::div_in(&ends(), &ends(), 9);
    interval_root, "the fraction frac is at most the width", interval::sqrt_in(&ends(), 9);
    interval_square, "the fraction frac is at most the width", interval::square_in(&ends(), 9);
    interval_ends, "`lo` is at most `hi`", interval::Interval::from_ends(2_i8, 1);
    enclosure_sum, "the ends fit", enclosure(0, 127) + enclosure(0, 1);
    enclosure_difference, "the ends fit", enclosure(-128, 0) - enclosure(0, 1);
    enclosure_product, "the ends fit", enclosure(0, 127) * enclosure(0, 127);
    enclosure_quotient, "the ends fit", enclosure(0, 127) / enclosure(1, 1);
    enclosure_by_zero, "the divisor does not contain 0", enclosure(0, 1) / enclosure(-1, 1);
    enclosure_negative, "the ends fit", -enclosure(-128, 0);
}

stops_when_debugging! {
    cast_float, "the number fits", Byte::from_num(8.0_f64), byte(-128);
    cast_integer, "the number fits", 8_i32.to_num::<Byte>(), byte(-128);
    word_sum, "the sum fits", word::Integer::plus(i16::MAX, 1), i16::MIN;
    word_product, "the product fits", word::Integer::times(u16::MAX, 2), u16::MAX - 1;
    word_up, "the number fits", word::Integer::scaled(i16::MAX, 1), -2;
    word_euclid, "the number fits", word::Integer::euclid_quotient(i16::MIN, -1), i16::MIN;
    num_root, "the root fits",
        FixedI8::<8>::from_bits(64).sqrt_counted(&mut word::Steps::new(word::Silent::new())).bits, -128;
    num_exact, "the number fits", num::exact_number::<i8, 4>(kernel::add_of(127, 1)), Byte::MIN;
    num_sum, "the number fits", Byte::MAX + Byte::DELTA, Byte::MIN;
    num_neg, "the number fits", -Byte::MIN, Byte::MIN;
    num_integer_first, "the number fits", 2 * Byte::MAX, byte(-2);
    ops_overflow, "the number fits", Byte::MIN.abs(), Byte::MIN;
    ops_sum, "the number fits", ops::sum(&[Byte::MAX, Byte::DELTA]), Byte::MIN;
    cast_number, "the number fits", Byte::from_num(8), byte(-128);
    cast_to_number, "the number fits", byte(-16).to_num::<u8>(), 255;
    cast_round_ties_even, "the number fits", Byte::MAX.round_ties_even(), Byte::MIN;
    ops_product, "the number fits", ops::product(&[Byte::MAX, Byte::MAX]), byte(-16);
}

/// Where the conditions hold, nothing stops: the ends of each kind.
#[test]
fn at_the_ends() {
    assert_eq!(
        FixedI8::<8>::from_bits(127)
            .wrapping_mul(FixedI8::from_bits(127))
            .bits,
        63
    );
    assert_eq!(FixedI8::<6>::one().bits, 64);
    assert_eq!(FixedI8::<7>::neg_one().bits, -128);
    assert_eq!(FixedU8::<7>::one().bits, 128);
    assert_eq!(
        kernel::overflowing_mul_add(-128_i8, -128, 0, 16),
        (0, false)
    );
    assert_eq!(kernel::overflowing_mul_add(1_i8, 0, 1, -8), (1, false));
    assert_eq!((byte(1) << 7).bits, -128);
    assert_eq!(strict::strict_of(kernel::add_of(126_i8, 1)), 127);
    assert_eq!(policy::wrapping_of(kernel::add_of(127_i8, 1)), -128);
}
