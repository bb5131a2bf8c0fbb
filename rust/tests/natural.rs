//! Logarithms to the bases e and 10, and powers, beside floats, and beside numbers that were computed apart.

#[allow(dead_code)]
#[path = "../examples/orbit.rs"]
mod orbit;

use std::fmt::Debug;
use zugyelmas::natural::{exp_of, ln_of, log10_of, pow_of};
use zugyelmas::prelude::*;
use zugyelmas::word::{Outcome, Side};

/// The fractions of words of 16 bits.
const FRACTIONS: [u32; 6] = [0, 3, 8, 12, 15, 16];

/// How near to a whole number of units a float lies that may stand on the other side of it. Logarithms of 16 bits lie by
/// up to `2^-24` units below one that they are rounded to, and floats err by less.
const NEAR: f64 = 1.0 / 1_048_576.0;

/// A number in units of `2^-frac`.
fn units(number: f64, frac: u32) -> f64 {
    number * f64::from(frac).exp2()
}

/// A number of such units.
fn number(units: impl Into<f64>, frac: u32) -> f64 {
    units.into() / f64::from(frac).exp2()
}

/// Whether an outcome is a whole number of units, or one that does not fit as this does not.
fn is_outcome<T: Word + Into<f64>>(found: Outcome<T>, units: f64) -> bool {
    let side = match (units < T::MIN.into(), units > T::MAX.into()) {
        (true, _) => Side::Below,
        (_, true) => Side::Above,
        _ => Side::Fits,
    };
    found.side == side && (side != Side::Fits || found.wrapped.into() == units)
}

/// The outcome is the number of units, rounded down; where that lies near a whole number, it may be on either side.
fn assert_floor<T: Word + Into<f64> + Debug>(found: Outcome<T>, units: f64, of: impl Debug) {
    let ends = [units - NEAR, units + NEAR];
    let is_end = |end: &f64| is_outcome(found, end.floor());
    assert!(ends.iter().any(is_end), "{of:?}: {found:?}, {units}");
}

/// The words of 16 bits, but for those between one of `step` and the next.
fn words<T: Word>(step: usize) -> impl Iterator<Item = T> {
    let all = (0..1_u128 << 16).step_by(step);
    all.map(|bits| T::residue(false, bits))
}

fn logarithms_of<T: Word + Into<f64> + Debug>(step: usize) {
    for frac in FRACTIONS {
        for a in words::<T>(step).filter(|a| *a > T::ZERO) {
            let exact = number(a, frac);
            assert_floor(ln_of(a, frac), units(exact.ln(), frac), (a, frac));
            assert_floor(log10_of(a, frac), units(exact.log10(), frac), (a, frac));
        }
    }
}

fn powers_of_e<T: Word + Into<f64> + Debug>(step: usize) {
    for frac in FRACTIONS {
        for a in words::<T>(step) {
            let exact = number(a, frac).exp();
            assert_floor(exp_of(a, frac), units(exact, frac), (a, frac));
        }
    }
}

fn powers_of<T: Word + Into<f64> + Debug>(step: usize) {
    for frac in FRACTIONS {
        for a in words::<T>(step).filter(|a| *a > T::ZERO) {
            for b in words::<T>(step) {
                let exact = number(a, frac).powf(number(b, frac));
                assert_floor(pow_of(a, b, frac), units(exact, frac), (a, b, frac));
            }
        }
    }
}

#[test]
fn logarithms_beside_floats() {
    logarithms_of::<i16>(7);
    logarithms_of::<u16>(1);
}

#[test]
fn powers_of_e_beside_floats() {
    powers_of_e::<i16>(1);
    powers_of_e::<u16>(7);
}

#[test]
fn powers_beside_floats() {
    powers_of::<i16>(509);
    powers_of::<u16>(509);
}

/// A word of a whole number that fits in it.
fn word<T: Word>(number: i64) -> T {
    T::residue(number < 0, number.unsigned_abs().into())
}

fn fitting<T: Word>(units: i64) -> Outcome<T> {
    let (wrapped, side) = (word(units), Side::Fits);
    Outcome { wrapped, side }
}

/// Operands, their fraction bits, and the logarithms in units, rounded down, which were computed apart with 600 bits.
const LN_32: [(i64, u32, i64); 9] = [
    (1, 16, -726_818),
    (2_147_483_647, 16, 681_391),
    (2_147_483_647, 0, 21),
    (34_285_249, 24, 11_990_566),
    (1_011_948_282, 8, 3_888),
    (3_254_606, 16, 255_932),
    (13_919_251, 16, 351_169),
    (761, 24, -167_787_243),
    (12_476, 8, 994),
];

const LOG10_32: [(i64, u32, i64); 10] = [
    (1, 16, -315_653),
    (2_147_483_647, 16, 295_924),
    (2_147_483_647, 0, 9),
    (2_147_483_647, 31, -1),
    (34_285_249, 24, 5_207_436),
    (1_011_948_282, 8, 1_688),
    (3_254_606, 16, 111_150),
    (13_919_251, 16, 152_511),
    (761, 24, -72_869_074),
    (12_476, 8, 432),
];

const EXP_32: [(i64, u32, i64); 8] = [
    (748, 16, 66_288),
    (-47_730, 24, 16_729_553),
    (-568, 16, 64_970),
    (29, 16, 65_565),
    (62_922, 16, 171_179),
    (164_443, 16, 805_771),
    (30_833, 16, 104_906),
    (-11_309, 24, 16_765_910),
];

/// The same of powers, whose exponents stand behind the numbers.
const POW_32: [(i64, i64, u32, i64); 8] = [
    (30_664, 276_626, 24, 15_120_763),
    (5_569, 15_505_463, 24, 10_220),
    (680_322_790, 5_955_165, 24, 62_443_408),
    (23_113_602, -32_147_994, 24, 9_080_070),
    (94_552_305, -14_012_875, 24, 3_958_222),
    (501_683, 43_600_102, 24, 1_834),
    (2_936_391, -1_824_336, 24, 20_277_995),
    (543_308, 555_053, 24, 14_977_382),
];

const LN_64: [(i64, u32, i64); 9] = [
    (1, 32, -95_265_423_099),
    (9_223_372_036_854_775_807, 32, 92_288_378_626),
    (9_223_372_036_854_775_807, 0, 43),
    (224_578_546, 48, -3_952_282_638_447_246),
    (48_654_604_395_790, 16, 1_338_599),
    (3_368_160_686_944_116_372, 56, 277_036_687_757_487_187),
    (41_391_435, 56, -1_533_216_811_835_209_634),
    (19_858_799_604, 48, -2_690_661_978_498_766),
    (127_384_074_237_703_512, 32, 73_896_086_341),
];

const LOG10_64: [(i64, u32, i64); 10] = [
    (1, 32, -41_373_247_568),
    (9_223_372_036_854_775_807, 32, 40_080_333_581),
    (9_223_372_036_854_775_807, 0, 18),
    (9_223_372_036_854_775_807, 63, -1),
    (224_578_546, 48, -1_716_454_540_799_664),
    (48_654_604_395_790, 16, 581_346),
    (3_368_160_686_944_116_372, 56, 120_315_504_777_830_846),
    (41_391_435, 56, -665_867_600_941_327_913),
    (19_858_799_604, 48, -1_168_539_649_928_901),
    (127_384_074_237_703_512, 32, 32_092_662_532),
];

const EXP_64: [(i64, u32, i64); 8] = [
    (2_709_545_224, 32, 8_071_255_928),
    (711_871_446, 56, 72_057_594_749_799_385),
    (21_524_926_639_144, 48, 303_844_316_135_863),
    (-184_913_198, 56, 72_057_593_853_014_738),
    (-225_003_635, 48, 281_474_751_707_110),
    (-176_510_881_332_218, 48, 150_347_747_615_731),
    (4_157_515_118, 56, 72_057_598_195_443_173),
    (-63_711_444_712_066, 56, 71_993_910_750_915_102),
];

const POW_64: [(i64, i64, u32, i64); 8] = [
    (
        103_066_973_287_597,
        7_054_114_142_656,
        48,
        274_476_433_210_631,
    ),
    (9_581_523, 222_231_647_908, 48, 277_679_367_821_044),
    (
        2_069_469_076_923,
        -1_047_694_278_712_365,
        56,
        83_891_193_570_533_698,
    ),
    (
        25_426_792_334_974,
        -5_330_688_557_193_576,
        56,
        129_742_152_403_100_353,
    ),
    (
        10_675_811_385_230_759,
        -6_351_140_626_602,
        48,
        259_305_933_416_306,
    ),
    (592_773_209, 78_087_273_872_159, 56, 70_618_492_409_998_707),
    (1_686_298, 2_468_403_959, 32, 47_364_023),
    (8_265_467, 99_020_677_301_315, 48, 630_493_968_454),
];

fn known<T: Word + Debug>(call: fn(T, u32) -> Outcome<T>, table: &[(i64, u32, i64)]) {
    for (a, frac, units) in table {
        assert_eq!(call(word(*a), *frac), fitting(*units), "{a} {frac}");
    }
}

/// Powers of more than `2^56` units may be a few units greater.
fn known_powers<T: Word + Into<i64>>(table: &[(i64, i64, u32, i64)]) {
    for (a, b, frac, units) in table {
        let found = pow_of::<T>(word(*a), word(*b), *frac);
        let more = found.wrapped.into() - units;
        assert_eq!(found.side, Side::Fits, "{a} {b} {frac}");
        assert!((0..=units >> 56).contains(&more), "{a} {b} {frac}: {more}");
    }
}

#[test]
fn known_numbers_of_32_bits() {
    known::<i32>(ln_of, &LN_32);
    known::<i32>(log10_of, &LOG10_32);
    known::<i32>(exp_of, &EXP_32);
    known_powers::<i32>(&POW_32);
}

#[test]
fn known_numbers_of_64_bits() {
    known::<i64>(ln_of, &LN_64);
    known::<i64>(log10_of, &LOG10_64);
    known::<i64>(exp_of, &EXP_64);
    known_powers::<i64>(&POW_64);
}

/// Logarithms and roots of numbers close to 1 may lie so near below a whole number of units that they are that number.
#[test]
fn results_that_are_not_rounded_down() {
    assert_eq!(ln_of((1_i32 << 16) + 1, 16), fitting(0)); // 0.99999237..
    assert_eq!(ln_of((1_i32 << 24) + 1, 24), fitting(1)); // 0.99999997..
    assert_eq!(ln_of(i32::MAX, 31), fitting(-1)); // -1.00000000023..
    assert_eq!(ln_of((1_i64 << 48) + 1, 48), fitting(1)); // 0.9999999999999982..
    let one = 1_i32 << 28;
    let root = pow_of(one + 2, one / 2, 28);
    assert_eq!(root, fitting((1 << 28) + 1)); // 2^28 + 0.9999999981..
}

/// Logarithms that do not fit have a wrapped number.
#[test]
fn logarithms_that_do_not_fit() {
    let (wrapped, side) = (261_725_246, Side::Below);
    assert_eq!(ln_of(5_i32, 31), Outcome { wrapped, side });
    let wrapped = 9_547_207_148_609_766_493; // -18.96.., which is below every unsigned number
    assert_eq!(log10_of(1_u64, 63), Outcome { wrapped, side });
}

/// Powers of whole numbers, and of whole sixteenths, whose squares are whole units of `2^-8`, are exact up to `2^54`
/// units.
#[test]
fn exact_powers() {
    for a in 1..=1000_u64 {
        for exponent in 0..=54 {
            match a.checked_pow(exponent).filter(|power| *power <= 1 << 54) {
                Some(power) => {
                    let found = pow_of(a, exponent.into(), 0);
                    assert_eq!(found.wrapped, power, "{a} {exponent}");
                }
                None => break,
            }
        }
        let (sixteenths, square) = (16 * a, a * a);
        assert_eq!(pow_of(sixteenths, 512, 8).wrapped, square, "{a}");
        assert_eq!(pow_of(square, 128, 8).wrapped, sixteenths, "{a}");
    }
}

/// The logarithm of 1 is 0, that of a power of 10 is whole, and each power to 0 is 1.
#[test]
fn exact_logarithms() {
    for frac in 0..=62 {
        let one = 1_i64 << frac;
        assert_eq!(ln_of(one, frac), fitting(0));
        assert_eq!(exp_of(0_i64, frac), fitting(one));
        if frac <= 54 {
            assert_eq!(pow_of(3_i64, 0, frac), fitting(one));
            assert_eq!(pow_of(one, i64::MIN, frac), fitting(one));
        }
        let fits = |power: &i64| *power <= i64::MAX >> frac;
        let powers = (0..19).map(|places| 10_i64.pow(places)).take_while(fits);
        for (places, power) in (0..).zip(powers) {
            assert_eq!(log10_of(power << frac, frac), fitting(places << frac));
        }
    }
}

#[test]
fn numbers_that_are_not_above_0() {
    for a in [FixedI16::<8>::ZERO, FixedI16::from_num(-1), FixedI16::MIN] {
        assert_eq!(a.checked_ln(), None);
        assert_eq!(a.checked_log10(), None);
        assert_eq!(a.checked_pow(FixedI16::ZERO), None);
        assert_eq!(a.checked_pow(FixedI16::from_num(2)), None);
        assert!(a.checked_exp().is_some());
    }
    assert_eq!(FixedU64::<64>::ZERO.checked_ln(), None);
}

#[test]
fn typed_calls() {
    type Number = FixedI32<16>;
    let ten = Number::from_num(10);
    assert_eq!(ten.strict_ln(), Number::from_bits(150_902)); // 2.3025..
    assert_eq!(ten.unwrapped_log10(), Number::from_num(1));
    assert_eq!(ten.saturating_exp(), Number::from_bits(1_443_526_462)); // 22026.46..
    assert_eq!(
        ten.checked_pow(Number::from_num(4)),
        Some(Number::from_num(10_000))
    );
    assert_eq!(ten.checked_pow(Number::from_num(5)), None);
    assert_eq!(ten.saturating_pow(Number::from_num(5)), Number::MAX);
    assert_eq!(
        ten.strict_pow(Number::from_num(-1)),
        Number::from_bits(6553)
    ); // 0.0999..
    assert_eq!(Number::from_num(11).saturating_exp(), Number::MAX);
    let least = FixedI32::<31>::from_bits(5);
    let wrapped = FixedI32::from_bits(261_725_246);
    assert_eq!(least.checked_ln(), None);
    assert_eq!(least.saturating_ln(), FixedI32::MIN);
    assert_eq!(least.wrapping_ln(), wrapped);
    assert_eq!(least.overflowing_ln(), (wrapped, true));
}

/// What the example prints; the same was computed apart with 200 bits.
const ORBIT: &str = "   0  400.000  400.000  92.560
 100  392.550  392.544  92.408
 200  384.011  383.998  92.233
 300  374.010  373.986  92.028
 400  361.943  361.899  91.782
 500  346.726  346.646  91.471
 600  326.115  325.959  91.051
 700  294.051  293.663  90.399
 800  218.052  215.565  88.859
 827 below 150 km
";

#[test]
fn the_example() {
    assert_eq!(orbit::table().as_deref(), Some(ORBIT));
}
