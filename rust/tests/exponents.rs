//! Numbers with exponents beside floats, whose text std computes exactly.

use std::fmt::{LowerExp, UpperExp, Write};
use zugyelmas::prelude::*;

/// A number and a float print alike with each of some options.
macro_rules! alike {
    ($number:expr, $float:expr, $($options:literal),*) => {$(
        assert_eq!(format!($options, $number), format!($options, $float));
    )*};
}

/// The float of the text without an exponent: as the shortest text of a float, of up to 15 digits, it has the same.
fn shown<T: Word, const F: u32>(number: Fixed<T, F>) -> f64 {
    number.to_string().parse().expect("a float")
}

fn prints<T: Word, const F: u32>(number: Fixed<T, F>) {
    let float = shown(number);
    alike!(number, float, "{:e}", "{:E}", "{:+e}", "{:#e}", "{:08e}");
    alike!(number, float, "{:12e}", "{:<12e}", "{:^12e}", "{:>12e}");
    alike!(number, float, "{:*^+13e}", "{:<+012E}", "{:é>1E}");
}

fn prints_places(number: impl LowerExp + UpperExp, float: f64) {
    for places in 0..20 {
        let text = format!("{number:.places$e}");
        assert_eq!(text, format!("{float:.places$e}"));
    }
    alike!(number, float, "{:.0E}", "{:+.1e}", "{:#.0e}", "{:012.3e}");
    alike!(number, float, "{:*<12.2e}", "{:*^+13.1e}", "{:<+012.0E}");
    alike!(number, float, "{:.70e}", "{:80.70e}", "{:+080.70E}");
}

fn every_number_of_8_bits<const F: u32>() {
    for bits in u8::MIN..=u8::MAX {
        let number = FixedU8::<F>::from_bits(bits);
        prints(number);
        prints_places(number, number.to_num());
        let number = FixedI8::<F>::from_bits(bits as i8);
        prints(number);
        prints_places(number, number.to_num());
    }
}

#[test]
fn every_number_of_8_bits_at_every_fraction() {
    every_number_of_8_bits::<0>();
    every_number_of_8_bits::<1>();
    every_number_of_8_bits::<2>();
    every_number_of_8_bits::<3>();
    every_number_of_8_bits::<4>();
    every_number_of_8_bits::<5>();
    every_number_of_8_bits::<6>();
    every_number_of_8_bits::<7>();
    every_number_of_8_bits::<8>();
}

fn every_number_of_16_bits<const F: u32>() {
    for bits in u16::MIN..=u16::MAX {
        let number = FixedU16::<F>::from_bits(bits);
        alike!(number, shown(number), "{:e}");
        alike!(number, number.to_num::<f64>(), "{:.0e}", "{:.1e}", "{:.3e}");
        let number = FixedI16::<F>::from_bits(bits as i16);
        alike!(number, shown(number), "{:+010e}");
        alike!(number, number.to_num::<f64>(), "{:.2e}", "{:12.6e}");
    }
}

#[test]
fn every_number_of_16_bits_without_a_fraction() {
    every_number_of_16_bits::<0>();
}

#[test]
fn every_number_of_16_bits_at_a_fraction_of_8() {
    every_number_of_16_bits::<8>();
}

#[test]
fn every_number_of_16_bits_at_a_fraction_of_16() {
    every_number_of_16_bits::<16>();
}

/// Numbers of up to 53 bits in words of 64 bits, which floats hold.
fn numbers_of_64_bits<const F: u32>() {
    let mut state = 1_u64;
    for turn in 0..2_000 {
        state = state
            .wrapping_mul(6_364_136_223_846_793_005)
            .wrapping_add(1_442_695_040_888_963_407);
        let bits = state >> 11 >> (turn % 53) << (turn % 11);
        let number = FixedU64::<F>::from_bits(bits);
        prints_places(number, number.to_num());
        let number = FixedI64::<F>::from_bits((bits as i64).wrapping_neg());
        prints_places(number, number.to_num());
    }
}

#[test]
fn numbers_that_floats_hold() {
    numbers_of_64_bits::<0>();
    numbers_of_64_bits::<20>();
    numbers_of_64_bits::<32>();
    numbers_of_64_bits::<64>();
}

#[test]
fn the_ends_of_64_bits() {
    let most = FixedU64::<64>::MAX;
    assert_eq!(format!("{most:e}"), "9.9999999999999999995e-1");
    assert_eq!(format!("{most:.19e}"), "9.9999999999999999995e-1");
    assert_eq!(format!("{most:.18e}"), "9.999999999999999999e-1");
    assert_eq!(format!("{most:.17e}"), format!("1.{}e0", "0".repeat(17)));
    let least = FixedI64::<0>::MIN;
    assert_eq!(
        format!("{least:e} {least:.3E}"),
        "-9.223372036854775808e18 -9.223E18"
    );
    let unit = FixedU64::<64>::DELTA;
    assert_eq!(format!("{unit:e} {unit:.6e}"), "5e-20 5.421011e-20");
    let zero = FixedI64::<32>::ZERO;
    assert_eq!(format!("{zero:e} {zero:.2e} {zero:+E}"), "0e0 0.00e0 +0E0");
}

/// Of a tie the even one, but not of what lies beside one.
#[test]
fn ties() {
    let [even, odd] = ["2.5", "3.5"].map(FixedU64::<60>::lit);
    assert_eq!(format!("{even:.0e} {odd:.0e}"), "2e0 4e0");
    let above = even + FixedU64::DELTA;
    let below = odd - FixedU64::DELTA;
    assert_eq!(format!("{above:.0e} {below:.0e}"), "3e0 3e0");
    let nines = FixedI32::<16>::lit("-99.5");
    assert_eq!(
        format!("{nines:.0e} {nines:.1e} {nines:.2e}"),
        "-1e2 -1.0e2 -9.95e1"
    );
}

#[test]
fn a_fraction_past_the_width() {
    let mut text = String::new();
    assert!(write!(text, "{:e}", FixedI8::<9>::from_bits(1)).is_err());
    assert!(write!(text, "{:.2E}", FixedI8::<9>::from_bits(1)).is_err());
}
