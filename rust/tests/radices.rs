//! Numbers in the bases 2, 8 and 16, beside arithmetic on whole numbers of 128 bits.

use zugyelmas::num::{Fixed, FixedI8, FixedI32, FixedI64, FixedU8, FixedU64};
use zugyelmas::radix::{Base, InBase};
use zugyelmas::word::Word;

const BASES: [(Base, u32); 4] = [
    (Base::Binary, 1),
    (Base::Octal, 3),
    (Base::LowerHex, 4),
    (Base::UpperHex, 4),
];

/// A whole number in a base, as std writes it.
fn whole(number: u128, base: Base) -> String {
    match base {
        Base::Binary => format!("{number:b}"),
        Base::Octal => format!("{number:o}"),
        Base::LowerHex => format!("{number:x}"),
        Base::UpperHex => format!("{number:X}"),
    }
}

/// The number `magnitude / 2^frac`, rounded to so many digits behind the point, the even one of two.
fn text(magnitude: u128, frac: u32, base: Base, bits: u32, places: u32) -> String {
    let scaled = magnitude << (bits * places);
    let (down, rest) = (scaled >> frac, scaled % (1 << frac));
    let is_up = 2 * rest > 1 << frac || 2 * rest == 1 << frac && down % 2 == 1;
    let width = places as usize + 1;
    let digits = format!("{:0>width$}", whole(down + u128::from(is_up), base));
    let (front, back) = digits.split_at(digits.len() - places as usize);
    let point = if places > 0 { "." } else { "" };
    format!("{front}{point}{back}")
}

/// The fewest digits behind the point that are exact.
fn fewest(magnitude: u128, frac: u32, bits: u32) -> u32 {
    let is_exact = |places: &u32| (magnitude << (bits * places)) % (1 << frac) == 0;
    (0..=frac).find(is_exact).expect("frac places are exact")
}

/// A number prints as the definition says: exactly, and with every precision up to 20.
fn prints<T: Word + Into<i128>, const F: u32>(number: Fixed<T, F>) {
    let value: i128 = number.bits.into();
    let sign = if value < 0 { "-" } else { "" };
    for (base, bits) in BASES {
        let in_base = InBase { number, base };
        let exact = fewest(value.unsigned_abs(), F, bits);
        let digits = text(value.unsigned_abs(), F, base, bits, exact);
        assert_eq!(
            format!("{in_base}"),
            format!("{sign}{digits}"),
            "{value} at {F}"
        );
        for places in 0..=20 {
            let digits = text(value.unsigned_abs(), F, base, bits, places);
            let shown = format!("{in_base:.*}", places as usize);
            assert_eq!(shown, format!("{sign}{digits}"), "{value} at {F}");
        }
    }
}

fn every_number_of_8_bits<const F: u32>() {
    for bits in u8::MIN..=u8::MAX {
        prints(FixedU8::<F>::from_bits(bits));
        prints(FixedI8::<F>::from_bits(bits as i8));
    }
}

#[test]
fn every_number_of_8_bits_at_every_fraction() {
    every_number_of_8_bits::<0>();
    every_number_of_8_bits::<1>();
    every_number_of_8_bits::<2>();
    every_number_of_8_bits::<3>();
    every_number_of_8_bits::<4>();
    every_number_of_8_bits::<5>();
    every_number_of_8_bits::<6>();
    every_number_of_8_bits::<7>();
    every_number_of_8_bits::<8>();
}

#[test]
fn numbers_of_32_bits() {
    let mut bits = 1_u32;
    for _ in 0..2_000 {
        // A full period of 32 bits (Numerical Recipes).
        bits = bits.wrapping_mul(1_664_525).wrapping_add(1_013_904_223);
        let shift = bits >> 27;
        prints(FixedI32::<0>::from_bits((bits >> shift) as i32));
        prints(FixedI32::<16>::from_bits(bits as i32));
        prints(FixedI32::<21>::from_bits((bits >> shift) as i32));
        prints(FixedI32::<32>::from_bits(bits as i32));
    }
}

#[test]
fn the_ends_of_64_bits() {
    let least = FixedI64::<0>::from_bits(i64::MIN);
    assert_eq!(format!("{least:x}"), "-8000000000000000");
    assert_eq!(format!("{least:b}"), format!("-1{}", "0".repeat(63)));
    let most = FixedU64::<64>::from_bits(u64::MAX);
    assert_eq!(format!("{most:x}"), format!("0.{}", "f".repeat(16)));
    assert_eq!(format!("{most:b}"), format!("0.{}", "1".repeat(64)));
    // Two bits are left of the last digit.
    assert_eq!(format!("{most:o}"), format!("0.{}4", "7".repeat(21)));
    assert_eq!(format!("{most:.15x}"), format!("1.{}", "0".repeat(15)));
    let odd = FixedU64::<63>::from_bits(u64::MAX);
    assert_eq!(format!("{odd:X}"), format!("1.{}E", "F".repeat(15)));
}

#[test]
fn options_are_those_of_integers() {
    let number = FixedI32::<16>::lit("6.5");
    assert_eq!(
        format!("{number:b} {number:o} {number:x} {number:X}"),
        "110.1 6.4 6.8 6.8"
    );
    assert_eq!(
        format!("{number:#b} {number:#o} {number:#x} {number:#X}"),
        "0b110.1 0o6.4 0x6.8 0x6.8"
    );
    let less = FixedI32::<16>::lit("-10.71875"); // 0xa.b8
    assert_eq!(
        format!("{less:x} {less:X} {less:#X}"),
        "-a.b8 -A.B8 -0xA.B8"
    );
    assert_eq!(
        format!("{less:.1x} {less:.3x} {less:.0x}"),
        "-a.c -a.b80 -b"
    );
    assert_eq!(
        format!("{number:.2b} {number:.0b} {number:.0x}"),
        "110.10 110 6"
    );
    assert_eq!(
        format!("{number:8b}|{number:<8b}|{number:^8b}|{number:*>8b}"),
        "   110.1|110.1   | 110.1  |***110.1"
    );
    assert_eq!(
        format!("{number:08b} {number:#010b} {less:#09x} {number:+b}"),
        "000110.1 0b000110.1 -0x00a.b8 +110.1"
    );
    assert_eq!(format!("{number:.70b}"), format!("110.1{}", "0".repeat(69)));
    assert_eq!(
        format!("{less:#80.70x}"),
        format!("     -0xa.b8{}", "0".repeat(68))
    );
    let zero = FixedI8::<4>::from_bits(0);
    assert_eq!(format!("{zero:b} {zero:.3x} {zero:#o}"), "0 0.000 0o0");
}
