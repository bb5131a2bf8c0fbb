//! Numbers from decimal text, and as text, beside arithmetic on whole numbers of 128 bits.

#[allow(dead_code)]
#[path = "../examples/ledger.rs"]
mod ledger;

use ledger::{Refusal, booked};
use std::fmt::Debug;
use zugyelmas::decimal::{
    DecimalError, decimal_of, exact_decimal_of, exact_places, shortest_places, write_decimal,
};
use zugyelmas::num::{
    Fixed, FixedI8, FixedI16, FixedI32, FixedI64, FixedU8, FixedU16, FixedU32, FixedU64,
    FromDecimal,
};
use zugyelmas::word::{Rounding, Side, Word};

const ROUNDINGS: [Rounding; 3] = [Rounding::Down, Rounding::Zero, Rounding::Even];

/// A quotient with a named rounding. The divisor is above 0.
fn rounded(dividend: i128, divisor: i128, rounding: Rounding) -> i128 {
    let down = dividend.div_euclid(divisor);
    let rest = dividend.rem_euclid(divisor);
    match rounding {
        Rounding::Down => down,
        Rounding::Zero => dividend / divisor,
        Rounding::Even => {
            let is_tie = 2 * rest == divisor;
            down + i128::from(2 * rest > divisor || is_tie && down % 2 != 0)
        }
    }
}

fn ten_to(places: usize) -> i128 {
    (0..places).fold(1, |power, _| power * 10)
}

/// The number `bits * 2^-frac` in units of `10^-places`.
fn to_places(bits: i128, frac: u32, places: usize, rounding: Rounding) -> i128 {
    rounded(bits * ten_to(places), 1 << frac, rounding)
}

/// The number of so many units of `10^-places`, in units of `2^-frac`.
fn to_units(units: i128, places: usize, frac: u32, rounding: Rounding) -> i128 {
    rounded(units << frac, ten_to(places), rounding)
}

/// A whole number of units of `10^-places` as text.
fn text_of(below_zero: bool, units: i128, places: usize) -> String {
    let digits = format!("{:0width$}", units.abs(), width = places + 1);
    let (whole, part) = digits.split_at(digits.len() - places);
    let sign = if below_zero { "-" } else { "" };
    let point = if places > 0 { "." } else { "" };
    format!("{sign}{whole}{point}{part}")
}

/// The fewest places whose nearest decimal is read as the number.
fn fewest(bits: i128, frac: u32) -> usize {
    let reads_back = |places: &usize| {
        let units = to_places(bits, frac, *places, Rounding::Even);
        to_units(units, *places, frac, Rounding::Even) == bits
    };
    (0..20).find(reads_back).expect("20 places are enough")
}

/// The text that the library writes.
fn written<T: Word>(number: T, frac: u32, places: usize, rounding: Rounding) -> String {
    let mut buffer = [b'?'; 86];
    let start = write_decimal(number, frac, places, rounding, &mut buffer);
    String::from_utf8(buffer[start..].to_vec()).expect("ASCII")
}

/// A text is read as so many units, whether or not they fit.
fn is_read_as<T>(text: &str, frac: u32, rounding: Rounding, units: i128)
where
    T: Word + Debug + PartialEq + TryFrom<i128> + Into<i128>,
{
    let outcome = decimal_of::<T>(text.as_bytes(), frac, rounding).expect("a decimal");
    let fits = T::try_from(units).is_ok();
    assert_eq!(
        outcome.side == Side::Fits,
        fits,
        "{text} at {frac}, {rounding:?}"
    );
    let wrapped: i128 = outcome.wrapped.into();
    assert_eq!(
        (wrapped - units) % (1 << T::BITS),
        0,
        "{text} at {frac}, {rounding:?}"
    );
}

/// A number is written and read back in each rounding.
fn is_written_and_read<T>(number: T, frac: u32, places: usize)
where
    T: Word + Debug + PartialEq + TryFrom<i128> + Into<i128>,
{
    let bits: i128 = number.into();
    for rounding in ROUNDINGS {
        let units = to_places(bits, frac, places, rounding);
        let text = text_of(bits < 0, units, places);
        assert_eq!(
            written(number, frac, places, rounding),
            text,
            "{bits} at {frac}"
        );
        for reading in ROUNDINGS {
            is_read_as::<T>(&text, frac, reading, to_units(units, places, frac, reading));
        }
        let is_exact = (units << frac) % ten_to(places) == 0;
        let exact = exact_decimal_of::<T>(text.as_bytes(), frac);
        assert_eq!(exact.is_ok(), is_exact, "{text} at {frac}");
    }
}

/// The exact text and the shortest text of a number have as few places as they can.
fn has_fewest_places<T: Word + Into<i128>>(number: T, frac: u32) {
    let bits: i128 = number.into();
    let is_exact = |places: &u32| (bits << places) % (1 << frac) == 0;
    let exact = (0..=frac).find(is_exact).expect("frac places are exact");
    assert_eq!(
        exact_places(number, frac),
        exact as usize,
        "{bits} at {frac}"
    );
    assert_eq!(
        shortest_places(number, frac),
        fewest(bits, frac),
        "{bits} at {frac}"
    );
}

#[test]
fn every_number_of_8_bits_at_every_fraction() {
    for frac in 0..=8 {
        for bits in 0..=u8::MAX {
            has_fewest_places(bits, frac);
            has_fewest_places(bits as i8, frac);
            for places in 0..=10 {
                is_written_and_read(bits, frac, places);
                is_written_and_read(bits as i8, frac, places);
            }
        }
    }
}

/// Numbers that look random, from a counter (Steele and Vigna's SplitMix64).
struct Draws(u64);

impl Draws {
    fn next(&mut self) -> u64 {
        self.0 = self.0.wrapping_add(0x9e37_79b9_7f4a_7c15);
        let mixed = (self.0 ^ (self.0 >> 30)).wrapping_mul(0xbf58_476d_1ce4_e5b9);
        let mixed = (mixed ^ (mixed >> 27)).wrapping_mul(0x94d0_49bb_1331_11eb);
        mixed ^ (mixed >> 31)
    }

    fn below(&mut self, bound: u64) -> u64 {
        self.next() % bound
    }

    /// A number of any size up to 64 bits.
    fn sized(&mut self) -> u64 {
        let shift = self.below(64);
        self.next() >> shift
    }
}

#[test]
fn random_numbers_beside_whole_numbers() {
    let mut draws = Draws(53);
    for _ in 0..20_000 {
        let places = draws.below(19) as usize;
        let bits = draws.sized();
        let frac = draws.below(56) as u32;
        is_written_and_read(bits as i32, frac.min(32), places);
        is_written_and_read(bits as u16, frac.min(16), places);
        has_fewest_places(bits as i32, frac.min(32));
        has_fewest_places((bits >> 8) as i64, frac);
        is_written_and_read((bits >> 8) as i64, frac, places.min(17));
        is_written_and_read(bits >> 8, frac, places.min(17));
    }
}

/// A decimal of at most 18 digits, and the number of its digits behind the point.
fn drawn(draws: &mut Draws) -> (String, usize) {
    let places = draws.below(19) as usize;
    let units = draws.sized() % 1_000_000_000_000_000_000;
    let mut text = text_of(false, i128::from(units), places);
    if places > 0 && units < 100_000_000_000_000_000 && draws.below(8) == 0 {
        text = text.trim_start_matches('0').to_string();
    }
    (text, places)
}

#[test]
fn random_texts_beside_whole_numbers() {
    let mut draws = Draws(54);
    for _ in 0..40_000 {
        let (digits, places) = drawn(&mut draws);
        let units: i128 = digits.replace('.', "").parse().expect("digits");
        let sign = ["", "-", "+"][draws.below(3) as usize];
        let units = if sign == "-" { -units } else { units };
        let frac = draws.below(65) as u32;
        // Zeros before the digits and behind them lead past the one-pass reader.
        let zeros = "0".repeat(draws.below(40) as usize);
        let tail = if places > 0 { zeros.as_str() } else { "" };
        for text in [
            format!("{sign}{digits}"),
            format!("{sign}{zeros}{digits}{tail}"),
        ] {
            for rounding in ROUNDINGS {
                is_read_as::<i64>(
                    &text,
                    frac,
                    rounding,
                    to_units(units, places, frac, rounding),
                );
                is_read_as::<u64>(
                    &text,
                    frac,
                    rounding,
                    to_units(units, places, frac, rounding),
                );
                let few = frac.min(16);
                is_read_as::<i16>(&text, few, rounding, to_units(units, places, few, rounding));
            }
        }
    }
}

#[test]
fn numbers_print_as_short_as_they_are_read_back() {
    let third = "6.33333"
        .parse::<FixedI32<12>>()
        .expect("a decimal that fits");
    assert_eq!(third.to_string(), "6.3333");
    assert_eq!(
        format!("{third:.2} {third:8.1}| {third:+} {third:010.3} {third:<9}|"),
        "6.33      6.3| +6.3333 000006.333 6.3333   |"
    );
    let half = Fixed::<i8, 4>::from_bits(-8);
    assert_eq!(format!("{half} {half:.0} {half:.3}"), "-0.5 -0 -0.500");
    assert_eq!(format!("{half:?} {:?}", Some(third)), "-0.5 Some(6.3333)");
}

#[test]
fn a_precision_past_64_pads_zeros() {
    let digits = format!("5.25{}", "0".repeat(68));
    let number = FixedI32::<16>::from_bits(344_064);
    let less = FixedI32::<16>::from_bits(-344_064);
    assert_eq!(format!("{number:.70}"), digits);
    assert_eq!(
        format!("{number:+.70}|{less:.70}"),
        format!("+{digits}|-{digits}")
    );
    assert_eq!(format!("{number:75.70}"), format!("   {digits}"));
    assert_eq!(format!("{number:<75.70}|"), format!("{digits}   |"));
    assert_eq!(format!("{number:*^75.70}"), format!("*{digits}**"));
    assert_eq!(format!("{less:075.70}"), format!("-00{digits}"));
    let least = Fixed::<u64, 64>::from_bits(1);
    let exact = least.to_string();
    assert_eq!(exact.parse(), Ok(least));
    assert_eq!(format!("{least:.66}"), format!("{least:.64}00"));
}

#[test]
fn text_is_written_without_a_formatter() {
    let mut buffer = [b'?'; 86];
    let number = Fixed::<i8, 4>::from_bits(-23);
    let start = number.write_decimal(&mut buffer);
    assert_eq!(&buffer[start..], b"-1.44");
    let start = number.write_decimal_places(1, Rounding::Down, &mut buffer);
    assert_eq!(&buffer[start..], b"-1.5");
    let start = number.write_decimal_places(64, Rounding::Even, &mut buffer);
    assert_eq!(buffer[start..], *format!("{number:.64}").as_bytes());
}

/// Each number of a format is read from its text in each form.
fn each_form_is_read_back<const F: u32>() {
    for bits in i8::MIN..=i8::MAX {
        let number = Fixed::<i8, F>::from_bits(bits);
        let shortest = text_of(
            bits < 0,
            to_places(bits.into(), F, fewest(bits.into(), F), Rounding::Even),
            fewest(bits.into(), F),
        );
        assert_eq!(number.to_string(), shortest);
        assert_eq!(shortest.parse(), Ok(number));
        let exact = format!("{number:.*}", F as usize);
        assert_eq!(
            exact,
            text_of(
                bits < 0,
                (i128::from(bits) * ten_to(F as usize)) >> F,
                F as usize
            )
        );
        assert_eq!(exact.parse(), Ok(number));
        assert_eq!(Fixed::from_str_exact(&exact), Ok(number));
        assert_eq!(Fixed::strict_from_str(&exact), Ok(number));
        assert_eq!(
            Fixed::unwrapped_from_str_round(&exact, Rounding::Down),
            Ok(number)
        );
    }
}

#[test]
fn every_number_of_8_bits_is_read_back() {
    each_form_is_read_back::<0>();
    each_form_is_read_back::<1>();
    each_form_is_read_back::<2>();
    each_form_is_read_back::<3>();
    each_form_is_read_back::<4>();
    each_form_is_read_back::<5>();
    each_form_is_read_back::<6>();
    each_form_is_read_back::<7>();
    each_form_is_read_back::<8>();
}

#[test]
fn policies_read_one_number() {
    type Small = FixedU8<4>;
    assert_eq!(Small::checked_from_str("-1"), Err(DecimalError::Overflow));
    assert_eq!(Small::saturating_from_str("99"), Ok(Small::from_bits(255)));
    assert_eq!(Small::wrapping_from_str("17"), Ok(Small::from_bits(16)));
    assert_eq!(
        Small::overflowing_from_str("17"),
        Ok((Small::from_bits(16), true))
    );
    assert_eq!(Small::strict_from_str("15"), Ok(Small::from_bits(240)));
    let long = format!("0.03125{}1", "0".repeat(1000));
    assert_eq!(Small::checked_from_str("0.03125"), Ok(Small::from_bits(0)));
    assert_eq!(Small::checked_from_str(&long), Ok(Small::from_bits(1)));
}

#[test]
fn a_named_rounding_is_taken() {
    type Small = Fixed<i8, 4>;
    // -0.40 lies between -7 and -6 units of 1/16.
    let read = |rounding| Small::checked_from_str_round("-0.40", rounding);
    assert_eq!(read(Rounding::Down), Ok(Small::from_bits(-7)));
    assert_eq!(read(Rounding::Zero), Ok(Small::from_bits(-6)));
    assert_eq!(read(Rounding::Even), Ok(Small::from_bits(-6)));
    // 7.99 lies between the greatest number, 127 units, and 128 units.
    let text = "7.99";
    assert_eq!(Small::checked_from_str(text), Err(DecimalError::Overflow));
    assert_eq!(
        Small::strict_from_str_round(text, Rounding::Down),
        Ok(Small::from_bits(127))
    );
    assert_eq!(
        Small::saturating_from_str_round(text, Rounding::Even),
        Ok(Small::from_bits(127))
    );
    assert_eq!(
        Small::wrapping_from_str_round(text, Rounding::Even),
        Ok(Small::from_bits(-128))
    );
    let overflowing = Small::overflowing_from_str_round(text, Rounding::Even);
    assert_eq!(overflowing, Ok((Small::from_bits(-128), true)));
}

#[test]
fn an_exact_text_is_not_rounded() {
    type Cents = FixedI32<2>;
    assert_eq!(Cents::from_str_exact("12.75"), Ok(Cents::from_bits(51)));
    assert_eq!(Cents::from_str_exact("-12.750"), Ok(Cents::from_bits(-51)));
    assert_eq!(Cents::from_str_exact("12.7"), Err(DecimalError::Inexact));
    assert_eq!(
        Cents::from_str_exact("99999999999.1"),
        Err(DecimalError::Inexact)
    );
    assert_eq!(
        Cents::from_str_exact("99999999999.5"),
        Err(DecimalError::Overflow)
    );
    assert_eq!(
        Cents::from_str_exact("1.2.3"),
        Err(DecimalError::TooManyPoints)
    );
}

#[test]
#[should_panic(expected = "the number fits")]
fn a_strict_number_that_does_not_fit_stops() {
    let _ = FixedU8::<4>::strict_from_str("16");
}

#[test]
#[should_panic(expected = "the number fits")]
fn an_unwrapped_number_that_does_not_fit_stops() {
    let _ = FixedU8::<4>::unwrapped_from_str("16");
}

#[test]
fn a_constant_is_read_when_the_program_is_built() {
    const LEAST: [i64; 4] = [
        FixedI8::<4>::lit("-8").to_bits() as i64,
        FixedI16::<15>::lit("-1").to_bits() as i64,
        FixedI32::<0>::lit("-2147483648").to_bits() as i64,
        FixedI64::<63>::lit("-1.0000000000000000000000001").to_bits(),
    ];
    assert_eq!(
        LEAST,
        [i8::MIN.into(), i16::MIN.into(), i32::MIN.into(), i64::MIN]
    );
    const GREATEST: [u64; 4] = [
        FixedU8::<8>::lit("0.997").to_bits() as u64,
        FixedU16::<4>::lit("+4095.9375").to_bits() as u64,
        FixedU32::<32>::lit("0.9999999998").to_bits() as u64,
        FixedU64::<64>::lit("0.99999999999999999995").to_bits(),
    ];
    assert_eq!(
        GREATEST,
        [u8::MAX.into(), u16::MAX.into(), u32::MAX.into(), u64::MAX]
    );
    // An error of less than half a unit, by the first 21 digits of pi.
    const PI: FixedI64<61> = FixedI64::lit("3.14159265358979323846");
    assert_eq!(PI.to_bits(), 0x6487_ed51_10b4_611a);
    assert_eq!(FixedU8::<4>::lit("-0.03125"), FixedU8::from_bits(0));
}

#[test]
fn a_constant_is_the_number_that_is_read() {
    let mut draws = Draws(55);
    for _ in 0..10_000 {
        let (digits, _) = drawn(&mut draws);
        let zeros = "0".repeat(draws.below(20) as usize);
        for text in [format!("-{digits}"), format!("{zeros}{digits}")] {
            if let Ok(number) = FixedI32::<16>::checked_from_str(&text) {
                assert_eq!(FixedI32::<16>::lit(&text), number, "{text}");
            }
            if let Ok(number) = FixedU64::<20>::checked_from_str(&text) {
                assert_eq!(FixedU64::<20>::lit(&text), number, "{text}");
            }
        }
    }
}

#[test]
#[should_panic(expected = "the text is a decimal that fits")]
fn a_constant_that_does_not_fit_stops() {
    let _ = FixedI8::<4>::lit("7.97");
}

#[test]
#[should_panic(expected = "the text is a decimal that fits")]
fn a_constant_with_a_fraction_past_the_width_stops() {
    let _ = FixedI8::<9>::lit("0");
}

#[test]
fn what_is_no_decimal_is_named() {
    type Small = FixedU8<4>;
    assert_eq!(
        Small::checked_from_str("1.2.3"),
        Err(DecimalError::TooManyPoints)
    );
    assert_eq!(
        Small::checked_from_str("1_0"),
        Err(DecimalError::InvalidDigit(1))
    );
    assert_eq!(
        Small::checked_from_str("-12.5e3"),
        Err(DecimalError::InvalidDigit(5))
    );
    let text = format!("+.{}x.", "0".repeat(30));
    assert_eq!(
        Small::checked_from_str(&text),
        Err(DecimalError::InvalidDigit(32))
    );
    // The bytes are counted, and not the letters.
    assert_eq!(
        Small::checked_from_str("1,5"),
        Err(DecimalError::InvalidDigit(1))
    );
    assert_eq!(
        Small::checked_from_str("1\u{a0}5"),
        Err(DecimalError::InvalidDigit(1))
    );
    assert_eq!(Small::checked_from_str("+."), Err(DecimalError::NoDigits));
    assert_eq!(Small::checked_from_str(""), Err(DecimalError::NoDigits));
    assert_eq!(Small::checked_from_str("+.5"), Ok(Small::from_bits(8)));
    assert_eq!(Small::checked_from_str("5."), Ok(Small::from_bits(80)));
}

#[test]
fn an_error_says_what_it_is() {
    fn read(text: &str) -> Result<FixedI32<16>, Box<dyn std::error::Error>> {
        Ok(text.parse()?)
    }
    let message = |text| read(text).map_err(|error| error.to_string());
    assert_eq!(message("1.5"), Ok(FixedI32::from_bits(98304)));
    assert_eq!(message("12,5"), Err("invalid digit at byte 2".to_string()));
    assert_eq!(message("-."), Err("no digits".to_string()));
    assert_eq!(message("1.2.3"), Err("more than one point".to_string()));
    assert_eq!(message("32768"), Err("overflow".to_string()));
    assert_eq!(
        DecimalError::Inexact.to_string(),
        "not exactly a number of the format"
    );
}

#[test]
fn a_ledger_is_rounded_to_even_cents() {
    let amounts = include_str!("../../examples/amounts.csv");
    let ledger =
        "rent,-95000\nwages,243718\ninterest,12\ninterest,14\nfee,-1\nrefund,1999\ntotal,150742\n";
    assert_eq!(booked(amounts), Ok(ledger.to_string()));
    let claimed = |total: &str| booked(&amounts.replace("total,150742", total));
    assert_eq!(
        claimed("total,150743"),
        Err(Refusal::Sum(Fixed::from_bits(150_742)))
    );
    assert_eq!(
        claimed("total,150742.4"),
        Err(Refusal::Amount("total".into(), DecimalError::Inexact))
    );
    assert_eq!(claimed("gift,1"), Err(Refusal::NoTotal));
    assert_eq!(claimed("gift,9223372036854775807"), Err(Refusal::Overflow));
    assert_eq!(claimed("gift"), Err(Refusal::NoAmount("gift".into())));
}
