//! Intervals, polynomials and what a filter answers, as a user of the library calls them.

use zugyelmas::filter::{Biquad, Reply, Section, Shape, output_of, put_in_front};
use zugyelmas::interval::{Interval, add_in, div_in, mul_in, sqrt_in, sub_in};
use zugyelmas::poly::{PolyReply, horner, horner_of};
use zugyelmas::prelude::*;

fn interval(lo: i8, hi: i8) -> Interval<i8> {
    Interval::new(lo, hi).expect("ends in order")
}

#[test]
fn an_interval() {
    let made = interval(-24, 40);
    assert_eq!((made.lo(), made.hi()), (-24, 40));
    assert_eq!(Interval::new(1, 0), None);
}

#[test]
fn sums_and_differences() {
    let (a, b) = (interval(-24, 40), interval(3, 8));
    assert_eq!(add_in(&a, &b), Some(interval(-21, 48)));
    assert_eq!(sub_in(&a, &b), Some(interval(-32, 37)));
    assert_eq!(add_in(&a, &interval(0, 88)), None); // 128 is past the greatest
}

#[test]
fn products_quotients_and_roots() {
    // -24 * 8 / 16 and 40 * 8 / 16.
    let product = mul_in(&interval(-24, 40), &interval(3, 8), 4);
    assert_eq!(product, Some(interval(-12, 20)));
    // 16 * 16 / 48 is 5 and a third.
    let third = div_in(&interval(16, 16), &interval(48, 48), 4);
    assert_eq!(third, Some(interval(5, 6)));
    assert_eq!(div_in(&interval(16, 16), &interval(-1, 1), 4), None);
    // 5^2 <= 2 * 16 < 6^2, and 22^2 < 32 * 16 <= 23^2.
    assert_eq!(sqrt_in(&interval(2, 32), 4), Some(interval(5, 23)));
    assert_eq!(sqrt_in(&interval(-1, 32), 4), None);
}

#[test]
fn polynomials() {
    let coefficients = [256, 128, 64]; // 1 + x/2 + x^2/4
    assert_eq!(horner_of(&coefficients, 128_i16, 8), PolyReply::Value(336));
    let typed = coefficients.map(FixedI16::<8>::from_bits);
    let value = PolyReply::Value(FixedI16::from_bits(336));
    assert_eq!(horner(&typed, FixedI16::from_bits(128)), value);
    assert_eq!(horner_of(&[0, 100, 100], 16_i8, 4), PolyReply::Overflow(1));
    assert_eq!(horner_of(&[7_u8], 255, 8), PolyReply::Value(7)); // at the ends of the conditions
}

#[test]
fn a_step_of_a_filter() {
    let shape = Shape {
        out_frac: 8,
        coef_frac: 8,
        sample_frac: 8,
    };
    let mut past = [256_i16, 512]; // 1 and 2
    put_in_front(128, &mut past); // 1/2
    assert_eq!(past, [128, 256]);
    // 1/2 of 1/2 and 1/4 of 1.
    assert_eq!(output_of(&shape, &[128, 64], &past), Reply::Value(128));
    assert_eq!(output_of(&shape, &[128, 32767], &past), Reply::Overflow(1));
}

/// Draws for the section below: the next of a sequence, and a number below `bound` of its high bits.
fn drawn(state: &mut u64, bound: i64) -> i64 {
    *state = state
        .wrapping_mul(6_364_136_223_846_793_005)
        .wrapping_add(1_442_695_040_888_963_407);
    i64::try_from(*state >> 33).expect("31 bits") % bound
}

#[test]
fn a_second_order_section_beside_whole_numbers() {
    let mut state = 2026;
    let mut overflows = 0;
    for _ in 0..200 {
        let coefs = [(); 5].map(|()| drawn(&mut state, 32_768) - 16_384); // from -1 to 1
        let [b0, b1, b2, a1, a2] =
            coefs.map(|bits| FixedI16::<14>::from_bits(i16::try_from(bits).expect("16 bits")));
        let mut filter = Biquad::<i16, 8, 14>::new(Section { b0, b1, b2, a1, a2 });
        let mut past = [0_i64; 4]; // x1, x2, y1, y2
        for _ in 0..50 {
            let sample = drawn(&mut state, 65_536) - 32_768;
            let factors = [sample, past[0], past[1], past[2], past[3]];
            let mut sums = Vec::new();
            for (coef, factor) in coefs.iter().zip(factors) {
                sums.push(sums.last().unwrap_or(&0) + (coef * factor).div_euclid(1 << 14));
            }
            let wanted = match sums.iter().position(|sum| i16::try_from(*sum).is_err()) {
                Some(place) => Reply::Overflow(place),
                None => Reply::Value(FixedI16::from_bits(
                    i16::try_from(sums[4]).expect("16 bits"),
                )),
            };
            let sample_bits = i16::try_from(sample).expect("16 bits");
            assert_eq!(filter.push(FixedI16::from_bits(sample_bits)), wanted);
            match wanted {
                Reply::Value(output) => past = [sample, past[0], output.to_bits().into(), past[2]],
                Reply::Overflow(_) => overflows += 1,
            }
        }
    }
    assert!(overflows > 1000); // of 10,000 steps
}
