//! A low-pass of second order over samples of 16 bits: Butterworth's, at a tenth of the sampling rate.
//!
//!     cargo run --example smoother
//!
//! It prints each tenth output after the input jumps from 0 to 1.

use zugyelmas::filter::{Biquad, Section, TapOverflow};
use zugyelmas::prelude::*;

/// A sample, from -8 to just below 8.
type Sample = FixedI16<12>;

/// A coefficient, from -2 to just below 2.
type Coefficient = FixedI16<14>;

/// The denominator of its transfer function is `1 - 1.142980503 z^-1 + 0.412801598 z^-2`.
const LOW_PASS: Section<i16, 14> = Section {
    b0: Coefficient::lit("0.067455274"),
    b1: Coefficient::lit("0.134910548"),
    b2: Coefficient::lit("0.067455274"),
    a1: Coefficient::lit("1.142980503"),
    a2: Coefficient::lit("-0.412801598"),
};

/// The samples after the filter, or the first coefficient whose sum does not fit.
pub fn smoothed(samples: &[Sample]) -> Result<Vec<Sample>, TapOverflow> {
    let mut filter = Biquad::new(LOW_PASS);
    let push = |sample: &Sample| filter.push(*sample).into_result();
    samples.iter().map(push).collect()
}

fn main() -> Result<(), TapOverflow> {
    for output in smoothed(&[Sample::lit("1"); 60])?.iter().step_by(10) {
        println!("{output:.3}");
    }
    Ok(())
}

#[cfg(test)]
mod tests {
    use super::*;

    /// The same recurrence in floats, over the coefficients as they are rounded.
    fn by_floats(samples: &[Sample]) -> Vec<f64> {
        let [b0, b1, b2, a1, a2] = [
            LOW_PASS.b0,
            LOW_PASS.b1,
            LOW_PASS.b2,
            LOW_PASS.a1,
            LOW_PASS.a2,
        ]
        .map(|coefficient| coefficient.to_num::<f64>());
        let ([mut x1, mut x2], [mut y1, mut y2]) = ([0.0; 2], [0.0; 2]);
        let step = |sample: &Sample| {
            let x = sample.to_num::<f64>();
            let y = b0 * x + b1 * x1 + b2 * x2 + a1 * y1 + a2 * y2;
            (x2, x1, y2, y1) = (x1, x, y1, y);
            y
        };
        samples.iter().map(step).collect()
    }

    #[test]
    fn outputs_follow_the_exact_filter() {
        let square = |at: usize| Sample::lit(if at / 25 % 2 == 0 { "1.5" } else { "-1.5" });
        let samples: Vec<Sample> = (0..200).map(square).collect();
        let outputs = smoothed(&samples).expect("sums that fit");
        for (output, exact) in outputs.iter().zip(by_floats(&samples)) {
            // A step loses less than five units, and the filter's poles let that grow by less than 4.
            let lost = (exact - output.to_num::<f64>()) * 4096.0;
            assert!((-0.001..20.0).contains(&lost), "{output} for {exact}");
        }
    }

    #[test]
    fn a_sum_that_does_not_fit_names_its_coefficient() {
        assert_eq!(smoothed(&[Sample::MAX; 20]), Err(TapOverflow { tap: 3 }));
    }
}
