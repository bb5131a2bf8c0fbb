//! Runs of second-order sections beside the exact recurrence, in whole numbers.

use zugyelmas::filter::{Biquad, Reply, Section};
use zugyelmas::prelude::*;

/// The coefficients b0, b1, b2, a1 and a2 in units of `1 / S`, where S is `2^G`.
type Coefficients = [i16; 5];

/// The samples x1 and x2, and the outputs y1 and y2.
type Past = [i16; 4];

/// The outputs of a section after a past, up to the first that does not fit.
fn computed<const G: u32>(coefs: Coefficients, past: Past, samples: &[i16]) -> Vec<i16> {
    let [b0, b1, b2, a1, a2] = coefs.map(FixedI16::<G>::from_bits);
    let [x1, x2, y1, y2] = past.map(FixedI16::<4>::from_bits);
    let mut filter = Biquad {
        section: Section { b0, b1, b2, a1, a2 },
        x1,
        x2,
        y1,
        y2,
    };
    let mut outputs = Vec::new();
    for sample in samples {
        match filter.push(FixedI16::from_bits(*sample)) {
            Reply::Value(output) => outputs.push(output.to_bits()),
            Reply::Overflow(_) => break,
        }
    }
    outputs
}

/// The outputs of the recurrence without rounding: after k samples `S^k` times the output.
fn exact(coefs: Coefficients, past: Past, samples: &[i16], s: i128) -> Vec<i128> {
    let [b0, b1, b2, a1, a2] = coefs.map(i128::from);
    let [mut x1, mut x2, mut y1, mut y2] = past.map(i128::from);
    let mut power = 1;
    let mut outputs = Vec::new();
    for x in samples.iter().copied().map(i128::from) {
        let y = (b0 * x + b1 * x1 + b2 * x2) * power + a1 * y1 + a2 * y2;
        (x1, x2, y1, y2) = (x, x1, y, y1 * s);
        power *= s;
        outputs.push(y);
    }
    outputs
}

/// How far an output lies from the exact one, the bound, and a unit of the output: each in units of `1 / S^k (S - A)`,
/// where A is the sum of the magnitudes of a1 and a2.
#[derive(Debug, PartialEq)]
struct Error {
    exact: i128,
    bound: i128,
    unit: i128,
}

/// The error of each output.
fn errors<const G: u32>(coefs: Coefficients, past: Past, samples: &[i16]) -> Vec<Error> {
    let s = 1 << G;
    let left = s - i128::from(coefs[3]).abs() - i128::from(coefs[4]).abs();
    assert!(left > 0);
    let mut power = 1;
    let mut found = Vec::new();
    let outputs = computed::<G>(coefs, past, samples);
    for (y, exact) in outputs.iter().zip(exact(coefs, past, samples, s)) {
        power *= s;
        found.push(Error {
            exact: (exact - i128::from(*y) * power).abs() * left,
            bound: 5 * (s - 1) * power,
            unit: power * left,
        });
    }
    found
}

/// Numbers that look as if they were drawn.
struct Draws(u64);

impl Draws {
    /// A number from `-most` to `most`.
    fn next(&mut self, most: i16) -> i16 {
        self.0 = self
            .0
            .wrapping_mul(6_364_136_223_846_793_005)
            .wrapping_add(1_442_695_040_888_963_407);
        let count = 2 * i64::from(most) + 1;
        i16::try_from((self.0 >> 33) as i64 % count - i64::from(most)).expect("16 bits")
    }

    /// Coefficients of which a1 and a2 together are below 1.
    fn coefficients(&mut self, s: i16) -> Coefficients {
        let a1 = self.next(s - 1);
        let a2 = self.next(s - 1 - a1.abs());
        [self.next(s), self.next(s), self.next(s), a1, a2]
    }
}

/// Outputs after 20 samples, and the last two exact ones times `16^20`, as computed by fractions of any size.
#[test]
fn a_worked_run() {
    let coefs = [3, -5, 2, 9, -6];
    let past = [7, -3, 5, -11];
    let samples = [
        1, -21, 10, -34, -31, 28, -28, 6, 34, -33, 24, -13, -36, -29, 15, 13, -32, -10, -29, 30,
    ];
    let outputs = [
        2, -6, 2, -11, -3, 11, -12, 0, 4, -16, 7, -7, -7, 1, 8, -4, -16, 1, -1, 10,
    ];
    assert_eq!(computed::<4>(coefs, past, &samples), outputs);
    let found = exact(coefs, past, &samples, 16);
    assert_eq!(found[19], 14_983_360_129_008_611_062_516_577);
    assert_eq!(found[18] * 16, 94_077_660_966_948_772_290_448);
}

/// Checks the bound at each output of drawn runs. Returns whether an output lies more than five units from the exact
/// one, which is what one output loses at most.
fn within_the_bound<const G: u32>(seed: u64, count: usize, most: i16) -> bool {
    let mut draws = Draws(seed);
    let mut is_far = false;
    for _ in 0..2_000 {
        let coefs = draws.coefficients(1 << G);
        let past = [(); 4].map(|()| draws.next(most));
        let samples: Vec<i16> = (0..count).map(|_| draws.next(most)).collect();
        let found = errors::<G>(coefs, past, &samples);
        assert!(!found.is_empty());
        for Error { exact, bound, unit } in found {
            assert!(exact <= bound, "{coefs:?} {past:?} {samples:?}");
            is_far |= exact > 5 * unit;
        }
    }
    is_far
}

#[test]
fn drawn_runs() {
    assert!(within_the_bound::<4>(1, 20, 2_000));
    assert!(within_the_bound::<8>(2, 10, 8_000));
    assert!(within_the_bound::<14>(3, 6, 8_000));
}

/// Five products of -1 in units of `1 / S` each lose `S - 1` of them: the bound with 4 in place of 5 would not hold.
#[test]
fn all_five_products_count() {
    let found = errors::<4>([-1; 5], [1; 4], &[1]);
    let [exact, bound, unit] = [75 * 14, 75 * 16, 16 * 14];
    assert_eq!(found, [Error { exact, bound, unit }]);
    assert!(exact > bound / 5 * 4);
}
