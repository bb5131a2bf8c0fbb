//! Elementary functions: typed calls beside the functions of `f64`, with a conversion of each operand and of the result.
//! Prints nanoseconds a call, and their ratio. The saturating forms are timed.
//!
//!     cargo bench --bench functions [WORD..]      (words of a row's name: `log2`, `i32`)
//!
//! Each loop takes 4,096 operands, one after the other. The least of many short samples counts.

mod draws;
mod timing;

use draws::Draws;
use std::f64::consts::TAU;
use std::fmt::Debug;
use std::hint::black_box;
use std::time::Duration;
use timing::{Timing, is_wanted};
use zugyelmas::prelude::*;

const TIMING: Timing = Timing {
    length: 4096,
    samples: 101,
    sample: Duration::from_micros(500),
};

/// A format, as plain code reads and writes its numbers.
trait Format: Copy + Debug {
    /// The name of a row has this.
    const NAME: &'static str;

    fn of_float(number: f64) -> Self;

    fn to_float(self) -> f64;

    /// How many units lie between two numbers.
    fn distance(self, other: Self) -> u64;
}

impl Format for FixedI32<16> {
    const NAME: &'static str = "i32<16>";

    fn of_float(number: f64) -> Self {
        Self::from_bits((number * 65_536.0) as i32)
    }

    fn to_float(self) -> f64 {
        f64::from(self.to_bits()) / 65_536.0
    }

    fn distance(self, other: Self) -> u64 {
        self.to_bits().abs_diff(other.to_bits()).into()
    }
}

impl Format for FixedI64<32> {
    const NAME: &'static str = "i64<32>";

    fn of_float(number: f64) -> Self {
        Self::from_bits((number * 4_294_967_296.0) as i64)
    }

    fn to_float(self) -> f64 {
        self.to_bits() as f64 / 4_294_967_296.0
    }

    fn distance(self, other: Self) -> u64 {
        self.to_bits().abs_diff(other.to_bits())
    }
}

/// Prints a row of operands from `least` to `most`. The results of both sides differ by rounding alone.
fn row<N: Format>(
    name: &str,
    [least, most]: [f64; 2],
    by_floats: impl Fn(f64, f64) -> f64,
    call: impl Fn(N, N) -> N,
) {
    let name = format!("{name} {}", N::NAME);
    if !is_wanted(&name) {
        return;
    }
    let mut draws = Draws(42);
    let mut operand = || {
        N::of_float(least + (most - least) * (draws.next() as f64 / 18_446_744_073_709_551_616.0))
    };
    let pairs: Vec<(N, N)> = (0..TIMING.length).map(|_| (operand(), operand())).collect();
    let by_floats = |&(a, b): &(N, N)| N::of_float(by_floats(a.to_float(), b.to_float()));
    let call = |&(a, b): &(N, N)| call(a, b);
    for pair in &pairs {
        let (plain, typed) = (by_floats(pair), call(pair));
        assert!(
            plain.distance(typed) <= 1,
            "{name} of {pair:?}: {plain:?}, {typed:?}"
        );
    }
    let mut results: Vec<N> = pairs.iter().map(call).collect();
    let mut others = results.clone();
    TIMING.row(
        &name,
        || {
            black_box(&mut others)
                .iter_mut()
                .zip(black_box(&pairs))
                .for_each(|(result, pair)| *result = by_floats(pair))
        },
        || {
            black_box(&mut results)
                .iter_mut()
                .zip(black_box(&pairs))
                .for_each(|(result, pair)| *result = call(pair))
        },
    );
}

/// Prints the rows of a format.
macro_rules! rows {
    ($format:ty) => {
        row::<$format>(
            "hypot",
            [-1000.0, 1000.0],
            |a, b| a.hypot(b),
            |a, b| a.saturating_hypot(b),
        );
        row::<$format>(
            "recip_sqrt",
            [0.01, 1000.0],
            |a, _| a.sqrt().recip(),
            |a, _| a.saturating_recip_sqrt(),
        );
        row::<$format>(
            "log2",
            [0.01, 1000.0],
            |a, _| a.log2(),
            |a, _| a.saturating_log2(),
        );
        row::<$format>(
            "ln",
            [0.01, 1000.0],
            |a, _| a.ln(),
            |a, _| a.saturating_ln(),
        );
        row::<$format>(
            "log10",
            [0.01, 1000.0],
            |a, _| a.log10(),
            |a, _| a.saturating_log10(),
        );
        row::<$format>(
            "exp2",
            [-8.0, 8.0],
            |a, _| a.exp2(),
            |a, _| a.saturating_exp2(),
        );
        row::<$format>(
            "exp",
            [-8.0, 8.0],
            |a, _| a.exp(),
            |a, _| a.saturating_exp(),
        );
        row::<$format>(
            "pow",
            [0.01, 5.0],
            |a, b| a.powf(b),
            |a, b| a.saturating_pow(b),
        );
        row::<$format>(
            "sin",
            [-8.0, 8.0],
            |a, _| a.sin(),
            |a, _| a.saturating_sin(),
        );
        row::<$format>(
            "sin_turns",
            [-8.0, 8.0],
            |a, _| (a * TAU).sin(),
            |a, _| a.saturating_sin_turns(),
        );
        row::<$format>(
            "atan2",
            [-100.0, 100.0],
            |a, b| a.atan2(b),
            |a, b| a.saturating_atan2(b),
        );
        row::<$format>(
            "atan2_turns",
            [-100.0, 100.0],
            |a, b| a.atan2(b) / TAU,
            |a, b| a.saturating_atan2_turns(b),
        );
    };
}

fn main() {
    println!("{:44} {:>8} {:>8} {:>6}", "", "by f64", "call", "ratio");
    rows!(FixedI32<16>);
    rows!(FixedI64<32>);
}
