//! Nanoseconds a tap of a filter's `push`, a sample of `filter_run`, a step of `horner`, and a call of `mul_in` and
//! `div_in`. `bench/runs.py` runs this beside the same loops in C, and compares.
//!
//!     cargo bench --features runs --bench runs -- push|run|horner|interval

mod draws;

use draws::Draws;
use std::fmt::Write;
use std::hint::black_box;
use std::time::Instant;
use zugyelmas::Fixed;
use zugyelmas::filter::{Bank, Reply, Shape, filter_run};
use zugyelmas::interval::{Interval, div_in, mul_in};
use zugyelmas::memory::Global;
use zugyelmas::poly::{PolyReply, horner};

const PASSES: usize = 2001;
const SAMPLES: usize = 256;
const POINTS: usize = 4096;
const LINES: usize = 1_000_000;
const PAIRS: usize = 1024;
const PAIR_PASSES: usize = 501;

/// The fractions of outputs, taps and samples.
const SHAPE: Shape = Shape {
    out_frac: 16,
    coef_frac: 30,
    sample_frac: 16,
};

impl Draws {
    /// A number of 24 bits, of either sign.
    fn sample(&mut self) -> i32 {
        (self.next() >> 40) as i32 - (1 << 23)
    }

    /// The ends of an interval about 0, each of some `64 - down` bits.
    fn factor(&mut self, down: u32) -> (i64, i64) {
        let low = (self.next() >> down) as i64 - (1 << (63 - down));
        (low, low + (self.next() >> (down + 4)) as i64)
    }

    /// The ends of an interval of either sign, which are at least `2^places` in magnitude.
    fn divisor(&mut self, down: u32, places: u32) -> (i64, i64) {
        let low = (1 << places) + (self.next() >> (down + 3)) as i64;
        let high = low + (self.next() >> (down + 4)) as i64;
        if self.next() >> 63 == 0 {
            (low, high)
        } else {
            (-high, -low)
        }
    }
}

/// The least nanoseconds that a pass takes.
fn least(passes: usize, mut pass: impl FnMut()) -> f64 {
    let mut least = f64::MAX;
    for _ in 0..passes {
        let start = Instant::now();
        pass();
        least = least.min(start.elapsed().as_nanos() as f64);
    }
    least
}

#[inline(never)]
fn push(bank: &mut Bank<i32>, sample: i32) -> Reply<i32> {
    bank.push(0, sample)
}

fn measure_push(count: usize) {
    let mut draws = Draws(42);
    let taps: Vec<i32> = (0..count).map(|_| draws.sample()).collect();
    let samples: [i32; SAMPLES] = std::array::from_fn(|_| draws.sample());
    let mut bank = Bank::new(Global, SHAPE);
    bank.add_channel(&taps).expect("memory");
    let mut check = 0u64;
    let taken = least(PASSES, || {
        for sample in samples {
            check = check.wrapping_add(match push(&mut bank, sample) {
                Reply::Value(output) => output as u64,
                Reply::Overflow(tap) => tap as u64,
            });
        }
    });
    println!(
        "push {count} {:.4} {check}",
        taken / (SAMPLES * count) as f64
    );
}

/// Measures `horner` at a word and a fraction, of so many coefficients.
macro_rules! measure_horner {
    ($name:ident, $word:ident, $places:literal, $count:literal) => {{
        type Number = Fixed<$word, $places>;

        #[inline(never)]
        fn value(coefs: &[Number], x: Number) -> PolyReply<Number> {
            horner(coefs, x)
        }

        let mut draws = Draws(42);
        let mut next = || (draws.next() >> (64 - $places)) as $word;
        let coefs: [Number; $count] = std::array::from_fn(|_| Fixed {
            bits: next() / $count,
        });
        let points: [Number; POINTS] = std::array::from_fn(|_| Fixed { bits: next() });
        let mut check = 0u64;
        let taken = least(PASSES, || {
            for x in black_box(&points) {
                check = check.wrapping_add(match value(&coefs, *x) {
                    PolyReply::Value(value) => value.bits as u64,
                    PolyReply::Overflow(step) => step as u64,
                });
            }
        });
        let steps = (POINTS * $count) as f64;
        println!(
            "{} {} {:.4} {check}",
            stringify!($name),
            $count,
            taken / steps
        );
    }};
}

/// One number of both ends.
fn low_and_high(low: u64, high: u64) -> u64 {
    low.wrapping_mul(3).wrapping_add(high)
}

/// Measures a call on pairs of intervals at a word and a fraction. A first end has some `64 - $down` bits.
macro_rules! measure_interval {
    ($name:ident, $call:ident, $word:ident, $places:literal, $down:literal) => {{
        type Operand = Interval<$word>;

        #[inline(never)]
        fn made(a: &Operand, b: &Operand) -> Option<Operand> {
            $call(a, b, $places)
        }

        let mut draws = Draws(42);
        let interval = |(low, high): (i64, i64)| {
            Operand::new(low as $word, high as $word).expect("ends in order")
        };
        let pairs: [(Operand, Operand); PAIRS] = std::array::from_fn(|_| {
            let a = interval(draws.factor($down));
            (a, interval(draws.divisor($down, $places)))
        });
        let mut check = 0u64;
        let taken = least(PAIR_PASSES, || {
            for (a, b) in black_box(&pairs) {
                check = check.wrapping_add(match made(a, b) {
                    Some(ends) => low_and_high(ends.lo() as u64, ends.hi() as u64),
                    None => 1,
                });
            }
        });
        println!(
            "{} {} {:.4} {check}",
            stringify!($name),
            $places,
            taken / PAIRS as f64
        );
    }};
}

fn measure_run(count: usize) {
    let mut draws = Draws(42);
    let mut script = String::from("filter i32 16 30 16\ntaps");
    for _ in 0..count {
        write!(script, " {}", draws.sample()).expect("memory");
    }
    script.push('\n');
    for _ in 0..LINES {
        writeln!(script, "c0 {}", draws.sample()).expect("memory");
    }
    let mut check = 0u64;
    let mut taken = f64::MAX;
    for _ in 0..7 {
        let mut output = None;
        taken = taken.min(least(1, || {
            output = Some(filter_run(Global, black_box(script.as_bytes())));
        }));
        let output = output.expect("a run").expect("no cause");
        let step = |check: u64, byte: &u8| check.wrapping_mul(31).wrapping_add(u64::from(*byte));
        check = output.as_bytes().iter().fold(0, step);
    }
    println!("run {count} {:.4} {check}", taken / LINES as f64);
}

fn main() {
    let words: Vec<String> = std::env::args().skip(1).collect();
    let wanted = |word: &str| words.iter().any(|w| w == word);
    if wanted("push") {
        for count in [16, 64, 256] {
            measure_push(count);
        }
    }
    if wanted("run") {
        measure_run(64);
    }
    if wanted("horner") {
        measure_horner!(horner_i32, i32, 30, 8);
        measure_horner!(horner_i64, i64, 60, 8);
    }
    if wanted("interval") {
        measure_interval!(mul_in_i32, mul_in, i32, 16, 40);
        measure_interval!(mul_in_i64, mul_in, i64, 32, 17);
        measure_interval!(div_in_i32, div_in, i32, 16, 40);
        measure_interval!(div_in_i64, div_in, i64, 32, 17);
    }
}
