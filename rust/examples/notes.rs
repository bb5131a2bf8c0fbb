//! The notes of an octave: their frequencies by powers of 2, and back by logarithms.
//!
//!     cargo run --example notes
//!
//! It prints each note with its frequency in Hz, which is rounded down at each step, and how many half tones the
//! logarithm of that frequency finds above the first note.

use zugyelmas::prelude::*;

type Number = FixedI32<16>;

const NAMES: [&str; 13] = [
    "a'",
    "b flat'",
    "b'",
    "c''",
    "c sharp''",
    "d''",
    "e flat''",
    "e''",
    "f''",
    "f sharp''",
    "g''",
    "a flat''",
    "a''",
];

/// The frequency of a note so many half tones above the a' of 440 Hz; `None` if it does not fit.
fn frequency_of(half_tones: i32) -> Option<Number> {
    let octaves = Number::checked_from_num(half_tones)?.checked_div_int(12)?;
    let ratio = octaves.checked_exp2()?;
    Number::from_num(440).checked_mul(ratio)
}

/// How many half tones a frequency lies above 440 Hz; `None` if it is 0 or below.
fn half_tones_of(frequency: Number) -> Option<Number> {
    let ratio = frequency.checked_div(Number::from_num(440))?;
    ratio.checked_log2()?.checked_mul_int(12)
}

fn main() {
    for (half_tones, name) in (0..).zip(NAMES) {
        let frequency = frequency_of(half_tones).expect("a frequency of at most 880 Hz");
        let found = half_tones_of(frequency).expect("a frequency above 0");
        println!("{name:10} {frequency:.2} {found:.3}");
    }
    assert_eq!(frequency_of(12), Some(Number::from_num(880))); // 2 to the power of 1 is exact
    assert_eq!(frequency_of(12 * 7), None); // 56,320 Hz does not fit
}
