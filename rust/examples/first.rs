//! The first program of README.md, which quotes it.
//!
//!     cargo run --example first

use zugyelmas::prelude::*;

const GAIN: FixedI32<16> = FixedI32::lit("1.5"); // 98304 units of 1/65536

fn main() {
    let level = FixedI32::<16>::from_num(2);
    println!("{:?}", GAIN.checked_mul(level)); // the exact result fits
    println!("{}", level.saturating_mul_int(1_000_000)); // the largest number
    let tenth: FixedI32<16> = "0.1".parse().expect("a decimal"); // 6554 units, the nearest
    println!("{tenth} {tenth:.6}");
    println!("{}", GAIN * level + 2 * level);
}
