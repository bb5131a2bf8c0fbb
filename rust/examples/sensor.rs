//! From a sensor's samples to a filtered, scaled and logged temperature, as docs/TUTORIAL.md explains it.
//!
//!     cargo run --example sensor <examples/samples.csv
//!
//! Each line has a sample from 0 to 4095. For each the program prints the temperature, the filtered level, and the level
//! in whole tenths of a degree. It fails with 1 at the first line that is no sample.

use std::io::{self, Read};
use std::process::ExitCode;
use zugyelmas::prelude::*;
use zugyelmas::word::Rounding;

/// A temperature in degrees Celsius: from -32768 to 32767.99998 in steps of 1/65536.
type Celsius = FixedI32<16>;

/// A factor from -2 to just below 2, in steps of 2^-30.
type Factor = FixedI32<30>;

/// The temperature of a sample, or `None` if the text is no sample.
fn celsius(sample: &str) -> Option<Celsius> {
    let counts: u16 = sample.parse().ok().filter(|counts| *counts < 4096)?;
    let degrees_per_count = Factor::from_num(0.08056640625); // 330/4096, which is exact
    Celsius::checked_from_num(counts)?.checked_mul_add(degrees_per_count, Celsius::from_num(-50))
}

/// The level after one more temperature: a quarter of the way to it.
fn smoothed(level: Celsius, temperature: Celsius) -> Celsius {
    let distance = temperature.saturating_sub(level);
    level.saturating_add_prod(distance, Factor::from_num(0.25))
}

/// A temperature in whole tenths of a degree: the nearest, and the even one at a tie.
fn tenths(temperature: Celsius) -> i16 {
    i16::saturating_from_num_round(temperature.saturating_mul_int(10), Rounding::Even)
}

/// The log of the samples, or the first line that is no sample.
fn log(samples: &str) -> Result<String, &str> {
    let mut log = String::new();
    let mut level = None;
    for line in samples.lines() {
        let temperature = celsius(line).ok_or(line)?;
        let next = level.map_or(temperature, |level| smoothed(level, temperature));
        log += &format!("{line} {temperature:.3} {next:.3} {}\n", tenths(next));
        level = Some(next);
    }
    Ok(log)
}

fn main() -> io::Result<ExitCode> {
    let mut samples = String::new();
    io::stdin().read_to_string(&mut samples)?;
    match log(&samples) {
        Ok(log) => print!("{log}"),
        Err(line) => {
            eprintln!("no sample: {line}");
            return Ok(ExitCode::from(1));
        }
    }
    Ok(ExitCode::SUCCESS)
}

#[cfg(test)]
mod tests {
    use super::*;

    #[test]
    fn each_step() {
        assert_eq!(celsius("900"), Some(Celsius::from_num(22.509765625)));
        assert_eq!(celsius("4095"), Some(Celsius::from_num(279.91943359375)));
        assert_eq!(celsius("4096"), None);
        assert_eq!(celsius("-1"), None);
        let (level, temperature) = (Celsius::from_num(20), Celsius::from_num(24));
        assert_eq!(smoothed(level, temperature), Celsius::from_num(21));
        assert_eq!(
            smoothed(Celsius::MIN, Celsius::MAX),
            Celsius::from_num(-24576) - Celsius::DELTA
        );
        assert_eq!(tenths(Celsius::from_num(22.25)), 222);
        assert_eq!(tenths(Celsius::from_num(22.75)), 228);
        assert_eq!(tenths(Celsius::MAX), i16::MAX);
        assert_eq!(log("900\n4096\n"), Err("4096"));
    }
}
