//! From the counts of a thermistor to smoothed degrees: a table with linear interpolation, and a filter over blocks.
//!
//!     cargo run --example calibrated

use zugyelmas::filter::{BlockOverflow, Fir};
use zugyelmas::prelude::*;
use zugyelmas::table::Table;

/// A temperature in degrees Celsius: from -256 to 255.99 in steps of 1/128.
type Celsius = FixedI16<7>;

/// Counts of the converter, from 0 to 4095.
type Counts = FixedU16<0>;

/// The temperatures that were measured at 0, 512, 1024 and so on, up to 4096 counts.
const CALIBRATION: [Celsius; 9] = [
    Celsius::lit("-40"),
    Celsius::lit("-18.5"),
    Celsius::lit("-4.25"),
    Celsius::lit("8"),
    Celsius::lit("20"),
    Celsius::lit("33.5"),
    Celsius::lit("50.25"),
    Celsius::lit("74"),
    Celsius::lit("125"),
];

/// The mean of four samples.
const TAPS: [FixedI16<15>; 4] = [FixedI16::<15>::lit("0.25"); 4];

/// The smoothed temperatures of counts, in blocks of three, or the first sample whose sum does not fit.
pub fn smoothed(counts: &[u16]) -> Result<Vec<Celsius>, BlockOverflow> {
    let table = Table {
        first: Counts::ZERO,
        step: 9,
        values: &CALIBRATION,
    };
    let degrees: Vec<Celsius> = counts
        .iter()
        .map(|counts| table.at(Counts::from_bits(*counts)))
        .collect();
    let mut past = [degrees.first().copied().unwrap_or_default(); 4];
    let mut filter = Fir::<i16, 7, 15, 7>::new(&TAPS, &mut past);
    let mut output = vec![Celsius::ZERO; degrees.len()];
    for (samples, means) in degrees.chunks(3).zip(output.chunks_mut(3)) {
        filter.push_block(samples, means)?;
    }
    Ok(output)
}

fn main() -> Result<(), BlockOverflow> {
    for degrees in smoothed(&[2048, 2050, 2300, 2304, 2290, 2560, 2560])? {
        println!("{degrees:.2}");
    }
    Ok(())
}

#[cfg(test)]
mod tests {
    use super::*;

    #[test]
    fn means_of_four() {
        let degrees = smoothed(&[2048, 2048, 2304, 2560, 2560]).expect("sums that fit");
        let number = Celsius::from_num::<f64>;
        // 20 twice, 26.75 halfway to 33.5, and 33.5 twice.
        let expected = [20.0, 20.0, 21.6875, 25.0625, 28.4375];
        for (degrees, exact) in degrees.iter().zip(expected) {
            let below = number(exact).to_bits() - degrees.to_bits();
            assert!((0..4).contains(&below), "{degrees} for {exact}");
        }
    }
}
