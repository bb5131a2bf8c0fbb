//! A controller with a proportional, an integral and a derivative part, which heats an oven to 180 degrees.
//!
//!     cargo run --example heater
//!
//! It prints the temperature and the power after every 20th step. Sums and products saturate, and the power is held
//! between none and all.

use zugyelmas::prelude::*;

/// A temperature or an error in degrees, a sum of errors, or a power, of which 1 is all.
type Number = FixedI32<16>;

/// A gain, from -128 to just below 128.
type Gain = FixedI32<24>;

const TARGET: Number = Number::lit("180");
const ROOM: Number = Number::lit("20");
const ALL: Number = Number::lit("1");

/// The gains of the three parts, and what is kept from step to step.
pub struct Controller {
    proportional: Gain,
    integral: Gain,
    derivative: Gain,
    sum: Number,
    last: Number,
}

impl Default for Controller {
    fn default() -> Self {
        Controller {
            proportional: Gain::lit("0.05"),
            integral: Gain::lit("0.003"),
            derivative: Gain::lit("0.05"),
            sum: Number::ZERO,
            last: Number::ZERO,
        }
    }
}

impl Controller {
    /// The power after an error. Only errors at which the power is not held count in the sum.
    pub fn power(&mut self, error: Number) -> Number {
        let change = error.saturating_sub(self.last);
        self.last = error;
        let wanted = Number::ZERO
            .saturating_add_prod(error, self.proportional)
            .saturating_add_prod(self.sum, self.integral)
            .saturating_add_prod(change, self.derivative);
        let power = wanted.clamp(Number::ZERO, ALL);
        if power == wanted {
            self.sum = self.sum.saturating_add(error);
        }
        power
    }
}

/// The temperature of the oven after one step: all power adds 4 degrees, and 1/64 of what is above the room's is lost.
fn heated(temperature: Number, power: Number) -> Number {
    let lost = Gain::lit("-0.015625");
    temperature
        .saturating_add_prod(power, Gain::lit("4"))
        .saturating_add_prod(temperature.saturating_sub(ROOM), lost)
}

/// Temperatures and powers, step by step.
pub fn steps(count: usize) -> Vec<(Number, Number)> {
    let mut controller = Controller::default();
    let mut temperature = ROOM;
    let step = |_| {
        let power = controller.power(TARGET.saturating_sub(temperature));
        temperature = heated(temperature, power);
        (temperature, power)
    };
    (0..count).map(step).collect()
}

fn main() {
    for (temperature, power) in steps(200).iter().step_by(20) {
        println!("{temperature:7.2} {power:.2}");
    }
}

#[cfg(test)]
mod tests {
    use super::*;

    #[test]
    fn the_oven_reaches_its_target() {
        let steps = steps(400);
        assert_eq!(steps[0].1, ALL);
        assert!(
            steps
                .iter()
                .all(|(_, power)| (Number::ZERO..=ALL).contains(power))
        );
        let hottest = steps.iter().map(|(temperature, _)| *temperature).max();
        assert!(hottest < Some(Number::lit("190")), "{hottest:?}");
        for (temperature, power) in &steps[300..] {
            assert!(
                temperature.abs_diff(TARGET) < FixedU32::lit("0.1"),
                "{temperature}"
            );
            // 160 degrees above the room's lose 2.5 a step, which 5/8 of the power adds.
            assert!(
                power.abs_diff(Number::lit("0.625")) < FixedU32::lit("0.01"),
                "{power}"
            );
        }
    }
}
