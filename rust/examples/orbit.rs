//! The orbit of a satellite that sinks in thin air.
//!
//!     cargo run --example orbit
//!
//! A satellite sinks 0.07 km a day at an altitude of 400 km. The air gets denser by a factor of e every 58.5 km further
//! down, and the satellite sinks as much faster. For every 100th day the program prints the altitude in km, computed day
//! by day, then the altitude by a formula, and the minutes that one turn takes. Every machine prints the same.

use zugyelmas::prelude::*;

type Number = FixedI64<32>;

const START: Number = Number::lit("400"); // km above the ground
const LOWEST: Number = Number::lit("150");
const RATE: Number = Number::lit("0.07"); // km a day at the start
const SCALE: Number = Number::lit("58.5"); // km
const RADIUS: Number = Number::lit("6378.137"); // of the Earth, in km
const TURN: Number = Number::lit("84.489"); // the minutes of a turn at that radius

/// The km that a satellite sinks within a day from an altitude; `None` if they do not fit.
fn sinking(altitude: Number) -> Option<Number> {
    let depth = START.checked_sub(altitude)?.checked_div(SCALE)?;
    RATE.checked_mul(depth.checked_exp()?)
}

/// The altitude after so many days, if it sinks at every moment: `400 + 58.5 ln(1 - 0.07 days / 58.5)`. `None` if the
/// satellite has fallen by then.
fn altitude_after(days: i64) -> Option<Number> {
    let part = RATE.checked_mul_int(days)?.checked_div(SCALE)?;
    let logarithm = Number::from_num(1).checked_sub(part)?.checked_ln()?;
    START.checked_add(SCALE.checked_mul(logarithm)?)
}

/// The minutes of a turn, by Kepler's third law: they grow with the radius to the power of 3/2.
fn minutes(altitude: Number) -> Option<Number> {
    let ratio = RADIUS.checked_add(altitude)?.checked_div(RADIUS)?;
    TURN.checked_mul(ratio.checked_pow(Number::lit("1.5"))?)
}

/// A line for every 100th day down to 150 km, and one for the day on which the satellite is lower; `None` if a number
/// does not fit.
pub fn table() -> Option<String> {
    let (mut text, mut altitude) = (String::new(), START);
    for days in 0_i64.. {
        if altitude < LOWEST {
            return Some(text + &format!("{days:4} below {LOWEST} km\n"));
        }
        if days % 100 == 0 {
            let (exact, minutes) = (altitude_after(days)?, minutes(altitude)?);
            text += &format!("{days:4} {altitude:8.3} {exact:8.3} {minutes:7.3}\n");
        }
        altitude = altitude.checked_sub(sinking(altitude)?)?;
    }
    None
}

fn main() {
    print!("{}", table().expect("numbers that fit"));
}
