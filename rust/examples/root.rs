//! The root of `x^3 - x - 2` between 1 and 2, enclosed by bisection.
//!
//!     cargo run --example root
//!
//! It prints two numbers between which the root lies. They get nearer as long as the sign in their middle is certain.

use zugyelmas::Enclosure;
use zugyelmas::prelude::*;

type Number = FixedI32<24>;

/// Two numbers between which `x^3 - x - 2` lies, or `None` if one does not fit.
fn cubic(x: Number) -> Option<Enclosure<i32, 24>> {
    let x = Enclosure::point(x);
    let two = Enclosure::point(Number::lit("2"));
    x.checked_square()?
        .checked_mul(x)?
        .checked_sub(x)?
        .checked_sub(two)
}

/// Two numbers between which the root lies.
pub fn root() -> Option<Enclosure<i32, 24>> {
    let zero = Enclosure::point(Number::ZERO);
    let (mut low, mut high) = (Number::lit("1"), Number::lit("2"));
    loop {
        let middle = low.mean(high);
        let value = cubic(middle)?;
        if middle == low {
            break;
        } else if value.certainly_lt(zero) {
            low = middle;
        } else if zero.certainly_lt(value) {
            high = middle;
        } else {
            break;
        }
    }
    Enclosure::new(low, high)
}

fn main() {
    match root() {
        Some(root) => println!("{:.8} {:.8}", root.low(), root.high()),
        None => println!("a value does not fit"),
    }
}

#[cfg(test)]
mod tests {
    use super::*;

    #[test]
    fn the_root_lies_within() {
        let root = root().expect("values that fit");
        // The root is 1.5213797068..., which is 25524515.96 units.
        assert!(
            root.contains(Number::from_bits(25_524_515))
                && root.contains(Number::from_bits(25_524_516))
        );
        assert!(root.width() <= FixedU32::from_bits(8));
    }
}
