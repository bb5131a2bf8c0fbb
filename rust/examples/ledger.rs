//! A ledger in cents: reads amounts as comma-separated lines, and writes them in whole cents with their sum.
//!
//!     cargo run --example ledger <examples/amounts.csv
//!
//! A line has a name and an amount in cents. Amounts are rounded to whole cents by bankers' rounding: to the nearest
//! cent, and to the even one of two. The line `total` has the sum that the sender claims. The program fails with 1 and
//! says why on standard error if a line is faulty, a sum does not fit, or the claimed sum is another.

use std::io::{self, Read};
use std::process::ExitCode;
use zugyelmas::decimal::DecimalError;
use zugyelmas::num::FromDecimal;
use zugyelmas::prelude::*;
use zugyelmas::word::Rounding;

/// Whole cents: a format without fraction bits.
type Cents = FixedI64<0>;

/// Why a ledger is refused.
#[derive(Debug, PartialEq, Eq)]
pub enum Refusal {
    /// A line has no comma.
    NoAmount(String),
    /// The amount of the line of that name is faulty.
    Amount(String, DecimalError),
    /// The sum does not fit.
    Overflow,
    /// The sum is not the claimed one.
    Sum(Cents),
    /// No line claims a sum.
    NoTotal,
}

/// The ledger in whole cents, or why it is refused.
pub fn booked(amounts: &str) -> Result<String, Refusal> {
    let mut ledger = String::new();
    let mut sum = Cents::from_bits(0);
    for line in amounts.lines() {
        let no_amount = || Refusal::NoAmount(line.to_string());
        let (name, amount) = line.split_once(',').ok_or_else(no_amount)?;
        let faulty = |error| Refusal::Amount(name.to_string(), error);
        if name == "total" {
            // A claimed sum is not rounded.
            let total = Cents::from_str_exact(amount).map_err(faulty)?;
            ledger += &format!("total,{sum}\n");
            return if total == sum {
                Ok(ledger)
            } else {
                Err(Refusal::Sum(sum))
            };
        }
        let cents = Cents::checked_from_str_round(amount, Rounding::Even).map_err(faulty)?;
        sum = sum.checked_add(cents).ok_or(Refusal::Overflow)?;
        ledger += &format!("{name},{cents}\n");
    }
    Err(Refusal::NoTotal)
}

fn main() -> io::Result<ExitCode> {
    let mut amounts = String::new();
    io::stdin().read_to_string(&mut amounts)?;
    match booked(&amounts) {
        Ok(ledger) => {
            print!("{ledger}");
            Ok(ExitCode::SUCCESS)
        }
        Err(refusal) => {
            eprintln!("{refusal:?}");
            Ok(ExitCode::from(1))
        }
    }
}
