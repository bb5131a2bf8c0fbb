// Made by `make package` of crates/tests_policy/src/first_lines.rt, which is proved: changes go there.

//! The first lines of code that the README shows.

use crate::num::FixedI32;
use crate::policy::Checked;
use crate::strict::Saturating;

#[test]
fn first_lines() {
    let gain = FixedI32::<16> { bits: 98304 };
    let level = FixedI32::<16> { bits: 131072 };
    let product = gain.checked_mul(level);
    let held = level.saturating_mul_int(1_000_000);
    let sum = gain * level + 2 * level;
    assert!(product == Some(FixedI32::<16> { bits: 196608 }));
    assert!(held.bits == i32::MAX && sum.bits == 458752);
}
