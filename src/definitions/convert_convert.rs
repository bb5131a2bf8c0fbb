// Made by `make package` of crates/fixed_convert/specs/Convert.antt: changes go there.

//! The number a / 2 ^ f, in units of 2 ^ -g and beside the number b / 2 ^ g.
//!
//! From `crates/fixed_convert/specs/Convert.antt`:
//!
//! ```text
//! -- rounded down
//! abbrev pub exact_convert : ℤ → ℕ → ℕ → ℤ
//! exact_convert a f g = floor_quotient (a *ℤ pos (2 ^ g)) (2 ^ f)
//!
//! -- with that rounding
//! abbrev pub rounded_convert : ℤ → ℕ → ℕ → Rounding → ℤ
//! rounded_convert a f g r = rounded (a *ℤ pos (2 ^ g)) (pos (2 ^ f)) r
//!
//! -- both are brought to units of 2 ^ -(f + g)
//! abbrev pub exact_order : ℤ → ℕ → ℤ → ℕ → Ordering
//! exact_order a f b g = int_cmp (a *ℤ pos (2 ^ g)) (b *ℤ pos (2 ^ f))
//!
//! -- the product of a / 2 ^ f and b / 2 ^ g in units of 2 ^ -h, with that rounding
//! abbrev pub rounded_mul_into : ℤ → ℕ → ℤ → ℕ → ℕ → Rounding → ℤ
//! rounded_mul_into a f b g h r = rounded_convert (a *ℤ b) (f + g) h r
//! ```
