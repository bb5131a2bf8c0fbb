// Made by `make package` of crates/fixed_kernel/specs/RoundedRows.antt: changes go there.

//! The six rows that round, with a rounding that is named.
//!
//! From `crates/fixed_kernel/specs/RoundedRows.antt`:
//!
//! ```text
//! abbrev pub rounded_mul : ℤ → ℤ → ℕ → Rounding → ℤ
//! rounded_mul a b f r = rounded (a *ℤ b) (pos (2 ^ f)) r
//!
//! abbrev pub rounded_div : ℤ → ℤ → ℕ → Rounding → ℤ
//! rounded_div a b f r = rounded (a *ℤ pos (2 ^ f)) b r
//!
//! abbrev pub rounded_recip : ℤ → ℕ → Rounding → ℤ
//! rounded_recip a f r = rounded (pos (2 ^ (2 * f))) a r
//!
//! abbrev pub rounded_mul_add : ℤ → ℤ → ℤ → ℕ → Rounding → ℤ
//! rounded_mul_add a m c g r = rounded (a *ℤ m) (pos (2 ^ g)) r +ℤ c
//!
//! -- a product that moves up has nothing to round
//! abbrev pub rounded_add_prod_at : ℤ → ℤ → ℤ → ℤ → Rounding → ℤ
//! rounded_add_prod_at c a b (pos s) r = rounded (a *ℤ b) (pos (2 ^ s)) r +ℤ c
//! rounded_add_prod_at c a b (negsuc t) r = (a *ℤ b) *ℤ pos (2 ^ suc t) +ℤ c
//!
//! abbrev pub rounded_add_prod : ℤ → ℤ → ℤ → ℕ → ℕ → ℕ → Rounding → ℤ
//! rounded_add_prod c a b f g h r = rounded_add_prod_at c a b (pos (g + h) -ℤ pos f) r
//! ```
