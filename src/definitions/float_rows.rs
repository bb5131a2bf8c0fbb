// Made by `make package` of crates/fixed_float/specs/Rows.antt: changes go there.

//! What a float is in units, and which float is nearest to a number of units.
//! A finite float is `fin s m e`: the number m * 2 ^ e, or minus it if s is true. `up e` over `down e` is 2 ^ e.
//!
//! From `crates/fixed_float/specs/Rows.antt`:
//!
//! ```text
//! -- a float in units of 2 ^ -g, rounded; NaNs and infinities are no numbers
//! abbrev pub units_of_float : Float → ℕ → Rounding → Option ℤ
//! units_of_float nan g r = None
//! units_of_float (inf s) g r = None
//! units_of_float (fin s m e) g r = Some (rounded (with_sign s (m * up e * 2 ^ g)) (pos (down e)) r)
//!
//! -- the same, limited to a range; an infinity becomes the end on its side
//! abbrev pub saturated_float : Bool → ℕ → Float → ℕ → Rounding → Option ℤ
//! saturated_float signed n nan g r = None
//! saturated_float signed n (inf s) g r = Some (if s then lowest signed n else highest signed n)
//! saturated_float signed n (fin s m e) g r = saturating signed n (units_of_float (fin s m e) g r)
//!
//! -- the float nearest to a over 2 ^ g, ties to even
//! abbrev pub nearest_float : Format → ℤ → ℕ → Float
//! nearest_float format (pos n) g = round format false n (2 ^ g)
//! nearest_float format (negsuc n) g = round format true (suc n) (2 ^ g)
//!
//! -- the order of a over 2 ^ g and a float; a NaN has none
//! abbrev pub float_order : ℤ → ℕ → Float → Option Ordering
//! float_order a g nan = None
//! float_order a g (inf s) = Some (if s then Greater else Less)
//! float_order a g (fin s m e) = Some (int_cmp (a *ℤ pos (down e)) (with_sign s (m * up e * 2 ^ g)))
//! ```
