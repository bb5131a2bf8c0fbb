// Made by `make package` of crates/fixed_float/specs/Patterns.antt: changes go there.

//! Floats by their bits, and the nearest of them.
//! A pattern is, from above, the sign, the exponent's field and the fraction. That is below hid f: 2 ^ 52 of an `f64`
//! and 2 ^ 23 of an `f32`. A field of `ones f`, all bits 1, is that of an infinity or a NaN.
//!
//! From `crates/fixed_float/specs/Patterns.antt`:
//!
//! ```text
//! abbrev pub field_of : Format → ℕ → ℕ
//! field_of f b = b % top f / hid f
//!
//! abbrev pub fraction_of : Format → ℕ → ℕ
//! fraction_of f b = b % hid f
//!
//! -- how many of the least floats above 0, 2 ^ -low f, the field x and the fraction t are; with the field 0 the leading
//! -- digit is 0, and the exponent that of the field 1
//! abbrev pub least_floats : Format → ℕ → ℕ → ℕ
//! least_floats f zero t = t
//! least_floats f (suc x) t = (hid f + t) * 2 ^ x
//!
//! -- the same of the pattern b, with its sign
//! abbrev pub number_of : Format → ℕ → ℤ
//! number_of f b = with_sign (nat_le (top f) b) (least_floats f (field_of f b) (fraction_of f b))
//!
//! -- how far a / d lies from the float of the pattern b, times d * 2 ^ low f
//! abbrev pub distance : Format → ℤ → ℕ → ℕ → ℕ
//! distance f a d b = nat_abs (a *ℤ pos (2 ^ low f) -ℤ number_of f b *ℤ pos d)
//!
//! -- b is the pattern of a finite float, no other is nearer to a / d, and if another is as near, the last bit of b is 0
//! pub record IsNearestOfAll (f : Format) (a : ℤ) (d b : ℕ) : Type 0 where
//!   pub finite : field_of f b < ones f
//!   pub near : (c : ℕ) → field_of f c < ones f → distance f a d b ≤ distance f a d c
//!   pub tie : (c : ℕ) → field_of f c < ones f → distance f a d b ≡ distance f a d c → number_of f b ≢ number_of f c → b % 2 ≡ 0
//! ```
