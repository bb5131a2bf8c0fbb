// Made by `make package` of crates/fixed_turns/specs/Sines.antt: changes go there.

//! Sines and cosines of angles in turns, rounded to the nearest up to a small part.
//!
//! From `crates/fixed_turns/specs/Sines.antt`:
//!
//! ```text
//! -- pi = 3.141592653589793238462643383279502884197.. lies between this number of units of 10^-39 and the next
//! abbrev pub pi : ℕ
//! pi = 3141592653589793238462643383279502884197
//!
//! -- a number of units of 2^-f quarter turns, in radians: p 10^-39 / 2 a quarter
//! abbrev pub radians : ℕ → ℕ → ℕ → Fraction
//! radians p rest f = record { num = p * rest; den = 2 * 10 ^ 39 * 2 ^ f }
//!
//! -- r units of 2^-f differ from y by half a unit and 2^-k at most
//! pub record IsNear (k : ℕ) (y : Fraction) (f r : ℕ) : Type 0 where
//!   pub below : r * 2 ^ (k + 1) * y.den ≤ 2 ^ f * 2 ^ (k + 1) * y.num + (2 ^ k + 2 ^ (f + 1)) * y.den
//!   pub above : 2 ^ f * 2 ^ (k + 1) * y.num ≤ r * 2 ^ (k + 1) * y.den + (2 ^ k + 2 ^ (f + 1)) * y.den
//!
//! -- on words of n bits k is this
//! abbrev pub sine_room : ℕ → ℕ
//! sine_room n = if nat_le n 32 then 41 else 61
//!
//! -- so for each sum of more than 10 terms: r is at most 1, and exactly e at the angle 0
//! pub record IsSumAt (series : Fraction → ℕ → Fraction) (k : ℕ) (y : Fraction) (f e r : ℕ) : Type 0 where
//!   pub near : (n : ℕ) → IsNear k (series y (n + 10)) f r
//!   pub most : r ≤ 2 ^ f
//!   pub exact : y.num ≡ 0 → r ≡ e
//!
//! -- r is the sine of q quarter turns and y radians, which may lie below 0: by the sine or the cosine of y; a half turn
//! -- changes the sign
//! unfoldable pub IsSineBy : ℕ → ℕ → Bool → Fraction → ℕ → ℤ → Type 0
//! IsSineBy k zero below y f r = (m : ℕ) × (r ≡ with_sign below m) × IsSumAt sine_series k y f 0 m
//! IsSineBy k (suc zero) below y f r = (m : ℕ) × (r ≡ pos m) × IsSumAt cosine_series k y f (2 ^ f) m
//! IsSineBy k (suc (suc q)) below y f r = IsSineBy k q below y f (neg_ℤ r)
//!
//! -- so with both numbers beside pi, where the rest is in units of 2^-f quarter turns
//! pub record IsSineAt (k q : ℕ) (below : Bool) (rest f : ℕ) (r : ℤ) : Type 0 where
//!   pub low : IsSineBy k q below (radians pi rest f) f r
//!   pub high : IsSineBy k q below (radians (pi + 1) rest f) f r
//!
//! -- a units of 2^-f turns are whole turns, q quarters and a rest of an eighth of a turn at most, which may lie below 0
//! pub record IsAngle (a : ℤ) (f q : ℕ) (below : Bool) (rest : ℕ) : Type 0 where
//!   pub turns : ℤ
//!   pub is : pos 4 *ℤ a ≡ (pos 4 *ℤ turns +ℤ pos q) *ℤ pos (2 ^ f) +ℤ with_sign below rest
//!   pub quarters : q ≤ 3
//!   pub small : 2 * rest ≤ 2 ^ f
//!
//! -- r units are the sine, or the cosine, which is the sine of a quarter turn more
//! pub record IsSine (k : ℕ) (a : ℤ) (f : ℕ) (r : ℤ) : Type 0 where
//!   pub q : ℕ
//!   pub below : Bool
//!   pub rest : ℕ
//!   pub angle : IsAngle a f q below rest
//!   pub sine : IsSineAt k q below rest f r
//!
//! pub record IsCosine (k : ℕ) (a : ℤ) (f : ℕ) (r : ℤ) : Type 0 where
//!   pub q : ℕ
//!   pub below : Bool
//!   pub rest : ℕ
//!   pub angle : IsAngle a f q below rest
//!   pub sine : IsSineAt k (q + 1) below rest f r
//!
//! abbrev pub sum_of_squares : ℤ → ℤ → ℕ
//! sum_of_squares s c = unsigned_abs s * unsigned_abs s + unsigned_abs c * unsigned_abs c
//!
//! -- s^2 + c^2, of numbers in units of 2^-f, differs from 1 by 2 2^-f and 4 2^-k at most
//! pub record IsOfUnitLength (k f : ℕ) (s c : ℤ) : Type 0 where
//!   pub below : 2 ^ k * sum_of_squares s c ≤ 2 ^ k * (2 ^ f * 2 ^ f) + 2 ^ (f + 1) * (2 ^ k + 2 ^ (f + 1))
//!   pub above : 2 ^ k * (2 ^ f * 2 ^ f) ≤ 2 ^ k * sum_of_squares s c + 2 ^ (f + 1) * (2 ^ k + 2 ^ (f + 1))
//!
//! -- both numbers, and nothing where one is missing
//! abbrev pub both : Option ℤ → Option ℤ → Option (ℤ × ℤ)
//! both None y = None
//! both (Some x) None = None
//! both (Some x) (Some y) = Some (x, y)
//! ```
