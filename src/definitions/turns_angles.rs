// Made by `make package` of crates/fixed_turns/specs/Angles.antt: changes go there.

//! Angles of points in turns, rounded to the nearest up to a small part.
//!
//! From `crates/fixed_turns/specs/Angles.antt`:
//!
//! ```text
//! -- on words of n bits k is this
//! abbrev pub turn_room : ℕ → ℕ
//! turn_room n = if nat_le n 32 then 40 else 60
//!
//! -- whether x is below 0
//! abbrev pub is_below : ℤ → Bool
//! is_below (pos n) = false
//! is_below (negsuc n) = true
//!
//! -- (a, b) lies to the left of the direction whose sine and cosine are s and c, or to its right, up to a 2^-k: a s ≤ b c
//! abbrev pub IsLeftOf : ℕ → ℕ → ℕ → Fraction → Fraction → Type 0
//! IsLeftOf k a b s c = 2 ^ k * (a * s.num * c.den) ≤ 2 ^ k * (b * c.num * s.den) + a * (s.den * c.den)
//!
//! abbrev pub IsRightOf : ℕ → ℕ → ℕ → Fraction → Fraction → Type 0
//! IsRightOf k a b s c = 2 ^ k * (b * c.num * s.den) ≤ 2 ^ k * (a * s.num * c.den) + a * (s.den * c.den)
//!
//! -- so for all sums of more than 10 terms at h units of 2^-f quarter turns, with both numbers beside pi
//! pub record IsBeside (side : ℕ → ℕ → ℕ → Fraction → Fraction → Type 0) (k a b h f : ℕ) : Type 0 where
//!   pub low : (n m : ℕ) → side k a b (sine_series (radians pi h f) (n + 10)) (cosine_series (radians pi h f) (m + 10))
//!   pub high : (n m : ℕ) → side k a b (sine_series (radians (pi + 1) h f) (n + 10)) (cosine_series (radians (pi + 1) h f) (m + 10))
//!
//! -- (a, b) lies between m - 1/2 and m + 1/2 units of 2^-g quarter turns, of which the latter may be past an eighth of a turn
//! pub record IsNearest (k a b g m : ℕ) : Type 0 where
//!   pub least : (i : ℕ) → m ≡ i + 1 → IsBeside IsLeftOf k a b (2 * i + 1) (g + 1)
//!   pub most : 2 * m + 1 < 2 ^ g → IsBeside IsRightOf k a b (2 * m + 1) (g + 1)
//!
//! -- m units of 2^-g quarter turns are the angle of (a, b), for 0 ≤ b ≤ a: exact on the axis and, if a unit is so small, on
//! -- the diagonal
//! pub record IsRestOf (k a b g m : ℕ) : Type 0 where
//!   pub small : 2 * m ≤ 2 ^ g
//!   pub axis : b ≡ 0 → m ≡ 0
//!   pub diagonal : b ≡ a → m ≡ 2 ^ g / 2
//!   pub between : 0 < b → b < a → IsNearest k a b g m
//!
//! -- (x, y), turned back by q quarters, is (a, b) or (a, -b)
//! unfoldable pub IsTurned : ℕ → ℤ → ℤ → ℕ → Bool → ℕ → Type 0
//! IsTurned zero x y a below b = (x ≡ pos a) × (y ≡ with_sign below b)
//! IsTurned (suc q) x y a below b = IsTurned q y (neg_ℤ x) a below b
//!
//! -- m units of 2^-g quarter turns are the angle of (x, y), from 0 to 1/2: quarters and a rest, which may lie below 0
//! pub record IsByQuarters (k : ℕ) (x : ℤ) (y g m : ℕ) : Type 0 where
//!   pub q : ℕ
//!   pub a : ℕ
//!   pub below : Bool
//!   pub b : ℕ
//!   pub rest : ℕ
//!   pub quarters : q ≤ 2
//!   pub turned : IsTurned q x (pos y) a below b
//!   pub octant : b ≤ a
//!   pub is_rest : IsRestOf k a b g rest
//!   pub is : pos m ≡ pos (q * 2 ^ g) +ℤ with_sign below rest
//!
//! -- m units of 2^-f turns are the angle of (x, y), from 0 to 1/2; if a unit is half a turn, 1/4 is rounded to 0
//! unfoldable pub IsUpperAngle : ℕ → ℤ → ℕ → ℕ → ℕ → Type 0
//! IsUpperAngle k x y zero m = m ≡ 0
//! IsUpperAngle k x y (suc zero) m = m ≡ (if is_below x then 1 else 0)
//! IsUpperAngle k x y (suc (suc g)) m = IsByQuarters k x y g m
//!
//! -- r units of 2^-f turns are the angle of (x, y), from -1/2 to 1/2: for y below 0, minus that of (x, -y)
//! pub record IsAngleOf (k : ℕ) (x y : ℤ) (f : ℕ) (r : ℤ) : Type 0 where
//!   pub magnitude : ℕ
//!   pub angle : IsUpperAngle k x (unsigned_abs y) f magnitude
//!   pub is : r ≡ with_sign (is_below y) magnitude
//! ```
