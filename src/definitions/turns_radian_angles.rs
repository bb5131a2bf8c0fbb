// Made by `make package` of crates/fixed_turns/specs/RadianAngles.antt: changes go there.

//! Angles of points in radians, rounded to the nearest up to a small part.
//!
//! From `crates/fixed_turns/specs/RadianAngles.antt`:
//!
//! ```text
//! -- (x, y), for x ≥ 0, lies to the left of the direction whose sine, below 0 or not, and cosine are s and c, or to its right,
//! -- up to (|x| + |y|) 2^-k: x s ≤ y c
//! abbrev pub IsLeft : ℕ → Bool → ℤ → ℤ → Fraction → Fraction → Type 0
//! IsLeft k below x y s c = (pos 0 ≤ℤ x) × ((pos (2 ^ k) *ℤ (x *ℤ with_sign below (s.num * c.den))) ≤ℤ (pos (2 ^ k) *ℤ (y *ℤ pos (c.num * s.den)) +ℤ pos ((unsigned_abs x + unsigned_abs y) * (s.den * c.den))))
//!
//! abbrev pub IsRight : ℕ → Bool → ℤ → ℤ → Fraction → Fraction → Type 0
//! IsRight k below x y s c = (pos 0 ≤ℤ x) × ((pos (2 ^ k) *ℤ (y *ℤ pos (c.num * s.den))) ≤ℤ (pos (2 ^ k) *ℤ (x *ℤ with_sign below (s.num * c.den)) +ℤ pos ((unsigned_abs x + unsigned_abs y) * (s.den * c.den))))
//!
//! -- so for y ≥ 0 and a direction that is q quarters further, at most 2; what lies a quarter or more away is on its side
//! unfoldable pub IsLeftBy : ℕ → ℕ → Bool → ℤ → ℤ → Fraction → Fraction → Type 0
//! IsLeftBy k zero below x y s c = (x <ℤ pos 0) ⊎ IsLeft k below x y s c
//! IsLeftBy k (suc zero) below x y s c = IsLeft k below y (neg_ℤ x) s c
//! IsLeftBy k (suc (suc zero)) below x y s c = IsLeft k below (neg_ℤ x) (neg_ℤ y) s c
//! IsLeftBy k (suc (suc (suc q))) below x y s c = ⊥
//!
//! unfoldable pub IsRightBy : ℕ → ℕ → Bool → ℤ → ℤ → Fraction → Fraction → Type 0
//! IsRightBy k zero below x y s c = IsRight k below x y s c
//! IsRightBy k (suc zero) below x y s c = IsRight k below y (neg_ℤ x) s c
//! IsRightBy k (suc (suc zero)) below x y s c = (pos 0 <ℤ x) ⊎ IsRight k below (neg_ℤ x) (neg_ℤ y) s c
//! IsRightBy k (suc (suc (suc q))) below x y s c = ⊥
//!
//! -- so at the direction of h units of 2^-g radians, for all sums of more than 10 terms, where p is pi
//! pub record IsSideWith (side : ℕ → Bool → ℤ → ℤ → Fraction → Fraction → Type 0) (p : ℕ) (x y : ℤ) (h g : ℕ) : Type 0 where
//!   pub q : ℕ
//!   pub below : Bool
//!   pub rest : ℕ
//!   pub angle : IsReduced p (pos h) g (pos 0) q below rest
//!   pub holds : (n m : ℕ) → side q below x y (sine_series (parts rest g) (n + 10)) (cosine_series (parts rest g) (m + 10))
//!
//! pub record IsSide (side : ℕ → Bool → ℤ → ℤ → Fraction → Fraction → Type 0) (x y : ℤ) (h g : ℕ) : Type 0 where
//!   pub low : IsSideWith side pi x y h g
//!   pub high : IsSideWith side (pi + 1) x y h g
//!
//! -- m units of 2^-f radians are the angle of (x, y), for y ≥ 0: that lies between m - 1/2 and m + 1/2 units, of which the
//! -- latter may be past pi; exact if the angle is 0
//! pub record IsUpperRadians (k : ℕ) (x y : ℤ) (f m : ℕ) : Type 0 where
//!   pub axis : y ≡ pos 0 → pos 0 <ℤ x → m ≡ 0
//!   pub least : (i : ℕ) → m ≡ i + 1 → IsSide (IsLeftBy k) x y (2 * i + 1) (f + 1)
//!   pub most : (2 * m + 1) * 10 ^ 39 < pi * 2 ^ (f + 1) → IsSide (IsRightBy k) x y (2 * m + 1) (f + 1)
//!
//! -- r units of 2^-f radians are the angle of (x, y), from -pi to pi: for y below 0, minus that of (x, -y)
//! pub record IsRadianAngle (k : ℕ) (x y : ℤ) (f : ℕ) (r : ℤ) : Type 0 where
//!   pub magnitude : ℕ
//!   pub angle : IsUpperRadians k x (pos (unsigned_abs y)) f magnitude
//!   pub is : r ≡ with_sign (is_below y) magnitude
//! ```
