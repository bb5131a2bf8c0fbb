// Made by `make package` of crates/fixed_interval/specs/Containment.antt: changes go there.

//! Rationals inside an interval, and intervals inside intervals.
//!
//! From `crates/fixed_interval/specs/Containment.antt`:
//!
//! ```text
//! -- x / d is in e, for d of at least 1
//! pub record IsInside (x : ℤ) (d : ℕ) (e : Ends) : Type 0 where
//!   pub from_low : (e.low *ℤ pos d) ≤ℤ x
//!   pub to_high : x ≤ℤ (e.high *ℤ pos d)
//!
//! -- the quotient of x / d by y / d, with f fraction bits, is in e, for y other than 0
//! pub record IsInsideOver (x y : ℤ) (f : ℕ) (e : Ends) : Type 0 where
//!   pub above : pos 0 <ℤ y → ((e.low *ℤ y) ≤ℤ (x *ℤ pos (2 ^ f))) × ((x *ℤ pos (2 ^ f)) ≤ℤ (e.high *ℤ y))
//!   pub below : y <ℤ pos 0 → ((e.high *ℤ y) ≤ℤ (x *ℤ pos (2 ^ f))) × ((x *ℤ pos (2 ^ f)) ≤ℤ (e.low *ℤ y))
//!
//! -- the root of x / d, with f fraction bits, is in e
//! pub record IsInsideRoot (x : ℤ) (d f : ℕ) (e : Ends) : Type 0 where
//!   pub low : pos 0 ≤ℤ e.low
//!   pub high : pos 0 ≤ℤ e.high
//!   pub from_low : ((e.low *ℤ e.low) *ℤ pos d) ≤ℤ (x *ℤ pos (2 ^ f))
//!   pub to_high : (x *ℤ pos (2 ^ f)) ≤ℤ ((e.high *ℤ e.high) *ℤ pos d)
//!
//! -- r is the least number of at least 0 whose square is at least a with f fraction bits
//! pub record IsCeilingRoot (a : ℤ) (f : ℕ) (r : ℤ) : Type 0 where
//!   pub from_zero : pos 0 ≤ℤ r
//!   pub above : (a *ℤ pos (2 ^ f)) ≤ℤ (r *ℤ r)
//!   pub least : (t : ℤ) → pos 0 ≤ℤ t → (a *ℤ pos (2 ^ f)) ≤ℤ (t *ℤ t) → r ≤ℤ t
//!
//! -- ---- e holds the result of an operation for every rational in a, and every one in b over the same divisor
//!
//! -- P holds for the two numbers and their divisor
//! abbrev pub ForEach : Ends → Ends → (ℤ → ℤ → ℕ → Type 0) → Type 0
//! ForEach a b P = (x y : ℤ) (d : ℕ) → 0 < d → IsInside x d a → IsInside y d b → P x y d
//!
//! abbrev pub HoldsSums : Ends → Ends → Ends → Type 0
//! HoldsSums a b e = ForEach a b (λ x y d. IsInside (x +ℤ y) d e)
//!
//! abbrev pub HoldsDifferences : Ends → Ends → Ends → Type 0
//! HoldsDifferences a b e = ForEach a b (λ x y d. IsInside (x -ℤ y) d e)
//!
//! abbrev pub HoldsProducts : Ends → Ends → ℕ → Ends → Type 0
//! HoldsProducts a b f e = ForEach a b (λ x y d. IsInside (x *ℤ y) (d * d * 2 ^ f) e)
//!
//! abbrev pub HoldsQuotients : Ends → Ends → ℕ → Ends → Type 0
//! HoldsQuotients a b f e = ForEach a b (λ x y d. IsInsideOver x y f e)
//!
//! abbrev pub HoldsRoots : Ends → ℕ → Ends → Type 0
//! HoldsRoots a f e = (x : ℤ) (d : ℕ) → 0 < d → IsInside x d a → IsInsideRoot x d f e
//!
//! abbrev pub HoldsNegations : Ends → Ends → Type 0
//! HoldsNegations a e = (x : ℤ) (d : ℕ) → 0 < d → IsInside x d a → IsInside (neg_ℤ x) d e
//!
//! abbrev pub HoldsMagnitudes : Ends → Ends → Type 0
//! HoldsMagnitudes a e = (x : ℤ) (d : ℕ) → 0 < d → IsInside x d a → IsInside (exact_abs x) d e
//!
//! abbrev pub HoldsSquares : Ends → ℕ → Ends → Type 0
//! HoldsSquares a f e = (x : ℤ) (d : ℕ) → 0 < d → IsInside x d a → IsInside (x *ℤ x) (d * d * 2 ^ f) e
//!
//! -- ---- a is an interval inside b
//! pub record IsWithin (a b : Ends) : Type 0 where
//!   pub from_low : b.low ≤ℤ a.low
//!   pub ordered : a.low ≤ℤ a.high
//!   pub to_high : a.high ≤ℤ b.high
//!
//! -- the ends are defined, fit, and are within e
//! abbrev pub FitsWithin : Bool → ℕ → Option Ends → Ends → Type 0
//! FitsWithin signed n ends e = (r : Ends) × (fitting signed n ends ≡ Some r) × IsWithin r e
//!
//! -- narrower operands have a narrower result
//! abbrev pub IsMonotone : (Ends → Ends → Option Ends) → Type 0
//! IsMonotone operation = (signed : Bool) (n : ℕ) (a b c d e : Ends) → IsWithin c a → IsWithin d b → fitting signed n (operation a b) ≡ Some e → FitsWithin signed n (operation c d) e
//!
//! abbrev pub IsMonotoneOfOne : (Ends → Option Ends) → Type 0
//! IsMonotoneOfOne operation = (signed : Bool) (n : ℕ) (a c e : Ends) → IsWithin c a → fitting signed n (operation a) ≡ Some e → FitsWithin signed n (operation c) e
//!
//! -- ---- no interval that holds all of it is narrower: the ends e are within r
//! pub record Encloses (r e : Ends) : Type 0 where
//!   pub from_low : r.low ≤ℤ e.low
//!   pub to_high : e.high ≤ℤ r.high
//!
//! -- whatever holds every result of the operation on two intervals also holds its ends
//! abbrev pub IsTight : (Ends → Ends → Option Ends) → (Ends → Ends → Ends → Type 0) → Type 0
//! IsTight operation holds = (a b e r : Ends) → a.low ≤ℤ a.high → b.low ≤ℤ b.high → operation a b ≡ Some e → holds a b r → Encloses r e
//!
//! abbrev pub IsTightOfOne : (Ends → Option Ends) → (Ends → Ends → Type 0) → Type 0
//! IsTightOfOne operation holds = (a e r : Ends) → a.low ≤ℤ a.high → operation a ≡ Some e → holds a r → Encloses r e
//! ```
