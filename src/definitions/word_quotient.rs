// Made by `make package` of crates/fixed_word/specs/Quotient.antt: changes go there.

//! Quotients of whole numbers: as functions that compute, and by the equations that only they meet.
//!
//! From `crates/fixed_word/specs/Quotient.antt`:
//!
//! ```text
//! -- x over d, rounded down, for d above 0
//! abbrev pub floor_quotient : ℤ → ℕ → ℤ
//! floor_quotient (pos a) d = pos (a / d)
//! floor_quotient (negsuc a) d = negsuc (a / d)
//!
//! -- x over d, rounded toward zero
//! abbrev pub truncated_quotient : ℤ → ℤ → ℤ
//! truncated_quotient = int_div
//!
//! -- the quotient of x by d whose remainder is at least 0 and below the magnitude of d, and that remainder
//! abbrev pub euclidean_quotient : ℤ → ℤ → ℤ
//! euclidean_quotient = int_div_euclid
//!
//! abbrev pub euclidean_remainder : ℤ → ℤ → ℤ
//! euclidean_remainder = int_rem_euclid
//!
//! -- ---- the equations
//!
//! -- q is x over d, rounded down
//! pub record IsFloor (x : ℤ) (d : ℕ) (q : ℤ) : Type 0 where
//!   pub below : (q *ℤ pos d) ≤ℤ x
//!   pub above : x <ℤ ((q +ℤ pos 1) *ℤ pos d)
//!
//! -- t is x over d, rounded toward zero: its magnitude is that of the magnitudes rounded down, and its sign that of x d
//! pub record IsTruncated (x d t : ℤ) : Type 0 where
//!   pub size : pos (nat_abs t) ≡ floor_quotient (pos (nat_abs x)) (nat_abs d)
//!   pub sign : (t ≡ pos 0) ⊎ (((pos 0 <ℤ t) × (pos 0 <ℤ (x *ℤ d))) ⊎ ((t <ℤ pos 0) × ((x *ℤ d) <ℤ pos 0)))
//!
//! -- q and r are the Euclidean pair of x and d
//! pub record IsEuclidean (x d q r : ℤ) : Type 0 where
//!   pub sum : x ≡ q *ℤ d +ℤ r
//!   pub from_zero : pos 0 ≤ℤ r
//!   pub small : r <ℤ pos (nat_abs d)
//! ```
