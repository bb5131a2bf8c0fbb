// Made by `make package` of crates/fixed_kernel/specs/Rounded.antt: changes go there.

//! Quotients by a named rounding: as a function that computes, and by the equations that only it meets.
//!
//! From `crates/fixed_kernel/specs/Rounded.antt`:
//!
//! ```text
//! -- the nearest to a over d, for d above 0: one more than a / d where the remainder is more than half of d, or is half of
//! -- it and a / d is odd
//! abbrev pub nearest : ℕ → ℕ → ℕ
//! nearest a d = if nat_le (2 * (a % d) + a / d % 2) d then a / d else suc (a / d)
//!
//! -- the nearest to x over d, for d above 0
//! abbrev pub nearest_quotient : ℤ → ℕ → ℤ
//! nearest_quotient (pos a) d = pos (nearest a d)
//! nearest_quotient (negsuc a) d = neg_ℤ (pos (nearest (suc a) d))
//!
//! -- the quotient of x by d, and of -x by -d where d lies below 0
//! abbrev pub by_sign_of : (ℤ → ℕ → ℤ) → ℤ → ℤ → ℤ
//! by_sign_of quotient x (pos d) = quotient x d
//! by_sign_of quotient x (negsuc d) = quotient (neg_ℤ x) (suc d)
//!
//! -- x over d with that rounding, for d not 0
//! abbrev pub rounded : ℤ → ℤ → Rounding → ℤ
//! rounded x d Down = by_sign_of floor_quotient x d
//! rounded x d Zero = truncated_quotient x d
//! rounded x d Even = by_sign_of nearest_quotient x d
//!
//! -- ---- the equations
//!
//! -- q is x over d, rounded down
//! abbrev pub IsFloorOver : ℤ → ℤ → ℤ → Type 0
//! IsFloorOver x (pos d) q = IsFloor x d q
//! IsFloorOver x (negsuc d) q = IsFloor (neg_ℤ x) (suc d) q
//!
//! -- q is nearest to x over d, and even where another is as near
//! pub record IsNearestEven (x d q : ℤ) : Type 0 where
//!   pub near : 2 * nat_abs (x -ℤ q *ℤ d) ≤ nat_abs d
//!   pub tie : 2 * nat_abs (x -ℤ q *ℤ d) ≡ nat_abs d → nat_abs q % 2 ≡ 0
//!
//! -- q is x over d with that rounding
//! abbrev pub IsRounded : ℤ → ℤ → Rounding → ℤ → Type 0
//! IsRounded x d Down q = IsFloorOver x d q
//! IsRounded x d Zero q = IsTruncated x d q
//! IsRounded x d Even q = IsNearestEven x d q
//! ```
