// Made by `make package` of crates/fixed_interval/specs/Ends.antt: changes go there.

//! The ends of intervals: of a given one, and of the result of each operation.
//! f is the number of fraction bits, and signed and n are the word of the numbers.
//!
//! From `crates/fixed_interval/specs/Ends.antt`:
//!
//! ```text
//! pub record Ends : Type 0 where
//!   pub low : ℤ
//!   pub high : ℤ
//!
//! -- an interval, by the words of its ends; and the numbers of these
//! pub record Bounds (T : Type 0) : Type 0 where
//!   pub lo : T
//!   pub hi : T
//!
//! abbrev pub ends_of : {T : Type 0} → (T → ℤ) → Bounds T → Ends
//! ends_of value b = record { low = value b.lo; high = value b.hi }
//!
//! -- ---- quotients by a divisor of either sign
//!
//! -- x over d, rounded down
//! abbrev pub floor_over : ℤ → ℤ → ℤ
//! floor_over x d = rounded x d Down
//!
//! -- x over d, rounded up
//! abbrev pub ceiling_over : ℤ → ℤ → ℤ
//! ceiling_over x d = neg_ℤ (floor_over (neg_ℤ x) d)
//!
//! -- the least r of at least 0 whose square is at least a with f fraction bits
//! abbrev pub ceiling_root : ℤ → ℕ → ℤ
//! ceiling_root a f =
//!     let r = root_of a f in
//!     if int_le (a *ℤ pos (2 ^ f)) (r *ℤ r) then r else r +ℤ pos 1
//!
//! -- ---- the corners: g and h of an end of a and an end of b
//! abbrev pub least_corner : (ℤ → ℤ → ℤ) → Ends → Ends → ℤ
//! least_corner g a b = int_min (int_min (g a.low b.low) (g a.low b.high)) (int_min (g a.high b.low) (g a.high b.high))
//!
//! abbrev pub greatest_corner : (ℤ → ℤ → ℤ) → Ends → Ends → ℤ
//! greatest_corner h a b = int_max (int_max (h a.low b.low) (h a.low b.high)) (int_max (h a.high b.low) (h a.high b.high))
//!
//! abbrev pub corner_ends : (ℤ → ℤ → ℤ) → (ℤ → ℤ → ℤ) → Ends → Ends → Ends
//! corner_ends g h a b = record { low = least_corner g a b; high = greatest_corner h a b }
//!
//! -- ---- the operations: nothing if they have no ends
//! abbrev pub sum_of : Ends → Ends → Ends
//! sum_of a b = record { low = a.low +ℤ b.low; high = a.high +ℤ b.high }
//!
//! abbrev pub sum_ends : Ends → Ends → Option Ends
//! sum_ends a b = Some (sum_of a b)
//!
//! abbrev pub difference_of : Ends → Ends → Ends
//! difference_of a b = record { low = a.low -ℤ b.high; high = a.high -ℤ b.low }
//!
//! abbrev pub difference_ends : Ends → Ends → Option Ends
//! difference_ends a b = Some (difference_of a b)
//!
//! abbrev pub product_of : Ends → Ends → ℕ → Ends
//! product_of a b f = corner_ends (λ x y. floor_over (x *ℤ y) (pos (2 ^ f))) (λ x y. ceiling_over (x *ℤ y) (pos (2 ^ f))) a b
//!
//! abbrev pub product_ends : Ends → Ends → ℕ → Option Ends
//! product_ends a b f = Some (product_of a b f)
//!
//! abbrev pub quotient_of : Ends → Ends → ℕ → Ends
//! quotient_of a b f = corner_ends (λ x y. floor_over (x *ℤ pos (2 ^ f)) y) (λ x y. ceiling_over (x *ℤ pos (2 ^ f)) y) a b
//!
//! -- 0 is in b
//! abbrev pub has_zero : Ends → Bool
//! has_zero b = int_le b.low (pos 0) && int_le (pos 0) b.high
//!
//! abbrev pub quotient_ends : Ends → Ends → ℕ → Option Ends
//! quotient_ends a b f = if has_zero b then None else Some (quotient_of a b f)
//!
//! abbrev pub root_of_ends : Ends → ℕ → Ends
//! root_of_ends a f = record { low = root_of a.low f; high = ceiling_root a.high f }
//!
//! abbrev pub root_ends : Ends → ℕ → Option Ends
//! root_ends a f = if int_le (pos 0) a.low then Some (root_of_ends a f) else None
//!
//! abbrev pub negation_of : Ends → Ends
//! negation_of a = record { low = neg_ℤ a.high; high = neg_ℤ a.low }
//!
//! abbrev pub negation_ends : Ends → Option Ends
//! negation_ends a = Some (negation_of a)
//!
//! -- the magnitudes: from that of the end nearer to 0, or from 0 if 0 is in a, to the greater one
//! abbrev pub magnitude_of : Ends → Ends
//! magnitude_of a = record { low = int_max (pos 0) (int_max a.low (neg_ℤ a.high)); high = int_max (neg_ℤ a.low) a.high }
//!
//! abbrev pub magnitude_ends : Ends → Option Ends
//! magnitude_ends a = Some (magnitude_of a)
//!
//! abbrev pub square_of : Ends → ℕ → Ends
//! square_of a f =
//!     let m = magnitude_of a in
//!     record { low = floor_over (m.low *ℤ m.low) (pos (2 ^ f)); high = ceiling_over (m.high *ℤ m.high) (pos (2 ^ f)) }
//!
//! abbrev pub square_ends : Ends → ℕ → Option Ends
//! square_ends a f = Some (square_of a f)
//!
//! -- ---- the ends that are defined and fit
//! abbrev pub fitting : Bool → ℕ → Option Ends → Option Ends
//! fitting signed n None = None
//! fitting signed n (Some e) = if fits signed n e.low && fits signed n e.high then Some e else None
//! ```
