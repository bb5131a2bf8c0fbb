// Made by `make package` of crates/fixed_block/specs/Dots.antt: changes go there.

//! The sum of the products of two blocks, over a power of two and rounded down once.
//!
//! From `crates/fixed_block/specs/Dots.antt`:
//!
//! ```text
//! abbrev pub total : List ℤ → ℤ
//! total [] = pos 0
//! total (x ∷ xs) = x +ℤ total xs
//!
//! -- of numbers at the same place
//! abbrev pub products : List ℤ → List ℤ → List ℤ
//! products xs ys = of_pairs (λ x y. x *ℤ y) xs ys
//!
//! abbrev pub exact_dot : List ℤ → List ℤ → ℕ → ℤ
//! exact_dot xs ys f = floor_quotient (total (products xs ys)) (2 ^ f)
//!
//! -- the sum of so many products at the front
//! abbrev pub partial_sum : List ℤ → List ℤ → ℕ → ℤ
//! partial_sum xs ys k = total (take k (products xs ys))
//!
//! -- each fits in an integer of 128 bits with that sign
//! abbrev pub SumsFit : Bool → List ℤ → List ℤ → Type 0
//! SumsFit signed xs ys = (k : ℕ) → k ≤ length xs → InRange signed 128 (partial_sum xs ys k)
//! ```
