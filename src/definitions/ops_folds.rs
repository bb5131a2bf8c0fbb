// Made by `make package` of crates/fixed_ops/specs/Folds.antt: changes go there.

//! Sums and products of lists of numbers, in bits.
//!
//! From `crates/fixed_ops/specs/Folds.antt`:
//!
//! ```text
//! -- each result of a step from `from` on through the list fits
//! abbrev pub EachFits : Bool → ℕ → (ℤ → ℤ → ℤ) → ℤ → List ℤ → Type 0
//! EachFits signed n step from [] = ⊤
//! EachFits signed n step from (x ∷ xs) = InRange signed n (step from x) × EachFits signed n step (step from x) xs
//!
//! -- ---- sums, from 0
//! abbrev pub sum_of : List ℤ → ℤ
//! sum_of xs = fold ◌+ℤ◌ (pos 0) xs
//!
//! abbrev pub SumsFit : Bool → ℕ → List ℤ → Type 0
//! SumsFit signed n xs = EachFits signed n ◌+ℤ◌ (pos 0) xs
//!
//! -- ---- products, each rounded down, from the first number; of no numbers, the number 1
//! abbrev pub times : ℕ → ℤ → ℤ → ℤ
//! times f a b = exact_mul a b f
//!
//! abbrev pub product_of : ℕ → List ℤ → ℤ
//! product_of f [] = pos (2 ^ f)
//! product_of f (x ∷ xs) = fold (times f) x xs
//!
//! abbrev pub ProductsFit : Bool → ℕ → ℕ → List ℤ → Type 0
//! ProductsFit signed n f [] = InRange signed n (pos (2 ^ f))
//! ProductsFit signed n f (x ∷ xs) = EachFits signed n (times f) x xs
//! ```
