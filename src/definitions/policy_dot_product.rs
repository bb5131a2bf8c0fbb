// Made by `make package` of crates/fixed_policy/specs/DotProduct.antt: changes go there.

//! The accumulator after the products of a list of pairs.
//! A product moves down by s places to those of the accumulator, rounded down, or up by -s.
//!
//! From `crates/fixed_policy/specs/DotProduct.antt`:
//!
//! ```text
//! -- the places: the factors' fractions g and h less the accumulator's fraction f
//! abbrev pub places : ℕ → ℕ → ℕ → ℤ
//! places f g h = pos (g + h) -ℤ pos f
//!
//! -- the numbers of two lists, in pairs
//! abbrev pub pairs : {X Y : Type 0} → (X → ℤ) → (Y → ℤ) → List X → List Y → List (ℤ × ℤ)
//! pairs left right xs ys = zip (map left xs) (map right ys)
//!
//! -- one step: the accumulator plus the product of a pair
//! abbrev pub with_product : ℤ → ℤ → ℤ × ℤ → ℤ
//! with_product s acc p = exact_add_prod_at acc p.0 p.1 s
//!
//! -- the accumulator after all pairs
//! abbrev pub dot : ℤ → ℤ → List (ℤ × ℤ) → ℤ
//! dot s acc ps = fold (with_product s) acc ps
//!
//! -- each partial result fits
//! abbrev pub PartsFit : Bool → ℕ → ℤ → ℤ → List (ℤ × ℤ) → Type 0
//! PartsFit signed n s acc ps = (k : ℕ) → 0 < k → k ≤ length ps → InRange signed n (dot s acc (take k ps))
//!
//! -- the same with each step wrapped
//! abbrev pub wrapped_dot : Bool → ℕ → ℤ → ℤ → List (ℤ × ℤ) → ℤ
//! wrapped_dot signed n s acc ps = fold (λ c p. wrap signed n (with_product s c p)) acc ps
//!
//! -- ---- the loss
//! abbrev pub products : List (ℤ × ℤ) → ℤ
//! products [] = pos 0
//! products (p ∷ ps) = p.0 *ℤ p.1 +ℤ products ps
//!
//! -- what the accumulator lacks of the exact number, in the places of the products
//! abbrev pub loss : ℕ → ℤ → List (ℤ × ℤ) → ℤ
//! loss s acc ps = acc *ℤ pos (2 ^ s) +ℤ products ps -ℤ dot (pos s) acc ps *ℤ pos (2 ^ s)
//! ```
