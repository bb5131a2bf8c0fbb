// Made by `make package` of crates/fixed_block/specs/Blocks.antt: changes go there.

//! What a policy makes of the exact results of a block.
//!
//! From `crates/fixed_block/specs/Blocks.antt`:
//!
//! ```text
//! -- a result for each two elements at the same place
//! abbrev pub of_pairs : (ℤ → ℤ → ℤ) → List ℤ → List ℤ → List ℤ
//! of_pairs row [] ys = []
//! of_pairs row (x ∷ xs) [] = []
//! of_pairs row (x ∷ xs) (y ∷ ys) = row x y ∷ of_pairs row xs ys
//!
//! abbrev pub saturating_block : Bool → ℕ → List ℤ → List ℤ
//! saturating_block signed n rows = map (clamp signed n) rows
//!
//! abbrev pub wrapping_block : Bool → ℕ → List ℤ → List ℤ
//! wrapping_block signed n rows = map (wrap signed n) rows
//!
//! -- how many results at the front fit
//! abbrev pub fitting : Bool → ℕ → List ℤ → ℕ
//! fitting signed n rows = prefix_len (fits signed n) rows
//!
//! -- these results, and from there on the block as it was
//! abbrev pub checked_block : Bool → ℕ → List ℤ → List ℤ → List ℤ
//! checked_block signed n rows xs = take (fitting signed n rows) rows ++ drop (fitting signed n rows) xs
//!
//! -- the place of the first result that does not fit
//! abbrev pub misfit : Bool → ℕ → List ℤ → Option ℕ
//! misfit signed n rows = if fitting signed n rows == length rows then None else Some (fitting signed n rows)
//! ```
