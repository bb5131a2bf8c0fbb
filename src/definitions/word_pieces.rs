// Made by `make package` of crates/fixed_word/specs/Pieces.antt: changes go there.

//! A script, cut after each newline.
//!
//! From `crates/fixed_word/specs/Pieces.antt`:
//!
//! ```text
//! -- the pieces in order, each with its newline; a rest that is not empty is a last piece without one
//! abbrev pub pieces : List ℕ → List (List ℕ)
//! pieces [] = []
//! pieces (b ∷ bs) = if b == 10 then (10 ∷ []) ∷ pieces bs else onto_first b (pieces bs)
//!
//! -- what stands before the newline of a piece that ends in one
//! abbrev pub body : List ℕ → Option (List ℕ)
//! body piece = if slice_index piece (length piece - 1) == 10 then Some (take (length piece - 1) piece) else None
//! ```
