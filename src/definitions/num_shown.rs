// Made by `make package` of crates/fixed_num/specs/Shown.antt: changes go there.

//! What a number prints.
//!
//! From `crates/fixed_num/specs/Shown.antt`:
//!
//! ```text
//! -- `{}`: the shortest text
//! abbrev pub plain_text : ℤ → ℕ → ℕ → Option (List ℕ)
//! plain_text a f n = if nat_le f n then Some (text_of a f (shortest a f) Even) else None
//!
//! -- `{:8.3}` and its kin, with as many digits after the point as the precision says: laid out as an integer is, with its
//! -- sign, its prefix and its digits
//! abbrev pub styled_text : (Bool → List ℕ → List ℕ → List ℕ) → Option ℕ → ℤ → ℕ → ℕ → Option (List ℕ)
//! styled_text layout precision a f n = let p = unwrap_or precision (shortest a f) in
//!     if nat_le f n then Some (layout (int_lt a (pos 0)) [] (magnitude_text (nat_abs (to_places a f p Even)) p)) else None
//! ```
