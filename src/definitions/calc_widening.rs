// Made by `make package` of crates/fixed_calc/specs/Widening.antt: changes go there.

//! A script whose header names a wider word.
//!
//! From `crates/fixed_calc/specs/Widening.antt`:
//!
//! ```text
//! -- a wider word of the same sign
//! pub record IsWider (narrow wide : WordName) : Type 0 where
//!   pub same_sign : is_signed wide ≡ is_signed narrow
//!   pub more_bits : width narrow < width wide
//!
//! -- the script of a header and of the bytes after its newline
//! abbrev pub script_of : ScriptHeader → List ℕ → List ℕ
//! script_of header lines = header_text header ++ (10 ∷ lines)
//!
//! abbrev pub with_word : WordName → ScriptHeader → ScriptHeader
//! with_word word header = record header { word = word }
//!
//! -- ---- the rows of the lines
//! -- the row is a number that does not fit
//! abbrev pub exceeds : Bool → ℕ → Option ℤ → Bool
//! exceeds signed n None = false
//! exceeds signed n (Some x) = not (fits signed n x)
//!
//! -- the row of a line is undefined or fits; `set` takes no row
//! abbrev pub row_fits : State → ScriptLine → Bool
//! row_fits s (SetTo dest k) = true
//! row_fits s (Apply dest policy op xs rounding) = not (exceeds (is_signed s.word) (width s.word) (row_by rounding op (operand_values s.registers xs)))
//!
//! abbrev pub fits_then : State → Option ScriptLine → (State → Bool) → Bool
//! fits_then s None next = true
//! fits_then s (Some line) next = row_fits s line && next (move s line)
//!
//! -- the same for the row of each line, in the state that the pieces before it leave
//! unfoldable pub rows_fit : State → List (List ℕ) → Bool
//! rows_fit s [] = true
//! rows_fit s (p ∷ ps) = fits_then s (line_of_piece p) (λ t. rows_fit t ps)
//! ```
