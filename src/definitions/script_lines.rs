// Made by `make package` of crates/fixed_script/specs/Lines.antt: changes go there.

//! The line, and the header, whose text some bytes are: a piece without its newline. And those of a piece.
//!
//! From `crates/fixed_script/specs/Lines.antt`:
//!
//! ```text
//! -- ---- the only line that can have these tokens, if any has
//! abbrev pub operands_in : Arity → List (List ℕ) → Operands
//! operands_in Unary ts = OneRegister (numbered_value (token ts 0))
//! operands_in Binary ts = TwoRegisters (numbered_value (token ts 0)) (numbered_value (token ts 1))
//! operands_in ByInteger ts = RegisterAndInt (numbered_value (token ts 0)) (whole_value (token ts 1))
//! operands_in Ternary ts = ThreeRegisters (numbered_value (token ts 0)) (numbered_value (token ts 1)) (numbered_value (token ts 2))
//!
//! -- (the last token names it)
//! abbrev pub rounding_in : Op → List (List ℕ) → Option Rounding
//! rounding_in op ts = if takes_rounding op then rounding_named (token ts (length ts - 1)) else None
//!
//! abbrev pub apply_in : ℕ → Policy → Op → List (List ℕ) → ScriptLine
//! apply_in dest policy op ts = Apply dest policy op (operands_in (arity op) ts) (rounding_in op ts)
//!
//! abbrev pub line_in : List (List ℕ) → Option ScriptLine
//! line_in ts =
//!     if bytes_eq (token ts 1) (codes "set") then Some (SetTo (numbered_value (token ts 0)) (whole_value (token ts 2)))
//!     else option_and_then (λ policy. option_map (λ op. apply_in (numbered_value (token ts 0)) policy op (drop 3 ts)) (op_named (token ts 2))) (policy_named (token ts 1))
//!
//! abbrev pub header_in : List (List ℕ) → Option ScriptHeader
//! header_in ts = option_map (λ w. record { word = w; first = digits_value 10 (token ts 1); others = map (digits_value 10) (drop 2 ts) }) (word_named (token ts 0))
//!
//! -- ---- the line whose text the bytes are
//! unfoldable pub line_of : List ℕ → Option ScriptLine
//! line_of piece = if_its_text line_text piece (line_in (tokens_of piece))
//!
//! unfoldable pub header_of : List ℕ → Option ScriptHeader
//! header_of piece = if_its_text header_text piece (header_in (tokens_of piece))
//!
//! -- ---- the line of a piece, which ends in a newline
//! unfoldable pub line_of_piece : List ℕ → Option ScriptLine
//! line_of_piece piece = option_and_then line_of (body piece)
//!
//! unfoldable pub header_of_piece : List ℕ → Option ScriptHeader
//! header_of_piece piece = option_and_then header_of (body piece)
//!
//! -- ---- the laws
//! abbrev pub ReadsLines : Type 0
//! ReadsLines = (piece : List ℕ) (line : ScriptLine) → (line_of piece ≡ Some line) ↔ (IsLine line × (line_text line ≡ piece))
//!
//! abbrev pub ReadsHeaders : Type 0
//! ReadsHeaders = (piece : List ℕ) (header : ScriptHeader) → (header_of piece ≡ Some header) ↔ (header_text header ≡ piece)
//! ```
