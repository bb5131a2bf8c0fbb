// Made by `make package` of crates/fixed_calc/specs/Before.antt: changes go there.

//! What a script meant before a line could name its rounding: the same run, over lines without a rounding, whose rows use
//! none.
//!
//! From `crates/fixed_calc/specs/Before.antt`:
//!
//! ```text
//! -- ---- reading
//! abbrev pub names_none : ScriptLine → Bool
//! names_none (SetTo dest k) = true
//! names_none (Apply dest policy op xs None) = true
//! names_none (Apply dest policy op xs (Some rounding)) = false
//!
//! abbrev pub without_rounding : ScriptLine → ScriptLine
//! without_rounding (SetTo dest k) = SetTo dest k
//! without_rounding (Apply dest policy op xs rounding) = Apply dest policy op xs None
//!
//! -- the line without a rounding whose text the bytes are
//! unfoldable pub old_line_of : List ℕ → Option ScriptLine
//! old_line_of piece = if_its_text line_text piece (option_map without_rounding (line_in (tokens_of piece)))
//!
//! unfoldable pub old_line_of_piece : List ℕ → Option ScriptLine
//! old_line_of_piece piece = option_and_then old_line_of (body piece)
//!
//! -- ---- the run
//! -- the six rows that now take a rounding had one of their own; the other rows have not changed
//! abbrev pub old_row : Row
//! old_row rounding Mul t = Some (exact_mul t.a.bits t.b.bits t.a.fraction)
//! old_row rounding Div t = by_divisor t.b.bits (exact_div t.a.bits t.b.bits t.a.fraction)
//! old_row rounding Recip t = by_divisor t.a.bits (exact_recip t.a.bits t.a.fraction)
//! old_row rounding MulAdd t = Some (exact_mul_add t.a.bits t.b.bits t.c.bits t.b.fraction)
//! old_row rounding AddProd t = Some (exact_add_prod t.a.bits t.b.bits t.c.bits t.a.fraction t.b.fraction t.c.fraction)
//! old_row rounding DivInt t = by_divisor t.b.bits (truncated_quotient t.a.bits t.b.bits)
//! old_row rounding op t = row_of op t
//!
//! abbrev pub old_meaning : List ℕ → Meaning Cause
//! old_meaning script = meaning_of (run_by old_row old_line_of_piece script)
//!
//! -- ---- the laws
//! -- the old reading finds exactly the lines that name no rounding
//! abbrev pub ReadsOldLines : Type 0
//! ReadsOldLines = (piece : List ℕ) (line : ScriptLine) → (old_line_of piece ≡ Some line) ↔ (IsLine line × (names_none line ≡ true) × (line_text line ≡ piece))
//!
//! -- a space and the name of a rounding precede the newline of the piece
//! abbrev pub EndsInRounding : List ℕ → Type 0
//! EndsInRounding piece = (front : List ℕ) × (rounding : Rounding) × (piece ≡ front ++ (32 ∷ rounding_name rounding) ++ (10 ∷ []))
//!
//! -- a script without such a piece has the same meaning as before
//! abbrev pub MeansAsBefore : Type 0
//! MeansAsBefore = (script : List ℕ) → All (λ piece. EndsInRounding piece → ⊥) (pieces script) → meaning script ≡ old_meaning script
//! ```
