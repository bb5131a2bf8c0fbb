// Made by `make package` of crates/fixed_poly/specs/Runs.antt: changes go there.

//! What a script of polynomials prints, or its first cause.
//!
//! From `crates/fixed_poly/specs/Runs.antt`:
//!
//! ```text
//! -- the word, the fraction and the coefficients, of which there are none at first
//! pub record PolyState : Type 0 where
//!   pub signed : Bool
//!   pub bits : ℕ
//!   pub frac : ℕ
//!   pub coefs : List ℤ
//!
//! abbrev pub with_coefs : List ℤ → PolyState → PolyState
//! with_coefs coefs state = record { signed = state.signed; bits = state.bits; frac = state.frac; coefs = coefs }
//!
//! -- the decimal of the bits, or the step that overflows, and a newline
//! abbrev pub reply_text : PolyReply ℤ → List ℕ
//! reply_text (Value v) = whole_text v ++ (10 ∷ [])
//! reply_text (Overflow i) = codes "overflow " ++ natural_text i ++ (10 ∷ [])
//!
//! -- ---- the header
//! abbrev pub started : Bool → ℕ → ℕ → Reading PolyState
//! started signed bits frac =
//!     if nat_le frac bits then Read (record { signed = signed; bits = bits; frac = frac; coefs = [] }) else Misfit
//!
//! abbrev pub header_read : Option PolyHeader → Reading PolyState
//! header_read None = Malformed
//! header_read (Some header) = started (is_signed header.word) (width header.word) header.frac
//!
//! abbrev pub poly_first : List ℕ → Reading PolyState
//! poly_first piece = header_read (header_of piece)
//!
//! -- ---- the lines
//! -- a polynomial takes the place of the one before it, and prints nothing
//! abbrev pub coefs_read : PolyState → List ℤ → Reading (PolyState × List ℕ)
//! coefs_read state numbers =
//!     read_map (λ coefs. (with_coefs coefs state, [])) (fitting_numbers state.signed state.bits (Some numbers))
//!
//! -- a number has its place after the first polynomial
//! abbrev pub answer_text : PolyState → ℤ → List ℕ
//! answer_text state x = reply_text (horner_reply state.signed state.bits state.frac x state.coefs)
//!
//! abbrev pub at_read : PolyState → ℤ → Reading (PolyState × List ℕ)
//! at_read state number =
//!     if length state.coefs == 0 then Malformed else read_map (λ x. (state, answer_text state x)) (fitting_number state.signed state.bits (Some number))
//!
//! abbrev pub line_read : PolyState → Option PolyLine → Reading (PolyState × List ℕ)
//! line_read state None = Malformed
//! line_read state (Some (Coefs c cs)) = coefs_read state (c ∷ cs)
//! line_read state (Some (At x)) = at_read state x
//!
//! abbrev pub poly_line : PolyState → List ℕ → Reading (PolyState × List ℕ)
//! poly_line state piece = line_read state (line_of piece)
//!
//! -- ---- the run
//! abbrev pub poly_output : List ℕ → Meaning PieceCause
//! poly_output = output_by poly_first poly_line
//! ```
