// Made by `make package` of crates/fixed_interval/specs/Lines.antt: changes go there.

//! The header and the line whose text a piece is.
//!
//! From `crates/fixed_interval/specs/Lines.antt`:
//!
//! ```text
//! abbrev pub all_ops : List IntervalOp
//! all_ops = Add ∷ Sub ∷ Mul ∷ Div ∷ []
//!
//! abbrev pub op_in : List ℕ → Option IntervalOp
//! op_in = named op_name all_ops
//!
//! -- the only ones that can have these tokens, if any have
//! abbrev pub header_in : List (List ℕ) → Option IntervalHeader
//! header_in ts = option_map (λ w. record { word = w; frac = digits_value 10 (token ts 2); count = digits_value 10 (token ts 3) }) (word_named (token ts 1))
//!
//! abbrev pub request_in : List (List ℕ) → Option IntervalRequest
//! request_in ts =
//!     if bytes_eq (token ts 1) (codes "set") then Some (SetTo (whole_value (token ts 2)) (whole_value (token ts 3)))
//!     else (if bytes_eq (token ts 1) (codes "sqrt") then Some (RootOf (numbered_value (token ts 2)))
//!     else option_map (λ op. OfTwo op (numbered_value (token ts 2)) (numbered_value (token ts 3))) (op_in (token ts 1)))
//!
//! abbrev pub line_in : List (List ℕ) → Option IntervalLine
//! line_in ts = option_map (λ r. record { dest = numbered_value (token ts 0); request = r }) (request_in ts)
//!
//! unfoldable pub header_of : List ℕ → Option IntervalHeader
//! header_of piece = if_its_text header_text piece (header_in (tokens_of piece))
//!
//! unfoldable pub line_of : List ℕ → Option IntervalLine
//! line_of piece = if_its_text line_text piece (line_in (tokens_of piece))
//! ```
