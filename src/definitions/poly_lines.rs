// Made by `make package` of crates/fixed_poly/specs/Lines.antt: changes go there.

//! The header, and the line, whose text a piece is.
//!
//! From `crates/fixed_poly/specs/Lines.antt`:
//!
//! ```text
//! -- the only ones that can have these tokens, if any have
//! abbrev pub header_in : List (List ℕ) → Option PolyHeader
//! header_in ts = option_map (λ w. record { word = w; frac = digits_value 10 (token ts 2) }) (word_named (token ts 1))
//!
//! abbrev pub line_in : List (List ℕ) → PolyLine
//! line_in ts =
//!     if bytes_eq (token ts 0) (codes "at") then At (whole_value (token ts 1)) else Coefs (whole_value (token ts 1)) (map whole_value (drop 2 ts))
//!
//! unfoldable pub header_of : List ℕ → Option PolyHeader
//! header_of piece = if_its_text header_text piece (header_in (tokens_of piece))
//!
//! unfoldable pub line_of : List ℕ → Option PolyLine
//! line_of piece = if_its_text line_text piece (Some (line_in (tokens_of piece)))
//! ```
