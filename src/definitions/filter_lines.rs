// Made by `make package` of crates/fixed_filter/specs/Lines.antt: changes go there.

//! The header, and the line, whose text a piece is.
//!
//! From `crates/fixed_filter/specs/Lines.antt`:
//!
//! ```text
//! -- the only ones that can have these tokens, if any have
//! abbrev pub header_in : List (List ℕ) → Option FilterHeader
//! header_in ts =
//!     option_map (λ w. record { word = w; out = digits_value 10 (token ts 2); coef = digits_value 10 (token ts 3); sample = digits_value 10 (token ts 4) }) (word_named (token ts 1))
//!
//! abbrev pub line_in : List (List ℕ) → FilterLine
//! line_in ts =
//!     if bytes_eq (token ts 0) (codes "taps") then Taps (whole_value (token ts 1)) (map whole_value (drop 2 ts))
//!     else Sample (numbered_value (token ts 0)) (whole_value (token ts 1))
//!
//! unfoldable pub header_of : List ℕ → Option FilterHeader
//! header_of piece = if_its_text header_text piece (header_in (tokens_of piece))
//!
//! unfoldable pub line_of : List ℕ → Option FilterLine
//! line_of piece = if_its_text line_text piece (Some (line_in (tokens_of piece)))
//! ```
