// Made by `make package` of crates/fixed_script/specs/ReadPieces.antt: changes go there.

//! What the code reads in a piece.
//!
//! From `crates/fixed_script/specs/ReadPieces.antt`:
//!
//! ```text
//! -- the piece's line, capped
//! abbrev pub ReadsLine : List ℕ → Option Line → Type 0
//! ReadsLine piece None = line_of_piece piece ≡ None
//! ReadsLine piece (Some read) = (line : ScriptLine) × (line_of_piece piece ≡ Some line) × (checked_script_line read ≡ Some (capped line))
//!
//! -- the piece's header, capped
//! abbrev pub ReadsHeader : List ℕ → Option CappedHeader → Type 0
//! ReadsHeader piece None = header_of_piece piece ≡ None
//! ReadsHeader piece (Some read) = (header : ScriptHeader) × (header_of_piece piece ≡ Some header) × (read ≡ capped_header header)
//! ```
