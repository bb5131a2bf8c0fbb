// Made by `make package` of crates/fixed_script/specs/TextLaws.antt: changes go there.

//! The laws of the text: different lines, headers and numbers have different texts.
//!
//! From `crates/fixed_script/specs/TextLaws.antt`:
//!
//! ```text
//! abbrev pub OneWholeNumber : Type 0
//! OneWholeNumber = (x y : ℤ) → whole_text x ≡ whole_text y → x ≡ y
//!
//! abbrev pub OneLine : Type 0
//! OneLine = (x y : ScriptLine) → line_text x ≡ line_text y → x ≡ y
//!
//! abbrev pub OneHeader : Type 0
//! OneHeader = (x y : ScriptHeader) → header_text x ≡ header_text y → x ≡ y
//!
//! -- the pieces of a script, joined in order, are the script
//! abbrev pub PiecesJoin : Type 0
//! PiecesJoin = (script : List ℕ) → concat (pieces script) ≡ script
//! ```
