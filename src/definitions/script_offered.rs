// Made by `make package` of crates/fixed_script/specs/Offered.antt: changes go there.

//! Which policies an operation is offered under, on signed and unsigned words.
//!
//! From `crates/fixed_script/specs/Offered.antt`:
//!
//! ```text
//! abbrev pub is_checked_or_strict : Policy → Bool
//! is_checked_or_strict Checked = true
//! is_checked_or_strict Strict = true
//! is_checked_or_strict _ = false
//!
//! unfoldable pub is_offered : Bool → Policy → Op → Bool
//! is_offered signed policy Abs = signed
//! is_offered signed policy Signum = signed
//! is_offered signed policy Rem = is_checked_or_strict policy
//! is_offered signed policy RemInt = is_checked_or_strict policy
//! is_offered signed policy RemEuclid = is_checked_or_strict policy
//! is_offered signed Wrapping NextPowerOfTwo = not signed
//! is_offered signed policy NextPowerOfTwo = not signed && is_checked_or_strict policy
//! is_offered signed policy _ = true
//! ```
