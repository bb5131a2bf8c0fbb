// Made by `make package` of crates/fixed_machine/specs/CapLaw.antt: changes go there.

//! The cap at 2 ^ 64 changes nothing.
//!
//! From `crates/fixed_machine/specs/CapLaw.antt`:
//!
//! ```text
//! -- 2 ^ 64 is not a value of a word and not a declared register
//! abbrev pub CapsAlike : Type 0
//! CapsAlike = (s : State) (line : ScriptLine) (k : ℕ) → length s.registers ≤ 2 ^ 64
//!     → (cause s (capped line) k ≡ cause s line k) × (cause s line k ≡ None → (answer s (capped line) ≡ answer s line) × (move s (capped line) ≡ move s line))
//! ```
