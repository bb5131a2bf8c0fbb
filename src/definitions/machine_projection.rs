// Made by `make package` of crates/fixed_machine/specs/Projection.antt: changes go there.

//! The result of a policy for a row.
//!
//! From `crates/fixed_machine/specs/Projection.antt`:
//!
//! ```text
//! -- a number, or a number and a verdict; Absent if there is none
//! abbrev pub project : Policy → Bool → ℕ → Option ℤ → Answer
//! project Checked signed n row = option_map_or Bits (checked signed n row) Absent
//! project Saturating signed n row = option_map_or Bits (saturating signed n row) Absent
//! project Wrapping signed n row = option_map_or Bits (wrapping signed n row) Absent
//! project Overflowing signed n row = option_map_or (λ p. Flagged p.0 p.1) (overflowing signed n row) Absent
//! project Strict signed n row = option_map_or Bits row Absent
//! ```
