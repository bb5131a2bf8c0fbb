// Made by `make package` of crates/fixed_word/specs/Digit.antt: changes go there.

//! What the calls of unsigned words answer.
//!
//! From `crates/fixed_word/specs/Digit.antt`:
//!
//! ```text
//! -- of the n bits of x the k highest are 0, and the next is not
//! abbrev pub IsLeadingZeros : ℕ → ℤ → ℕ → Type 0
//! IsLeadingZeros n x k = (k ≤ n) × (x <ℤ pos (2 ^ (n - k))) × (pos (2 ^ (n - k)) ≤ℤ (x +ℤ x +ℤ pos 1))
//!
//! -- the word of the number x, and nothing exactly where x is too large for a word
//! abbrev pub IsWordOf : {T : Type 0} → (T → ℤ) → ℕ → ℤ → Option T → Type 0
//! IsWordOf value n x (Some w) = (value w ≡ x) × (x ≤ℤ highest false n)
//! IsWordOf value n x None = highest false n <ℤ x
//! ```
