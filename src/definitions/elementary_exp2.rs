// Made by `make package` of crates/fixed_elementary/specs/Exp2.antt: changes go there.

//! Powers of 2, rounded down up to a small part of themselves.
//!
//! From `crates/fixed_elementary/specs/Exp2.antt`:
//!
//! ```text
//! -- r is at most 2^(e / 2^f), which is less than (r + 1) 2^(2^-k): by powers,
//! -- r^(2^f) ≤ 2^e, and 2^(e 2^k) < (r + 1)^(2^f 2^k) 2^(2^f)
//! pub record IsExp2 (e f k r : ℕ) : Type 0 where
//!   pub below : r ^ 2 ^ f ≤ 2 ^ e
//!   pub above : 2 ^ (e * 2 ^ k) < (r + 1) ^ (2 ^ f * 2 ^ k) * 2 ^ 2 ^ f
//!
//! -- on words of n bits, k is at most this
//! abbrev pub exp2_room : ℕ → ℕ
//! exp2_room n = if nat_le n 32 then 54 else 117
//!
//! -- the same for each such k; exact if the exponent is a whole number
//! pub record IsExp2Up (room e f r : ℕ) : Type 0 where
//!   pub near : (k : ℕ) → k ≤ room → IsExp2 e f k r
//!   pub exact : (j : ℕ) → e ≡ j * 2 ^ f → r ≡ 2 ^ j
//!
//! -- r is the power in units of 2^-f, of which e / 2^f is the exponent; it is less than 1 if that is below 0
//! abbrev pub IsExp2At : ℕ → ℤ → ℕ → ℤ → Type 0
//! IsExp2At room (pos e) f r = (n : ℕ) × (r ≡ pos n) × IsExp2Up room e f n
//! IsExp2At room (negsuc e) f r = r ≡ pos 0
//!
//! -- r is 2 to the power of a units, in units of 2^-f: 2^(a / 2^f + f)
//! abbrev pub IsExp2Of : ℕ → ℤ → ℕ → ℤ → Type 0
//! IsExp2Of room a f r = IsExp2At room (a +ℤ pos (f * 2 ^ f)) f r
//!
//! -- the outcome stands for x, or, if x is above the range, for some number above the range
//! pub record StandsUpTo {T : Type 0} (value : T → ℤ) (signed : Bool) (n : ℕ) (x : ℤ) (outcome : Outcome T) : Type 0 where
//!   pub other : ℤ
//!   pub alike : (other ≡ x) ⊎ ((highest signed n <ℤ other) × (highest signed n <ℤ x))
//!   pub stands : StandsFor value signed n other outcome
//! ```
