// Made by `make package` of crates/fixed_text/specs/Decimals.antt: changes go there.

//! Whole numbers as the code represents them: 2 ^ 64 stands for each magnitude of 2 ^ 64 or more.
//!
//! From `crates/fixed_text/specs/Decimals.antt`:
//!
//! ```text
//! -- a whole number, capped
//! abbrev pub decimal_of : ℤ → Decimal
//! decimal_of (pos n) = record { below_zero = false; magnitude = cap n }
//! decimal_of (negsuc n) = record { below_zero = true; magnitude = cap (suc n) }
//!
//! -- the whole number of a capped one
//! abbrev pub decimal_value : Decimal → ℤ
//! decimal_value d = with_sign d.below_zero d.magnitude
//!
//! -- the piece is the decimal of a whole number, which is read capped, or of none
//! abbrev pub IsReading : List ℕ → Option Decimal → Type 0
//! IsReading piece (Some d) = (x : ℤ) × (whole_text x ≡ piece) × (d ≡ decimal_of x)
//! IsReading piece None = (x : ℤ) → whole_text x ≢ piece
//! ```
