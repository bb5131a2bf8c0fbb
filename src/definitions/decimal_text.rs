// Made by `make package` of crates/fixed_decimal/specs/Text.antt: changes go there.

//! The text of a number a / 2 ^ f.
//!
//! From `crates/fixed_decimal/specs/Text.antt`:
//!
//! ```text
//! -- the last p digits of n
//! unfoldable pub places_text : ℕ → ℕ → List ℕ
//! places_text n zero = []
//! places_text n (suc p) = places_text (n / 10) p ++ (48 + n % 10) ∷ []
//!
//! -- n / 10 ^ p with p digits after the point
//! abbrev pub magnitude_text : ℕ → ℕ → List ℕ
//! magnitude_text n zero = natural_text n
//! magnitude_text n (suc p) = natural_text (n / 10 ^ suc p) ++ 46 ∷ places_text n (suc p)
//!
//! -- a minus precedes the text of a number below 0
//! abbrev pub after_sign : ℤ → List ℕ → List ℕ
//! after_sign (pos n) text = text
//! after_sign (negsuc n) text = 45 ∷ text
//!
//! -- a / 2 ^ f in units of 10 ^ -p, rounded
//! abbrev pub to_places : ℤ → ℕ → ℕ → Rounding → ℤ
//! to_places a f p r = rounded (a *ℤ pos (10 ^ p)) (pos (2 ^ f)) r
//!
//! abbrev pub text_of : ℤ → ℕ → ℕ → Rounding → List ℕ
//! text_of a f p r = after_sign a (magnitude_text (nat_abs (to_places a f p r)) p)
//!
//! -- p digits after the point are exact
//! abbrev pub IsExactAt : ℤ → ℕ → ℕ → Type 0
//! IsExactAt a f p = (nat_abs a * 10 ^ p) % 2 ^ f ≡ 0
//!
//! -- p digits after the point, to the nearest, are read as a
//! abbrev pub ReadsBack : ℤ → ℕ → ℕ → Type 0
//! ReadsBack a f p = rounded (to_places a f p Even *ℤ pos (2 ^ f)) (pos (10 ^ p)) Even ≡ a
//!
//! -- m is the least number for which P holds
//! pub record IsLeast (P : ℕ → Type 0) (m : ℕ) : Type 0 where
//!   pub holds : P m
//!   pub least : (k : ℕ) → P k → m ≤ k
//!
//! -- p digits after the point are read as a
//! abbrev pub reads_back : ℤ → ℕ → ℕ → Bool
//! reads_back a f p = int_eq (rounded (to_places a f p Even *ℤ pos (2 ^ f)) (pos (10 ^ p)) Even) a
//!
//! -- how many digits after the point the shortest text has, of which 20 are always enough
//! unfoldable pub shortest : ℤ → ℕ → ℕ
//! shortest a f = position_or_len (reads_back a f) (range_with_len 0 20)
//! ```
