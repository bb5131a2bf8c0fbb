// Made by `make package` of crates/fixed_filter/specs/Sections.antt: changes go there.

//! A second-order section over a run of samples: its outputs as they are computed, and the exact ones.
//! Samples and outputs are whole numbers of one unit; coefficients are in units of 1 / S, where S is 2 ^ g.
//!
//! From `crates/fixed_filter/specs/Sections.antt`:
//!
//! ```text
//! pub record Coefficients : Type 0 where
//!   pub b0 : ℤ
//!   pub b1 : ℤ
//!   pub b2 : ℤ
//!   pub a1 : ℤ
//!   pub a2 : ℤ
//!
//! -- the last two samples, and the last two outputs
//! pub record SectionPast : Type 0 where
//!   pub x1 : ℤ
//!   pub x2 : ℤ
//!   pub y1 : ℤ
//!   pub y2 : ℤ
//!
//! -- ---- as computed
//! -- the factors of the five products, for a sample x after this past
//! abbrev pub factors : Coefficients → SectionPast → ℤ → List (ℤ × ℤ)
//! factors c past x = (c.b0, x) ∷ (c.b1, past.x1) ∷ (c.b2, past.x2) ∷ (c.a1, past.y1) ∷ (c.a2, past.y2) ∷ []
//!
//! -- the past after a sample x and the reply to it
//! abbrev pub past_after_reply : SectionPast → ℤ → Reply ℤ → Option SectionPast
//! past_after_reply past x (Value y) = Some (record { x1 = x; x2 = past.x1; y1 = y; y2 = past.y1 })
//! past_after_reply past x (Overflow t) = None
//!
//! -- the past after samples, the newest first; None if an output does not fit
//! abbrev pub computed_past : Bool → ℕ → ℕ → Coefficients → SectionPast → List ℤ → Option SectionPast
//! computed_past signed n g c start [] = Some start
//! computed_past signed n g c start (x ∷ earlier) =
//!     option_and_then (λ past. past_after_reply past x (filter_reply signed n (pos g) (factors c past x))) (computed_past signed n g c start earlier)
//!
//! -- ---- exactly
//! -- The past after samples, the newest first, where no product is rounded: S y is b0 x + b1 x1 + b2 x2 + a1 y1 + a2 y2.
//! -- After k samples its outputs are whole numbers of units of 1 / S ^ k.
//! abbrev pub exact_past : ℕ → Coefficients → SectionPast → List ℤ → SectionPast
//! exact_past g c start [] = start
//! exact_past g c start (x ∷ earlier) =
//!     let past = exact_past g c start earlier in
//!     record {
//!       x1 = x;
//!       x2 = past.x1;
//!       y1 = (c.b0 *ℤ x +ℤ c.b1 *ℤ past.x1 +ℤ c.b2 *ℤ past.x2) *ℤ pos (2 ^ (g * length earlier)) +ℤ c.a1 *ℤ past.y1 +ℤ c.a2 *ℤ past.y2;
//!       y2 = past.y1 *ℤ pos (2 ^ g);
//!     }
//!
//! -- how far y lies from the exact output after samples, in units of 1 / S ^ k
//! abbrev pub run_error : ℕ → Coefficients → SectionPast → List ℤ → ℤ → ℕ
//! run_error g c start samples y = unsigned_abs ((exact_past g c start samples).y1 -ℤ y *ℤ pos (2 ^ (g * length samples)))
//!
//! -- A: the magnitudes of the coefficients of outputs
//! abbrev pub feedback : Coefficients → ℕ
//! feedback c = unsigned_abs c.a1 + unsigned_abs c.a2
//! ```
