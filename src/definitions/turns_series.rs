// Made by `make package` of crates/fixed_turns/specs/Series.antt: changes go there.

//! The series of sine and cosine, whose sums are fractions.
//!
//! From `crates/fixed_turns/specs/Series.antt`:
//!
//! ```text
//! pub record Fraction : Type 0 where
//!   pub num : ℕ
//!   pub den : ℕ
//!
//! -- x / d
//! abbrev pub over : Fraction → ℕ → Fraction
//! over x d = record { num = x.num; den = x.den * d }
//!
//! -- x (1 - y)
//! abbrev pub lessened : Fraction → Fraction → Fraction
//! lessened x y = record { num = x.num * (y.den - y.num); den = x.den * y.den }
//!
//! abbrev pub squared : Fraction → Fraction
//! squared x = record { num = x.num * x.num; den = x.den * x.den }
//!
//! -- y / (m (m + 1)) (1 - y / ((m + 2) (m + 3)) (1 - ..)), with n quotients
//! unfoldable pub nested : Fraction → ℕ → ℕ → Fraction
//! nested y m zero = record { num = 0; den = 1 }
//! nested y m (suc n) = lessened (over y (m * (m + 1))) (nested y (m + 2) n)
//!
//! -- sin x = x - x^3 / 3! + x^5 / 5! - .. = x (1 - x^2 / (2 3) (1 - x^2 / (4 5) (1 - ..))), the first n + 1 terms
//! abbrev pub sine_series : Fraction → ℕ → Fraction
//! sine_series x n = lessened x (nested (squared x) 2 n)
//!
//! -- cos x = 1 - x^2 / 2! + x^4 / 4! - .. = 1 - x^2 / (1 2) (1 - x^2 / (3 4) (1 - ..)), likewise
//! abbrev pub cosine_series : Fraction → ℕ → Fraction
//! cosine_series x n = lessened (record { num = 1; den = 1 }) (nested (squared x) 1 n)
//! ```
