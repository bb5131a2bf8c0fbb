// Made by `make package` of crates/fixed_poly/specs/Exact.antt: changes go there.

//! The exact value of a polynomial, and how far a value by Horner's rule lies below it.
//!
//! From `crates/fixed_poly/specs/Exact.antt`:
//!
//! ```text
//! -- the sum of c_i x^i 2^(f (k - i)), from the coefficient numbered i on
//! abbrev pub terms_from : ℕ → ℤ → ℕ → ℕ → List ℤ → ℤ
//! terms_from i x f k [] = pos 0
//! terms_from i x f k (c ∷ rest) = c *ℤ int_pow x i *ℤ pos (2 ^ (f * (k - i))) +ℤ terms_from (suc i) x f k rest
//!
//! -- the degree of c_0 .. c_k
//! abbrev pub degree : List ℤ → ℕ
//! degree [] = 0
//! degree (c ∷ rest) = length rest
//!
//! -- E: the sum of all c_i x^i 2^(f (k - i)), in units of 2^-(f (k + 1))
//! abbrev pub exact_polynomial : ℤ → ℕ → List ℤ → ℤ
//! exact_polynomial x f coefs = terms_from 0 x f (degree coefs) coefs
//!
//! -- what v lacks of the exact value, in the units of that
//! abbrev pub shortfall : ℤ → ℕ → List ℤ → ℤ → ℤ
//! shortfall x f coefs v = exact_polynomial x f coefs -ℤ v *ℤ pos (2 ^ (f * degree coefs))
//!
//! -- the sum of the magnitudes of all c_i
//! abbrev pub magnitudes : List ℤ → ℕ
//! magnitudes [] = 0
//! magnitudes (c ∷ rest) = nat_abs c + magnitudes rest
//! ```
