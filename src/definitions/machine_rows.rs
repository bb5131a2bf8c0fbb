// Made by `make package` of crates/fixed_machine/specs/Rows.antt: changes go there.

//! The row of each operation of the calculator.
//!
//! From `crates/fixed_machine/specs/Rows.antt`:
//!
//! ```text
//! -- the rounding of a line: the one that it names, or else the operation's own; other operations use none
//! abbrev pub rounding_of : Op → Option Rounding → Rounding
//! rounding_of op named = unwrap_or (option_or named (default_rounding op)) Down
//!
//! -- The exact number of units of the result, or nothing if the row is undefined.
//! -- The operands are in the order of the text, f, g, h are their fractions, and r is the rounding. An operation uses only
//! -- its own.
//! unfoldable pub exact : Op → Rounding → ℤ → ℤ → ℤ → ℕ → ℕ → ℕ → Option ℤ
//! exact Neg _ a _ _ _ _ _ = Some (neg_ℤ a)
//! exact Add _ a b _ _ _ _ = Some (a +ℤ b)
//! exact Sub _ a b _ _ _ _ = Some (a -ℤ b)
//! exact Mul r a b _ f _ _ = Some (rounded_mul a b f r)
//! exact Div r a b _ f _ _ = by_divisor b (rounded_div a b f r)
//! exact Recip r a _ _ f _ _ = by_divisor a (rounded_recip a f r)
//! exact MulAdd r a m c _ g _ = Some (rounded_mul_add a m c g r)
//! exact AddProd r c a b f g h = Some (rounded_add_prod c a b f g h r)
//! exact MulInt _ a k _ _ _ _ = Some (a *ℤ k)
//! exact DivInt r a k _ _ _ _ = by_divisor k (rounded a k r)
//! exact DivEuclid _ a b _ f _ _ = by_divisor b (exact_div_euclid a b f)
//! exact DivEuclidInt _ a k _ f _ _ = by_divisor k (exact_div_euclid a (units k f) f)
//! exact RemEuclidInt _ a k _ f _ _ = by_divisor k (euclidean_remainder a (units k f))
//! exact NextMultipleOf _ a b _ _ _ _ = by_divisor b (exact_next_multiple_of a b)
//! exact Dist _ a b _ _ _ _ = Some (exact_abs (a -ℤ b))
//! exact Sqrt _ a _ _ f _ _ = by_sign a (root_of a f)
//! exact Abs _ a _ _ _ _ _ = Some (exact_abs a)
//! exact Signum _ a _ _ f _ _ = Some (exact_signum a f)
//! exact Rem _ a b _ _ _ _ = by_divisor b (exact_rem a b)
//! exact RemInt _ a k _ f _ _ = by_divisor k (exact_rem a (units k f))
//! exact RemEuclid _ a b _ _ _ _ = by_divisor b (euclidean_remainder a b)
//! exact NextPowerOfTwo _ a _ _ _ _ _ = Some (exact_next_power_of_two a)
//! ```
