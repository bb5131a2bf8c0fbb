// Made by `make package` of crates/fixed_kernel/specs/Rows.antt: changes go there.

//! The exact number of each operation: a whole number of units of the result, without a bound.
//! a, b, c and m are the operands' bits, k an integer, f the fraction of the operation's numbers, and g and h those of
//! factors with a fraction of their own.
//! A row is that number, or nothing where the operation has none. Sums, differences, products and quotients by an integer,
//! Euclid's remainders and roots are written as such where they are used, and have no name here.
//!
//! From `crates/fixed_kernel/specs/Rows.antt`:
//!
//! ```text
//! -- x, where d is not 0: the row of an operation with a divisor
//! abbrev pub by_divisor : ℤ → ℤ → Option ℤ
//! by_divisor (pos zero) x = None
//! by_divisor (pos (suc n)) x = Some x
//! by_divisor (negsuc n) x = Some x
//!
//! -- x, where a is not below 0: the row of a root
//! abbrev pub by_sign : ℤ → ℤ → Option ℤ
//! by_sign (pos n) x = Some x
//! by_sign (negsuc n) x = None
//!
//! -- k as a number of units
//! abbrev pub units : ℤ → ℕ → ℤ
//! units k f = k *ℤ pos (2 ^ f)
//!
//! -- ---- magnitudes and signs
//! abbrev pub exact_abs : ℤ → ℤ
//! exact_abs a = pos (unsigned_abs a)
//!
//! abbrev pub exact_signum : ℤ → ℕ → ℤ
//! exact_signum (pos zero) f = pos 0
//! exact_signum (pos (suc a)) f = pos (2 ^ f)
//! exact_signum (negsuc a) f = neg_ℤ (pos (2 ^ f))
//!
//! -- ---- products, rounded down
//! abbrev pub exact_mul : ℤ → ℤ → ℕ → ℤ
//! exact_mul a b f = floor_quotient (a *ℤ b) (2 ^ f)
//!
//! -- g is the fraction of m
//! abbrev pub exact_mul_add : ℤ → ℤ → ℤ → ℕ → ℤ
//! exact_mul_add a m c g = floor_quotient (a *ℤ m) (2 ^ g) +ℤ c
//!
//! -- the product moves down by s places, or up by -s, to the places of c
//! abbrev pub exact_add_prod_at : ℤ → ℤ → ℤ → ℤ → ℤ
//! exact_add_prod_at c a b s = rounded_add_prod_at c a b s Down
//!
//! -- f is the fraction of c, g that of a and h that of b
//! abbrev pub exact_add_prod : ℤ → ℤ → ℤ → ℕ → ℕ → ℕ → ℤ
//! exact_add_prod c a b f g h = exact_add_prod_at c a b (pos (g + h) -ℤ pos f)
//!
//! -- ---- quotients, rounded toward zero
//! abbrev pub exact_div : ℤ → ℤ → ℕ → ℤ
//! exact_div a b f = truncated_quotient (units a f) b
//!
//! abbrev pub exact_recip : ℤ → ℕ → ℤ
//! exact_recip a f = truncated_quotient (pos (2 ^ (2 * f))) a
//!
//! -- ---- Euclid's quotients, which are whole numbers
//! abbrev pub exact_div_euclid : ℤ → ℤ → ℕ → ℤ
//! exact_div_euclid a b f = units (euclidean_quotient a b) f
//!
//! -- ---- remainders of the quotients toward zero
//! abbrev pub exact_rem : ℤ → ℤ → ℤ
//! exact_rem a b = a -ℤ b *ℤ truncated_quotient a b
//!
//! -- ---- multiples
//! -- from a up to a multiple of b above 0, or down to one of b below 0
//! abbrev pub exact_next_multiple_of : ℤ → ℤ → ℤ
//! exact_next_multiple_of a (pos b) = a +ℤ euclidean_remainder (neg_ℤ a) (pos b)
//! exact_next_multiple_of a (negsuc b) = a -ℤ euclidean_remainder a (negsuc b)
//!
//! -- ---- powers
//! -- the least power of two that is at least n
//! unfoldable pub power_over : ℕ → ℕ
//! power_over zero = 1
//! power_over (suc n) = if nat_le (suc n) (power_over n) then power_over n else 2 * power_over n
//!
//! -- for a of at least 0: it is an operation of unsigned words alone
//! abbrev pub exact_next_power_of_two : ℤ → ℤ
//! exact_next_power_of_two a = pos (power_over (unsigned_abs a))
//! ```
