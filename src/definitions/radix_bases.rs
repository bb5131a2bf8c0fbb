// Made by `make package` of crates/fixed_radix/specs/Bases.antt: changes go there.

//! Numbers in a base, with a point.
//!
//! From `crates/fixed_radix/specs/Bases.antt`:
//!
//! ```text
//! abbrev pub base_of : Base → ℕ
//! base_of Binary = 2
//! base_of Octal = 8
//! base_of LowerHex = 16
//! base_of UpperHex = 16
//!
//! abbrev pub is_upper : Base → Bool
//! is_upper Binary = false
//! is_upper Octal = false
//! is_upper LowerHex = false
//! is_upper UpperHex = true
//!
//! -- the last p digits of n
//! unfoldable pub last_digits : ℕ → Bool → ℕ → ℕ → List ℕ
//! last_digits b upper n zero = []
//! last_digits b upper n (suc p) = last_digits b upper (n / b) p ++ digit_glyph upper (n % b) ∷ []
//!
//! -- n / b ^ p with p digits after the point
//! abbrev pub base_text : ℕ → Bool → ℕ → ℕ → List ℕ
//! base_text b upper n zero = digits b upper n
//! base_text b upper n (suc p) = digits b upper (n / b ^ suc p) ++ 46 ∷ last_digits b upper n (suc p)
//!
//! -- the fewest digits after the point with which m / 2 ^ f is exact
//! abbrev pub exact_places : ℕ → ℕ → ℕ → ℕ
//! exact_places b m f = position_or_len (λ p. m * b ^ p % 2 ^ f == 0) (range_with_len 0 f)
//!
//! -- the magnitude of a / 2 ^ f in units of b ^ -p, to the nearest
//! abbrev pub in_base : ℕ → ℤ → ℕ → ℕ → ℕ
//! in_base b a f p = nat_abs (rounded (a *ℤ pos (b ^ p)) (pos (2 ^ f)) Even)
//!
//! -- `{}`: the exact text
//! abbrev pub plain_in : Base → ℤ → ℕ → ℕ → Option (List ℕ)
//! plain_in base a f n = let p = exact_places (base_of base) (nat_abs a) f in
//!     if nat_le f n then Some (after_sign a (base_text (base_of base) (is_upper base) (in_base (base_of base) a f p) p)) else None
//!
//! -- `{:#8.3}` and the like: laid out as an integer is, with its sign, its prefix and its digits
//! abbrev pub styled_in : (Bool → List ℕ → List ℕ → List ℕ) → Option ℕ → Base → ℤ → ℕ → ℕ → Option (List ℕ)
//! styled_in layout precision base a f n = let p = unwrap_or precision (exact_places (base_of base) (nat_abs a) f) in
//!     if nat_le f n then Some (layout (int_lt a (pos 0)) (radix_prefix (base_of base)) (base_text (base_of base) (is_upper base) (in_base (base_of base) a f p) p)) else None
//! ```
